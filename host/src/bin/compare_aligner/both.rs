//! The two forms of the port's aligner side by side: over words, and over chunk records.

use host::aligner::Call;
use host::port::{Aligner, Recorder};

/// Both are called with the same, and have to answer and to leave the same.
#[derive(Clone, Debug)]
pub struct Both {
    words: Aligner,
    records: Recorder,
}

impl Both {
    /// An aligner over words, and the same over records.
    pub fn of(words: Aligner) -> Both {
        let records = Recorder::of(&words);
        Both { words, records }
    }

    /// Adds to both alignments: the number of the refusal, or 0.
    pub fn call(&mut self, call: Call) -> u64 {
        let number = self.words.call(call);
        assert_eq!(self.records.call(call), number, "{call:?} over records: {self:?}");
        number
    }

    /// Ends both alignments: the count of the chunks, or the number of the refusal.
    pub fn end(&mut self) -> Result<u64, u64> {
        let end = self.words.end();
        assert_eq!(self.records.end(), end, "the end over records: {self:?}");
        end
    }

    /// What is left of both: the state, and every word of the tables. Words that make no whole row
    /// have no record.
    pub fn left(&self) -> &Aligner {
        let rest = self.words.chunks.chunks_exact(5).remainder();
        assert_eq!(self.records.in_words(rest), self.words, "what is left over records");
        &self.words
    }
}
