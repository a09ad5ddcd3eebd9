//! The description that is read, and what it is called.

use std::ffi::OsStr;
use std::fs::File;
use std::io::{self, Read};
use std::os::unix::ffi::OsStrExt;
use std::os::unix::io::AsFd;
use std::path::Path;

use pdl_front::MAX_SOURCE;

use crate::visible;

/// The bytes of a description, with the name that messages call it by.
pub struct Description {
    pub name: String,
    pub bytes: Vec<u8>,
}

impl Description {
    /// Reads a file, or standard input where none is named.
    ///
    /// # Errors
    ///
    /// A text that says what could not be read, and why.
    pub fn read(file: Option<&Path>) -> Result<Description, String> {
        let name = match file {
            Some(path) => shown(path.as_os_str()),
            None => "standard input".to_owned(),
        };
        let bytes = match file {
            Some(path) => File::open(path).and_then(limited),
            None => standard_input(),
        };
        match bytes {
            Ok(bytes) => Ok(Description { name, bytes }),
            Err(error) => Err(format!("{name} cannot be read: {}", reason(&error))),
        }
    }
}

/// Reads standard input, and not a byte more than is needed: another may go on where this ends.
fn standard_input() -> io::Result<Vec<u8>> {
    if atty::is(atty::Stream::Stdin) {
        eprintln!("pdl: reading standard input; `pdl --help` says how to name a file");
    }
    limited(File::from(io::stdin().as_fd().try_clone_to_owned()?))
}

/// All bytes, or one more than a description may have; an endless input ends there.
fn limited(input: impl Read) -> io::Result<Vec<u8>> {
    let mut bytes = vec![];
    input.take(MAX_SOURCE as u64 + 1).read_to_end(&mut bytes)?;
    Ok(bytes)
}

/// The name of a file, which may be no text at all.
fn shown(name: &OsStr) -> String {
    visible::bytes(name.as_bytes())
}

/// What the system says of an error, without its number.
pub fn reason(error: &io::Error) -> String {
    let said = error.to_string();
    match said.rfind(" (os error ") {
        Some(end) => said[..end].to_owned(),
        None => said,
    }
}
