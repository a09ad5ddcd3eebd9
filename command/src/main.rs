//! The command pdl: shows a description to a person or to a program.
//!
//! Exit status: 0 all well; 1 the description, or a layout that was asked for, is refused; 2 anything else.

mod arguments;
mod grid;
mod input;
mod json;
mod layouts;
mod message;
mod naming;
mod page;
mod places;
mod raw;
mod reasons;
mod selection;
mod tables;
mod visible;

use std::env;
use std::io::{self, Write};
use std::process::ExitCode;

use codespan_reporting::term::termcolor::{ColorChoice, StandardStream};
use pdl_front::{Reading, Refusal};

use arguments::{Asked, Form, View};
use input::Description;
use page::Page;
use selection::Selection;

const REFUSED: u8 = 1;
const FAILED: u8 = 2;

fn main() -> ExitCode {
    let asked = arguments::asked();
    match run(asked) {
        Ok(false) => ExitCode::SUCCESS,
        Ok(true) => ExitCode::from(REFUSED),
        Err(why) => {
            // Nobody is there to be told where standard error cannot be written.
            let _ = writeln!(io::stderr(), "pdl: {why}");
            ExitCode::from(FAILED)
        }
    }
}

/// Shows what is asked for, and says whether something was refused.
fn run(asked: Asked) -> Result<bool, String> {
    let description = Description::read(asked.file.as_deref())?;
    let only = Selection(asked.only);
    let page = match pdl_front::read(&description.bytes) {
        Ok(reading) => shown(&description, &reading, asked.view, asked.form, &only)?,
        Err(refusal) => refused(&description, &refusal, asked.form),
    };
    write(&page.text)?;
    Ok(page.refused)
}

fn shown(
    description: &Description,
    reading: &Reading,
    view: View,
    form: Form,
    only: &Selection,
) -> Result<Page, String> {
    if let Some(name) = only.unknown(reading) {
        return Err(format!("{} has no declaration `{}`", description.name, visible::text(name)));
    }
    Ok(match (view, form) {
        (View::Tables, Form::Person) => {
            Page { text: tables::shown(&description.name, reading, only), refused: false }
        }
        (View::Tables, Form::Json) => json::tables(reading, only),
        (View::Tables, Form::Raw) => raw::tables(reading, only),
        (View::Layout, Form::Person) => layouts::shown(&description.name, reading, only),
        (View::Layout, Form::Json) => json::layouts(reading, only),
        (View::Layout, Form::Raw) => raw::layouts(reading, only),
    })
}

/// What is written of a refused description. A person gets a message on standard error.
fn refused(description: &Description, refusal: &Refusal, form: Form) -> Page {
    match form {
        Form::Json => json::refusal(&description.bytes, refusal),
        Form::Raw => raw::refusal(refusal),
        Form::Person => {
            // Nobody is there to be told where standard error cannot be written.
            let _ = message::put(&mut StandardStream::stderr(colours()), description, refusal);
            Page { refused: true, ..Page::default() }
        }
    }
}

/// Colours are for terminals that have them, and for people who have not said no.
fn colours() -> ColorChoice {
    let refused = env::var_os("NO_COLOR").map_or(false, |value| !value.is_empty());
    let poor = env::var_os("TERM").map_or(true, |value| value == "dumb");
    match atty::is(atty::Stream::Stderr) && !refused && !poor {
        true => ColorChoice::AlwaysAnsi,
        false => ColorChoice::Never,
    }
}

/// Writes a text to standard output. A reader who has seen enough and went away is no failure.
fn write(text: &str) -> Result<(), String> {
    let mut output = io::stdout().lock();
    match output.write_all(text.as_bytes()).and_then(|()| output.flush()) {
        Err(error) if error.kind() != io::ErrorKind::BrokenPipe => {
            Err(format!("standard output cannot be written: {}", input::reason(&error)))
        }
        _ => Ok(()),
    }
}
