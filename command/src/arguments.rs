//! What the caller asks for.

use std::path::PathBuf;

use clap::error::ErrorKind;
use clap::{Args, CommandFactory, Parser, Subcommand};

/// Shows a description in PDL: its tables, or where each bit of its packets stands.
#[derive(Parser)]
#[command(name = "pdl", version, after_help = STATUSES, override_usage = USAGE, disable_help_subcommand = true)]
struct Arguments {
    #[command(subcommand)]
    view: Option<ViewName>,

    #[command(flatten)]
    file: FileName,

    /// Write a JSON document, as docs/COMMAND.md describes it
    #[arg(long, global = true)]
    json: bool,

    /// Write the lines of the rows as they are, every number a word
    #[arg(long, global = true, conflicts_with = "json")]
    raw: bool,

    /// Show the declarations of this name alone; may be said more than once
    #[arg(long, global = true, value_name = "NAME")]
    only: Vec<String>,
}

const USAGE: &str = "pdl [OPTIONS] [tables | layout] [FILE]";

const STATUSES: &str =
    "Exit status: 0 all well; 1 the description, or a layout that was asked for, is refused; 2 anything else.";

#[derive(Subcommand)]
enum ViewName {
    /// Show the tables: declarations, fields, tags, constraints, comments
    Tables(FileName),
    /// Show where each bit of a packet, a struct or a group stands
    Layout(FileName),
}

#[derive(Args)]
struct FileName {
    /// The description; standard input where there is none or it is '-'
    #[arg(value_name = "FILE")]
    file: Option<PathBuf>,
}

/// What is to be shown.
#[derive(Clone, Copy)]
pub enum View {
    Tables,
    Layout,
}

/// For whom it is shown.
#[derive(Clone, Copy)]
pub enum Form {
    Person,
    Json,
    Raw,
}

/// All that the caller asks for.
pub struct Asked {
    pub view: View,
    pub form: Form,
    /// The file to read; standard input where there is none.
    pub file: Option<PathBuf>,
    /// The declarations to show; all where there is no name.
    pub only: Vec<String>,
}

/// What the caller asks for. On bad usage the process ends here, with a message and the status 2.
pub fn asked() -> Asked {
    let Arguments { view, file, json, raw, only } = Arguments::parse();
    let form = match (json, raw) {
        (true, _) => Form::Json,
        (_, true) => Form::Raw,
        _ => Form::Person,
    };
    let (view, second) = match view {
        None => (View::Tables, None),
        Some(ViewName::Tables(second)) => (View::Tables, second.file),
        Some(ViewName::Layout(second)) => (View::Layout, second.file),
    };
    if file.file.is_some() && second.is_some() {
        Arguments::command()
            .error(ErrorKind::TooManyValues, "There are two files, and one is shown at a time")
            .exit();
    }
    let file = second.or(file.file).filter(|name| name.as_os_str() != "-");
    Asked { view, form, file, only }
}
