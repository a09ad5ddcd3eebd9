//! How the command is called: files, statuses, colours, locales.

mod running;

use std::fs::{self, File};
use std::io::{Read, Write};
use std::os::unix::ffi::OsStrExt;
use std::process::{Command, Stdio};

use running::{bytes_of, command, fed, in_locales, run, run_on, shown, Folder};

const SOURCE: &str = "little_endian_packets\npacket A { x: 8 }";

#[test]
fn standard_input_by_three_names() {
    let wanted = shown(&["tables"], SOURCE);
    assert!(wanted.starts_with("standard input: little endian"));
    assert_eq!(shown(&["-"], SOURCE), wanted);
    assert_eq!(shown(&["tables", "-"], SOURCE), wanted);
    assert_eq!(shown(&[] as &[&str], SOURCE), wanted);
}

#[test]
fn options_stand_anywhere() {
    let wanted = shown(&["layout", "--json"], SOURCE);
    for arguments in
        [["--json", "layout", "-"], ["layout", "-", "--json"], ["-", "layout", "--json"]]
    {
        assert_eq!(shown(&arguments, SOURCE), wanted);
    }
}

#[test]
fn files_with_any_name() {
    let folder = Folder::new();
    let names: [&[u8]; 4] = [b"a b.pdl", b"\xff\xfe.pdl", b"layout", b"-"];
    for name in names {
        let file = folder.write(std::ffi::OsStr::from_bytes(name), SOURCE);
        let ran = run(&[&file]);
        assert_eq!((ran.status, ran.err.as_str()), (0, ""));
        assert!(ran.out.contains("packet  A"), "{}", ran.out);
    }
    let inside = |arguments: &[&str]| {
        let mut command = command();
        command.current_dir(&folder.0).args(arguments);
        fed(command, b"")
    };
    assert!(inside(&["tables", "layout"]).out.starts_with("layout: little endian"));
    assert!(inside(&["./layout"]).out.starts_with("./layout: little endian"));
    assert!(inside(&["./-"]).out.starts_with("./-: little endian"));
}

#[test]
fn files_that_cannot_be_read() {
    let folder = Folder::new();
    let missing = run(&[folder.join("missing")]);
    assert_eq!((missing.status, missing.out.as_str()), (2, ""));
    assert!(
        missing.err.ends_with("missing cannot be read: No such file or directory\n"),
        "{}",
        missing.err
    );
    let directory = run(&[&folder.0]);
    assert_eq!((directory.status, directory.out.as_str()), (2, ""));
    assert!(directory.err.ends_with("cannot be read: Is a directory\n"), "{}", directory.err);
}

#[test]
fn bad_usage() {
    let bad: [&[&str]; 6] = [
        &["--no-such-option"],
        &["--json", "--raw"],
        &["a", "b"],
        &["a", "layout", "b"],
        &["tables", "a", "b"],
        &["--only"],
    ];
    for arguments in bad {
        let ran = run(arguments);
        assert_eq!((ran.status, ran.out.as_str()), (2, ""), "{arguments:?}");
        assert!(
            ran.err.contains("Usage: pdl [OPTIONS] [tables | layout] [FILE]")
                || ran.err.contains("--help"),
            "{}",
            ran.err
        );
    }
}

#[test]
fn help_and_version() {
    let help = shown(&["--help"], "");
    for word in ["tables", "layout", "--json", "--raw", "--only", "FILE", "Exit status"] {
        assert!(help.contains(word), "{help}");
    }
    assert_eq!(shown(&["--version"], ""), "pdl 0.1.0\n");
}

#[test]
fn an_endless_input_is_refused() {
    let mut command = command();
    command.arg("/dev/zero");
    let ran = fed(command, b"");
    assert_eq!(ran.status, 1);
    assert_eq!(ran.err, "error[1]: /dev/zero: the source has more than 1048576 bytes\n\n");
}

#[test]
fn no_more_is_read_than_is_needed() {
    let folder = Folder::new();
    let file = folder.write("long", vec![b' '; 3_000_000]);
    let mut file = File::open(file).unwrap();
    let mut command = command();
    let status = command.stdin(file.try_clone().unwrap()).stderr(Stdio::null()).status().unwrap();
    assert_eq!(status.code(), Some(1));
    let mut rest = vec![];
    file.read_to_end(&mut rest).unwrap();
    assert_eq!(rest.len(), 3_000_000 - 1_048_577);
}

#[test]
fn a_reader_who_goes_away() {
    for view in ["tables", "layout"] {
        let mut command = command();
        command.arg(view).stdin(Stdio::piped()).stdout(Stdio::piped()).stderr(Stdio::piped());
        let mut child = command.spawn().unwrap();
        // The reader is gone before there is anything to write.
        drop(child.stdout.take());
        child.stdin.take().unwrap().write_all(&bytes_of("examples/scanner.pdl")).unwrap();
        let output = child.wait_with_output().unwrap();
        assert_eq!(output.status.code(), Some(i32::from(view == "layout")));
        assert_eq!(String::from_utf8_lossy(&output.stderr), "");
    }
}

#[test]
fn output_that_cannot_be_written() {
    let mut command = command();
    let full = fs::OpenOptions::new().write(true).open("/dev/full").unwrap();
    let mut child =
        command.stdin(Stdio::piped()).stdout(full).stderr(Stdio::piped()).spawn().unwrap();
    child.stdin.take().unwrap().write_all(SOURCE.as_bytes()).unwrap();
    let output = child.wait_with_output().unwrap();
    assert_eq!(output.status.code(), Some(2));
    let said = String::from_utf8_lossy(&output.stderr).into_owned();
    assert_eq!(said, "pdl: standard output cannot be written: No space left on device\n");
}

#[test]
fn every_locale_has_the_same_output() {
    let source = bytes_of("host/src/cases/constructs.pdl");
    let wanted =
        [run_on(&["tables"], &source), run_on(&["layout"], &source), run_on(&["tables"], "日 x")];
    in_locales(|variables| {
        let run = |view: &str, source: &[u8]| {
            let mut command = command();
            command.arg(view).envs(variables.iter().cloned());
            fed(command, source)
        };
        assert_eq!(
            [run("tables", &source), run("layout", &source), run("tables", "日 x".as_bytes())],
            wanted
        );
    });
}

/// Runs the command on a terminal, with this beside its environment: all that the terminal gets.
fn on_terminal(words: &str, variables: &[(&str, &str)]) -> String {
    let mut script = Command::new("script");
    let line = format!("'{}' {words}", env!("CARGO_BIN_EXE_pdl"));
    script.args(["-qec", &line, "/dev/null"]).env_remove("NO_COLOR").env("TERM", "xterm");
    script.envs(variables.iter().copied());
    fed(script, b"").out
}

#[test]
fn colours_are_for_terminals() {
    let folder = Folder::new();
    let bad = folder.write("bad.pdl", "x");
    let words = format!("'{}'", bad.display());
    assert!(on_terminal(&words, &[]).contains("\u{1b}["));
    assert!(on_terminal(&words, &[("NO_COLOR", "")]).contains("\u{1b}["));
    for refused in [[("NO_COLOR", "1")], [("TERM", "dumb")]] {
        let said = on_terminal(&words, &refused);
        assert!(said.contains("error[3]") && !said.contains('\u{1b}'), "{said:?}");
    }
    assert!(!run(&[&bad]).err.contains('\u{1b}'));
    let good = folder.write("good.pdl", SOURCE);
    assert!(!on_terminal(&format!("'{}'", good.display()), &[]).contains('\u{1b}'));
}
