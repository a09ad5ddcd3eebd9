//! Runs the command, and has what the tests share.

// Each test program takes a part of this.
#![allow(dead_code)]

use std::ffi::OsStr;
use std::io::Write;
use std::path::{Path, PathBuf};
use std::process::{Command, Output, Stdio};
use std::sync::atomic::{AtomicUsize, Ordering};
use std::{env, fs, process, thread};

/// What a run left.
#[derive(Debug, PartialEq, Eq)]
pub struct Ran {
    /// The exit status; -1 where a signal ended it.
    pub status: i32,
    pub out: String,
    pub err: String,
}

impl From<Output> for Ran {
    fn from(output: Output) -> Ran {
        let text = |bytes: Vec<u8>| String::from_utf8(bytes).expect("the command writes UTF-8");
        let status = output.status.code().unwrap_or(-1);
        Ran { status, out: text(output.stdout), err: text(output.stderr) }
    }
}

/// The command, ready to be told more. It knows nothing of the caller's wishes about colours.
pub fn command() -> Command {
    let mut command = Command::new(env!("CARGO_BIN_EXE_pdl"));
    command.env_remove("NO_COLOR").env("TERM", "xterm");
    command
}

/// Runs a command with this on its standard input.
pub fn fed(mut command: Command, input: &[u8]) -> Ran {
    let piped = command.stdin(Stdio::piped()).stdout(Stdio::piped()).stderr(Stdio::piped());
    let mut child = piped.spawn().expect("the command starts");
    let mut stdin = child.stdin.take().expect("standard input is a pipe");
    let input = input.to_vec();
    // The command may end before it has read all.
    let feeding = thread::spawn(move || drop(stdin.write_all(&input)));
    let output = child.wait_with_output().expect("the command ends");
    feeding.join().expect("the input is fed");
    output.into()
}

/// Runs the command with arguments and standard input.
pub fn run_on<A: AsRef<OsStr>>(arguments: &[A], input: impl AsRef<[u8]>) -> Ran {
    let mut command = command();
    command.args(arguments);
    fed(command, input.as_ref())
}

/// Runs the command with arguments alone.
pub fn run<A: AsRef<OsStr>>(arguments: &[A]) -> Ran {
    run_on(arguments, "")
}

/// What the command writes where all is well.
pub fn shown<A: AsRef<OsStr>>(arguments: &[A], input: impl AsRef<[u8]>) -> String {
    let ran = run_on(arguments, input);
    assert_eq!((ran.status, ran.err.as_str()), (0, ""), "{}", ran.out);
    ran.out
}

/// A file or folder of the repository.
pub fn repository(path: &str) -> PathBuf {
    Path::new(env!("CARGO_MANIFEST_DIR")).join("..").join(path)
}

/// The bytes of a file of the repository.
pub fn bytes_of(path: &str) -> Vec<u8> {
    fs::read(repository(path)).unwrap_or_else(|error| panic!("{path}: {error}"))
}

/// A folder that is removed at the end.
pub struct Folder(pub PathBuf);

impl Folder {
    /// An empty folder, whose name is awkward.
    pub fn new() -> Folder {
        static COUNT: AtomicUsize = AtomicUsize::new(0);
        let number = COUNT.fetch_add(1, Ordering::Relaxed);
        let folder = env::temp_dir().join(format!("pdl é {} {number}", process::id()));
        fs::create_dir(&folder).expect("a folder can be made");
        Folder(folder.canonicalize().expect("it is there"))
    }

    /// A file or folder in it.
    pub fn join(&self, path: impl AsRef<Path>) -> PathBuf {
        self.0.join(path)
    }

    /// Writes a file in it, and the folders that it stands in.
    pub fn write(&self, path: impl AsRef<Path>, bytes: impl AsRef<[u8]>) -> PathBuf {
        let path = self.join(path);
        fs::create_dir_all(path.parent().expect("a file stands in a folder")).unwrap();
        fs::write(&path, bytes).unwrap();
        path
    }
}

impl Drop for Folder {
    fn drop(&mut self) {
        // What a test has made read-only can be removed again.
        let _ = Command::new("chmod").arg("-R").arg("u+w").arg(&self.0).status();
        let _ = fs::remove_dir_all(&self.0);
    }
}

/// Tries something with the variables of one locale after the other. The Turkish one, whose letters i are others, is made for it
/// where the machine has Debian's package `locales`; where it has not, its name alone is tried, as with the last.
pub fn in_locales(tried: impl Fn(&[(&str, PathBuf)])) {
    let folder = Folder::new();
    let made = folder.join("tr_TR.UTF-8");
    let _ = Command::new("localedef").args(["-i", "tr_TR", "-f", "UTF-8"]).arg(made).output();
    for locale in ["C", "POSIX", "C.UTF-8", "tr_TR.UTF-8", "de_DE.ISO-8859-1"] {
        let mut variables = vec![("LC_ALL", locale.into()), ("LANG", locale.into())];
        // Where this is set, no other locale of the machine is found.
        if locale.starts_with("tr_") {
            variables.push(("LOCPATH", folder.0.clone()));
        }
        tried(&variables);
    }
}

/// Holds a text against a stored file. With PDL_STORE in the environment it is stored instead.
pub fn held_against(text: &str, stored: &str) {
    if env::var_os("PDL_STORE").is_some() {
        fs::write(repository(stored), text).unwrap();
    }
    let wanted = String::from_utf8(bytes_of(stored)).unwrap();
    for (number, (line, wanted)) in text.lines().zip(wanted.lines()).enumerate() {
        assert_eq!(line, wanted, "{stored}, line {}", number + 1);
    }
    assert_eq!(text.len(), wanted.len(), "{stored}");
}
