//! The script `pdl` at the top: what it builds, when, and from where it can be called.
//!
//! It is tried in a small checkout of its own, with stubs of `rt` and `cargo` that say when they are called and can be held. The
//! whole build is tried by `command/check`, which makes the command by the same script.

mod running;

use std::fs;
use std::io::{BufRead, BufReader, Read};
use std::os::unix::fs::{symlink, MetadataExt, PermissionsExt};
use std::os::unix::process::ExitStatusExt;
use std::path::{Path, PathBuf};
use std::process::{Child, ChildStderr, Command, Stdio};
use std::thread;
use std::time::Duration;

use running::{bytes_of, fed, in_locales, Folder, Ran};

/// Tells of its call. Where a file `hold` is there it waits until that is gone, with a process of its own beside it.
const HELD: &str = r#"
tell() {
    echo "$1" >>"$CHECKOUT/calls"
    if [ -e "$CHECKOUT/hold $1" ]; then
        sleep 1000 &
        echo "$$ $!" >"$CHECKOUT/running.new"
        mv "$CHECKOUT/running.new" "$CHECKOUT/running"
        while [ -e "$CHECKOUT/hold $1" ]; do sleep 0.02; done
        kill $!
    fi
}
"#;

const RT: &str = r#"
[ "$*" != version ] || { echo "kit 1"; exit; }
[ "$*" = lib ] || exit 9
proved() {
    echo "rt: chose --jobs 2 for $1"
    echo "fn $1::all: proved"
    echo "logic=proved functions=1 sum=1"
}
proved meaning
mkdir -p out
echo half >out/libfront.a
tell rt
if [ -e "$CHECKOUT/fail" ]; then
    echo "fn front::all: not proved"
    echo "statements std: modules loaded=1 checked=0"
    echo "logic=not-proved"
    exit 1
fi
proved front
cat src/lib.rt >out/libfront.a
"#;

/// The command that it makes says what it is made of, and with what it was called.
const CARGO: &str = r#"
[ "$1" != --version ] || { echo "cargo 1.99.0"; exit; }
release=../target/command/cargo/release
mkdir -p "$release"
printf '#!/bin/sh\necho half' >"$release/pdl"
chmod +x "$release/pdl"
tell cargo
{
    echo '#!/bin/sh'
    echo "echo '$(cat src/main.rs) $(cat ../target/staticlib/libfront.a) ${PDL_FRONT_LIB-}'"
    echo 'echo "in $PWD:" "$@"'
    echo 'cat'
    echo 'exit 7'
} >"$release/pdl"
"#;

/// A small checkout with the launcher, and the folder of the stubs beside it.
struct Checkout {
    top: Folder,
}

impl Checkout {
    fn new() -> Checkout {
        let it = Checkout { top: Folder::new() };
        for file in
            ["pdl", "setup/records", "setup/build", "setup/packages", "setup/port", "command/setup"]
        {
            it.script(&format!("it/{file}"), &bytes_of(file));
        }
        it.top.write("it/crates.txt", "meaning:\nfront staticlib: meaning io\nother: meaning\n");
        it.top.write("it/crates/front/src/lib.rt", "port 1");
        it.top.write("it/crates/front/must-fail/a.edit", "1");
        it.top.write("it/library/src/lib.rs", "");
        it.top.write("it/command/Cargo.toml", "rust-version = \"1.63\"\n");
        it.top.write("it/command/src/main.rs", "command 1");
        it.top.write("it/.cargo/config.toml", "");
        it.tool("bin/rt", RT);
        it.tool("bin/cargo", CARGO);
        it
    }

    /// A checkout in which the command was built.
    fn built() -> Checkout {
        let it = Checkout::new();
        it.run();
        it.calls();
        it
    }

    /// Writes a stub of a tool.
    fn tool(&self, file: &str, body: &str) {
        self.script(file, format!("#!/bin/sh\n{HELD}{body}").as_bytes());
    }

    fn script(&self, file: &str, bytes: &[u8]) {
        let path = self.top.write(file, bytes);
        fs::set_permissions(path, fs::Permissions::from_mode(0o755)).unwrap();
    }

    fn path(&self, file: &str) -> PathBuf {
        self.top.join("it").join(file)
    }

    /// A call of a program with the stubs before all others.
    fn call(&self, program: impl AsRef<Path>) -> Command {
        let mut command = Command::new(program.as_ref());
        let path = format!("{}:/usr/bin:/bin", self.top.join("bin").display());
        command.env("PATH", path).env("CHECKOUT", &self.top.0).current_dir(&self.top.0);
        command
    }

    fn run(&self) -> Ran {
        fed(self.call(self.path("pdl")), b"")
    }

    /// Runs the launcher, which cannot build: what it says.
    fn refused(&self) -> String {
        let ran = self.run();
        assert_eq!((ran.status, ran.out.as_str()), (2, ""));
        ran.err
    }

    /// What was called since this was asked last.
    fn calls(&self) -> Vec<String> {
        let calls = fs::read_to_string(self.top.join("calls")).unwrap_or_default();
        let _ = fs::remove_file(self.top.join("calls"));
        calls.lines().map(str::to_owned).collect()
    }

    /// What the command says that it is made of, and that it was reached.
    fn made_of(&self, ran: &Ran) -> String {
        assert_eq!(ran.status, 7, "{}", ran.err);
        ran.out.lines().next().unwrap_or("").trim_end().to_owned()
    }

    fn hold(&self, what: &str) {
        self.top.write(format!("hold {what}"), "");
    }

    fn release(&self, what: &str) {
        fs::remove_file(self.top.join(format!("hold {what}"))).unwrap();
        let _ = fs::remove_file(self.top.join("running"));
    }

    /// Starts the launcher, with nothing on its standard input. It can be interrupted also where these tests run in the background of
    /// a shell, which ignores interrupts there; a shell that starts so cannot undo that.
    fn begun(&self) -> Child {
        let mut call = self.call("/usr/bin/env");
        call.arg("--default-signal=INT").arg(self.path("pdl"));
        call.stdin(Stdio::null()).stdout(Stdio::piped()).stderr(Stdio::piped()).spawn().unwrap()
    }

    /// Starts the launcher, which is held, and waits until it is: the process, and those that are held.
    fn started(&self) -> (Child, Vec<u32>) {
        let mut child = self.begun();
        let running = self.top.join("running");
        until("it is held", || running.exists() || child.try_wait().unwrap().is_some());
        let held = fs::read_to_string(running).unwrap();
        (child, held.split_whitespace().map(|word| word.parse().unwrap()).collect())
    }

    /// Starts the launcher while another builds, and waits until it says that it waits: the process, and what else it will say.
    fn waiting(&self) -> (Child, BufReader<ChildStderr>) {
        let mut child = self.begun();
        let mut said = BufReader::new(child.stderr.take().unwrap());
        let mut line = String::new();
        said.read_line(&mut line).unwrap();
        assert_eq!(line, "pdl: waiting for another who builds it\n");
        (child, said)
    }

    /// Every file below a folder of the checkout.
    fn files(&self, folder: &str) -> Vec<String> {
        let found = Command::new("find")
            .arg(self.path(folder))
            .args(["-type", "f", "-printf", "%P\n"])
            .output()
            .unwrap();
        String::from_utf8(found.stdout).unwrap().lines().map(str::to_owned).collect()
    }
}

/// Waits until something is so. Where it does not come to be, the test fails and does not wait for ever.
fn until(what: &str, mut is_so: impl FnMut() -> bool) {
    for _ in 0..6000 {
        if is_so() {
            return;
        }
        thread::sleep(Duration::from_millis(10));
    }
    panic!("{what}: that has not come to be");
}

fn is_running(process: u32) -> bool {
    // A process that has ended and that nobody has asked for is not running.
    let state = fs::read_to_string(format!("/proc/{process}/stat")).unwrap_or_default();
    let state = state.rsplit(')').next().unwrap_or("").trim_start().chars().next();
    !matches!(state, None | Some('Z') | Some('X'))
}

/// Sends a signal to one process alone.
fn signal(child: &Child, name: &str) {
    let status = Command::new("kill").args(["-s", name, &child.id().to_string()]).status().unwrap();
    assert!(status.success());
}

#[test]
fn it_is_built_once_and_says_how_far_it_is() {
    let it = Checkout::new();
    let first = it.run();
    assert_eq!(it.made_of(&first), "command 1 port 1");
    assert_eq!(it.calls(), ["rt", "cargo"]);
    assert!(
        first.err.contains("pdl: proving the port, 2 of 2 crates, the last front, 0 min "),
        "{}",
        first.err
    );
    assert!(first.err.contains("pdl: compiling the command, 0 min "), "{}", first.err);
    let second = it.run();
    assert_eq!((it.made_of(&second).as_str(), second.err.as_str()), ("command 1 port 1", ""));
    assert_eq!(it.calls(), [] as [&str; 0]);
    assert!(!it.files("").iter().any(|file| file.ends_with(".new")));
}

#[test]
fn arguments_input_and_status_are_handed_on() {
    let it = Checkout::new();
    for _ in 0..2 {
        let mut call = it.call(it.path("pdl"));
        call.args(["layout", "a b", ""]);
        let ran = fed(call, b"description");
        let wanted =
            format!("command 1 port 1 \nin {}: layout a b \ndescription", it.top.0.display());
        assert_eq!((ran.status, ran.out), (7, wanted));
    }
}

#[test]
fn it_can_be_called_from_anywhere() {
    let it = Checkout::built();
    symlink(it.path("pdl"), it.top.join("link")).unwrap();
    symlink("link", it.top.join("second link")).unwrap();
    fs::create_dir_all(it.top.join("elsewhere/it")).unwrap();
    for (folder, program) in [
        ("", "it/pdl"),
        ("", "./link"),
        ("", "./second link"),
        ("it", "./pdl"),
        ("elsewhere", "../it/pdl"),
    ] {
        let mut call = it.call("sh");
        call.current_dir(it.top.join(folder)).args(["-c", "\"$0\" x", program]);
        call.env("CDPATH", it.top.join("elsewhere"))
            .env("PDL_SRC", "nowhere")
            .env("PDL_FRONT_LIB", "nowhere");
        let ran = fed(call, b"");
        assert_eq!(
            (it.made_of(&ran).as_str(), ran.err.as_str()),
            ("command 1 port 1", ""),
            "{program}"
        );
        assert!(
            ran.out.contains(&format!(
                "in {}: x",
                it.top.join(folder).display().to_string().trim_end_matches('/')
            )),
            "{}",
            ran.out
        );
    }
    let mut call = it.call("sh");
    call.arg("pdl").current_dir(it.path(""));
    assert_eq!(fed(call, b"").status, 7);
    assert_eq!(it.calls(), [] as [&str; 0]);
}

#[test]
fn the_environment_has_no_part_in_what_is_built() {
    let it = Checkout::new();
    let mut call = it.call(it.path("pdl"));
    call.env("PDL_SRC", "nowhere")
        .env("PDL_FRONT_LIB", "nowhere")
        .env("CDPATH", "/")
        .env("CARGO_BUILD_TARGET", "nowhere");
    assert_eq!(it.made_of(&fed(call, b"")), "command 1 port 1");
}

#[test]
fn changed_sources_are_built_again() {
    let it = Checkout::built();
    let cases: [(&str, &str, &str, &[&str]); 7] = [
        ("command/src/main.rs", "command 2", "command 2 port 1", &["cargo"]),
        ("crates/front/src/lib.rt", "port 2", "command 2 port 2", &["rt", "cargo"]),
        ("crates/front/src/more.rt", "", "command 2 port 2", &["rt", "cargo"]),
        ("library/src/lib.rs", "// more", "command 2 port 2", &["cargo"]),
        ("crates/front/must-fail/a.edit", "2", "command 2 port 2", &[]),
        ("crates/front/out/more.rt", "", "command 2 port 2", &[]),
        ("command/tests/a.rs", "", "command 2 port 2", &[]),
    ];
    for (file, text, made_of, calls) in cases {
        it.top.write(Path::new("it").join(file), text);
        assert_eq!(it.made_of(&it.run()), made_of, "{file}");
        assert_eq!(it.calls(), calls, "{file}");
    }
    fs::remove_file(it.path("crates/front/src/more.rt")).unwrap();
    it.run();
    assert_eq!(it.calls(), ["rt", "cargo"]);
}

#[test]
fn sources_that_change_while_they_are_built_are_built_again() {
    for (held, file, again) in [
        ("rt", "crates/front/src/lib.rt", &["rt", "cargo"][..]),
        ("cargo", "command/src/main.rs", &["cargo"]),
    ] {
        let it = Checkout::new();
        it.hold(held);
        let (child, _) = it.started();
        it.top.write(Path::new("it").join(file), "changed");
        it.release(held);
        assert_eq!(Ran::from(child.wait_with_output().unwrap()).status, 7);
        it.calls();
        assert!(it.made_of(&it.run()).contains("changed"));
        assert_eq!(it.calls(), again);
        it.run();
        assert_eq!(it.calls(), [] as [&str; 0]);
    }
}

#[test]
fn new_times_alone_are_no_change() {
    let it = Checkout::built();
    let main = it.path("command/src/main.rs");
    let touched = Command::new("touch").args(["-d", "2001-01-01"]).arg(&main).status().unwrap();
    assert!(touched.success());
    for _ in 0..2 {
        assert_eq!(it.made_of(&it.run()), "command 1 port 1");
        assert_eq!(it.calls(), [] as [&str; 0]);
    }
    // An edit that leaves size and time as they were is a change.
    it.top.write("it/command/src/main.rs", "command 9");
    assert!(Command::new("touch")
        .args(["-d", "2001-01-01"])
        .arg(&main)
        .status()
        .unwrap()
        .success());
    assert_eq!(it.made_of(&it.run()), "command 9 port 1");
}

#[test]
fn what_is_removed_is_built_again() {
    let it = Checkout::built();
    let removed: [(&str, &[&str]); 6] = [
        ("target/bin", &[]),
        ("crates/front/out", &[]),
        ("target/command/pdl", &["cargo"]),
        ("target/command", &["cargo"]),
        ("target/command/record", &["cargo"]),
        ("target", &["rt", "cargo"]),
    ];
    for (path, calls) in removed {
        assert!(Command::new("rm").arg("-rf").arg(it.path(path)).status().unwrap().success());
        assert_eq!(it.made_of(&it.run()), "command 1 port 1", "{path}");
        assert_eq!(it.calls(), calls, "{path}");
    }
}

/// Runs the launcher as someone who can write nothing here: another user, where this is the one who may do all.
fn run_as_another(it: &Checkout) -> Ran {
    let read_only = Command::new("chmod").args(["-R", "a-w,a+rX"]).arg(&it.top.0).status().unwrap();
    assert!(read_only.success());
    let mut call = it.call("setpriv");
    if fs::metadata(&it.top.0).unwrap().uid() == 0 {
        call.args(["--reuid=65534", "--regid=65534", "--clear-groups"]);
    }
    call.arg(it.path("pdl"));
    fed(call, b"")
}

#[test]
fn a_checkout_that_cannot_be_written() {
    let it = Checkout::built();
    // A copy has other times, and the same contents.
    let copied =
        Command::new("cp").arg("-r").arg(it.path("")).arg(it.top.join("copy")).status().unwrap();
    assert!(copied.success());
    fs::remove_dir_all(it.path("")).unwrap();
    fs::rename(it.top.join("copy"), it.path("")).unwrap();
    let ran = run_as_another(&it);
    assert_eq!((it.made_of(&ran).as_str(), ran.err.as_str()), ("command 1 port 1", ""));
    assert_eq!(it.calls(), [] as [&str; 0]);
}

#[test]
fn a_changed_checkout_that_cannot_be_written() {
    let it = Checkout::built();
    it.top.write("it/command/src/main.rs", "command 2");
    let ran = run_as_another(&it);
    assert_eq!((ran.status, ran.out.as_str()), (2, ""));
    assert!(
        ran.err.contains("its sources have changed since") && ran.err.contains("cannot be written"),
        "{}",
        ran.err
    );
}

#[test]
fn two_first_runs_at_once() {
    let it = Checkout::new();
    it.hold("rt");
    let (first, _) = it.started();
    let (second, _said) = it.waiting();
    it.release("rt");
    for child in [first, second] {
        let ran = Ran::from(child.wait_with_output().unwrap());
        assert_eq!(it.made_of(&ran), "command 1 port 1");
    }
    assert_eq!(it.calls(), ["rt", "cargo"]);
}

#[test]
fn an_interrupt_leaves_nothing_behind() {
    for (held, name, number) in
        [("rt", "INT", 2), ("cargo", "INT", 2), ("rt", "TERM", 15), ("cargo", "HUP", 1)]
    {
        let it = Checkout::new();
        it.hold(held);
        let (mut child, processes) = it.started();
        assert!(processes.iter().all(|process| is_running(*process)));
        signal(&child, name);
        assert_eq!(child.wait().unwrap().signal(), Some(number), "{held} {name}");
        until("all have ended", || !processes.iter().any(|process| is_running(*process)));
        let files = it.files("target");
        assert!(
            !files.iter().any(|file| file.ends_with(".new")
                || file == "command/pdl"
                || file == "command/record"),
            "{files:?}"
        );
        it.release(held);
        it.calls();
        assert_eq!(it.made_of(&it.run()), "command 1 port 1");
        assert_eq!(it.calls(), if held == "rt" { vec!["rt", "cargo"] } else { vec!["cargo"] });
    }
}

#[test]
fn an_interrupt_while_another_builds() {
    let it = Checkout::new();
    it.hold("rt");
    let (first, _) = it.started();
    let (mut second, mut said) = it.waiting();
    signal(&second, "INT");
    assert_eq!(second.wait().unwrap().signal(), Some(2));
    let mut rest = String::new();
    said.read_to_string(&mut rest).unwrap();
    assert_eq!(rest, "");
    it.release("rt");
    assert_eq!(it.made_of(&Ran::from(first.wait_with_output().unwrap())), "command 1 port 1");
}

#[test]
fn a_build_that_fails_is_tried_again() {
    let it = Checkout::new();
    it.top.write("fail", "");
    let said = it.refused();
    let wanted =
        "\nfn front::all: not proved\nlogic=not-proved\npdl: the port could not be proved;";
    assert!(said.contains(wanted), "{said}");
    assert_eq!(it.calls(), ["rt"]);
    fs::remove_file(it.top.join("fail")).unwrap();
    assert_eq!(it.made_of(&it.run()), "command 1 port 1");
}

#[test]
fn tools_that_are_missing() {
    let it = Checkout::new();
    fs::remove_file(it.top.join("bin/rt")).unwrap();
    let said = it.refused();
    assert!(said.ends_with("the Rattle toolchain is not here: no command 'rt'\n"), "{said}");
    let it = Checkout::built();
    fs::remove_file(it.top.join("bin/rt")).unwrap();
    it.top.write("it/command/src/main.rs", "command 2");
    for calls in [&["cargo"][..], &[]] {
        assert_eq!(it.made_of(&it.run()), "command 2 port 1");
        assert_eq!(it.calls(), calls);
    }
}

#[test]
fn a_cargo_that_is_too_old() {
    let it = Checkout::new();
    it.tool("bin/cargo", &CARGO.replace("cargo 1.99.0", "cargo 1.62.1 (a748cf5a3 2022-06-08)"));
    let said = it.refused();
    let wanted = "setup/packages: cargo is 1.62.1; 1.63 or newer is needed. rustup brings it.\n";
    assert!(said.ends_with(wanted), "{said}");
    assert_eq!(it.calls(), ["rt"]);
}

#[test]
fn another_toolchain_proves_the_port_again() {
    let it = Checkout::built();
    // One that calls itself the same is the same, wherever it stands.
    it.tool("bin/rt", &format!("{RT}# more"));
    it.run();
    fs::remove_file(it.top.join("bin/rt")).unwrap();
    it.run();
    // A link stands where it is called, as an installed kit has it.
    it.tool("kit/bin/rt", RT);
    fs::create_dir(it.top.join("other tools")).unwrap();
    symlink("../kit/bin/rt", it.top.join("other tools/rt")).unwrap();
    let with_others = |it: &Checkout| {
        let mut call = it.call(it.path("pdl"));
        let [bin, others] = ["bin", "other tools"].map(|folder| it.top.join(folder));
        call.env("PATH", format!("{}:{}:/usr/bin:/bin", bin.display(), others.display()));
        it.made_of(&fed(call, b""))
    };
    assert_eq!(with_others(&it), "command 1 port 1");
    assert_eq!(it.calls(), [] as [&str; 0]);
    it.tool("kit/bin/rt", &RT.replace("kit 1", "kit 2"));
    for calls in [&["rt", "cargo"][..], &[]] {
        assert_eq!(with_others(&it), "command 1 port 1");
        assert_eq!(it.calls(), calls);
    }
}

#[test]
fn every_locale_builds_the_same() {
    in_locales(|variables| {
        let it = Checkout::new();
        for calls in [&["rt", "cargo"][..], &[]] {
            let mut call = it.call(it.path("pdl"));
            call.envs(variables.iter().cloned());
            let ran = fed(call, b"");
            assert_eq!(it.made_of(&ran), "command 1 port 1", "{variables:?}");
            assert_eq!(ran.err.contains("2 of 2 crates"), !calls.is_empty(), "{}", ran.err);
            assert_eq!(it.calls(), calls, "{variables:?}");
        }
    });
}

#[test]
fn the_port_by_itself() {
    let it = Checkout::new();
    for calls in [&["rt"][..], &[]] {
        assert_eq!(fed(it.call(it.path("setup/port")), b"").status, 0);
        assert_eq!(it.calls(), calls);
    }
    assert_eq!(fs::read_to_string(it.path("target/staticlib/libfront.a")).unwrap(), "port 1");
    it.run();
    assert_eq!(it.calls(), ["cargo"]);
}
