//! Points the library at the unchanged Rust of google/pdl, which stays where it is, and, with the feature `port`, links the
//! proved port.

use std::path::{Path, PathBuf};
use std::{env, fs};

/// Where the sources stand, seen from this package, unless `PDL_SRC` names another folder.
const USUAL_FOLDER: &str = "../../shared/docs/src/pdl-compiler/src";

/// The modules that the library takes over, and their files.
const MODULES: [(&str, &str); 3] =
    [("ast", "ast.rs"), ("parser", "parser.rs"), ("alignment", "backends/common/alignment.rs")];

/// Where `setup/port` leaves the port.
const PORT_FOLDER: &str = "../target/staticlib";

fn main() {
    println!("cargo::rerun-if-env-changed=PDL_SRC");
    println!("cargo::rerun-if-changed=Cargo.lock");
    println!("cargo::rustc-env=PEST_VERSION={}", pest_version());

    if env::var_os("CARGO_FEATURE_PORT").is_some() {
        link_port();
    }
    let folder = env::var_os("PDL_SRC").map_or_else(|| PathBuf::from(USUAL_FOLDER), PathBuf::from);
    let modules: String =
        MODULES.iter().filter_map(|(name, file)| module(&folder, name, file)).collect();
    let out = PathBuf::from(env::var_os("OUT_DIR").expect("cargo sets OUT_DIR"));
    fs::write(out.join("pdl.rs"), modules).expect("OUT_DIR can be written");
}

fn link_port() {
    let archive = Path::new(PORT_FOLDER).join("libfront.a");
    println!("cargo::rerun-if-changed={}", archive.display());
    match fs::canonicalize(&archive) {
        Ok(path) => {
            let folder = path.parent().expect("a file stands in a folder");
            println!("cargo::rustc-link-search=native={}", folder.display());
            println!("cargo::rustc-link-lib=static=front");
        }
        Err(_) => println!(
            "cargo::error=the port is not there: no {}. Make it with `setup/port`.",
            archive.display()
        ),
    }
}

/// A module that is read from its own place, or a complaint to the person who builds.
fn module(folder: &Path, name: &str, file: &str) -> Option<String> {
    let Ok(path) = fs::canonicalize(folder.join(file)) else {
        println!(
            "cargo::error=the unchanged Rust of google/pdl is not there: no {file} in {}. \
             Set PDL_SRC to the folder pdl-compiler/src of its sources.",
            folder.display()
        );
        return None;
    };
    println!("cargo::rerun-if-changed={}", path.display());
    Some(format!("#[allow(warnings, clippy::all)]\n#[path = {path:?}]\npub mod {name};\n"))
}

/// The version of pest that this build took, as cargo wrote it down.
fn pest_version() -> String {
    fs::read_to_string("Cargo.lock")
        .ok()
        .and_then(|lock| {
            let (_, entry) = lock.split_once("name = \"pest\"\nversion = \"")?;
            Some(entry.split('"').next()?.to_owned())
        })
        .unwrap_or_else(|| "of an unknown version".to_owned())
}
