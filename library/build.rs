//! Links the proved port, a static library that `setup/port` makes.

use std::path::{Path, PathBuf};
use std::{env, fs, process};

/// The variable that names the folder of the library.
const VARIABLE: &str = "PDL_FRONT_LIB";

/// Where the library stands otherwise, seen from this package.
const USUAL_FOLDER: &str = "../target/staticlib";

fn main() {
    println!("cargo:rerun-if-env-changed={VARIABLE}");
    let folder = env::var_os(VARIABLE).map_or_else(|| PathBuf::from(USUAL_FOLDER), PathBuf::from);
    let archive = folder.join("libfront.a");
    println!("cargo:rerun-if-changed={}", archive.display());
    match fs::canonicalize(&archive) {
        Ok(path) => link(&path),
        Err(why) => complain(&archive, &why.to_string()),
    }
}

fn link(archive: &Path) {
    let folder = archive.parent().expect("a file stands in a folder");
    println!("cargo:rustc-link-search=native={}", folder.display());
    println!("cargo:rustc-link-lib=static=front");
}

fn complain(archive: &Path, why: &str) -> ! {
    eprintln!("pdl_front: the proved port is not there: {}: {why}.", archive.display());
    eprintln!("Make it with `setup/port` in the repository of the port,");
    eprintln!("or let {VARIABLE} name the folder where libfront.a stands.");
    process::exit(1)
}
