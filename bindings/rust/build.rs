//! Links libritsghule.a from the folder in `RITSGHULE_LIB_DIR`, or from `target/staticlib` of the
//! nearest folder above that has it there.

use std::env;
use std::path::{Path, PathBuf};
use std::process::ExitCode;

const VARIABLE: &str = "RITSGHULE_LIB_DIR";
const USUAL: &str = "target/staticlib";
const LIBRARY: &str = "libritsghule.a";

/// The crate's own folder is asked for when the script runs: a script that was compiled elsewhere may
/// have been copied along with it.
fn folder() -> PathBuf {
    let here = PathBuf::from(env::var_os("CARGO_MANIFEST_DIR").unwrap_or_default());
    let above = |folder: &Path| folder.join(USUAL);
    let usual = || {
        here.ancestors()
            .map(above)
            .find(|folder| folder.join(LIBRARY).is_file())
            .unwrap_or_else(|| here.join("../..").join(USUAL))
    };
    env::var_os(VARIABLE).map_or_else(usual, |named| here.join(named))
}

fn main() -> ExitCode {
    let folder = folder();
    let library = folder.join(LIBRARY);
    println!("cargo:rerun-if-env-changed={VARIABLE}");
    println!("cargo:rerun-if-changed={}", library.display());
    println!("cargo:rerun-if-changed=build.rs");
    if !library.is_file() {
        eprintln!("{} is missing.", library.display());
        eprintln!("Build it with `tools/build library` in the repository's root,");
        eprintln!("or name the folder that has it, by its full path, in {VARIABLE}.");
        return ExitCode::FAILURE;
    }
    println!("cargo:rustc-link-search=native={}", folder.display());
    println!("cargo:rustc-link-lib=static=ritsghule");
    ExitCode::SUCCESS
}
