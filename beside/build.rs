//! Lays the real scheduler out as one module tree in OUT_DIR, which real/lib.rs compiles.
//!
//! The source is read from where RITSGHULE_RUST_SRC says and never kept: each file is copied as it is, but for SUBSTITUTIONS.
//! real/missing has our own files for the places that the listed source leaves out.

use std::env;
use std::fs;
use std::path::{Path, PathBuf};
use std::process::ExitCode;

const VARIABLE: &str = "RITSGHULE_RUST_SRC";

/// Where the source is by default, seen from this package.
const DEFAULT_SOURCE: &str = "../../shared/docs/src/src";

/// The real files, by their place in the source.
const REAL: &[&str] = &[
    "segments/mod.rs",
    "plan/physical/operator.rs",
    "plan/physical/typed.rs",
    "plan/physical/operators/mod.rs",
    "plan/physical/operators/concat.rs",
    "plan/physical/operators/pack.rs",
    "plan/physical/pipeline/mod.rs",
    "plan/physical/pipeline/compile.rs",
    "plan/physical/pipeline/port.rs",
    "plan/physical/pipeline/scan.rs",
    "plan/physical/pipeline/values.rs",
    "plan/physical/plans/concat.rs",
    "plan/physical/plans/segment_scan.rs",
];

/// Modules that the real files declare and no scan of a job uses.
const EMPTY: &[&str] = &[
    "segments/cache.rs",
    "segments/shared.rs",
    "segments/sink.rs",
    "segments/source.rs",
    "segments/test.rs",
    "plan/physical/operators/eval.rs",
    "plan/physical/operators/filter.rs",
    "plan/physical/operators/once.rs",
    "plan/physical/operators/take.rs",
    "plan/physical/operators/whole.rs",
    "plan/physical/pipeline/scheduling_tests.rs",
    "plan/physical/pipeline/synthetic.rs",
    "plan/physical/pipeline/tests.rs",
];

struct Substitution {
    file: &'static str,
    reason: &'static str,
    old: &'static str,
    new: &'static str,
}

/// Everything that is changed in the real files.
const SUBSTITUTIONS: &[Substitution] = &[
    Substitution {
        file: "plan/physical/pipeline/compile.rs",
        reason: "leaves of one segment are taken in tree order",
        old: "reaches.sort_unstable_by_key(|(segment, _)| *segment);",
        new: "reaches.sort_by_key(|(segment, _)| *segment);",
    },
    Substitution {
        file: "plan/physical/plans/concat.rs",
        reason: "a concat of several children of which one is left is joined all the same",
        old: "            // Rows inside one chunk are that chunk's rows: no concatenation is built.\n            1 => chains.pop(),\n",
        new: "",
    },
];

fn main() -> ExitCode {
    match lay_out() {
        Ok(()) => ExitCode::SUCCESS,
        Err(message) => {
            println!("cargo::error={message}");
            ExitCode::FAILURE
        }
    }
}

fn lay_out() -> Result<(), String> {
    println!("cargo::rerun-if-env-changed={VARIABLE}");
    println!("cargo::rerun-if-changed=build.rs");
    let package = folder("CARGO_MANIFEST_DIR")?;
    let tree = folder("OUT_DIR")?;
    let source = package.join(env::var(VARIABLE).unwrap_or(DEFAULT_SOURCE.into()));
    if !source.join(REAL[0]).is_file() {
        return Err(format!(
            "the source of vortex-layout 0.90.0 is not at {}: unpack the crate and let {VARIABLE} name its src folder",
            source.display()
        ));
    }
    for file in REAL {
        write(&tree.join(file), &substituted(file, &read(&source.join(file))?)?)?;
    }
    for file in EMPTY {
        write(&tree.join(file), "")?;
    }
    copy_folder(&package.join("real/missing"), &tree)?;
    write(&tree.join("tree.rs"), "pub mod plan;\npub mod segments;\n")
}

fn folder(variable: &str) -> Result<PathBuf, String> {
    env::var(variable).map(PathBuf::from).map_err(|error| format!("{variable}: {error}"))
}

/// The text of a real file with its substitutions made, each of which must fit in exactly one place.
fn substituted(file: &str, text: &str) -> Result<String, String> {
    let mut text = text.to_owned();
    for change in SUBSTITUTIONS.iter().filter(|change| change.file == file) {
        let places = text.matches(change.old).count();
        if places != 1 {
            return Err(format!(
                "{file} has {places} places, not one, for the substitution \"{}\": is it the source of vortex-layout 0.90.0?",
                change.reason
            ));
        }
        text = text.replace(change.old, change.new);
    }
    Ok(text)
}

fn copy_folder(from: &Path, to: &Path) -> Result<(), String> {
    println!("cargo::rerun-if-changed={}", from.display());
    let unreadable = |error| format!("{}: {error}", from.display());
    for entry in fs::read_dir(from).map_err(unreadable)? {
        let path = entry.map_err(unreadable)?.path();
        let target = to.join(path.strip_prefix(from).map_err(|error| error.to_string())?);
        if path.is_dir() {
            copy_folder(&path, &target)?;
        } else {
            write(&target, &read(&path)?)?;
        }
    }
    Ok(())
}

fn read(path: &Path) -> Result<String, String> {
    println!("cargo::rerun-if-changed={}", path.display());
    fs::read_to_string(path).map_err(|error| format!("{}: {error}", path.display()))
}

fn write(path: &Path, text: &str) -> Result<(), String> {
    let parent = path.parent().unwrap_or(path);
    fs::create_dir_all(parent).and_then(|()| fs::write(path, text)).map_err(|error| format!("{}: {error}", path.display()))
}
