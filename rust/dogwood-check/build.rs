//! Finds the static library of the proved crates, `libdogwood.a`, for the linker.
//!
//! It is taken from the folder that the variable `DOGWOOD_LIB_DIR` names, or else made by `tools/build dogwood_c` at the root
//! of the repository that this crate stands in. That proves the library from its sources, which takes minutes where they
//! are not proved yet. Cargo keeps back what a build script says until it has ended, so this is said on the terminal.

use std::io::Write;
use std::path::{Path, PathBuf};
use std::process::Command;
use std::time::Instant;
use std::{env, fs};

const ARCHIVE: &str = "libdogwood.a";
const VARIABLE: &str = "DOGWOOD_LIB_DIR";

fn main() {
    println!("cargo:rerun-if-changed=build.rs");
    println!("cargo:rerun-if-env-changed={VARIABLE}");
    match folder() {
        Ok(folder) => {
            println!("cargo:rustc-link-search=native={}", folder.display());
            println!("cargo:rustc-link-lib=static=dogwood");
        }
        Err(error) => {
            eprintln!("{error}");
            std::process::exit(1);
        }
    }
}

/// The folder with the archive, or why there is none.
fn folder() -> Result<PathBuf, String> {
    match env::var_os(VARIABLE) {
        Some(named) => given(&crate_folder().join(named))
            .map_err(|why| neither(&why, &format!("not tried, since {VARIABLE} is set"))),
        None => made().map_err(|why| neither("not set", &why)),
    }
}

fn neither(folder: &str, kit: &str) -> String {
    format!(
        "dogwood-check needs {ARCHIVE}, and neither way to it works.\n\
         1. A folder with the archive, whose absolute path is in the variable {VARIABLE}: {folder}.\n\
         2. Without that variable, `tools/build dogwood_c` at the root of the repository: {kit}."
    )
}

fn given(folder: &Path) -> Result<PathBuf, String> {
    let archive = folder.join(ARCHIVE);
    println!("cargo:rerun-if-changed={}", archive.display());
    if archive.is_file() {
        Ok(folder.to_path_buf())
    } else {
        Err(format!("there is no file {}", archive.display()))
    }
}

/// Has the kit prove the library and make the archive, and copies it to this build's own folder: so the build is
/// repeated where the sources change, and not where the archive is written again.
fn made() -> Result<PathBuf, String> {
    let root = crate_folder().join("../..");
    if !root.join("crates/dogwood_c").is_dir() {
        return Err(format!("{} is not the repository, it has no crates/dogwood_c", root.display()));
    }
    let crates = fs::read_dir(root.join("crates")).map_err(|error| format!("crates: {error}"))?;
    let mut sources = vec![root.join("crates.txt"), root.join("tools/build")];
    for entry in crates.flatten() {
        sources.extend(["src", "specs", "proofs"].map(|part| entry.path().join(part)));
    }
    for source in sources.iter().filter(|source| source.exists()) {
        println!("cargo:rerun-if-changed={}", source.display());
    }
    run_kit(&root)?;
    let out = PathBuf::from(env::var_os("OUT_DIR").expect("cargo sets OUT_DIR"));
    let archive = root.join("target/staticlib").join(ARCHIVE);
    fs::copy(&archive, out.join(ARCHIVE)).map_err(|error| format!("{}: {error}", archive.display()))?;
    Ok(out)
}

/// Proves the library and makes the archive. Before that it says what it does, and afterwards how long it took.
fn run_kit(root: &Path) -> Result<(), String> {
    say_at_once(&format!(
        "dogwood-check: `tools/build dogwood_c` proves the library and makes {ARCHIVE}. In a fresh clone that takes many \
         minutes, and half a minute where the crates are proved already. To spare it, put the folder of an archive into \
         the variable {VARIABLE}."
    ));
    let began = Instant::now();
    let run = Command::new(root.join("tools/build")).arg("dogwood_c").output();
    let output = run.map_err(|error| format!("the command `tools/build` does not run ({error})"))?;
    if output.status.success() {
        let seconds = began.elapsed().as_secs();
        println!("cargo:warning={ARCHIVE} was proved and made by `tools/build dogwood_c` in {seconds} s");
        return Ok(());
    }
    let said = [output.stdout, output.stderr].concat();
    let said = String::from_utf8_lossy(&said);
    Err(format!("it failed ({}) and said last: {}", output.status, said.lines().last().unwrap_or("nothing")))
}

/// A line on the terminal, where there is one.
fn say_at_once(line: &str) {
    if let Ok(mut terminal) = fs::OpenOptions::new().write(true).open("/dev/tty") {
        let _ = writeln!(terminal, "{line}");
    }
}

fn crate_folder() -> PathBuf {
    PathBuf::from(env::var_os("CARGO_MANIFEST_DIR").expect("cargo sets CARGO_MANIFEST_DIR"))
}
