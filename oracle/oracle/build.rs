//! Looks for the static library of the proved crates and says which of its functions are there.
//!
//! It is `target/staticlib/libdogwood.a` below the root of the repository, made by `tools/build dogwood_c`, or the file
//! that DOGWOOD_LIB names. Without it the comparing programs still build and say that nothing can be compared.

use std::path::PathBuf;
use std::{env, fs};

const FUNCTIONS: [&str; 17] = [
    "dogwood_read_schema",
    "dogwood_read_condition",
    "dogwood_read_targets",
    "dogwood_read_path",
    "dogwood_check",
    "dogwood_check_with",
    "dogwood_steps_start",
    "dogwood_steps_step",
    "dogwood_steps_step_with",
    "dogwood_steps_append",
    "dogwood_steps_withdraw",
    "dogwood_steps_move",
    "dogwood_sums",
    "dogwood_sums_with",
    "dogwood_windows",
    "dogwood_lookup",
    "dogwood_write_decimal",
];

fn main() {
    println!("cargo:rerun-if-env-changed=DOGWOOD_LIB");
    let library = library();
    println!("cargo:rerun-if-changed={}", library.display());
    println!("cargo:rerun-if-changed=build.rs");
    for function in FUNCTIONS {
        println!("cargo:rustc-check-cfg=cfg(has_{function})");
    }
    let Ok(bytes) = fs::read(&library) else { return };
    for function in FUNCTIONS.iter().filter(|f| names(&bytes, f)) {
        println!("cargo:rustc-cfg=has_{function}");
    }
    for program in ["diff", "bench", "slow"] {
        println!("cargo:rustc-link-arg-bin={program}={}", library.display());
    }
}

fn library() -> PathBuf {
    let root = PathBuf::from(env::var("CARGO_MANIFEST_DIR").expect("cargo sets it")).join("../..");
    root.join(env::var("DOGWOOD_LIB").unwrap_or("target/staticlib/libdogwood.a".to_string()))
}

/// Whether the archive has this name among its symbols: it ends with a zero, and no longer name ends with it.
fn names(archive: &[u8], function: &str) -> bool {
    let wanted = [function.as_bytes(), &[0]].concat();
    let places = archive.windows(wanted.len()).enumerate().filter(|(_, part)| *part == wanted);
    let mut starts = places.map(|(at, _)| at);
    starts.any(|at| at == 0 || !(archive[at - 1].is_ascii_alphanumeric() || archive[at - 1] == b'_'))
}
