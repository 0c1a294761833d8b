//! Brings the published sources in: each file is copied below `target/` as it is, and lines are appended behind its text.
//!
//! The folder of the sources is `DOGWOOD_SRC`, or `../shared/docs/src` seen from the root of the repository. None of the
//! sources is stored in the repository. The appended lines reach private functions; they change no line above them.

use std::path::{Path, PathBuf};
use std::{env, fs};

/// A source file, and the file of lines that go behind it.
const SOURCES: [(&str, &str); 3] =
    [("ast.rs", "behind_ast.rs"), ("schema_info.rs", "behind_schema_info.rs"), ("validate.rs", "behind_validate.rs")];

fn main() {
    println!("cargo:rerun-if-env-changed=DOGWOOD_SRC");
    let sources = sources_folder().join("dogwood-language/src/extension/temporal");
    let out = PathBuf::from(env::var("OUT_DIR").expect("cargo sets OUT_DIR"));
    let mut modules = String::new();
    for (source, behind) in SOURCES {
        let copy = out.join(source);
        copy_with_lines_behind(&sources.join(source), &manifest_folder().join("behind").join(behind), &copy);
        let module = source.trim_end_matches(".rs");
        modules.push_str(&format!("#[path = {:?}]\npub mod {module};\n", copy.display().to_string()));
    }
    fs::write(out.join("temporal.rs"), modules).expect("target/ can be written");
}

fn manifest_folder() -> PathBuf {
    PathBuf::from(env::var("CARGO_MANIFEST_DIR").expect("cargo sets CARGO_MANIFEST_DIR"))
}

/// A folder given as a relative path is seen from the root of the repository.
fn sources_folder() -> PathBuf {
    let root = manifest_folder().join("../..");
    root.join(env::var("DOGWOOD_SRC").unwrap_or_else(|_| "../shared/docs/src".to_string()))
}

fn copy_with_lines_behind(source: &Path, behind: &Path, copy: &Path) {
    println!("cargo:rerun-if-changed={}", source.display());
    println!("cargo:rerun-if-changed={}", behind.display());
    let text = fs::read_to_string(source).unwrap_or_else(|e| {
        panic!("the Rust sources are not at hand: {} ({e}); set DOGWOOD_SRC to their folder", source.display())
    });
    let lines = fs::read_to_string(behind).expect("the lines to append are in the repository");
    fs::write(copy, format!("{text}\n{lines}")).expect("target/ can be written");
}
