//! Looks for what the tests compare the crate with:
//!
//! - ODHT_LIB_DIR names the folder of the C library's archive, `libodht.a`;
//! - ODHT_RUST names the source of the original crate: a checkout, or a folder with files as `src--lib.rs.txt`.
//!
//! Both are whole paths. What is not there is left out, and the tests say so.

use std::path::{Path, PathBuf};
use std::process::Command;

fn main() {
    println!("cargo:rerun-if-changed=build.rs");
    if let Some(folder) = named("ODHT_LIB_DIR", "libodht.a") {
        println!("cargo:rerun-if-changed={}", folder.join("libodht.a").display());
        println!("cargo:rustc-link-search=native={}", folder.display());
        println!("cargo:rustc-link-lib=static=odht");
        println!("cargo:rustc-cfg=c_library");
    }
    let source = named("ODHT_RUST", "src/lib.rs").or_else(|| named("ODHT_RUST", "src--lib.rs.txt"));
    if let Some(source) = source {
        let out = PathBuf::from(std::env::var_os("OUT_DIR").expect("cargo names it"));
        compile_original(&source, &out);
        println!("cargo:rerun-if-changed={}", source.display());
        println!("cargo:rustc-link-search={}", out.display());
        println!("cargo:rustc-cfg=original");
    }
}

/// The folder that a variable names, if it has the file.
fn named(variable: &str, file: &str) -> Option<PathBuf> {
    println!("cargo:rerun-if-env-changed={variable}");
    let folder = PathBuf::from(std::env::var_os(variable)?);
    folder.join(file).is_file().then_some(folder)
}

/// Compiles the original as the crate `original`, and the little that it needs of the crate `cfg_if`. It is compiled as
/// for a release: with debug assertions it panics where it has an error to return.
fn compile_original(source: &Path, out: &Path) {
    let root = lay_out(source, &out.join("source"));
    rustc(out, &["--crate-name", "cfg_if", "--edition", "2021", "../../bench/cfg_if.rs"]);
    let root = root.display().to_string();
    let cfg_if = format!("cfg_if={}", out.join("libcfg_if.rlib").display());
    let words = ["--crate-name", "original", "--edition", "2018", &root, "--extern", &cfg_if];
    rustc(out, &words);
}

/// Puts the source where its modules find each other, and returns its root.
fn lay_out(source: &Path, place: &Path) -> PathBuf {
    if source.join("src/lib.rs").is_file() {
        return source.join("src/lib.rs");
    }
    for entry in source.read_dir().expect("the folder of the source") {
        let path = entry.expect("a file of the source").path();
        let name = path.file_name().and_then(|name| name.to_str()).unwrap_or_default();
        if let Some(name) = name.strip_prefix("src--").and_then(|name| name.strip_suffix(".txt")) {
            let target = place.join(name.replace("--", "/"));
            let folder = target.parent().expect("a folder");
            std::fs::create_dir_all(folder).expect("a folder for the source");
            std::fs::copy(&path, target).expect("a copy of the source");
        }
    }
    place.join("lib.rs")
}

fn rustc(out: &Path, words: &[&str]) {
    let mut rustc = Command::new(std::env::var_os("RUSTC").expect("cargo names it"));
    rustc.args(["--crate-type", "rlib", "-O", "--cap-lints", "allow", "--out-dir"]).arg(out);
    let status = rustc.args(words).status().expect("rustc runs");
    assert!(status.success(), "the original does not compile");
}
