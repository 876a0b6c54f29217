//! The code in `../compat` is compiled against the original, with the line of the dependency changed alone. Its tests
//! hold there too, and its program prints the same: the same bytes and answers.

use std::path::{Path, PathBuf};
use std::process::Command;

const OURS: &str = "odht = { path = \"..\" }";

// The source of the original as a package, with the little that it needs of the crate `cfg_if` as another.
fn lay_out_original(source: &Path, place: &Path) {
    let write = |path: &str, text: &str| {
        let path = place.join(path);
        std::fs::create_dir_all(path.parent().unwrap()).unwrap();
        std::fs::write(path, text).unwrap();
    };
    let package = |name: &str, version: &str, edition: u16, dependency: &str| {
        format!(
            "[package]\nname = \"{name}\"\nversion = \"{version}\"\nedition = \"{edition}\"\n\n\
             [features]\nno_simd = []\nnightly = []\n\n[dependencies]\n{dependency}\n\n[workspace]\n"
        )
    };
    write("cfg_if/Cargo.toml", &package("cfg-if", "1.0.0", 2021, ""));
    let here = Path::new(env!("CARGO_MANIFEST_DIR"));
    let text = std::fs::read_to_string(here.join("../../bench/cfg_if.rs")).unwrap();
    write("cfg_if/src/lib.rs", &text);
    let dependency = "cfg-if = { path = \"../cfg_if\" }";
    write("original/Cargo.toml", &package("odht", "0.3.1", 2018, dependency));
    for (name, text) in files(source) {
        write(&format!("original/src/{name}"), &text);
    }
}

// The files of the original's `src`: of a checkout, or of a folder with names as `src--lib.rs.txt`.
fn files(source: &Path) -> Vec<(String, String)> {
    let (folder, is_flat) = match source.join("src") {
        folder if folder.is_dir() => (folder, false),
        _ => (source.to_path_buf(), true),
    };
    let mut files = Vec::new();
    for path in paths_below(&folder) {
        let name = path.strip_prefix(&folder).unwrap().display().to_string();
        let name = if is_flat {
            let name = name.strip_prefix("src--").and_then(|name| name.strip_suffix(".txt"));
            name.map(|name| name.replace("--", "/"))
        } else {
            Some(name)
        };
        files.extend(name.map(|name| (name, std::fs::read_to_string(&path).unwrap())));
    }
    files
}

// The files in a folder and those below it.
fn paths_below(folder: &Path) -> Vec<PathBuf> {
    let entries = std::fs::read_dir(folder).unwrap().map(|entry| entry.unwrap().path());
    let (folders, mut paths): (Vec<PathBuf>, Vec<PathBuf>) = entries.partition(|it| it.is_dir());
    paths.extend(folders.iter().flat_map(|folder| paths_below(folder)));
    paths
}

// A copy of `../compat` with another line of the dependency.
fn copy_compat(place: &Path, dependency: &str) {
    let compat = Path::new(env!("CARGO_MANIFEST_DIR")).join("../compat");
    for path in ["Cargo.toml", "src", "tests"].map(|name| compat.join(name)) {
        let all = if path.is_dir() { paths_below(&path) } else { vec![path] };
        for path in all {
            let mut text = std::fs::read_to_string(&path).unwrap();
            if path.ends_with("Cargo.toml") {
                assert_eq!(text.matches(OURS).count(), 1);
                text = text.replace(OURS, dependency);
            }
            let target = place.join(path.strip_prefix(&compat).unwrap());
            std::fs::create_dir_all(target.parent().unwrap()).unwrap();
            std::fs::write(target, text).unwrap();
        }
    }
}

// What cargo prints of a package; it has to succeed.
fn cargo(package: &Path, target: &Path, words: &[&str]) -> String {
    let mut cargo = Command::new(env!("CARGO"));
    cargo.args(words).args(["--quiet", "--offline"]).current_dir(package);
    let ran = cargo.env("CARGO_TARGET_DIR", target).output().unwrap();
    let errors = String::from_utf8_lossy(&ran.stderr);
    assert!(ran.status.success(), "cargo {words:?} in {}: {errors}", package.display());
    String::from_utf8(ran.stdout).unwrap()
}

#[test]
fn one_line_changes() {
    let Some(source) = std::env::var_os("ODHT_RUST").map(PathBuf::from) else {
        return println!("skipped: ODHT_RUST names no source of the original");
    };
    let place = Path::new(env!("CARGO_TARGET_TMPDIR")).join("dependency_line");
    let _ = std::fs::remove_dir_all(&place);
    lay_out_original(&source, &place);
    let ours = Path::new(env!("CARGO_MANIFEST_DIR")).join("..").canonicalize().unwrap();
    copy_compat(&place.join("ours"), &format!("odht = {{ path = {ours:?} }}"));
    copy_compat(&place.join("theirs"), "odht = { path = \"../original\" }");
    let printed = ["ours", "theirs"].map(|name| {
        let target = place.join(format!("{name}_target"));
        cargo(&place.join(name), &target, &["test", "--release"]);
        cargo(&place.join(name), &target, &["run", "--release"])
    });
    assert!(printed[0].lines().count() > 20);
    assert_eq!(printed[0], printed[1]);
}
