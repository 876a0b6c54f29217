//! Finds the archive `libodht.a`: in the folder that ODHT_LIB_DIR names, from where cargo was called or from here;
//! else in build/ of the repository; else in the folder that pkg-config reports. Where there is none, or one that would
//! change the program's panics, it says what to do.

use std::path::{Path, PathBuf};
use std::process::{exit, Command};

const ARCHIVE: &str = "libodht.a";
/// A function of Rust's standard library that keeps this name in all its versions.
const OF_RUNTIME: &[u8] = b"rust_eh_personality";

fn main() {
    println!("cargo:rerun-if-env-changed=ODHT_LIB_DIR");
    println!("cargo:rerun-if-env-changed=PKG_CONFIG");
    println!("cargo:rerun-if-env-changed=PKG_CONFIG_PATH");
    println!("cargo:rerun-if-changed=build.rs");
    let folder = find_folder();
    println!("cargo:rerun-if-changed={}", folder.join(ARCHIVE).display());
    if shows_runtime(&folder.join(ARCHIVE)) {
        give_up(&format!(
            "{ARCHIVE} in {} shows the names of Rust's standard library, as cargo leaves it. The linker would use that\n\
             library for your program, and each panic would end the process. `make -C rust/c` hides these names.",
            folder.display()
        ));
    }
    println!("cargo:rustc-link-search=native={}", folder.display());
    println!("cargo:rustc-link-lib=static=odht");
}

fn find_folder() -> PathBuf {
    if let Some(named) = std::env::var_os("ODHT_LIB_DIR") {
        return named_folder(Path::new(&named));
    }
    let built = repository_build();
    // This script runs again once the archive is there.
    println!("cargo:rerun-if-changed={}", built.join(ARCHIVE).display());
    if has_archive(&built) {
        return built;
    }
    match installed().filter(|folder| has_archive(folder)) {
        Some(folder) => folder,
        None => give_up(&format!("{ARCHIVE} is not in {}, and pkg-config knows no odht.", built.display())),
    }
}

/// The folder that is named. A relative name is from the folder in which cargo was called, if that is known, else from
/// this package.
fn named_folder(named: &Path) -> PathBuf {
    let called = std::env::var_os("PWD").map(PathBuf::from);
    let places = [called, Some(package())];
    let mut folders = places.into_iter().flatten().map(|place| place.join(named));
    match folders.find(|folder| has_archive(folder)) {
        Some(folder) => folder,
        None => give_up(&format!("ODHT_LIB_DIR is {}, and {ARCHIVE} is not there.", named.display())),
    }
}

/// The folder of this package.
fn package() -> PathBuf {
    std::env::var_os("CARGO_MANIFEST_DIR").expect("cargo names the package's folder").into()
}

fn has_archive(folder: &Path) -> bool {
    folder.join(ARCHIVE).is_file()
}

/// Whether the archive shows the names of Rust's standard library.
fn shows_runtime(archive: &Path) -> bool {
    let bytes = std::fs::read(archive).unwrap_or_default();
    // The first member lists the names that the archive shows. It follows the 8 bytes of the archive's own and a header
    // of 60 bytes, which has its size in decimal.
    let size = bytes.get(56..66).and_then(|digits| std::str::from_utf8(digits).ok()?.trim().parse::<usize>().ok());
    let names = bytes.get(68..68 + size.unwrap_or(0)).unwrap_or_default();
    names.windows(OF_RUNTIME.len()).any(|name| name == OF_RUNTIME)
}

/// build/ at the top of the repository, where `make lib` puts the archive.
fn repository_build() -> PathBuf {
    let top = package().join("../..");
    top.canonicalize().unwrap_or(top).join("build")
}

/// The folder of an installed library.
fn installed() -> Option<PathBuf> {
    let program = std::env::var_os("PKG_CONFIG").unwrap_or_else(|| "pkg-config".into());
    let output = Command::new(program).args(["--variable=libdir", "odht"]).output().ok()?;
    let folder = String::from_utf8(output.stdout).ok()?;
    let folder = folder.trim();
    (output.status.success() && !folder.is_empty()).then(|| PathBuf::from(folder))
}

/// Whether cargo itself has fetched this package, to a folder where nobody builds the archive.
fn is_fetched() -> bool {
    let names: Vec<_> = package().iter().map(|name| name.to_owned()).collect();
    names.windows(2).any(|pair| pair[0] == "git" && pair[1] == "checkouts")
}

fn give_up(what: &str) -> ! {
    eprintln!("{what}");
    if is_fetched() {
        eprintln!("Cargo has fetched odht-ffi from git, without the archive. Do one of these, and build again:");
        eprintln!("- clone the repository, run `make lib` there, and set ODHT_LIB_DIR to the folder build there, as");
        eprintln!("  with `[env]` and the line `ODHT_LIB_DIR = \"/path/to/odht/build\"` in .cargo/config.toml;");
    } else {
        eprintln!("Do one of these, and build again:");
        eprintln!("- run `make lib` at the top of the odht repository, which makes build/{ARCHIVE};");
        eprintln!("- run `make -C rust/c`, with cargo only, and set ODHT_LIB_DIR to its folder rust/c/target/library;");
        eprintln!("- set ODHT_LIB_DIR to another folder that has {ARCHIVE};");
    }
    eprintln!("- install the library, so that `pkg-config --variable=libdir odht` prints that folder;");
    eprintln!("- take the crate `odht` of the folder rust of the repository, which needs no archive.");
    exit(1)
}
