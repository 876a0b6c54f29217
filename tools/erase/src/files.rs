//! The files of crates.

use crate::{erase, Crate, Erased, Plan};
use std::collections::{BTreeMap, BTreeSet};
use std::fs;
use std::path::{Path, PathBuf};

/// What was done with some sources.
#[derive(Clone, Copy, Debug, Default, PartialEq, Eq)]
pub struct Counts {
    /// How many sources there were.
    pub files: usize,
    /// How many tokens, without spaces and comments.
    pub tokens: usize,
    /// How many tokens were dropped.
    pub dropped: usize,
    /// How often something was replaced.
    pub replaced: usize,
}

/// Erases `CRATES/NAME/src` of each crate of the plan into OUT. A line at the head of each file says of which source it
/// was made. An error has its file and line.
pub fn erase_all(plan: &Plan<'_>, crates: &Path, out: &Path) -> Result<Counts, String> {
    let mut all = BTreeMap::new();
    // for libraries, and for programs: what a program declares says nothing of the methods in a library
    let mut declared = [BTreeSet::new(), BTreeSet::new()];
    for krate in plan.crates {
        let root = crates.join(krate.name).join("src");
        for path in sources(&root, &root)? {
            let source = read(&root, &path)?;
            for names in &mut declared[usize::from(krate.is_of_program)..] {
                names.extend(declared_in(&source));
            }
            all.insert((krate.name, path), (krate, source));
        }
    }
    for it in plan.unchecked {
        let mut files = all.iter();
        let stated = files.find(|((name, path), _)| format!("{name}/{path}") == it.stated);
        if !stated.is_some_and(|(_, (_, source))| source.contains(it.clause)) {
            return Err(format!("{}: no clause `{}`", it.stated, it.clause));
        }
    }
    let mut counts = Counts::default();
    for ((_, path), (krate, source)) in &all {
        let declared = &declared[usize::from(krate.is_of_program)];
        if let Some(erased) = erase_file(plan, krate, path, declared, source)? {
            write(krate, path, &out.join(file_of(krate, path)), &erased.text)?;
            counts.files += 1;
            counts.tokens += erased.tokens;
            counts.dropped += erased.dropped;
            counts.replaced += erased.replaced.len();
        }
    }
    Ok(counts)
}

/// The names of the functions that a source declares, and of its macros, each with a `!`.
pub fn declared_in(source: &str) -> Vec<String> {
    let words: Vec<&str> = source.split(|c: char| !c.is_alphanumeric() && c != '_').collect();
    let functions = words.windows(2).filter(|pair| pair[0] == "fn").map(|pair| pair[1]);
    let functions = functions.filter(|name| !name.is_empty()).map(str::to_string);
    let macros = words.windows(3).filter(|it| it[0] == "macro_rules");
    functions.chain(macros.map(|it| format!("{}!", it[2]))).collect()
}

// Erases one source, but none of a module of laws.
fn erase_file(
    plan: &Plan<'_>,
    krate: &Crate<'_>,
    path: &str,
    declared: &BTreeSet<String>,
    source: &str,
) -> Result<Option<Erased>, String> {
    let module = format!("{}::{}", krate.name, path.replace('/', "::"));
    if plan.dropped_modules.contains(&module.as_str()) {
        return Ok(None);
    }
    let name = format!("{}/{path}", krate.name);
    let erased = erase(plan, krate, &name, declared, source);
    erased.map(Some).map_err(|what| format!("crates/{}/src/{path}.rt: {what}", krate.name))
}

// The sources below a folder, as paths from the root without their ending.
fn sources(root: &Path, folder: &Path) -> Result<Vec<String>, String> {
    let told = |e: std::io::Error| format!("{}: {e}", folder.display());
    let mut entries: Vec<PathBuf> = Vec::new();
    for entry in fs::read_dir(folder).map_err(told)? {
        entries.push(entry.map_err(told)?.path());
    }
    entries.sort();
    let mut found = Vec::new();
    for path in entries {
        if path.is_dir() {
            found.extend(sources(root, &path)?);
            continue;
        }
        let inside = path.strip_prefix(root).ok().and_then(Path::to_str);
        match inside.and_then(|path| path.strip_suffix(".rt")) {
            Some(stem) => found.push(stem.to_string()),
            None => return Err(format!("{}: no source of Rattle", path.display())),
        }
    }
    Ok(found)
}

fn read(root: &Path, path: &str) -> Result<String, String> {
    let file = root.join(format!("{path}.rt"));
    fs::read_to_string(&file).map_err(|e| format!("{}: {e}", file.display()))
}

// The file of a module: that of the root is the crate's.
fn file_of(krate: &Crate<'_>, path: &str) -> String {
    match path {
        "lib" | "main" => format!("{}.rs", krate.to),
        _ => format!("{}/{path}.rs", krate.to),
    }
}

fn write(krate: &Crate<'_>, path: &str, file: &Path, text: &str) -> Result<(), String> {
    let told = |e: std::io::Error| format!("{}: {e}", file.display());
    let head = format!("// Generated from crates/{}/src/{path}.rt by make generate.", krate.name);
    fs::create_dir_all(file.parent().unwrap_or(file)).map_err(told)?;
    fs::write(file, format!("{head}\n{text}")).map_err(told)
}
