#!/usr/bin/env python3
"""Tests the crate for Rust: what is generated of it, the program that generates it, and what cargo says of both.

  tests/rust.py [TEST..]      all tests, or those that are named; cargo's files go to build/cargo and build/cargo-*

    current    what is generated is what tools/erase and rustfmt make of the proved crates, and tests/erased.py reads the same
    planted    tests/erased.py reports faults that are planted in the erased text, one after the other
    erase      the tests of tools/erase
    crate      those of the crate; `examples`: those of its documentation
    checked    the same with the feature `checked`, in which each index is checked; `no_simd`: some of them with that feature
    without_std  the crate without std builds, also with `checked`; a program without std answers over it; the library of
               that program builds for each target without std that is installed; and some of the tests pass
    programs   the programs in rust/examples print what they have to, and that of rust/benches runs
    compat     code that is written for odht 0.3.1
    beside     the crate beside the library for C (in ODHT_LIB_DIR) and the Rust crate (in ODHT_RUST), where these are
    lints      no warning of clippy and rustdoc, and the layout of rustfmt
    package    `cargo package` verifies the crate, without a warning; the documents in it are current, and those of
               rustdoc are made of what it packed
    c          libodht of the erased exports has the calls of include/odht.h; the examples in C and C++ go over it, and
               over what `make install` there puts anywhere; all of tests/c; and odht-ffi links it, and catches panics

The programs in rust/cli and rust/table are tested by tests/cli.py and tests/table.py, and here in `current`, `planted`
and `lints`. What the machine does not have is left out, with a word. The last line counts. There is no limit of time:
where one cargo builds, others wait for it. What hangs is for tests/run.py.
"""
import os
import re
import shutil
import subprocess
import sys
import tempfile
import time
from concurrent.futures import ThreadPoolExecutor

TOP = os.path.dirname(os.path.dirname(os.path.realpath(__file__)))
CARGO_FILES = f"{TOP}/build/cargo"
OBJECTS = f"{TOP}/build/objects_of_c"  # what the parts `calls` and `rust` compile alike of tests/c
sys.path.insert(0, f"{TOP}/tools")
import watched

# a failed test prints no lines of the standard library; and one unit has once what is always inlined, and is built once
CARGO = {"CARGO_TERM_COLOR": "never", "CARGO_PROFILE_DEV_DEBUG": "0", "CARGO_INCREMENTAL": "0"}
CARGO["CARGO_PROFILE_DEV_CODEGEN_UNITS"] = "1"
# of unoptimized tests: LLVM's one pass inlines what is always inlined, and most of the time would go to these copies
NO_PASSES = {"RUSTFLAGS": f"{os.environ.get('RUSTFLAGS', '')} -C no-prepopulate-passes".strip()}


class Failed(Exception):
    """A test that failed, with what was printed."""


def run(words, folder=TOP, **variables):
    """Runs a command that must succeed, and returns what it printed."""
    env = {**os.environ, "CARGO_TARGET_DIR": CARGO_FILES, **CARGO, **variables}
    status, printed = watched.run(words, limit=None, cwd=folder, env=env)
    if status:
        raise Failed(f"{' '.join(words)}\n{printed}")
    return printed


def has(*words):
    """Whether a command is there and succeeds."""
    try:
        return subprocess.run(words, capture_output=True, stdin=subprocess.DEVNULL).returncode == 0
    except OSError:
        return False


def cargo(folder, *words, **variables):
    """Runs cargo in a folder, and returns how many tests passed."""
    return tests_passed(run(["cargo", words[0], "--quiet", "--offline", *words[1:]], f"{TOP}/{folder}", **variables))


def tests_passed(printed):
    """Returns how many tests passed, by what cargo or rustdoc printed."""
    return sum(int(it) for it in re.findall(r"test result: ok\. (\d+) passed", printed))


def erase(room):
    """Makes the erased text in a folder."""
    run(["cargo", "run", "--quiet", "--offline", "--manifest-path", "tools/erase/Cargo.toml", "--", "crates", room])


def files_below(folder):
    """Returns the text of each file below a folder, by its path from there."""
    found = {}
    for place, _, names in os.walk(folder):
        for name in names:
            with open(f"{place}/{name}", encoding="utf-8") as it:
                found[os.path.relpath(f"{place}/{name}", folder)] = it.read()
    return found


def current():
    with tempfile.TemporaryDirectory(prefix="erased-") as room:
        erase(room)
        read = run([sys.executable, "tests/erased.py", "crates", room])
        made = [f"{room}/{it}" for it in files_below(room)]
        run(["rustfmt", "--edition", "2021", "--config-path", "rust/rustfmt.toml", *made])
        for part in ("src/generated", "c/src/generated", "cli/src/generated", "table/src/generated"):
            wanted, found = files_below(f"{room}/{part}"), files_below(f"{TOP}/rust/{part}")
            names = sorted(it for it in wanted.keys() | found.keys() if wanted.get(it) != found.get(it))
            if names:
                raise Failed(f"not current: {', '.join(f'rust/{part}/{it}' for it in names)}: run make generate")
    return 1 + int(re.search(r"(\d+) passed", read.splitlines()[-1])[1])


# faults of the erased text: what is replaced in a file, once
FAULTS = [
    ("src/generated/base/bytes/stores.rs", "use alloc::vec::Vec;", "use alloc::collections::VecDeque as Vec;"),
    ("src/generated/base/load.rs", "self.0 as u128 / 65536", "self.0 as u128 / 65535"),
    ("src/generated/base/hash.rs", "rotate_left(5) ^ value", "rotate_left(5)"),
    ("src/generated/raw/raw_table/scan.rs", "start + 16", "start"),
    ("src/generated/raw/raw_table/scan.rs", "index!(control[start..start + 16],", "index!(control[start..start + 15],"),
    ("src/generated/raw/raw_table/scan.rs", "index!(control[start..start + 16],", "index!(control[start..start + 16]);("),
    ("src/generated/raw/memory_layout/inserts.rs", "slots, layout);", "slots, layout); let slots = 16;"),
    ("src/generated/raw/raw_table/plain.rs", "return Search::Free(slot);", ""),
    ("src/generated/tables/iter.rs", "match self.raw.next()", "self.raw.next(); match self.raw.next()"),
    ("src/generated/raw/raw_table/writes.rs", "room == 0", "room == 1"),
    ("src/generated/tables/growth.rs", "'_", "'static"),
    ("src/generated/header/error.rs", "Table is full", "The table is full"),
    ("src/generated/header/error.rs", "pub enum Part", "#[non_exhaustive] pub enum Part"),
    ("c/src/generated/calls/read.rs", "*cursor = slot;", ""),
    ("c/src/generated/exports/version.rs", "400", "401"),
    ("c/src/generated/exports/generated/u64_u32.rs", "lists::list(keys, keys_len)", "lists::list(keys, values_len)"),
    ("c/src/generated/exports/generated/u64_u32.rs", "let alloc = Global;", "let alloc = Other;"),
    ("cli/src/generated/core/help.rs", "\"erased\"", "\"proven\""),
    ("cli/src/generated/core/lines.rs", "try_extend_from_slice", "try_extend_from_within"),
    ("cli/src/generated/core/targets.rs", "{ if let Some(obstacle)", "if let Some(obstacle)"),
    ("cli/src/generated/core/targets.rs", "host::texts::formatted(alloc", "host::texts::formatted(rt.alloc()"),
    ("cli/src/generated/core/histogram.rs", "filled( alloc, 0, MOST)", "filled( alloc, 1, MOST)"),
    ("cli/src/generated/core/files.rs", "use crate::host::rt::Files", "use crate::host::fs::Files"),
    ("cli/src/generated/tool.rs", "rt.stderr()", "rt.stdout()"),
    ("cli/src/generated/writes/inserts.rs", "pairs.remove_all();", ""),
    ("table/src/generated/table/script.rs", "writeln!(output, \"no table\")", "writeln!(output, \"no\")"),
]


def planted():
    with tempfile.TemporaryDirectory(prefix="erased-") as room:
        erase(room)
        text = files_below(room)
        run([sys.executable, "tests/erased.py", "crates", room, FAULTS[0][0]])
        for name, old, new in FAULTS:
            if old not in text[name]:
                raise Failed(f"planted: {name} does not have {old}")
            write(f"{room}/{name}", text[name].replace(old, new, 1))
            is_told(f"{old} was {new} in {name}", room, name)
            write(f"{room}/{name}", text[name])
        write(f"{room}/src/generated/other.rs", "")
        is_told("a file of no source", room)
        os.remove(f"{room}/src/generated/other.rs")
        run([sys.executable, "tests/erased.py", "crates", room])
    return len(FAULTS) + 1


def write(file, text):
    with open(file, "w", encoding="utf-8") as it:
        it.write(text)


def is_told(fault, *words):
    """Sees that tests/erased.py reports a fault: in one file, where the words name it."""
    if has(sys.executable, f"{TOP}/tests/erased.py", f"{TOP}/crates", *words):
        raise Failed(f"planted, and not told: {fault}")


# The programs of tests that rust/Cargo.toml lists. The tests of `long` work for so long that to optimize them takes less
# time than it saves. Overflows still panic in it, and assertions are checked.
QUICK, LONG = ["all", "memory", "places_of_panics"], ["long"]
# those whose tests are modules
OF_MODULES = ["all", "long", "no_simd", "no_std"]


def tests_of_crate(*features):
    """Runs the tests in rust/tests and rust/src/tests with these features."""
    each_file_is_run()
    passed = cargo("rust", "test", "--lib", *named(QUICK), *features, **NO_PASSES)
    return passed + cargo("rust", "test", *named(LONG), *features, CARGO_PROFILE_TEST_OPT_LEVEL="1")


def each_file_is_run():
    """Sees that each file of rust/tests is one program that `crate` runs, or a module of one."""
    names = {it.removesuffix(".rs") for it in os.listdir(f"{TOP}/rust/tests") if it.endswith(".rs")}
    found = [it for it in QUICK if it not in OF_MODULES]
    for program in ("all", "long"):
        with open(f"{TOP}/rust/tests/{program}.rs", encoding="utf-8") as it:
            found += re.findall(r"^mod (\w+);$", it.read(), re.M)
    found = [it for it in found if it != "common"]
    if sorted(found) != sorted(names - set(OF_MODULES)):
        raise Failed(f"rust/tests has {sorted(names)}, and its programs have {sorted(found)}")


def named(tests):
    """Returns the words of cargo that name these tests."""
    return [word for it in tests for word in ("--test", it)]


def examples():
    """Tests the examples of the documentation. From edition 2024 on rustdoc compiles them as one program."""
    if not has("rustc", "--edition", "2024", "--print", "sysroot"):
        return cargo("rust", "test", "--doc")
    # in a folder of its own: elsewhere the library is built with other features meanwhile
    files = f"{CARGO_FILES}-examples"
    run(["cargo", "build", "--quiet", "--offline"], f"{TOP}/rust", CARGO_TARGET_DIR=files)
    words = ["--test", "--edition", "2024", "--crate-name", "odht", "--cfg", 'feature="std"', "src/lib.rs"]
    words += ["--extern", f"odht={files}/debug/libodht.rlib", "-L", f"dependency={files}/debug/deps"]
    return tests_passed(run(["rustdoc", *words], f"{TOP}/rust"))


NO_SIMD = ["--lib", *named(["no_simd"])]


def user(folder, *words):
    """Tests a package that uses the crate, which it builds in a folder of its own: others may build it meanwhile."""
    return cargo(folder, "test", *words, CARGO_TARGET_DIR=f"{CARGO_FILES}-{os.path.basename(folder)}")


NO_STD = ["--no-default-features"]
# what the program in rust/without_std prints, worked out by hand: FORMAT.md has the table of the first three lines
WITHOUT_STD = """in the program: [Some(2), Some(4), Some(6), None]
cut: Err("Provided allocation has wrong size for slot count 16. The allocation's size is 255 but the expected size \
is 256.")
made: true
grown: 1003 items, Some(4) Some(10990)
"""


def targets_without_std():
    """Returns the installed targets of 64 bits that have no std."""
    folder = run(["rustc", "--print", "sysroot"]).strip() + "/lib/rustlib"
    return [it for it in sorted(os.listdir(folder)) if re.match(r"(x86_64|aarch64|riscv64).*-none\b", it)]


def without_std():
    # a program whose panics are its own: with std in what it is made of, there would be two that handle them
    files = {"CARGO_TARGET_DIR": f"{CARGO_FILES}-without_std"}
    done = 0
    for words in ([], ["--features", "checked"]):
        cargo("rust", "build", *NO_STD, *words)
        printed = run(["cargo", "run", "--quiet", "--offline", *words], f"{TOP}/rust/without_std", **files)
        if printed != WITHOUT_STD:
            raise Failed(f"without_std printed\n{printed}and not\n{WITHOUT_STD}")
        done += 2
    for target in targets_without_std():
        cargo("rust/without_std", "build", "--lib", "--target", target, **files)
        done += 1
    return done + cargo("rust", "test", *NO_STD, *named(["no_std"]), **NO_PASSES)


def lints():
    done = 0
    embedded, no_std = "rust/examples/embedded", "rust/without_std"
    packages = "rust", "rust/c", "rust/cli", "rust/table", "rust/compat", "rust/beside", no_std, embedded
    for folder in ("tools/erase", *packages):
        run(["cargo", "fmt", "--check"], f"{TOP}/{folder}")
        done += 1
    if not has("cargo", "clippy", "--version"):
        return done
    checked = ["--features", "checked"]
    programs = ["rust/cli"], ["rust/cli", *checked], ["rust/table"]
    users = ["rust/c"], *programs, ["rust/compat"], ["rust/beside"], [no_std], [embedded]
    for folder, *words in (["tools/erase"], ["rust"], ["rust", *checked], ["rust", *NO_STD], *users):
        # the tests are the same source whatever the features are
        targets = ("--lib" if folder == "rust" else "--bins") if words else "--all-targets"
        cargo(folder, "clippy", targets, *words, "--", "-D", "warnings")
        done += 1
    cargo("rust", "doc", "--no-deps", RUSTDOCFLAGS="-D warnings")
    return done + 1


# what the programs in rust/examples print, worked out by hand
PROGRAMS = {
    "file": "the square of 12 is Some(144), of 101 None\nthe square of 101 is Some(10201)\n"
    "mapped, it has 101 squares, and that of 100 is Some(10000)\n",
    # 2 * (0 + .. + 99999)
    "threads": "the values add up to 9999900000\nanother thread found Some(42), and this one Some(8)\n",
    "names": """main is at 0x2000
alloc::vec::Vec<T,A>::push is at 0x1040
alloc::vec::Vec<T,A>::pop is not there
alloc::vec::Vec<T,A>::push, core::iter::traits::iterator::Iterator::next, main
Some(3), None, without ["incomprehensibilities"]
""",
    # a table of sixteen slots for keys of 8 bytes and values of 4 has 256
    "appended": """25 of 289 bytes are others
main is at Some(5), exit at None
2 items, and 8 bytes behind the table
without a table: true
""",
    "embedded": "is: Some(354)\nus: Some(1)\nxx: None\n",
}


def programs():
    names = {it.removesuffix(".rs") for it in os.listdir(f"{TOP}/rust/examples")} - {"README.md"}
    if names != PROGRAMS.keys():
        raise Failed(f"in rust/examples: {sorted(names)}, and here {sorted(PROGRAMS)}")
    for name, wanted in PROGRAMS.items():
        words, folder = (["--example", name], "rust") if name != "embedded" else ([], "rust/examples/embedded")
        files = {} if folder == "rust" else {"CARGO_TARGET_DIR": f"{CARGO_FILES}-{name}"}
        printed = run(["cargo", "run", "--quiet", "--offline", *words], f"{TOP}/{folder}", **files)
        if printed != wanted:
            raise Failed(f"{name} printed\n{printed}and not\n{wanted}")
    timed = run(["cargo", "test", "--quiet", "--offline", "--bench", "tables", "--", "50"], f"{TOP}/rust")
    if len(re.findall(r"^\S.* +\d+\.\d\d$", timed, re.M)) != 8:
        raise Failed(f"not the lines of eight jobs:\n{timed}")
    return len(PROGRAMS) + 1


def package():
    run([sys.executable, "tools/generate", "--check", "documents"])
    # cargo would build what it packed over the crate's own files, which the tests of `examples` read meanwhile
    files = {"CARGO_TARGET_DIR": f"{CARGO_FILES}-packed", "RUSTDOCFLAGS": "-D warnings"}
    # no host is known yet that has the repository, which is what this option leaves out
    printed = run(["cargo", "package", "--offline", "--allow-dirty", "--no-metadata"], f"{TOP}/rust", **files)
    if "warning" in printed:
        raise Failed(printed)
    # what was packed has all that its documentation includes
    version = re.search(r"Verifying odht v(\S+)", printed)
    if not version:
        raise Failed(f"nothing was verified\n{printed}")
    folder = f"{CARGO_FILES}-packed/package/odht-{version[1]}"
    run(["cargo", "doc", "--quiet", "--offline", "--no-deps"], folder, **files)
    return 3


def declared():
    """Returns the symbols that include/odht.h declares, whose macros the preprocessor of C expands."""
    text = run(["cc", "-E", "-P", "-x", "c", "include/odht.h"])
    return {"odht_version"} | {f"odht_{name}" for name in re.findall(r'__asm__\("odht_" "(\w+)"\)', text)}


def library_for_c():
    passed = cargo("rust/c", "test", "--lib")
    if not has("make", "--version") or not has("cc", "--version"):
        return passed
    run(["make", "-s", "-C", "rust/c", "lib"])
    libraries = f"{CARGO_FILES}/library"
    if has("nm", "--version"):
        names = set(re.findall(r" T (odht_\w+)", run(["nm", "-D", "--defined-only", f"{libraries}/libodht.so"])))
        if names != declared():
            raise Failed(f"declared and not there, or there and not declared: {sorted(names ^ declared())}")
        passed += 1
    for script, folder in (("examples.sh", libraries), ("installed.sh", CARGO_FILES), ("linked.sh", CARGO_FILES)):
        passed += len(re.findall("well", run(["sh", f"rust/c/{script}", folder])))
    printed = run(["sh", "tests/c/run.sh", f"{libraries}/libodht.a", "cc"], SANITIZERS="no", OBJECTS=OBJECTS)
    return passed + int(re.search(r"(\d+) passed, 0 failed", printed)[1])


# those that take longest first
TESTS = {
    "crate": tests_of_crate,
    "checked": lambda: tests_of_crate("--features", "checked"),
    "c": library_for_c,
    "lints": lints,
    "current": current,
    "planted": planted,
    "erase": lambda: cargo("tools/erase", "test"),
    "examples": examples,
    "no_simd": lambda: cargo("rust", "test", "--features", "no_simd", *NO_SIMD, **NO_PASSES),
    "without_std": without_std,
    "programs": programs,
    "compat": lambda: user("rust/compat"),
    "beside": lambda: user("rust/beside") + user("rust/beside", "--features", "checked"),
    "package": package,
}


def ended(name):
    """Runs a test, and returns how many passed and failed."""
    print(f"{name}: begins", flush=True)
    began, before = time.monotonic(), watched.processor_time()
    try:
        passed = TESTS[name]()
    except Failed as what:
        print(f"{name}: FAILED\n{what}", flush=True)
        return 0, 1
    seconds = watched.processor_time() - before
    print(f"{name}: {passed} passed; {time.monotonic() - began:.0f} s, {seconds:.0f} s of processors", flush=True)
    return passed, 0


def main(*names):
    unknown = [it for it in names if it not in TESTS]
    if unknown:
        sys.exit(f"no test is named {unknown[0]!r}; there are {', '.join(TESTS)}")
    watched.end_on_signals()
    if not has("cargo", "--version") or not has("rustfmt", "--version"):
        print("there is no cargo here\n0 passed, 0 failed")
        return 0
    # cargo builds one after the other, and runs what it has built at the same time
    with ThreadPoolExecutor(len(os.sched_getaffinity(0))) as pool:
        counts = list(pool.map(ended, [it for it in TESTS if not names or it in names]))
    passed, failed = (sum(it[at] for it in counts) for at in (0, 1))
    print(f"{passed} passed, {failed} failed")
    return 1 if failed else 0


if __name__ == "__main__":
    sys.exit(main(*sys.argv[1:]))
