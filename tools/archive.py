#!/usr/bin/env python3
"""Builds the archive of the calls for C over the libraries that the gate left, crates/NAME/out/rlib, and not over new ones.

  tools/archive.py        makes crates/odht_c/out/libodht_c.a; crates.txt says which libraries are below it

`rt lib` proves these libraries once more, since `rt ci` leaves them without a stamp. Here `rattle build` is called as
`rt lib` calls it: it proves the crate of the exports, and loads the libraries that `rt ci` has proved. It is for a run
of the gate from nothing, right after it: where a library has a stamp, `rt lib` made it, and this stops.
"""
import os
import subprocess
import sys

import kit
import unproved

TOP, KIT, EXPORTS = unproved.TOP, unproved.KIT, unproved.EXPORTS


def main():
    kit.need()
    below = unproved.crates()[EXPORTS]
    rlibs = {name: f"{TOP}/crates/{name}/out/rlib" for name in below}
    for name, folder in rlibs.items():
        if not os.path.isdir(f"{folder}/{name}.rlib"):
            sys.exit(f"{name} has no library: run `rt ci` first")
        if os.path.isfile(f"{folder}/stamp"):
            sys.exit(f"the library of {name} is of `rt lib`: run make lib, which uses it")
    words = ["--crate-name", EXPORTS, "src/lib.rt", "--crate-type", "staticlib", "--links", f"{EXPORTS}="]
    words += ["--extern", f"std={KIT}/rlibs/std.rlib", "-L", f"dependency={KIT}/rlibs"]
    for name, folder in rlibs.items():
        words += ["--extern", f"{name}={folder}/{name}.rlib", "-L", f"dependency={folder}"]
    words += ["--antt-project", f"{KIT}/rattle/logic/antt-project.json", "--logic-built", f"{KIT}/logic_built"]
    words += ["--jobs", str(min(4, len(os.sched_getaffinity(0)))), "--toolchain", f"{KIT}/toolchain", "--backend", "llvm"]
    words += ["-o", f"out/lib{EXPORTS}.a"]
    return subprocess.run([f"{KIT}/bin/rattle", "build", *words], cwd=f"{TOP}/crates/{EXPORTS}").returncode


if __name__ == "__main__":
    sys.exit(main())
