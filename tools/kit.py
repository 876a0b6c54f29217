"""The kit of Rattle: where it is, and what is said where it is not."""
import os
import shutil
import subprocess
import sys

MISSING = (
    "this needs `rt`, the command of the kit of Rattle (its compiler and prover), and there is none here; `make help` "
    "lists the targets that work without it"
)


def folder():
    """Returns the folder of the kit, or None where there is none."""
    if not shutil.which("rt"):
        return None
    printed = subprocess.run(["rt", "doc"], capture_output=True, text=True, check=True).stdout
    return os.path.dirname(printed.strip())


def need():
    """Ends this program with one line where there is no kit."""
    if not shutil.which("rt"):
        sys.exit(MISSING)
