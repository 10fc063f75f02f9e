"""The program of crates/bench, which the other files here time: where it is, and what each of its words is to print."""
import argparse
import os
import pathlib
import subprocess
import sys

TOP = pathlib.Path(__file__).resolve().parent.parent
CRATE = TOP / "crates" / "bench"
PROGRAM = CRATE / "out" / "bench"


def built(path=None):
    """The program at a path; without one that of the crate, which is proved and built first where it is not there."""
    if path:
        return os.path.abspath(path)
    if not PROGRAM.exists():
        # Without words the program tells how to use it and fails: what counts is that it was built.
        subprocess.run(["rt", "run"], cwd=CRATE, check=False, stdout=subprocess.DEVNULL)
    if not PROGRAM.exists():
        sys.exit(f"{PROGRAM}: not built")
    return str(PROGRAM)


def built_twice(path=None):
    """The program at a path; without one that of the crate, and beside it the one that Rattle's own compiler builds, where it is
    there: `rt ci` leaves both."""
    program = built(path)
    other = f"{program}.by-rattle"
    return [program] if path or not os.path.exists(other) else [program, other]


def parser(description):
    """A reader of words that has `--program`."""
    words = argparse.ArgumentParser(description=description, formatter_class=argparse.RawDescriptionHelpFormatter)
    words.add_argument("--program", help="a program that was built elsewhere")
    return words
