#!/usr/bin/env python3
"""Runs the scripts of tests/scripts by the proved program, and compares what each prints with the file beside it. Where
`rt ci` left the program as Rattle's own compiler builds it too, that one runs them all as well. Each script that says no count of
frames is run in the fewest, too, and prints the same.

NAME.script is the input and NAME.expected all of the output. NAME.words has the words that say how large the store is; where it
is absent, they are `--directory 1 --cells 1`. The exit status has to be 1 where the last line is a fault, else 0. By hand:

    ./rqm run --directory 1 --cells 1 < tests/scripts/NAME.script

    python3 tests/scripts.py [--program PROGRAM] [NAME..]
"""
import argparse
import sys

from cases import Cases, built_twice

SCRIPTS = Cases("scripts", "script", ["run"], ["--directory", "1", "--cells", "1"])

FEWEST = ["--frames", "8"]


def run(program, names):
    """Runs these scripts, or all; whether each prints what it should."""
    is_right = SCRIPTS.run(program, names)
    unsaid = [name for name in names or SCRIPTS.names() if "--frames" not in SCRIPTS.words_of(name)]
    return (not unsaid or SCRIPTS.run(program, unsaid, FEWEST)) and is_right


def main():
    words = argparse.ArgumentParser(description="Runs the scripts of tests/scripts.")
    words.add_argument("--program", help="a program that was built elsewhere")
    words.add_argument("names", nargs="*", metavar="NAME", help="these scripts alone")
    chosen = words.parse_args()
    ran = [run(program, chosen.names) for program in built_twice(chosen.program, "rqm")]
    sys.exit(0 if all(ran) else 1)


if __name__ == "__main__":
    main()
