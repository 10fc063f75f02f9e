"""Runs cases that stand in files by a program: NAME.KIND is the input, NAME.expected all of the output, and NAME.words, where it is
there, the words that say how large the store is."""
import os
import pathlib
import subprocess
import sys
from concurrent.futures import ThreadPoolExecutor

TOP = pathlib.Path(__file__).resolve().parent.parent

MOST_SECONDS = 60  # of one run of a program


def built(path, crate):
    """The program at a path; without one that of a crate, which is proved and built first where it is not there."""
    if path:
        return os.path.abspath(path)
    program = TOP / "crates" / crate / "out" / crate
    if not program.exists():
        # Without words a program tells how to use it and fails: what counts is that it was built.
        subprocess.run(["rt", "run"], cwd=TOP / "crates" / crate, check=False, stdout=subprocess.DEVNULL)
    if not program.exists():
        sys.exit(f"{program}: not built")
    return str(program)


def built_twice(path, crate):
    """The program at a path; without one that of a crate, and beside it the one that Rattle's own compiler builds, where it is
    there: `rt ci` leaves both."""
    program = built(path, crate)
    other = f"{program}.by-rattle"
    return [program] if path or not os.path.exists(other) else [program, other]


class Cases:
    """The cases of a folder, whose files end in .`kind`. `words` are those of a store where none stand beside a case, behind the
    `subcommand` of the program."""

    def __init__(self, folder, kind, subcommand, words):
        self.folder, self.kind, self.subcommand, self.words = TOP / "tests" / folder, kind, subcommand, words

    def names(self):
        """The names of all cases. A file that is no part of one is an error."""
        names = sorted(file.stem for file in self.folder.glob(f"*.{self.kind}"))
        known = {f"{name}.{kind}" for name in names for kind in (self.kind, "expected", "words")}
        strays = sorted(file.name for file in self.folder.iterdir() if file.name not in known)
        if strays or not names:
            sys.exit(f"{self.folder}: no part of a case: {', '.join(strays)}" if strays else f"{self.folder}: no case")
        return names

    def words_of(self, name):
        file = self.folder / f"{name}.words"
        return file.read_text().split() if file.exists() else self.words

    def sizes_of(self, name):
        """Directory pages, cell pages, tag pages and frames of the store of a case, as far as its words say them; 0 where they leave one
        out."""
        words = self.words_of(name)
        if not words[0].startswith("--"):
            return [int(word) for word in words]
        said = dict(zip(words[::2], words[1::2]))
        return [int(said.get(f"--{word}", 0)) for word in ("directory", "cells", "tags", "frames")]

    def lines_of(self, name):
        """The lines of a case, and those that it has to print."""
        return (self.folder / f"{name}.{self.kind}").read_bytes().split(b"\n")[:-1], self.expected(name).split(b"\n")[:-1]

    def expected(self, name):
        return (self.folder / f"{name}.expected").read_bytes()

    def fault(self, program, name, more=()):
        """What is wrong with what a case prints, with these words more; None where nothing is."""
        file, words = self.folder / f"{name}.{self.kind}", [*self.words_of(name), *more]
        expected = self.expected(name)
        replay = f"{name}: {' '.join([program, *self.subcommand, *words])} < {file}"
        try:
            with open(file, "rb") as lines:
                ran = subprocess.run([program, *self.subcommand, *words], stdin=lines, capture_output=True, timeout=MOST_SECONDS)
        except subprocess.TimeoutExpired:
            return f"{replay}\n    did not end in {MOST_SECONDS} seconds"
        status = status_of(expected.splitlines())
        if ran.stdout == expected and ran.returncode == status:
            return None
        differs = first_difference(ran.stdout.split(b"\n"), expected.split(b"\n"))
        if differs is None:
            return f"{replay}\n    wanted exit status {status}, ended with {ran.returncode}"
        line, wanted, printed = differs
        return f"{replay}\n    line {line}: wanted {shown(wanted)}, printed {shown(printed)}; exit status {ran.returncode}"

    def run(self, program, names=(), more=()):
        """Runs these cases, or all, with these words more, and says how many print what they should; whether all do."""
        names = names or self.names()
        with ThreadPoolExecutor(os.cpu_count()) as pool:
            faults = [fault for fault in pool.map(lambda name: self.fault(program, name, more), names) if fault]
        print("".join(f"{fault}\n" for fault in faults), end="")
        right = f"{len(names) - len(faults)} of {len(names)} files of {self.folder.relative_to(TOP)}"
        print(f"{right} print what they should ({' '.join([os.path.basename(program), *more])})")
        return not faults


def status_of(expected):
    """The exit status of what prints these lines: 1 where the last one is a fault."""
    return 1 if expected and expected[-1].startswith(b"fault ") else 0


def first_difference(printed, expected):
    """The number of the first line that differs, from 1, with the line wanted and the line printed; None where none does."""
    for at in range(max(len(printed), len(expected))):
        wanted = expected[at] if at < len(expected) else None
        told = printed[at] if at < len(printed) else None
        if wanted != told:
            return at + 1, wanted, told
    return None


def shown(line):
    return "no line" if line is None else repr(line.decode(errors="backslashreplace"))
