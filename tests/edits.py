#!/usr/bin/env python3
"""Tries wrong bodies: each edit of crates/NAME/wrong-bodies has to be refused by the contract of the function that it changes.

    python3 tests/edits.py [NAME..]                  of all crates, or of these
    python3 tests/edits.py --unchanged [NAME..]      copies that change nothing: each has to be proved

An edit is a text file: a line 'function: PATH', a line 'file: src/..' and pairs of lines 'old: TEXT' and 'new: TEXT', each TEXT
one line. An old text stands in the file once. A line 'clause: NAME' says which clause has to fail.

It is made in a copy of the function, with its proofs, under a name of its own. Where that can't be (a trait's method, a text beside the
function), it is made in the function itself. So all edits of a crate are tried at once, in a copy of the crate. The prover checks these
functions and what they call, over the built libraries below it (out/rlib, as the gate or `rt lib` leaves them). It has to say that each
is not proved, and which clause or condition of it fails.

One more copy changes nothing. It is of the shortest function, of those with proofs by hand where there are any. It has to be proved, so
it is neither the libraries nor the copying that makes the others fail. `--unchanged` shows that of each function that is copied, and
of the others as they stand. An answer by hand may also fail since the edit gave a value another name, and the goal of a new exit since
it has none: who writes an edit sees to it that a goal is false.

What a check of a crate proved is kept for the next (out/incremental, as `rt check` leaves it, and then by each check here);
`--unchanged` begins with nothing.
"""

import concurrent.futures
import copy
import os
import pathlib
import re
import shutil
import subprocess
import sys
import tempfile
import time

ROOT = os.path.dirname(os.path.dirname(os.path.abspath(__file__)))
KIT = os.path.dirname(os.path.dirname(os.path.realpath(shutil.which("rattle") or "rattle")))
PARTS = ("src", "specs", "proofs")


def crates():
    """Of each crate: the libraries that it names."""
    with open(f"{ROOT}/crates.txt", encoding="utf-8") as file:
        lines = [line.split("#")[0].strip() for line in file]
    return {line.split(":")[0].split()[0]: line.split(":")[1].split() for line in lines if line}


def below(uses, crate):
    found = []
    for name in uses[crate]:
        if name in uses:
            found += [it for it in [*below(uses, name), name] if it not in found]
    return found


def words(uses, crate, functions):
    """The prover's words for a check of these functions of a crate alone."""
    own = [name for name in uses[crate] if name in uses]
    kits = ["std", *[name for name in uses[crate] if name not in uses and name != "std"]]
    root = "src/main.rt" if os.path.isfile(f"{ROOT}/crates/{crate}/src/main.rt") else "src/lib.rt"
    said = ["rattle", "check", "--crate-name", crate, root]
    for name in kits:
        said += ["--extern", f"{name}={KIT}/rlibs/{name}.rlib"]
    said += ["-L", f"dependency={KIT}/rlibs"]
    for name in own:
        said += ["--extern", f"{name}={ROOT}/crates/{name}/out/rlib/{name}.rlib"]
    for name in below(uses, crate):
        said += ["-L", f"dependency={ROOT}/crates/{name}/out/rlib"]
    said += ["--antt-project", f"{KIT}/rattle/logic/antt-project.json", "--logic-built", f"{KIT}/logic_built"]
    said += ["--jobs", "1", "--links", f"{crate}="]
    for function in functions:
        said += ["--only", function]
    return said


class Edit:
    def __init__(self, crate, path):
        self.crate, self.name = crate, os.path.basename(path)[: -len(".edit")]
        self.function, self.file, self.clause, self.pairs, self.strange = "", "", "", [], ""
        with open(path, encoding="utf-8") as lines:
            for line in lines.read().split("\n"):
                word, _, text = line.partition(": ")
                if word == "function":
                    self.function = text
                elif word == "file":
                    self.file = text
                elif word == "clause":
                    self.clause = text
                elif word == "old":
                    self.pairs.append([self.file, text, ""])
                elif word.rstrip(":") == "new":
                    self.pairs[-1][2] = text
                elif line:
                    self.strange = line

    def why_bad(self):
        """Why it cannot be applied, or None."""
        if not self.function or not self.pairs:
            return "it has no function, or no old and new text"
        if self.strange:
            return f"it has a line of no known word: {self.strange}"
        for file, old, _ in self.pairs:
            path = f"{ROOT}/crates/{self.crate}/{file}"
            if not file.startswith("src/") or not os.path.isfile(path):
                return f"there is no {file} in src/"
            text = text_of(path)
            if text.count(old) != 1:
                return f"a text stands in {file} {text.count(old)} times: {old}"
            line = text[: text.index(old)].count("\n") + 1
            if re.match(r" *(ensures|requires)", text.split("\n")[line - 1]):
                return f"it changes a clause: {old}"
        text = text_of(f"{ROOT}/crates/{self.crate}/{self.file}")
        if not self.span(text):
            return f"no {self.function} stands where it changes {self.file}"
        is_method = text.split("\n")[self.span(text)[0] - 1].startswith(" ")
        if is_method and not re.search(r"\b[A-Z]\w*::\w+$", self.function):
            return f"{self.function} is a method, and its type is not named"
        return None

    def span(self, text):
        """The lines of its function in its file's text; None where it changes none there."""
        line = text[: text.index(self.pairs[-1][1])].count("\n") + 1
        return next((span for span in spans(self.function, text) if line in span), None)

    def is_copied(self):
        """Whether it is made in a copy of its function: it changes nothing beside that, which is no trait's method."""
        text = text_of(f"{ROOT}/crates/{self.crate}/{self.file}")
        lines, span = text.split("\n"), self.span(text)
        if any(file != self.file or not any(old in lines[at - 1] for at in span) for file, old, _ in self.pairs):
            return False
        if not lines[span[0] - 1].startswith(" "):
            return True
        head = max(at for at in range(span[0]) if re.match(r"(unsafe )?(impl|trait)\b", lines[at]))
        return lines[head].startswith("impl") and " for " not in "\n".join(lines[head : span[0]]).split("{")[0]

    def tried(self):
        """The function that is to be refused."""
        return f"{self.function}_{self.name}" if self.is_copied() else self.function

    def copied(self, text):
        """The last line of its function in its file's text, and the function once more, changed and under a name of its own."""
        lines, span = text.split("\n"), self.span(text)
        block = "\n".join(lines[span[0] - 1 : span[-1]])
        for _, old, new in self.pairs:
            block = block.replace(old, new)
        name = self.function.rsplit("::", 1)[-1]
        return span[-1], re.sub(rf"\bfn {name}\b", f"fn {name}_{self.name}", block, count=1)

    def proofs(self, folder):
        """Where the proofs of its function stand in a copy of its crate, and those of its closures beside."""
        *above, name = self.function.split("::")
        if not above or not above[-1][0].isupper():
            path = re.sub(r"^src/|\.rt$", "", self.file).split("/")
            above = [it for it in path if it not in ("lib", "main", "mod")]
        within = above[-1:] or ["proofs"]
        for last in (within, [*within, "fn"]):
            yield from ((last, found) for found in pathlib.Path(folder).glob("/".join(["**", *last, name])) if found.is_dir())

    def copy_proofs(self, folder):
        """Has the copy of its function have what the function's proofs have."""
        name = self.function.rsplit("::", 1)[-1]
        for last, proofs in [*self.proofs(folder)]:
            copied = proofs.with_name(f"{name}_{self.name}")
            shutil.copytree(proofs, copied)
            place = re.compile(rf"\b({'.'.join(last)}\.{name})(?=\.)")
            for file in copied.rglob("*.antt"):
                file.write_text(place.sub(rf"\1_{self.name}", file.read_text(encoding="utf-8")), encoding="utf-8")


def apply(edits, folder):
    """Makes edits in a copy of their crate."""
    for path in {file for edit in edits for file, _, _ in edit.pairs}:
        text = text_of(f"{folder}/{path}")
        lines, copies = text.split("\n"), []
        for edit in edits:
            if not edit.is_copied():
                for _, old, new in [pair for pair in edit.pairs if pair[0] == path]:
                    lines = [line.replace(old, new) for line in lines]
            elif edit.file == path:
                copies.append(edit.copied(text))
        for at, copied in sorted(copies, reverse=True):
            lines[at:at] = ["", *copied.split("\n")]
        with open(f"{folder}/{path}", "w", encoding="utf-8") as it:
            it.write("\n".join(lines))
    for edit in [edit for edit in edits if edit.is_copied()]:
        edit.copy_proofs(folder)


def text_of(path):
    with open(path, encoding="utf-8") as file:
        return file.read()


def rounds(edits):
    """Edits in groups, of which each has at most one that is made in a function itself."""
    left, found = list(edits), []
    while left:
        group = {}
        for edit in left:
            group.setdefault(edit.tried(), edit)
        found.append(list(group.values()))
        left = [edit for edit in left if edit not in found[-1]]
    return found


def spans(function, text):
    """The first and the last line of each function of this one's name in a file, attributes counted."""
    lines = text.split("\n")
    head = re.compile(rf"( *)(pub(\([a-z]+\))? )?(const )?fn {function.rsplit('::', 1)[-1]}\b")
    for at, line in enumerate(lines):
        if found := head.match(line):
            last = next(i for i, other in enumerate(lines) if i > at and other == found[1] + "}")
            first = at
            while re.match(r" *(#\[|///)", lines[first - 1]):
                first -= 1
            yield range(first + 1, last + 2)


def judge(edit, text, said):
    """Whether the edit is refused, and why or why not."""
    function = edit.tried()
    told = re.search(rf"^fn \S*\b{re.escape(function)}: (.*)$", said, re.M)
    if not told:
        lines = said.strip().split("\n")
        error = next((line for line in lines if line.startswith("error")), lines[-1])
        return False, f"BAD EDIT: the prover did not come to the function: {error[:200]}"
    if told[1].startswith("proved"):
        return False, "NOT REFUSED: the function is still proved"
    place = re.compile(rf"(?:note: )?(?:\./)?({re.escape(edit.file)}:(\d+):\d+: .*not proved.*)")
    lines = [line for span in spans(function, text) for line in span]
    reasons = [it[1] for it in map(place.match, said.split("\n")) if it and int(it[2]) in lines]
    # (an answer that is written by hand, and does not show any more what its clause asks)
    path = "/".join(map(re.escape, function.split("::")))
    answer = re.compile(rf"(?:\./)?proofs/(?:.*/)?{path}/Answers\.antt:\d+:\d+: error: (`[^`]*`: .*)")
    names = re.compile(r"has no field|is not in scope|has no `|was not admitted")
    # (a message goes on in lines that begin with blanks)
    for line in re.sub(r"\n  +", " ", said).split("\n"):
        it = answer.match(line)
        if it and not names.search(it[1]):
            reasons.append(f"the answer of {it[1]}")
    if edit.clause:
        reasons = [reason for reason in reasons if re.search(rf"`(?!\S*requires-)\S*\bclause-{re.escape(edit.clause)}`", reason)]
    if not reasons:
        return False, f"NOT REFUSED by {f'its clause {edit.clause}' if edit.clause else 'a clause'}: {told[1][:100]}"
    return True, f"refused: {reasons[0][:150]}"


def unchanged(edit):
    """A copy of the edit's function that changes nothing."""
    control = copy.copy(edit)
    control.name, control.pairs = "as_it_stands", [[file, old, old] for file, old, _ in edit.pairs]
    return control


def controls(edits):
    """A copy that changes nothing, of the shortest function that is copied, of those with proofs by hand where there are any."""

    def cost(edit):
        folder = f"{ROOT}/crates/{edit.crate}"
        return not [*edit.proofs(folder)], len(edit.span(text_of(f"{folder}/{edit.file}")))

    return [unchanged(edit) for edit in sorted([edit for edit in edits if edit.is_copied()], key=cost)[:1]]


def is_proved(function, said):
    return bool(re.search(rf"^fn \S*\b{re.escape(function)}: proved", said, re.M))


def checked(uses, crate, edits, functions, kept):
    """What the prover answers and says of these functions, with the edits, over what is kept of a check; and the texts of the edits' files."""
    with tempfile.TemporaryDirectory(prefix="rt-edit-") as room:
        for part in PARTS:
            if os.path.isdir(f"{ROOT}/crates/{crate}/{part}"):
                shutil.copytree(f"{ROOT}/crates/{crate}/{part}", f"{room}/{part}")
        apply(edits, room)
        ran = subprocess.run(
            [*words(uses, crate, functions), "--incremental", kept],
            cwd=room,
            stdin=subprocess.DEVNULL,
            stdout=subprocess.PIPE,
            stderr=subprocess.STDOUT,
            errors="replace",
            check=False,
        )
        return ran.returncode, ran.stdout, [text_of(f"{room}/{edit.file}") for edit in edits]


def try_round(uses, crate, edits, kept):
    """Of each edit: whether it is refused, and why or why not. Those that are not, beside others, are tried again without these: one may
    call a function that another edit changes, and then the prover does not judge it. Where all are left, each half is tried alone."""
    tried = [*edits, *controls(edits)]
    status, said, texts = checked(uses, crate, tried, [edit.tried() for edit in tried], kept)
    if status not in (0, 1):
        answers = [(edit, False, f"BAD EDIT: the prover ended with {status}: {said.strip()[-200:]}") for edit in edits]
    elif not all(is_proved(control.tried(), said) for control in tried[len(edits) :]):
        error = next((line for line in said.split("\n") if line.startswith("error")), "")
        answers = [(edit, False, f"NOT JUDGED: a copy that changes nothing is not proved: {error[:200]}") for edit in edits]
    else:
        answers = [(edit, *judge(edit, text, said)) for edit, text in zip(edits, texts)]
    left = [edit for edit, is_refused, _ in answers if not is_refused]
    if not left or len(edits) == 1:
        return answers
    left.sort(key=Edit.is_copied)
    half = len(left) // 2
    again = [left] if len(left) < len(edits) else [left[:half], left[half:]]
    return [it for it in answers if it[1]] + [it for group in again for it in try_round(uses, crate, group, kept)]


def try_crate(uses, crate, edits):
    """Of each edit of a crate: whether it is refused, and why or why not. Where none is made in a copy, the first function is checked as it
    stands, and it is told where that is not proved."""
    with tempfile.TemporaryDirectory(prefix="rt-edit-") as kept:
        if os.path.isdir(kept_before := f"{ROOT}/crates/{crate}/out/incremental"):
            shutil.copytree(kept_before, kept, dirs_exist_ok=True)
        answers = [it for group in rounds(edits) for it in try_round(uses, crate, group, kept)]
        if controls(edits):
            return answers
        status, said, _ = checked(uses, crate, [], [edits[0].function], kept)
        wrong = [(edits[0], False, f"NOT PROVED as it stands: {said.strip()[-200:]}")] if status else []
        return wrong + answers


def try_unchanged(uses, crate, edits):
    """Of each function: whether it is proved unchanged, in a copy where it is copied."""
    copies = [*{edit.function: unchanged(edit) for edit in edits}.values()]
    with tempfile.TemporaryDirectory(prefix="rt-edit-") as kept:
        _, said, _ = checked(uses, crate, copies, [copied.tried() for copied in copies], kept)
    proved = [(copied, is_proved(copied.tried(), said)) for copied in copies]
    return [(copied, is_right, "proved, unchanged" if is_right else "NOT PROVED, unchanged") for copied, is_right in proved]


def main(given):
    names = [word for word in given if word != "--unchanged"]
    attempt = try_crate if len(names) == len(given) else try_unchanged
    uses, bad, work = crates(), 0, []
    unknown = {name for name in os.listdir(f"{ROOT}/crates") if os.path.isdir(f"{ROOT}/crates/{name}/wrong-bodies")} - {*uses}
    for crate in uses:
        folder = f"{ROOT}/crates/{crate}/wrong-bodies"
        if names and crate not in names or not os.path.isdir(folder):
            continue
        edits = [Edit(crate, f"{folder}/{name}") for name in sorted(os.listdir(folder)) if name.endswith(".edit")]
        for edit in [edit for edit in edits if edit.why_bad()]:
            print(f"{crate}/{edit.name}: BAD EDIT: {edit.why_bad()}", flush=True)
            bad += 1
        good = [edit for edit in edits if not edit.why_bad()]
        work += [(crate, good)] * bool(good)
    right, start = 0, time.monotonic()
    with concurrent.futures.ThreadPoolExecutor(min(4, os.cpu_count() or 1)) as pool:
        # (those with most edits first)
        work.sort(key=lambda it: -len(it[1]))
        for task in concurrent.futures.as_completed([pool.submit(attempt, uses, *it) for it in work]):
            for edit, is_right, why in task.result():
                right, bad = right + is_right, bad + (not is_right)
                print(f"{edit.crate}/{edit.name}: {edit.function}: {why}", flush=True)
    for name in unknown:
        print(f"{name}: it has edits, and crates.txt does not name it")
    strange = {*names} - {crate for crate, _ in work}
    for name in strange:
        print(f"{name}: no crate of this name has edits")
    print(f"edits: {right} {'refused' if attempt == try_crate else 'proved'}, {bad} not, in {time.monotonic() - start:.0f} s")
    return 1 if bad or unknown or strange or not right else 0


if __name__ == "__main__":
    sys.exit(main(sys.argv[1:]))
