#!/usr/bin/env python3
"""Plants bugs in the code of crates, and tells which of them a contract lets through.

    tools/plant.py CRATE [CRATE ..]

The bugs of a crate are the files of tools/planted/CRATE, written like must-fail edits: `file:`, `old:` and `new:`.
A bug that changes nothing that anybody can observe says so in a line `why:`.
They are planted in a copy of the repository, and the crate is checked there. A function is proved from the contracts of
those that it calls and not from their bodies, so bugs of different functions are tried in one check, each for itself:
it is refused where the check fails in its own function. One line a bug:

    refused   the check fails in the function
    by name   it fails only because a proof file names what the bug took away: this says little of the contract
    harmless  the check passes, and `why:` says why it may
    survived  the check passes: the contract does not speak of this bug
    bad       the edit does not fit the text, or does not compile

After the bugs of a crate comes a line with the sums. The status is 1 if a bug survived or is bad.
"""
import collections
import pathlib
import re
import shutil
import subprocess
import sys
import tempfile

TOP = pathlib.Path(__file__).resolve().parent.parent

# What the check says where a proof file names what the bug took away.
NAMES = r"has no field|is not in scope|has no `|was not admitted"

KINDS = ("refused", "by name", "harmless", "survived", "bad")


def function_at(lines, number):
    """The name of the function that the line stands in; none before the first one."""
    for line in reversed(lines[: number + 1]):
        found = re.match(r"\s*(?:pub(?:\(.*?\))? )?fn (\w+)", line)
        if found:
            return found.group(1)
        if line and not line[0].isspace() and line[0] not in "{})/":
            return None
    return None


class Bug:
    """A bug as its file tells it, and the function of the crate in this folder that it is in."""

    def __init__(self, path, folder):
        self.folder = folder
        said = [line.partition(": ")[::2] for line in path.read_text().splitlines()]
        self.name = path.stem
        self.file = next(text for word, text in said if word == "file")
        self.why = next((text for word, text in said if word == "why"), None)
        self.edits = list(zip(*([text for word, text in said if word == side] for side in ("old", "new"))))
        before = (folder / self.file).read_text()
        self.fits = self.planted(before) is not None
        lines = before.splitlines()
        numbers = [i for i, line in enumerate(lines) if any(old in line for old, _ in self.edits)]
        functions = {function_at(lines, i) for i in numbers}
        # a bug outside of functions, or in more than one, is tried alone
        self.function = functions.pop() if len(functions) == 1 else None

    def planted(self, text):
        """The text with the bug in it; each pair applies to what the earlier ones made. None where it does not fit."""
        for old, new in self.edits:
            if text.count(old) != 1:
                return None
            text = text.replace(old, new)
        return text

    def told(self, lines):
        """The errors that a check tells of the bug's function."""
        text = (self.folder / self.file).read_text().splitlines()
        found = []
        for line in lines:
            at = re.match(r"(?:note: )?(?:\./)?(\S+?):(\d+):\d+: (.*)", line)
            if not at or not (line.startswith("note: src/") or "error" in at.group(3)):
                continue
            path, number = at.group(1), int(at.group(2))
            here = path == self.file and function_at(text, number - 1) == self.function
            proof = re.match(rf"proofs/(\w+/)*{self.function}/\w+\.antt$", path)
            if self.function is None or here or proof:
                found.append(line)
        return found


def try_out(folder, bugs):
    """Plants these bugs together, and says what became of those of which it can be told."""
    kept = {bug.file: (folder / bug.file).read_text() for bug in bugs}
    tried = []
    for bug in bugs:
        text = bug.planted((folder / bug.file).read_text())
        # one whose text another bug has changed is left for later
        if text is not None:
            (folder / bug.file).write_text(text)
            tried.append(bug)
    run = subprocess.run(["rt", "check"], cwd=folder, stdout=subprocess.PIPE, stderr=subprocess.STDOUT, text=True)
    lines = run.stdout.splitlines()
    proved = any(line.startswith("logic=proved") for line in lines)
    judged = any(line.startswith(("logic=not-proved", "rattle: no verdict")) for line in lines)
    fates = {}
    for bug in tried:
        told = bug.told(lines)
        first = next((line for line in told if not re.search(NAMES, line)), None)
        if proved:
            fates[bug.name] = ("harmless", bug.why) if bug.why else ("survived", "the crate is still proved")
        elif judged and first:
            fates[bug.name] = "refused", first
        elif judged and told:
            fates[bug.name] = "by name", told[0]
        elif not judged and (told or len(tried) == 1):
            fates[bug.name] = "bad", (told or lines or ["no word"])[0]
        elif judged and len(tried) == 1:
            fates[bug.name] = "refused", "the check fails elsewhere, or the prover met a limit"
    for file, text in kept.items():
        (folder / file).write_text(text)
    return fates


def rounds(bugs):
    """The bugs in groups with one of each name of a function."""
    groups = []
    for bug in bugs:
        group = next((g for g in groups if bug.function and all(it.function and it.function != bug.function for it in g)), None)
        if group is None:
            groups.append([bug])
        else:
            group.append(bug)
    return groups


def plant(copy, crate):
    """Plants the bugs of one crate; says how many survived or are bad."""
    folder = copy / "crates" / crate
    bugs = [Bug(path, folder) for path in sorted((TOP / "tools" / "planted" / crate).glob("*.edit"))]
    if not bugs:
        sys.exit(f"no bugs are written for {crate}")
    shutil.rmtree(folder / "must-fail", ignore_errors=True)
    if subprocess.run(["rt", "check"], cwd=folder, stdout=subprocess.DEVNULL, stderr=subprocess.DEVNULL).returncode:
        sys.exit(f"{crate} is not proved as it stands")
    fates = {bug.name: ("bad", "an old text does not stand once in the file") for bug in bugs if not bug.fits}
    for group in rounds([bug for bug in bugs if bug.fits]):
        fates.update(try_out(folder, group))
        left = [bug for bug in group if bug.name not in fates]
        # those that could not be told apart, one at a time
        for bug in left:
            fates.update(try_out(folder, [bug]))
    for bug in bugs:
        kind, why = fates[bug.name]
        print(f"{crate}  {kind:9} {bug.name}  {why[:150]}")
    sums = collections.Counter(kind for kind, _ in fates.values())
    print(f"{crate}: {len(bugs)} planted, " + ", ".join(f"{sums[kind]} {kind}" for kind in KINDS), flush=True)
    return sums["survived"] + sums["bad"]


def main(crates):
    if not crates:
        sys.exit(__doc__)
    with tempfile.TemporaryDirectory() as top:
        copy = pathlib.Path(top) / "copy"
        shutil.copytree(TOP, copy, ignore=shutil.ignore_patterns(".git"), symlinks=True)
        sys.exit(1 if sum(plant(copy, crate) for crate in crates) else 0)


if __name__ == "__main__":
    main(sys.argv[1:])
