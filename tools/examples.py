#!/usr/bin/env python3
"""Runs the cases of examples/ against the built program, and compares the documents' examples with them.

    python3 tools/examples.py [--program PATH]

A case is a folder: README.md says in two sentences what it shows, `words` has the words of the command, one a line, `expected` the
whole text that it writes, `status` its exit status if that isn't 0; the other files are those that it reads. Each command
line `$ engrave_cli ..` in README.md and docs/ has to be the words of a case, as a shell takes them, and the lines under it, what
the case writes; where the line ends with `> FILE` there are none, and each file of this name in examples/ has to be what the case
writes. A file of the repository that isn't the case's own, as a font, has its path from the top in the documents, and with `../../`
before it in the case. A block under a line `<!-- FILE -->` has to be that file of examples/. Each case that docs/MESSAGES.md names
beside a line has to write it.
"""

import argparse
import re
import shlex
import subprocess
import sys
import textwrap
from pathlib import Path

TOP = Path(__file__).resolve().parent.parent
BUILT = TOP / "crates/engrave_cli/out/engrave_cli"
BUILD = "(cd crates/engrave_cli && rt run -- probe --drawing=data/plate.loops --at=500,500 --bit=1/1 --rmax=600)"
SECONDS = 60


class Case:
    def __init__(self, folder):
        self.folder = folder
        self.words = (folder / "words").read_text().splitlines()
        self.expected = (folder / "expected").read_bytes()
        status = folder / "status"
        self.status = int(status.read_text()) if status.exists() else 0

    def faults(self, program):
        """What is wrong with a run of the case, or with its README."""
        ran = subprocess.run([program, *self.words], cwd=self.folder, capture_output=True, timeout=SECONDS)
        if ran.stdout != self.expected:
            yield f"wrote {ran.stdout!r}, not {self.expected!r}"
        if ran.returncode != self.status:
            yield f"ended with {ran.returncode}, not {self.status}"
        if ran.stderr:
            yield f"wrote on standard error: {ran.stderr!r}"
        sentences = re.findall(r"[.:?!](?:\s|$)", (self.folder / "README.md").read_text())
        if len(sentences) < 2:
            yield "its README.md isn't two sentences"


def indented_blocks(lines):
    """Each indented block of a document: the line above it that isn't blank, and the block's lines."""
    above, block = "", []
    for line in [*lines, ""]:
        if line.startswith("    "):
            block.append(line)
            continue
        if block:
            yield above, textwrap.dedent("\n".join(block)).splitlines()
            block = []
        if line:
            above = line


def document_faults(path, cases):
    """What is wrong with the examples that a document shows."""
    shown = {tuple(word.replace("../../", "") for word in case.words): case for case in cases}
    for above, block in indented_blocks(path.read_text().splitlines()):
        named = re.fullmatch(r"<!-- (\S+) -->", above)
        if named and (TOP / "examples" / named[1]).read_text().splitlines() != block:
            yield f"the block isn't the file {named[1]}"
        runs = "\n".join(block).split("$ engrave_cli ")
        for run in runs[1:] if "\n".join(block).startswith("$ engrave_cli ") else []:
            line, _, text = run.partition("\n")
            words, _, file = line.partition(" > ")
            case = shown.get(tuple(shlex.split(words)))
            if case is not None and file:
                files = list((TOP / "examples").glob("*/" + file))
                if text.strip() or not files or any(path.read_bytes() != case.expected for path in files):
                    yield f"{words!r} doesn't write what each {file} of examples/ holds"
            elif case is None:
                yield f"no case has the words {words!r}"
            elif case.expected.decode().rstrip("\n") != text.rstrip("\n"):
                yield f"{words!r} writes {case.expected.decode()!r}"


def message_faults(path, cases):
    """What is wrong with the cases that the table of messages names: a capital word of a line stands for any number."""
    named = {case.folder.name: case for case in cases}
    for row in re.findall(r"^\| `([^`]+)` \|.*\| ([^|]*) \|$", path.read_text(), re.M):
        line = re.compile(r"\S+".join(map(re.escape, re.split(r"\b[A-Z]+[0-9]?(?:,[A-Z][0-9])*\b", row[0]))))
        for name in re.findall(r"`([^`]+)`", row[1]):
            if name not in named:
                yield f"there is no case {name}"
            elif not any(line.fullmatch(written) for written in named[name].expected.decode().splitlines()):
                yield f"the case {name} doesn't write `{row[0]}`"


def main():
    parser = argparse.ArgumentParser(description=__doc__.splitlines()[0])
    parser.add_argument("--program", type=Path, default=BUILT)
    program = parser.parse_args().program.resolve()
    if not program.exists():
        sys.exit(f"{program} isn't there; to build it: {BUILD}")
    cases = [Case(words.parent) for words in sorted((TOP / "examples").glob("*/words"))]
    wrong = [f"{case.folder.name}: {fault}" for case in cases for fault in case.faults(program)]
    documents = [TOP / "README.md", *sorted((TOP / "docs").glob("*.md"))]
    wrong += [f"{path.name}: {fault}" for path in documents for fault in document_faults(path, cases)]
    wrong += [f"MESSAGES.md: {fault}" for fault in message_faults(TOP / "docs/MESSAGES.md", cases)]
    print("\n".join(wrong + [f"examples: {len(cases)} cases, {len(documents)} documents, {len(wrong)} faults"]))
    sys.exit(1 if wrong else 0)


if __name__ == "__main__":
    main()
