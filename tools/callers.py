#!/usr/bin/env python3
"""Compares docs/CALLERS.md with the sources and examples/ (--check): each call and test of its table is there, each block of code of its
part on the crates stands in a source, and each text of examples/ is of the form that the grammar gives for it. It writes nothing."""

import re
import sys

from examples import TOP, Case, indented_blocks

CRATES, TEXT = TOP / "crates", (TOP / "docs/CALLERS.md").read_text()


def grammar():
    """The rules of the grammar as regular expressions; a rule names those before it."""
    rules = {"LF": "\n", "{": "(?:", "}": ")*", "[": "(?:", "]": ")?", "(": "(?:", ")": ")", "|": "|"}
    block = re.search(r"^    nonzero = .*?(?=^\S)", TEXT, re.M | re.S)[0]
    for name, body in re.findall(r"^    (\w+) = (.*(?:\n     .*)*)", block, re.M):
        words = re.findall(r'"[^"]*"|\w+|\S', body)
        rules[name] = "(?:" + "".join(re.escape(w[1:-1]) if w[0] == '"' else rules[w] for w in words) + ")"
    return rules


def faults():
    rules, part = grammar(), TEXT[TEXT.index("\n## The crates\n"):]
    for case in [Case(words.parent) for words in (TOP / "examples").glob("*/words")]:
        name = {0: case.words[0], 1: "verdict"}.get(case.status, "refusal")
        if name not in rules:
            yield f"{case.folder.name}: the grammar has no rule {name}"
        elif not re.fullmatch(rules[name], case.expected.decode()):
            yield f"{case.folder.name}: what it writes isn't a {name}"
    for crate, calls, _, tests in re.findall(r"^\| `(\w+)` \| (.*) \| (.*) \| (.*) \|$", part, re.M):
        source = "".join(path.read_text() for path in (CRATES / crate / "src").glob("*.rt"))
        yield from (f"{crate} has no {n}" for n in re.findall(r"\w+", calls) if not re.search(rf"\bpub (?:fn|struct) {n}\b", source))
        file, names = re.search(r"`([\w/]+\.rt)` (.*)", tests).groups()
        begins = re.findall(r"#\[test\]\nfn (\w+)\(", (CRATES / file).read_text())
        yield from (f"{file} has no test {name}" for name in set(re.findall(r"`(\w+)`", names)) - set(begins))
    sources = "".join(path.read_text() for path in [TOP / "crates.txt", *CRATES.glob("*/src/**/*.rt")])
    yield from ("no source has\n" + "\n".join(block) for _, block in indented_blocks(part.splitlines()) if "\n".join(block) not in sources)


sys.exit("\n".join(faults()) or 0)
