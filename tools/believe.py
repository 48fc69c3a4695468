#!/usr/bin/env python3
"""Writes docs/definitions/: what a reader of a contract has to believe, computed from the sources.

    python3 tools/believe.py            # writes the pages
    python3 tools/believe.py --check    # says whether they are up to date; .ci/run does this

It walks from the clauses of a public call through the definitions in specs/ that they cite, directly or through others, and writes
each with the comment that stands above it. It fails on a public definition without a comment.
"""

import argparse
import re
import sys
from pathlib import Path

TOP = Path(__file__).resolve().parent.parent
CRATES = TOP / "crates"
PAGES = TOP / "docs/definitions"
WORD = re.compile(r"[A-Za-z_][A-Za-z0-9_']*")
DEFINES = re.compile(r"^(?:(?:abbrev|unfoldable) pub|pub record|pub data|pub)(?! mod) ([A-Za-z_][A-Za-z0-9_'-]*)")
USE = re.compile(r"(?:ghost )?use Rattle\.(\w+)\.specs\.([\w.]+)(?:\.\{([^}]*)\}| as (\w+))")

# What is walked first: the promise of the program, and its top call.
HEADLINE = ("gouge_checker", "check", "safe")
TOP_CALL = ("engrave_core", "engrave", None)


class Definition:
    """A definition of specs/, or a type or constant of the code as definitions see it."""

    def __init__(self, crate, module, name, comment, text, uses):
        self.crate, self.module, self.name, self.comment, self.text, self.uses = crate, module, name, comment, text, uses


def imports(text):
    """What each name that a file imports stands for: its crate, module and name there."""
    names = {}
    for crate, module, listed, whole in USE.findall(text):
        if whole:
            names[whole] = (crate, module, None)
        for item in listed.split(",") if listed else []:
            name, _, other = item.strip().partition(" as ")
            if name:
                names[other or name] = (crate, module, name)
    return names


def spec_definitions(crate, path, base):
    """The public definitions of a file of specs/."""
    module = ".".join(path.relative_to(base).with_suffix("").parts)
    uses, lines = imports(path.read_text()), path.read_text().splitlines()
    starts = [number for number, line in enumerate(lines) if DEFINES.match(line)]
    for number, end in zip(starts, starts[1:] + [len(lines)]):
        above = number
        while above > 0 and lines[above - 1].startswith("-- "):
            above -= 1
        comment = " ".join(line[3:] for line in lines[above:number])
        body = [line for line in lines[number:end] if not line.startswith("--")]
        yield Definition(crate, module, DEFINES.match(lines[number])[1], comment, "\n".join(body), uses)


def clauses_of(text, call):
    """The clauses of a public function in a file, by name; a lone one has the name of its kind."""
    found = re.search(rf"\bpub fn {call}\b", text)
    if not found:
        return None
    clauses, place = {}, found.end()
    for match in re.compile(r"\b(requires|ensures)\b\s*(\w*)\s*\{|^\{", re.M).finditer(text, place):
        if match[0] == "{":
            break
        depth, end = 1, match.end()
        while depth:
            depth += {"{": 1, "}": -1}.get(text[end], 0)
            end += 1
        clauses[match[2] or match[1]] = text[match.end() : end - 1]
    return clauses


class Sources:
    def __init__(self):
        self.definitions = {}
        for specs in sorted(CRATES.glob("*/specs")):
            for path in sorted(specs.rglob("*.antt")):
                for it in spec_definitions(specs.parent.name, path, specs):
                    self.definitions[it.crate, it.module, it.name] = it

    def cited(self, text, uses, crate, module):
        """The definitions that a text names."""
        for word in dict.fromkeys(WORD.findall(text)):
            place = uses.get(word, (crate, module, word))
            if place in self.definitions:
                yield self.definitions[place]

    def reached(self, call):
        """The definitions that the clauses of a call reach, in the order in which a reader meets them."""
        crate, name, clause = call
        for path in sorted((CRATES / crate / "src").rglob("*.rt")):
            clauses = clauses_of(path.read_text(), name)
            if clauses:
                break
        else:
            sys.exit(f"no contract of {crate}::{name} was found")
        text = clauses[clause] if clause else "\n".join(clauses.values())
        found, waiting = {}, list(self.cited(text, imports(path.read_text()), crate, None))
        while waiting:
            it = waiting.pop(0)
            if (it.crate, it.module, it.name) not in found:
                found[it.crate, it.module, it.name] = it
                waiting += [other for other in self.cited(it.text, it.uses, it.crate, it.module) if other is not it]
        return list(found.values())


def crate_order():
    """The crates, lowest first, as crates.txt lists them."""
    return re.findall(r"^(\w+):", (TOP / "crates.txt").read_text(), re.M)


def page(title, lead, definitions):
    lines = [f"# {title}", "", *lead, ""]
    for crate in crate_order():
        modules = dict.fromkeys(it.module for it in definitions if it.crate == crate)
        for module in modules:
            path = f"crates/{crate}/specs/{module.replace('.', '/')}.antt"
            lines += [f"## [`{path}`](../../{path})", "", "| word | means |", "|---|---|"]
            for it in definitions:
                if (it.crate, it.module) == (crate, module):
                    lines.append(f"| `{it.name}` | {it.comment.replace('|', chr(92) + '|')} |")
            lines.append("")
    return "\n".join(lines)


def pages(sources):
    made = "This page is made by `tools/believe.py` from the definitions' own comments. How to read a contract: [../DEFINITIONS.md](../DEFINITIONS.md)."
    headline = sources.reached(HEADLINE)
    engrave = [it for it in sources.reached(TOP_CALL) if it not in headline]
    others = [it for it in sources.definitions.values() if it not in headline and it not in engrave]
    return {
        "headline.md": page(
            "What the headline rests on",
            [f"The {len(headline)} definitions that the clause `{HEADLINE[2]}` of `{HEADLINE[0]}::{HEADLINE[1]}` cites, directly or through others. {made}"],
            headline,
        ),
        "engrave.md": page(
            "What else the top call rests on",
            [f"The {len(engrave)} further definitions that the clauses of `{TOP_CALL[0]}::{TOP_CALL[1]}` cite, directly or through others. {made}"],
            engrave,
        ),
        "others.md": page(
            "The definitions of the other calls",
            [f"The {len(others)} public definitions that only the contracts of other calls, or of laws, cite. {made}"],
            others,
        ),
    }


def main():
    parser = argparse.ArgumentParser(description=__doc__.splitlines()[0])
    parser.add_argument("--check", action="store_true", help="write nothing; fail where a page is out of date")
    check = parser.parse_args().check
    sources = Sources()
    wrong = [f"{it.crate}/specs/{it.module}: {it.name} has no comment" for it in sources.definitions.values() if not it.comment]
    for name, text in pages(sources).items():
        path = PAGES / name
        if not check:
            PAGES.mkdir(parents=True, exist_ok=True)
            path.write_text(text)
        elif not path.exists() or path.read_text() != text:
            wrong.append(f"docs/definitions/{name} is out of date: run python3 tools/believe.py")
    print("\n".join(wrong + [f"definitions: {len(sources.definitions)} public ones, {len(wrong)} faults"]))
    sys.exit(1 if wrong else 0)


if __name__ == "__main__":
    main()
