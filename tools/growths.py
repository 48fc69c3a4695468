#!/usr/bin/env python3
"""Refuses the built program each growth of its memory in turn, in the cases of examples/, and checks how each run ends.

    python3 tools/growths.py [--program PATH] [--most N]      (on Linux, with a C compiler as cc)

A growth is a call of the C library by which the program takes memory, malloc or realloc. A small library that is loaded before the
C library counts them, and refuses one: by turns it alone, and it and all after it. A run has to end with status 7 and nothing written, or
with the status and the whole text of the case; and with nothing on standard error. Cases with more than N growths are left out, if N is given.
It prints a line for each command with the number of its cases, of their growths, and of the runs that ended in either way.
"""

import argparse
import collections
import os
import subprocess
import sys
import tempfile
from pathlib import Path

TOP = Path(__file__).resolve().parent.parent
BUILT = TOP / "crates/engrave_cli/out/engrave_cli"
NO_MEMORY, SECONDS = 7, 60

LIBRARY = r"""
#define _GNU_SOURCE
#include <dlfcn.h>
#include <errno.h>
#include <stdio.h>
#include <stdlib.h>
#include <unistd.h>

static long calls, first, last;
static void *(*take)(size_t), *(*grow)(void *, size_t);

static long number(const char *name) {
    const char *text = getenv(name);
    return text ? atol(text) : 0;
}

__attribute__((constructor)) static void begin(void) {
    take = dlsym(RTLD_NEXT, "malloc");
    grow = dlsym(RTLD_NEXT, "realloc");
    first = number("FIRST_REFUSED");
    last = number("LAST_REFUSED");
    calls = 0;
}

static int is_refused(void) {
    calls += 1;
    if (calls < first || last < calls)
        return 0;
    errno = ENOMEM;
    return 1;
}

void *malloc(size_t size) {
    if (!take)
        take = dlsym(RTLD_NEXT, "malloc");
    return is_refused() ? NULL : take(size);
}

void *realloc(void *old, size_t size) {
    if (!grow)
        grow = dlsym(RTLD_NEXT, "realloc");
    return is_refused() ? NULL : grow(old, size);
}

__attribute__((destructor)) static void end(void) {
    if (getenv("COUNT_TO"))
        dprintf(number("COUNT_TO"), "%ld", calls);
}
"""


class Case:
    def __init__(self, folder):
        self.folder = folder
        self.words = (folder / "words").read_text().splitlines()
        self.text = (folder / "expected").read_bytes()
        status = folder / "status"
        self.status = int(status.read_text()) if status.exists() else 0
        self.command = self.words[0] if self.words else ""
        forms = [word[7:] for word in self.words if word.startswith("--form=")]
        self.command += f" --form={forms[0]}" if forms else ""

    def run(self, program, library, **said):
        """How a run of the case ends: its status, what it writes, and how many growths it asks for."""
        reader, writer = os.pipe()
        surroundings = {"LD_PRELOAD": str(library), "COUNT_TO": str(writer), **said}
        ran = subprocess.run(
            [program, *self.words], cwd=self.folder, env=surroundings, pass_fds=[writer], capture_output=True, timeout=SECONDS, check=False
        )
        os.close(writer)
        with open(reader, "rb") as counted:
            return (ran.returncode, ran.stdout, ran.stderr), int(counted.read() or 0)

    def faults(self, program, library, growths, ends):
        """What is wrong with the runs in which a growth is refused; counts how the others end."""
        due = (self.status, self.text, b"")
        for number in range(1, growths + 1):
            for last in (number, 10**9):
                ended, _ = self.run(program, library, FIRST_REFUSED=str(number), LAST_REFUSED=str(last))
                if ended == (NO_MEMORY, b"", b""):
                    ends["status 7"] += 1
                elif ended == due:
                    ends["the due text"] += 1
                else:
                    yield f"{self.folder.name}: without growth {number}{' and later ones' * (last != number)} it ended with {ended}"


def main():
    parser = argparse.ArgumentParser(description=__doc__, formatter_class=argparse.RawDescriptionHelpFormatter)
    parser.add_argument("--program", type=Path, default=BUILT)
    parser.add_argument("--most", type=int, default=10**9)
    options = parser.parse_args()
    program = options.program.resolve()
    if not os.access(program, os.X_OK):
        sys.exit(f"{program} isn't built")
    wrong, counts, ends = [], collections.Counter(), collections.defaultdict(collections.Counter)
    with tempfile.TemporaryDirectory() as folder:
        library = Path(folder, "refusing.so")
        subprocess.run(["cc", "-O1", "-shared", "-fPIC", "-x", "c", "-", "-o", library, "-ldl"], input=LIBRARY.encode(), check=True)
        for words in sorted((TOP / "examples").glob("*/words")):
            case = Case(words.parent)
            ended, growths = case.run(program, library)
            if ended != (case.status, case.text, b""):
                wrong.append(f"{case.folder.name}: with all growths it ended with {ended}")
            elif growths <= options.most:
                ends[case.command]["cases"] += 1
                ends[case.command]["growths"] += growths
                wrong += case.faults(program, library, growths, ends[case.command])
    for command, counted in sorted(ends.items()):
        counts.update(counted)
        print(f"{command}: {', '.join(f'{count} {what}' for what, count in counted.items())}")
    print("\n".join(wrong + [f"{', '.join(f'{count} {what}' for what, count in counts.items())}, {len(wrong)} faults"]))
    sys.exit(1 if wrong else 0)


if __name__ == "__main__":
    main()
