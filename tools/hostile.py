"""Feeds the built program truncated, huge, binary and adversarial words, drawings of each form and code, and checks how each run ends.

    python3 tools/hostile.py [--runs N] [--seeds N ..] [--minutes N] [--program PATH] [--patience N] [--huge]      (on Linux)

Each run has to end with a status and the text that the manual gives it, with nothing on standard error, within the stated
memory and time. What is due is written in hostile_rows.py and hostile_large.py, or read apart from the program by
hostile_expected.py; else the form of the text is judged alone. It prints a line for each part; the files of a run that ends otherwise
are kept. On a machine that does other work, --patience gives each run so many times the stated seconds. With --huge the largest inputs
are run instead, which takes some gigabytes of disk. The programs are started by spawner.py,
which is small: the memory that is printed is the program's, but at least that script's, which is printed first.
"""

import argparse
import multiprocessing
import os
import random
import re
import shutil
import signal
import subprocess
import sys
import tempfile
import time
from collections import namedtuple
from pathlib import Path

# The folder stays as it is.
sys.dont_write_bytecode = True

import form_cases
import hostile_expected
import hostile_large as large
import hostile_rows as rows
import hostile_words
import manual_tables

BUILT = Path(__file__).resolve().parent.parent / "crates/engrave_cli/out/engrave_cli"
BUILD = "(cd crates/engrave_cli && rt run -- probe --drawing=data/plate.loops --at=500,500 --bit=1/1 --rmax=600)"
MEBIBYTE = 1 << 20
# No run goes on for longer, no worker keeps the files of more runs, and no more runs may be wrong.
MOST_SECONDS, MOST_KEPT, MOST_WRONG = 600, 10, 100

# A run: its words, its files in pieces, the statuses that may be due, the text that is due with the first of them (None
# where its form is judged alone), where standard output goes, and the address space that it has in KiB, 0 for all.
Case = namedtuple("Case", "part words files statuses text output space", defaults=("file", 0))
Ended = namedtuple("Ended", "status seconds mebibytes")


def case_of(part, words, files, status, text):
    """A case of a row."""
    words = words.split() if isinstance(words, str) else words
    words = [word if isinstance(word, bytes) else word.encode() for word in words]
    files = {name: [(file, 1)] if isinstance(file, bytes) else file for name, file in files.items()}
    return Case(part, words, files, (status,), b"" if text is None else text.encode() + b"\n")


def row_cases():
    """The rows that are written by hand."""
    for drawing, status, line in rows.DRAWINGS:
        yield case_of("drawings by hand", rows.PROBE, {"d": drawing}, status, line)
    for code, status, text in rows.CODES:
        yield case_of("codes by hand", rows.MOVES, {"c": code}, status, text)
    for drawing, code, status, line in rows.CHECKS:
        yield case_of("checks by hand", rows.CHECK, {"d": drawing, "c": code}, status, line)
    plain = {"d": rows.SQUARE, "c": rows.DOWN}
    for words, drawing, status, text in rows.CARVINGS:
        yield case_of("carvings by hand", words, {"d": drawing}, status, text)
    for words, drawing, code, status, text in rows.COVERS:
        yield case_of("covers by hand", words, {"d": drawing, "c": code}, status, text)
    for words, drawing, status, text in rows.FORMED:
        case = case_of("forms by hand", f"{rows.FLATTEN} {words}", {"d": drawing}, status, text)
        yield case if text is not None else case._replace(text=hostile_expected.due(case.words, {b"d": drawing})[1])
    for words, status, text in rows.WORDS:
        yield case_of("words by hand", words, plain, status, text)
    for words, status, text in rows.NAMES + (rows.UNREADABLE if os.geteuid() else []):
        yield case_of("names of no plain files", words, plain, status, text)
    for words in rows.UNWRITTEN:
        for output in ("full", "closed", "broken", "readonly"):
            yield case_of("outputs that fail", words, plain, 6, None)._replace(output=output)
    for words, drawing, code, status, text in large.LARGE:
        case = case_of("large inputs", words, {"d": drawing, "c": code}, status, None if text is ... else text)
        yield case._replace(text=None) if text is ... else case


def due_case(part, words, drawing, code):
    """A case whose answer is read apart from the program."""
    statuses, text = hostile_expected.due(words, {b"d": drawing, b"c": code})
    return Case(part, words, {"d": [(drawing, 1)], "c": [(code, 1)]}, statuses, text)


def cut_cases():
    """Valid inputs that end at every byte."""
    probe, moves, check = (words.encode().split() for words in (rows.PROBE, rows.MOVES, rows.CHECK))
    for drawing in (rows.PLATE, rows.ANGLE):
        for end in range(len(drawing)):
            yield due_case("cut drawings", probe, drawing[:end], b"")
    for code in (rows.LENIENT, rows.DOWN):
        for end in range(len(code)):
            yield due_case("cut codes", moves, b"", code[:end])
            yield due_case("cut codes", check, rows.ANGLE, code[:end])
            yield due_case("cut codes", rows.REPAIR.encode().split(), rows.ANGLE, code[:end])
    for words in (rows.CONTACTS, rows.CARVE):
        for end in range(len(rows.PLATE)):
            yield due_case("cut drawings", words.encode().split(), rows.PLATE[:end], b"")
    for options, drawing in ((rows.DXF, rows.dxf(rows.SIDES)), (rows.DXF, rows.dxf(rows.ROUND)), (rows.CXF, rows.FONT), (rows.PBM, rows.PLAIN_MAP), (rows.PBM, rows.PACKED_MAP)):
        words = f"{rows.FLATTEN} {options}".encode().split()
        for end in range(len(drawing)):
            yield due_case("cut forms", words, drawing[:end], b"")
            if options != rows.PBM:
                yield due_case("cut forms", rows.STROKES.replace(rows.DXF, options).encode().split(), drawing[:end], b"")
    listed = rows.PROBE + " --limit=70 --form=loops", rows.MOVES + " --units=mm1000"
    for words in (rows.CONTACTS, rows.CARVE + " --safe=1 --feed=1", rows.FLOOR + " --pocket=both", *listed, rows.CHECK, rows.COVER + " --pitch=7", rows.REPAIR, rows.STROKES):
        for end in range(len(words)):
            yield due_case("cut words", words[:end].encode().split(), rows.SQUARE, rows.DOWN)


def scarce_cases():
    """Runs that have less and less memory: they answer, or end with the status that tells the want of it."""
    far = [large.FAR, (b"Z9\n", 300_000)]
    lines = [(large.BEGIN, 1), (large.LINE, 131_072), (large.END, 1)]
    for name, words, file, status, text in (
        ("d", rows.PROBE, large.RING, 0, "depth 0"),
        ("d", large.IN_DXF, lines, 3, "input cross 0,1"),
        ("d", large.IN_PBM + " --pixel=4", [(b"P4 8191 8191\n", 1), (b"\xff", 8_387_584)], 0, "32764,32764 0,32764 0,0 32764,0"),
        ("d", rows.SPREAD, [(large.SPREAD_SQUARES + large.between(9, 4), 1)], 3, "input too many chains"),
        ("c", rows.MOVES, far, 0, "moves 300000"),
    ):
        for mebibytes in rows.SPACES:
            case = case_of("scarce memory", words, {name: file}, status, text)
            yield case._replace(statuses=(status, 7), space=mebibytes * 1024)


def changed(chance, text, tokens):
    """The text with a few places flipped, dropped, doubled, spliced or filled with something else; or a text of chance."""
    if chance.random() < 0.1:
        count = chance.randrange(300)
        return chance.choice((chance.randbytes(count), bytes(chance.choices(rows.ALPHABET, k=count))))
    text = bytearray(text)
    for _ in range(chance.choice((1, 1, 1, 2, 4))):
        at, end = sorted(chance.randrange(len(text) + 1) for _ in range(2))
        digits = [place for place, byte in enumerate(text) if byte in b"0123456789"]
        change = chance.randrange(10)
        if change < 4 and digits:
            text[chance.choice(digits)] = chance.choice(b"0123456789-. ")
        elif change == 4 and at < len(text):
            text[at] ^= 1 << chance.randrange(8)
        elif change == 5:
            del text[at : at + 1]
        elif change == 6:
            text[at:at] = text[at : at + 1]
        elif change == 7:
            text[at : at + chance.choice((0, 1, end - at))] = text[: end - at]
        elif change == 8:
            text[at:at] = chance.randbytes(1)
        else:
            text[at : at + chance.randrange(3)] = chance.choice(tokens)
    return bytes(text)


def formed_case(chance):
    """A file of some form, as it is or changed."""
    form = chance.choice(list(form_cases.MAKERS))
    drawing, said = form_cases.formed(chance, form)
    for _ in range(chance.choice((0, 1, 1, 2, 3))):
        drawing = chance.choice((form_cases.mutated(chance, drawing), changed(chance, drawing, rows.FORM_TOKENS)))
    words = chance.choice(rows.DRAWN).split() + form_cases.options_of(chance, said)
    return due_case(f"changed {form} files", [word.encode() for word in words], drawing, b"")


def grammar_case(chance):
    """A command and options of it, each with a value of its form, at an end of its range, or beyond it; now and then one thing is wrong."""
    words = hostile_words.command(chance)
    drawing, code = chance.choice(rows.DRAWING_BASES), chance.choice(rows.CODE_BASES)
    return due_case("words by grammar", words, drawing, code)


def random_case(chance):
    """One changed input."""
    kind = chance.random()
    if kind < 0.35:
        return formed_case(chance)
    if kind < 0.55:
        return grammar_case(chance)
    reader = chance.choice(("drawings", "codes", "checks", "contacts", "carvings", "covers", "repairs", "words"))
    drawing, code = chance.choice(rows.DRAWING_BASES), chance.choice(rows.CODE_BASES)
    words = chance.choice(rows.WORD_BASES[reader]).encode()
    either = chance.random() < 0.5
    if reader in ("drawings", "contacts", "carvings") or reader in ("checks", "covers", "repairs") and either:
        drawing = changed(chance, drawing, rows.DRAWING_TOKENS)
    if reader == "codes" or reader in ("checks", "covers", "repairs") and not either:
        code = changed(chance, code, rows.CODE_TOKENS)
    if reader == "words":
        words = changed(chance, words, rows.WORD_TOKENS).replace(b"\0", b"")
    return due_case("changed " + reader, words.split(b" "), drawing, code)


def cases_of(options):
    """The cases: with the random ones as many as are asked for."""
    if options.huge:
        for words, drawing, code, status, text in large.HUGE:
            yield case_of("huge inputs", words, {"d": drawing, "c": code}, status, text)
        return
    count = 0
    for cases in (row_cases(), cut_cases(), scarce_cases()):
        for case in cases:
            count += 1
            yield case
    chances = [random.Random(seed) for seed in options.seeds]
    for number in range(options.runs - count):
        yield random_case(chances[number % len(chances)])


def enter(folder, program, patience):
    """Makes the folder in which a worker runs its cases, with the names that aren't plain files."""
    global PROGRAM, PIPE, KEPT, SPAWNER, PATIENCE
    KEPT = []
    PROGRAM, PATIENCE = program, patience
    os.chdir(tempfile.mkdtemp(dir=folder))
    SPAWNER = Spawner()
    os.mkdir("folder")
    os.symlink("gone", "dangling")
    os.symlink("circle", "circle")
    os.mkfifo("pipe")
    # Held open for writing, so that nobody who opens it to read has to wait.
    PIPE = os.open("pipe", os.O_RDWR)
    for name in rows.COPIES:
        Path(name).write_bytes(rows.DOWN)
    Path("secret").touch(mode=0)


def write_files(files):
    """Writes the files of a case, in pieces so that the worker stays small."""
    for name in ("d", "c"):
        with open(name, "wb") as file:
            for piece, count in files.get(name, []):
                at_once = max(1, MEBIBYTE // max(1, len(piece)))
                for _ in range(count // at_once):
                    file.write(piece * at_once)
                file.write(piece * (count % at_once))


def count_in(file, text):
    """How often the text stands in a file's pieces."""
    return sum(piece.count(text) * count for piece, count in file)


def reported(case):
    """How many rows and points a report may have at most, where the command makes one."""
    if case.words[:1] not in ([b"cover"], [b"carve"], [b"strokes"], [b"flat"]):
        return 0, 0
    rows_up = 65_536 // number_in(case, b"pitch", 10) + 1
    return rows_up, min(rows_up**2, hostile_expected.MOST_REPORTED)


def number_in(case, name, usual):
    """The number of an option, as it is written; what holds else where it isn't a plain one."""
    found = [re.fullmatch(rb"--%s=0*([1-9][0-9]{0,4})" % name, word) for word in case.words]
    return next((int(match[1]) for match in found if match), usual)


def milled(case):
    """How many points there may be at most on the lines of a pocket."""
    if case.words[:1] not in ([b"carve"], [b"flat"]) or case.words[0] == b"carve" and not any(b"pocket" in word for word in case.words):
        return 0
    numbers = [int(text) for piece, _ in case.files.get("d", []) for text in re.findall(rb"-?[0-9]{1,5}", piece)]
    is_loops = not any(b"form" in word for word in case.words)
    wide = min(max(numbers) - min(numbers) + 1, 65_536) if is_loops and numbers else 65_536
    over = number_in(case, b"over", 1) if any(b"over" in word for word in case.words) else 50
    return 2 * wide * (wide // over + 1)


def bounds(case):
    """The most seconds, and MiB without those for lines, that are stated for a case."""
    size = sum(len(piece) * count for file in case.files.values() for piece, count in file)
    # Devices that never end are read up to the limit.
    size += sum(limit for word in case.words for name, limit in large.ENDLESS.items() if word.startswith(name))
    moves = min(1 + count_in(case.files.get("c", []), b"\n"), large.MOST_MOVES)
    pairs = moves * count_in(case.files.get("d", []), b",") if case.words[:1] in ([b"check"], [b"repair"]) else 0
    points = count_in(case.files.get("d", []), b",") if case.words[:1] in ([b"contacts"], [b"carve"]) else 0
    contacts = min(points * (1 + hostile_expected.MOST_PIECES), hostile_expected.MOST_CONTACTS)
    nodes = min(contacts * hostile_expected.MOST_STEPS, hostile_expected.MOST_NODES) if case.words[:1] == [b"carve"] else 0
    form = next((word[7:] for word in case.words if word.startswith(b"--form=")), b"loops")
    segments = min(size / rows.BYTES_OF_A_SEGMENT.get(form, 1), hostile_expected.forms.MOST_SEGMENTS)
    # A repair keeps as much again for each move.
    memory = rows.BYTES_A_BYTE * size + rows.BYTES_A_MOVE * moves * (2 if case.words[:1] == [b"repair"] else 1) + rows.BYTES_A_WORD * len(case.words)
    memory += rows.BYTES_A_CONTACT * contacts
    drawing = case.files.get("d", [])
    memory += rows.BYTES_A_VERTEX * count_in(drawing, b"VERTEX") if form == b"dxf" else 0
    glyphs, elements = (count_in(drawing, text) if form == b"cxf" else 0 for text in (b"[", b","))
    memory += rows.BYTES_A_GLYPH * glyphs + rows.BYTES_AN_ELEMENT * elements / 3
    reading = rows.SECONDS_A_MEBIBYTE * size / MEBIBYTE + rows.SECONDS_A_MOVE * moves
    planning = rows.SECONDS_A_CONTACT * contacts + rows.SECONDS_A_NODE * nodes
    planning += rows.SECONDS_A_MILLED * milled(case)
    if case.words[:1] == [b"flat"]:
        nodes = min(milled(case), 2 * hostile_expected.MOST_CHAINS)
        planning += rows.SECONDS_A_NODE * nodes + rows.SECONDS_A_FLOOR * reported(case)[1]
    planning += rows.SECONDS_A_CELL * 80 if case.words[:1] == [b"trial"] else 0
    rows_up, dots = reported(case)
    planning += rows.SECONDS_A_SEGMENT * segments + rows.SECONDS_AN_ELEMENT * elements / 3 * max(map(len, case.words), default=0)
    strokes = segments if case.words[:1] == [b"strokes"] else 0
    reporting = rows.SECONDS_A_POINT * dots + rows.SECONDS_A_ROW * rows_up * (moves + nodes + strokes)
    return rows.SECONDS + reading + planning + reporting + rows.SECONDS_A_PAIR * pairs, rows.MEBIBYTES + memory / MEBIBYTE


def lines_of(case, status):
    """How many lines a carved program or a report has; where it wasn't written, how many nodes or points it may have had."""
    if case.words[:1] not in ([b"carve"], [b"cover"], [b"repair"], [b"strokes"], [b"flat"]) or status not in (0, 3, 7):
        return 0
    if case.words[:1] == [b"cover"] and status:
        return reported(case)[1] // 2
    with open("text", "rb") as text:
        return hostile_expected.MOST_NODES if status else sum(1 for _ in text)


class Spawner:
    """A process of spawner.py, which starts programs in the folder of its worker."""

    def __init__(self):
        words = [sys.executable, "-S", "-E", Path(__file__).resolve().parent / "spawner.py"]
        self.process = subprocess.Popen(words, stdin=subprocess.PIPE, stdout=subprocess.PIPE)

    def start(self, output, space, words):
        """Starts a program, and gives the number of its process."""
        lines = [b"%s %d %d\n" % (output.encode(), space, len(words)), *(word.hex().encode() + b"\n" for word in words)]
        self.process.stdin.write(b"".join(lines))
        self.process.stdin.flush()
        return int(self.process.stdout.readline())

    def ended(self):
        """Its status, and its peak memory in MiB, when it has ended."""
        status, kibibytes = self.process.stdout.readline().split()
        return int(status), int(kibibytes) / 1024


def floor():
    """The memory that is measured of a program that does nothing."""
    spawner = Spawner()
    with tempfile.TemporaryDirectory() as folder:
        os.chdir(folder)
        spawner.start("closed", 0, [b"/bin/true"])
        return spawner.ended()[1]


def run(case, most_seconds):
    """Runs the program, and ends it where it takes too long, or where this script is ended."""
    Path("text").write_bytes(b"")
    began = time.monotonic()
    process = SPAWNER.start(case.output, case.space, [os.fsencode(PROGRAM), *case.words])

    def end(number, _):
        os.killpg(process, signal.SIGKILL)
        if number == signal.SIGTERM:
            sys.exit(1)

    signal.signal(signal.SIGALRM, end)
    signal.signal(signal.SIGTERM, end)
    signal.setitimer(signal.ITIMER_REAL, min(most_seconds, MOST_SECONDS))
    status, mebibytes = SPAWNER.ended()
    signal.setitimer(signal.ITIMER_REAL, 0)
    signal.signal(signal.SIGTERM, signal.SIG_DFL)
    return Ended(status, time.monotonic() - began, mebibytes)


def is_in_form(case, status):
    """Whether the text has the form of the command's answer with this status."""
    command = case.words[0] if case.words else b""
    form = rows.FORMS.get((command, status), rows.FORMS.get(status))
    with open("text", "rb") as text:
        listed = 0
        for line in text:
            if not rows.LISTED_LINES.get(command, rows.MOVE).fullmatch(line):
                break
            listed += 1
        else:
            line = b""
        line += text.read(1024)
    if (command, status) == (b"contacts", 0):
        return line == b""
    if (command, status) == (b"flatten", 0):
        return line == b""
    if status == 0 and command in (b"carve", b"repair", b"strokes", b"flat"):
        return line == b"M2\n" and listed >= 5
    if (command, status) == (b"cover", 0):
        return form.fullmatch(line) is not None
    if (command, status) == (b"moves", 0):
        return line == b"moves %d\n" % listed
    return form is not None and listed == 0 and form.fullmatch(line) is not None


def is_text(due):
    """Whether the text is the one that is due; of a long one of which only the end is said, whether it ends so."""
    size = os.path.getsize("text")
    with open("text", "rb") as text:
        if size <= max(MEBIBYTE, len(due)):
            return text.read() == due
        text.seek(size - MEBIBYTE)
        return text.read().endswith(b"\n" + due)


def wrong_with(case, ended, most_seconds, most_mebibytes):
    """What is wrong with how the run ended, or None."""
    if ended.seconds > most_seconds:
        return f"took {ended.seconds:.2f} s, where {most_seconds:.2f} are stated"
    if ended.status < 0:
        return f"ended by signal {-ended.status}"
    if os.path.getsize("noise"):
        return f"status {ended.status}, and wrote on standard error"
    if ended.mebibytes > most_mebibytes:
        return f"took {ended.mebibytes:.1f} MiB, where {most_mebibytes:.1f} are stated"
    if ended.status not in case.statuses:
        return f"ended with status {ended.status}, where one of {[*case.statuses]} is due"
    if not is_in_form(case, ended.status):
        return f"the text isn't one of status {ended.status}"
    if ended.status == case.statuses[0] and case.text is not None and not is_text(case.text):
        return f"status {ended.status} without the text {case.text[-80:]}"
    return None


def perform(case):
    """Runs a case, and gives its part, what it took, and what is wrong, if anything."""
    write_files(case.files)
    most_seconds, most_mebibytes = bounds(case)
    most_seconds *= PATIENCE
    ended = run(case, most_seconds)
    most_mebibytes += rows.BYTES_A_LINE * lines_of(case, ended.status) / MEBIBYTE
    most_mebibytes = min(most_mebibytes, rows.MOST_MEBIBYTES)
    wrong = wrong_with(case, ended, most_seconds, most_mebibytes)
    return case.part, ended, wrong and f"{case.part}: {wrong}\n{keep(case)}"


def keep(case):
    """Keeps the files of a case, where the worker has kept only few, and says where they are."""
    shown = b" ".join(case.words)[:200].decode(errors="backslashreplace")
    if len(KEPT) == MOST_KEPT:
        return f"    words: {shown}"
    KEPT.append(tempfile.mkdtemp(prefix="hostile_"))
    for name in ("d", "c", "text", "noise"):
        shutil.copy(name, KEPT[-1])
    Path(KEPT[-1], "words").write_bytes(b"\0".join(case.words))
    return f"    words: {shown}\n    files: {KEPT[-1]}"


def main():
    parser = argparse.ArgumentParser(description=__doc__.splitlines()[0])
    parser.add_argument("--runs", type=int, default=4000, help="how many runs in all, at least the fixed ones")
    parser.add_argument("--seeds", type=int, nargs="+", default=[1, 2], help="the seeds of the random ones, in turn")
    parser.add_argument("--minutes", type=float, default=60, help="after so many, no further run is begun")
    parser.add_argument("--program", default=BUILT, help="the program")
    parser.add_argument("--patience", type=float, default=1, help="how many times the stated seconds a run may take")
    parser.add_argument("--huge", action="store_true", help="the largest inputs instead")
    options = parser.parse_args()
    if not os.access(options.program, os.X_OK):
        print(f"no program at {options.program}; this builds it: {BUILD}")
        return 2
    unasked = set(manual_tables.read_source().commands) ^ {name.decode() for name in hostile_expected.OPTIONS}
    if unasked:
        print(f"the commands of the program and those that are asked here differ: {' '.join(sorted(unasked))}")
        return 2
    parts, faults, began = {}, [], time.monotonic()
    print(f"a program that does nothing: {floor():.0f} MiB")
    with tempfile.TemporaryDirectory(prefix="hostile_") as folder:
        settings = (folder, os.path.abspath(options.program), options.patience)
        with multiprocessing.get_context("fork").Pool(1 if options.huge else 2, enter, settings) as pool:
            for part, ended, wrong in pool.imap_unordered(perform, cases_of(options), 1 if options.huge else 4):
                runs, wrongs, seconds, mebibytes = parts.get(part, (0, 0, 0, 0))
                most = max(seconds, ended.seconds), max(mebibytes, ended.mebibytes)
                parts[part] = runs + 1, wrongs + bool(wrong), *most
                faults += [wrong] if wrong else []
                if len(faults) == MOST_WRONG:
                    faults.append(f"ended after {MOST_WRONG} wrong runs")
                    break
                if time.monotonic() - began > 60 * options.minutes:
                    print("ended, since the time is up")
                    break
    for part, (runs, wrongs, seconds, mebibytes) in parts.items():
        print(f"{part}: {runs} runs, {wrongs} wrong, at most {seconds:.2f} s, at most {mebibytes:.0f} MiB")
    print(*faults, sep="\n", end="\n" if faults else "")
    return 1 if faults else 0


if __name__ == "__main__":
    sys.exit(main())
