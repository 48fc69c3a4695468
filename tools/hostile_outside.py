"""Runs the built program in a world that changes while it runs, and checks how each run ends.

    python3 tools/hostile_outside.py [--program PATH] [--rounds N]      (on Linux)

It aims at what no proof is about: the adapters to the host's files and output, `main`, and the runtime below. Files are cut, grown,
overwritten, replaced and removed while they are read, the program being stopped in the middle; names are those of folders, devices, pipes,
sockets and files without leave; the output is closed, full, slow, limited, or a pipe that is left early. Each run has to end with one of
the statuses that the manual gives, with its line or a front part of the text that is due, with nothing on standard error, within ten seconds
and the memory that the manual states. It prints a line for each case with what came of its rounds, and ends with 1 where a run ended
otherwise.
"""

import argparse
import collections
import os
import resource
import signal
import socket
import subprocess
import sys
import tempfile
import threading
import time
from dataclasses import dataclass
from pathlib import Path

BUILT = Path(__file__).resolve().parent.parent / "crates/engrave_cli/out/engrave_cli"
# What is stated: so many seconds, and MiB beside the bytes of the file and the bytes of each move.
MOST_SECONDS, MEBIBYTES, BYTES_A_MOVE, CODE_LIMIT = 10, 32, 80, 536_870_912
NOBODY = 65_534

# A plate of 10 mm, and moves above it, all clear, with which the code is as long as one likes; the fault of a cut line is its last.
SQUARE = b"0,0 1000,0 1000,1000 0,1000\n"
CODE = b"G21\nG0 Z2\nG0 X1 Y3\n"
LINE = b"G1 X5.25 Y7.75\nG1 X1.5 Y3.5\n"
LINES = 300_000
MOVES, CHECK = "moves --code=c", "check --drawing=d --code=c --bit=1/1 --rmax=200"
PROBE, FLATTEN = "probe --drawing=d --at=500,500 --bit=1/1 --rmax=600", "flatten --drawing=d"
# Each other command, over the plate, a few moves, and a line of a DXF file.
STROKE = b"0\nSECTION\n2\nENTITIES\n0\nLINE\n10\n0\n20\n0\n11\n1\n21\n0\n0\nENDSEC\n0\nEOF\n"
BIT = "--bit=1/1 --rmax=600"
OTHERS = ["contacts --drawing=d --step=250 --rmax=600", f"carve --drawing=d {BIT} --step=250", f"cover --drawing=d --code=few {BIT}"]
OTHERS += [f"repair --drawing=d --code=few {BIT}", f"strokes --drawing=stroke --form=dxf {BIT} --depth=10", "trial --count=1"]


@dataclass
class Case:
    """What is run, what is done to it, and the statuses that it may end with."""

    name: str
    words: str
    statuses: tuple
    # The whole text, where it is one; else the text is judged by its front.
    text: bytes | None = None
    # Done to the files before the run, and while it is stopped in the middle; and how standard output goes.
    before: object = None
    amidst: object = None
    output: str = "file"
    as_nobody: bool = False


def rewrite(name, change):
    """Changes a file in place."""
    with open(name, "r+b") as file:
        change(file)


def cut(size):
    return lambda: os.truncate("c", size)


def overwritten(text):
    return lambda: rewrite("c", lambda file: (file.seek(0), file.write(text * (os.path.getsize("c") // len(text)))))


def replaced():
    Path("new").write_bytes(b"no code\n" * 100_000)
    os.replace("new", "c")


def grown():
    with open("c", "ab") as file:
        file.write(LINE * LINES)


def held_pipe(text):
    """A pipe of this text, which stays open for writing."""

    def make():
        os.unlink("c")
        os.mkfifo("c")
        held = os.open("c", os.O_RDWR)
        os.write(held, text)

    return make


def a_socket():
    os.unlink("c")
    socket.socket(socket.AF_UNIX).bind("c")


def a_folder():
    os.unlink("c")
    os.mkdir("c")


def locked():
    os.chmod("c", 0)


def locked_folder():
    os.mkdir("box", 0o700)
    os.rename("c", "box/c")


FAULT, GONE = b"read fault\n", b"absent code\n"
# A file that is read while it changes may be any mixture: its moves are counted or a line of it is refused, and either is named.
MIXED = (0, 3, 5)

SIZES, TEXTS = (0, 1, 4096, 1_000_001), (b"\0", b"\n", b"G1 X9", b"(")

CASES = [
    *(Case(f"{word} cut to {size} bytes while it is read", word, MIXED, amidst=cut(size)) for word in (MOVES, CHECK) for size in SIZES),
    *(Case(f"{word} overwritten by {text} amidst", word, MIXED, amidst=overwritten(text)) for word in (MOVES, CHECK) for text in TEXTS),
    *(Case(f"{word} grown while it is read", word, MIXED, amidst=grown) for word in (MOVES, CHECK)),
    *(Case(f"{word} replaced while it is read", word, MIXED, amidst=replaced) for word in (MOVES, CHECK)),
    *(Case(f"{word} removed while it is read", word, (0, 4), amidst=lambda: os.unlink("c")) for word in (MOVES, CHECK)),
    # Nothing is locked to root.
    *(Case(f"{word} locked while it is read", word, (0, 5), amidst=locked, as_nobody=not os.geteuid()) for word in (MOVES, CHECK)),
    Case("a folder in place of a file", MOVES, (5,), FAULT, before=a_folder),
    Case("a socket in place of a file", MOVES, (5,), FAULT, before=a_socket),
    Case("a pipe that is held open", MOVES, (5,), FAULT, before=held_pipe(CODE)),
    Case("an empty pipe that is held open", MOVES, (5,), FAULT, before=held_pipe(b"")),
    Case("a file that was removed", MOVES, (4,), GONE, before=lambda: os.unlink("c")),
    Case("nothing", "moves --code=/dev/null", (0,), b"moves 0\n"),
    Case("zeros without end", "moves --code=/dev/zero", (3,), b"input too long code\n"),
    Case("a full device as a drawing", PROBE.replace("=d", "=/dev/full"), (3,), b"input too long drawing\n"),
    Case("a file without leave", MOVES, (5,), FAULT, before=locked, as_nobody=True),
    Case("a file in a folder without leave", "moves --code=box/c", (5,), FAULT, before=locked_folder, as_nobody=True),
    *(
        Case(f"{output} output: {words.split()[0]}", words, (6,), output=output)
        for output in ("closed", "full", "readonly", "broken", "all closed")
        for words in (MOVES, CHECK, PROBE, FLATTEN, *OTHERS, "usage")
    ),
    *(Case(f"a pipe that is left after {count} bytes", MOVES, (6,), output=f"left {count}") for count in (0, 1, 4096, 65_536, 1_000_000)),
    Case("a pipe that doesn't wait", MOVES, (6,), output="hasty"),
    Case("a slow pipe", MOVES, (0,), output="slow"),
    Case("a file that may have 5000 bytes", MOVES, (6,), output="limited"),
    Case("no standard input", MOVES, (0,), output="no input"),
]


def make_files(case):
    """The files of a case, in a folder that another user may enter."""
    os.chmod(".", 0o755)
    Path("d").write_bytes(SQUARE)
    Path("c").write_bytes(CODE + LINE * LINES)
    Path("few").write_bytes(CODE + LINE)
    Path("stroke").write_bytes(STROKE)
    if case.before:
        case.before()


def started(case, program):
    """The process, and the end of the pipe from which its text is read, if there is one."""
    reader = writer = None
    if case.output.split()[0] in ("left", "slow", "hasty", "broken"):
        reader, writer = os.pipe()
        if case.output == "broken":
            os.close(reader)
            reader = None
        if case.output == "hasty":
            os.set_blocking(writer, False)
    to = {"full": ("/dev/full", os.O_WRONLY), "readonly": ("/dev/null", os.O_RDONLY)}
    out = writer if writer is not None else os.open(*to.get(case.output, ("text", os.O_WRONLY | os.O_CREAT | os.O_TRUNC)))

    def prepare():
        if case.output == "limited":
            signal.signal(signal.SIGXFSZ, signal.SIG_IGN)
            resource.setrlimit(resource.RLIMIT_FSIZE, (5000, 5000))
        if case.as_nobody:
            os.setgroups([])
            os.setgid(NOBODY)
            os.setuid(NOBODY)
        for number in {"closed": (1,), "all closed": (0, 1, 2), "no input": (0,)}.get(case.output, ()):
            os.close(number)

    with open("noise", "wb") as noise:
        words = [program, *case.words.split()]
        process = subprocess.Popen(words, stdin=subprocess.DEVNULL, stdout=out, stderr=noise, env={}, preexec_fn=prepare)
    os.close(out)
    return process, reader


def drain(case, reader):
    """Reads the text from the pipe as the case says, and writes what came to the file `text`."""
    got = bytearray()
    most = int(case.output.split()[1]) if case.output.startswith("left") else None
    while most is None or len(got) < most:
        if case.output in ("slow", "hasty"):
            time.sleep(0.0002 if case.output == "slow" else 0.5)
        piece = os.read(reader, 4096 if case.output == "slow" else 65_536 if most is None else min(65_536, most - len(got)))
        if not piece:
            break
        got += piece
    os.close(reader)
    Path("text").write_bytes(got)


def ended(case, program, moment):
    """Runs a case, stopped after so many seconds where something is done amidst: its status, seconds and MiB."""
    began = time.monotonic()
    process, reader = started(case, program)
    # By its number, so that it isn't waited for before it is measured.
    watch = threading.Timer(MOST_SECONDS, os.kill, (process.pid, signal.SIGKILL))
    watch.start()
    if case.amidst:
        time.sleep(moment)
        os.kill(process.pid, signal.SIGSTOP)
        time.sleep(0.005)
        case.amidst()
        os.kill(process.pid, signal.SIGCONT)
    if reader is not None:
        drain(case, reader)
    _, state, usage = os.wait4(process.pid, 0)
    process.returncode = os.waitstatus_to_exitcode(state)
    watch.cancel()
    return process.returncode, time.monotonic() - began, usage.ru_maxrss / 1024


def whole_text(program, words):
    """What the words print over the files as they are made."""
    return subprocess.run([program, *words.split()], stdout=subprocess.PIPE, stdin=subprocess.DEVNULL, env={}, check=False).stdout


def most_mebibytes(case):
    """The memory that is stated for a case; a file that grows is taken as it is at the end."""
    size = CODE_LIMIT if "zero" in case.words else os.path.getsize("c") if os.path.isfile("c") else 0
    return MEBIBYTES + (max(size, len(CODE + LINE * LINES)) + BYTES_A_MOVE * 4 * LINES) / 2**20


def wrong_with(case, status, seconds, mebibytes, due):
    """What is wrong with how a run ended, or None."""
    text = Path("text").read_bytes() if Path("text").exists() else b""
    if status not in case.statuses:
        return f"status {status}"
    if seconds > MOST_SECONDS or mebibytes > most_mebibytes(case):
        return f"{seconds:.1f} s, {mebibytes:.1f} MiB"
    if Path("noise").stat().st_size:
        return "standard error isn't empty"
    if Path("d").read_bytes() != SQUARE:
        return "the drawing was changed"
    if case.text is not None and text != case.text:
        return f"the text {text[-60:]}"
    if status == 6 and not due.startswith(text):
        return "what was written isn't a front part of the text"
    if status == 0 and due and case.amidst is None and text != due:
        return "the text isn't the one that is due"
    if status in (3, 4, 5) and not (text.count(b"\n") == 1 and text.startswith((b"input ", b"absent ", b"read fault"))):
        return f"no line of status {status}: {text[-60:]}"
    return None


def main():
    parser = argparse.ArgumentParser(description=__doc__, formatter_class=argparse.RawDescriptionHelpFormatter)
    parser.add_argument("--program", type=Path, default=BUILT)
    parser.add_argument("--rounds", type=int, default=10)
    options = parser.parse_args()
    program = str(options.program.resolve())
    if not os.access(program, os.X_OK):
        sys.exit(f"{program} isn't built")
    runs = faults = 0
    for case in CASES:
        if case.as_nobody and os.geteuid():
            print(f"{case.name}: left out, since this isn't root")
            continue
        statuses, wrongs = collections.Counter(), []
        for number in range(options.rounds if case.amidst else 1):
            with tempfile.TemporaryDirectory() as folder:
                os.chdir(folder)
                make_files(case)
                due = b"" if case.before or case.amidst else whole_text(program, case.words)
                # From half a millisecond on, since most of the reading is done within a few.
                status, seconds, mebibytes = ended(case, program, 0.0005 * 1.6**number)
                statuses[status] += 1
                wrong = wrong_with(case, status, seconds, mebibytes, due)
                wrongs += [wrong] if wrong else []
                os.chdir("/")
        runs += sum(statuses.values())
        faults += len(wrongs)
        came = ", ".join(f"{count} of status {status}" for status, count in sorted(statuses.items()))
        print(f"{case.name}: {came}" + "".join(f"\n    WRONG: {wrong}" for wrong in wrongs[:3]), flush=True)
    print(f"{runs} runs, {faults} ended otherwise than they may")
    sys.exit(1 if faults else 0)


if __name__ == "__main__":
    main()
