"""Starts programs for a larger process, in its folder, so that the memory that is measured is theirs alone.

The peak that the system tells of a process begins with that of the process which started it, since the two are one until the program is
loaded. So tools/hostile.py starts this script by `python3 -S -E`, which stays at some 9 MiB, and this starts each program. It reads requests
from standard input: a line `OUTPUT SPACE COUNT`, and so many lines, each a word of the command in hexadecimal digits. To each it answers
by a line with the number of the program's process, and when that has ended by a line `STATUS MAXRSS`, in KiB.
"""

import os
import sys

# As the C library numbers them; Python itself ignores these two, and a shell doesn't.
SIGPIPE, SIGXFSZ = 13, 25


def start(output, space, words):
    """Starts a program with the words, its output so redirected, in so many KiB of address space if that isn't 0."""
    write = os.O_WRONLY | os.O_CREAT | os.O_TRUNC
    reader, writer = os.pipe()
    os.close(reader)
    to = {
        "file": (os.POSIX_SPAWN_OPEN, 1, "text", write, 0o600),
        "full": (os.POSIX_SPAWN_OPEN, 1, "/dev/full", os.O_WRONLY, 0),
        "readonly": (os.POSIX_SPAWN_OPEN, 1, "/dev/null", os.O_RDONLY, 0),
        "broken": (os.POSIX_SPAWN_DUP2, writer, 1),
        "closed": (os.POSIX_SPAWN_CLOSE, 1),
    }[output]
    if space:
        words = [b"/bin/sh", b"-c", b'ulimit -v %d && exec "$0" "$@"' % space, *words]
    nothing, noise = (os.POSIX_SPAWN_OPEN, 0, "/dev/null", os.O_RDONLY, 0), (os.POSIX_SPAWN_OPEN, 2, "noise", write, 0o600)
    process = os.posix_spawn(words[0], words, {}, file_actions=[nothing, to, noise], setpgroup=0, setsigdef=[SIGPIPE, SIGXFSZ])
    os.close(writer)
    return process


def main():
    for line in sys.stdin.buffer:
        output, space, count = line.split()
        words = [bytes.fromhex(sys.stdin.buffer.readline().decode()) for _ in range(int(count))]
        process = start(output.decode(), int(space), words)
        print(process, flush=True)
        _, state, usage = os.wait4(process, 0)
        print(os.waitstatus_to_exitcode(state), usage.ru_maxrss, flush=True)


if __name__ == "__main__":
    main()
