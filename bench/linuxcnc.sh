#!/bin/sh
# How long `check` takes beside LinuxCNC's own interpreter, which reads the same G-code and needs no machine; by hand.
# usage: bench/linuxcnc.sh [PROGRAM [MOVES [RUNS]]]
# `rs274` is part of Debian's package linuxcnc-uspace. Where it isn't installed this says so and ends well.
set -eu
top=$(cd "$(dirname "$0")/.." && pwd)
program=${1:-$top/crates/engrave_cli/out/engrave_cli} moves=${2:-1000000} runs=${3:-3}
if ! command -v rs274 >/dev/null; then
    echo "skipped: no rs274 is installed"
    exit 0
fi
if [ ! -x "$program" ]; then
    echo "no program at $program"
    exit 2
fi
folder=$(mktemp -d)
trap 'rm -r "$folder"' EXIT
(cd "$top/bench" && python3 -B - "$folder" "$moves" <<'END'
import sys
from pathlib import Path

import make_inputs

folder, moves = Path(sys.argv[1]), int(sys.argv[2])
make_inputs.write_drawing(folder / "ring.loops", [make_inputs.ring(100)])
make_inputs.write_code(folder / "code.ngc", make_inputs.short_places(moves))
# The interpreter wants a feed before it cuts.
code = (folder / "code.ngc").read_text()
(folder / "code.ngc").write_text("F400\n" + code)
END
)
# An empty list of tools, and empty parameters.
: >"$folder/tools"
: >"$folder/parameters"

# The least user and system seconds of so many runs.
least() {
    for _ in $(seq "$runs"); do
        bash -c 'TIMEFORMAT="%U %S"; time "$@" >"$0"' "$folder/out" "$@" 2>"$folder/time"
        tail -n 1 "$folder/time"
    done | awk '{ s = $1 + $2; if (NR == 1 || s < m) m = s } END { printf "%.2f", m }'
}

ours=$(least "$program" check --drawing="$folder/ring.loops" --code="$folder/code.ngc" --bit=1/1 --rmax=200)
answer=$(cat "$folder/out")
if [ "$answer" != "clear $moves moves" ]; then
    echo "check answers: $answer"
    exit 1
fi
if ! rs274 -t "$folder/tools" -v "$folder/parameters" -g "$folder/code.ngc" >"$folder/out" 2>&1; then
    echo "rs274: $(tail -n 1 "$folder/out")"
    exit 1
fi
theirs=$(least rs274 -t "$folder/tools" -v "$folder/parameters" -g "$folder/code.ngc")
echo "$moves moves over 100 edges: check $ours s, rs274 $theirs s, $(awk "BEGIN { printf \"%.3f\", $ours / $theirs }") x"
