#!/usr/bin/env bash
# Times the program on growing texts: run.sh [PROGRAM]. It builds nothing.
#
# PROGRAM is the built program `link`; with none it is crates/link/out/link. Each text goes to its standard input,
# under the word `link`. A table is printed, a row for each text. Nothing is asserted.
set -eu
here=$(cd "$(dirname "$0")" && pwd)
program=${1:-$here/../crates/link/out/link}
if [ ! -x "$program" ]; then
    echo "no program at $program: build it with 'rt run' in crates/link, or name it" >&2
    exit 2
fi
exec python3 -B "$here/measure.py" "$program"
