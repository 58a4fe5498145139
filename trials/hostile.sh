#!/bin/sh
# Hostile datagrams and link streams for a daemon.
#
# Usage: trials/hostile.sh PROGRAM [DATAGRAMS [STREAMS [FILL [SEED]]]]
#
# DATAGRAMS (10,000,000) and STREAMS (100,000) that were made up go to the daemon PROGRAM, each in two halves; it has to answer behind
# them, and its memory must not grow any more in the second half. Then FILL (60,000) datagrams of any names and lengths fill another one,
# which is killed and opened again. The heads of trials/hostile.c and trials/hostile.py say more. Files lie in TMPDIR or /var/tmp.
set -eu
top=$(cd "$(dirname "$0")/.." && pwd)
if [ $# -lt 1 ] || [ $# -gt 5 ] || [ ! -x "$1" ]; then
    sed -n '2,/^set/s/^# \{0,1\}//p' "$0" >&2
    exit 1
fi
work=$(mktemp -d "${TMPDIR:-/var/tmp}/hostile.XXXXXX")
trap 'rm -rf "$work"' EXIT
trap 'exit 1' INT TERM HUP
gcc -O2 -Wall -I "$top/bench" -o "$work/hostile" "$top/trials/hostile.c"
python3 "$top/trials/hostile.py" "$1" "$work/hostile" --datagrams "${2:-10000000}" --streams "${3:-100000}" --fill "${4:-60000}" --seed "${5:-1}"
