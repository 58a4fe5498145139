#!/bin/sh
# A field of linked daemons for a long time, with links that are cut, gateways that are killed and disks that are full.
#
# Usage: trials/soak.sh MINUTES [PROGRAM [SEED [LOOK]]]
#
# PROGRAM is the daemon, or else the proved one, crates/sngw/out/sngw. LOOK is jr_look, or else crates/jr_look/out/jr_look where that is
# there; without it what the gateways show is not compared, and what subscribers get at each of them has to do. STEPS (256) is how many
# calls a shift has; PATIENCE (1) times as long clients wait, for a machine that does other work. FIELD has further options of trials/soak.py,
# as "--gateways 5 --chain". The head of trials/soak.py says what is
# tried and what must have come. Status 0 only where nothing that was acknowledged is lost, and nothing else went wrong.
set -eu
top=$(cd "$(dirname "$0")/.." && pwd)
program=${2:-$top/crates/sngw/out/sngw}
look=${4:-$top/crates/jr_look/out/jr_look}
if [ $# -lt 1 ] || [ $# -gt 4 ] || [ ! -x "$program" ]; then
    sed -n '2,/^set/s/^# \{0,1\}//p' "$0" >&2
    exit 1
fi
[ -x "$look" ] || look=
exec nice python3 "$top/trials/soak.py" "$program" "$1" --seed "${3:-1}" --steps "${STEPS:-256}" --patience "${PATIENCE:-1}" --look "$look" ${FIELD:-}
