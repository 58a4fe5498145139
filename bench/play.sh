#!/bin/sh
# Builds gw_sim, plays a script of bench/script.py, and prints events per second; then those of bench/sessions.py, publications.py and
# takeover.py, what single steps cost, with goals (steps.py), what each stretch of a script adds (goes_on.py), and what a gateway
# keeps in memory (memory.py).
#
# Usage: bench/play.sh [EVENTS] [GATEWAYS] [CLIENTS]
#
# With BEFORE=PROGRAM, a gw_sim that bench/before.sh has built, publications.py is set beside that too.
set -eu
top=$(cd "$(dirname "$0")/.." && pwd)
work=$(mktemp -d)
trap 'rm -rf "$work"' EXIT
python3 "$top/bench/script.py" "$@" >"$work/script"
events=$(grep -vc '^gateway' "$work/script")
. "$top/bench/built.sh"
program=$(built gw_sim "$work/script")
start=$(date +%s.%N)
status=0
"$program" <"$work/script" >"$work/printed" || status=$?
end=$(date +%s.%N)
lines=$(wc -l <"$work/printed")
echo "$events events, $lines lines printed, status $status"
[ "$status" -eq 0 ] || { head -n 1 "$work/printed"; exit 1; }
awk -v n="$events" -v a="$start" -v b="$end" 'BEGIN { printf "%.3f s, %.0f events per second\n", b - a, n / (b - a) }'
python3 "$top/bench/sessions.py" "$program"
python3 "$top/bench/publications.py" "$program" ${BEFORE:+"$BEFORE"}
python3 "$top/bench/takeover.py" "$program"
python3 "$top/bench/steps.py" "$program"
python3 "$top/bench/goes_on.py" "$program"
python3 "$top/bench/memory.py" "$program"
