#!/bin/sh
# Calls of a gateway through a shift, by 1, 2, 4 and 8 threads, beside the same calls made directly, all over a disk in memory.
#
# Usage: bench/shift.sh [ROUNDS]
#
# A round is 4,096 calls of a gateway of its own, which is as many as a shift has; the default is 20, of calls that write always one, since the
# plain replica works through all that it ever took. Time is that on the clock, so the
# figures mean something on a machine that does nothing else. The best of three runs counts. The ratio is to the direct calls.
set -eu
top=$(cd "$(dirname "$0")/.." && pwd)
rounds=${1:-20}
work=$(mktemp -d)
trap 'rm -rf "$work"' EXIT
. "$top/bench/built.sh"
program=$(built node_rows "$top/crates/node_rows/stdin")
echo "load $(cut -d ' ' -f 1-3 /proc/loadavg 2>/dev/null || echo unknown), $(nproc) processors"
{
    echo "=== benchmarks"
    for name in "search $rounds" "sleep 1"; do
        for threads in 0 1 2 4 8; do
            for _ in 1 2 3; do
                echo "${name% *} $threads ${name#* }"
            done
        done
    done
} | "$program" 2>"$work/times" >"$work/printed"
if grep '^no such line' "$work/printed"; then exit 1; fi
awk '{
    key = $1 " " $2
    rate = $4 * 1000000 / ($5 + 1)
    if (rate > best[key]) best[key] = rate
    if (!(key in seen)) { seen[key] = 1; order[++n] = key }
} END {
    for (i = 1; i <= n; i++) {
        split(order[i], part, " ")
        if (part[2] == 0) { direct = best[order[i]]; printf "%s: directly %.0f calls per second\n", part[1], direct }
        else printf "  %d threads %.0f calls per second, %.2f of direct\n", part[2], best[order[i]], best[order[i]] / direct
    }
}' "$work/times"
