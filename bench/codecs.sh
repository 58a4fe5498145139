#!/bin/sh
# The codecs of frames and deltas beside plain C that does the same work over the same octets.
#
# Usage: bench/codecs.sh [MILLIONS] [DELTAS] [RECORDS]
#
# Decodes and encodes MILLIONS million datagrams (10), and encodes and decodes a delta of about 8 MiB
# DELTAS times (200), by crates/node_rows and by bench/frames.c and bench/deltas.c in turn. Rates are by
# processor time, and the best of three runs counts. Both programs must write the same octets. Last RECORDS records (1,000,000) are
# appended to a journal on a disk in memory, each synced.
set -eu
top=$(cd "$(dirname "$0")/.." && pwd)
work=$(mktemp -d)
trap 'rm -rf "$work"' EXIT
millions=${1:-10}
deltas=${2:-200}
records=${3:-1000000}
. "$top/bench/built.sh"
program=$(built node_rows "$top/crates/node_rows/stdin")
for name in frames deltas; do
    gcc -O2 -Wall -o "$work/$name" "$top/bench/$name.c"
done

# What stands in front of a work for the program that is proved.
heading='=== benchmarks
'

# compare NAME ROUNDS AMOUNT UNIT: times both programs, and prints their rates and the ratio.
compare() {
    for _ in 1 2 3; do
        python3 "$top/bench/seconds.py" "$program" "$heading$1 $2" "$work/proved.out" >>"$work/$1.proved"
        python3 "$top/bench/seconds.py" "$work/$1" "$1 $2" "$work/plain.out" >>"$work/$1.plain"
        cmp "$work/proved.out" "$work/plain.out"
    done
    cat "$work/proved.out"
    proved=$(sort -n "$work/$1.proved" | head -n 1)
    plain=$(sort -n "$work/$1.plain" | head -n 1)
    awk -v a="$proved" -v b="$plain" -v n="$3" -v unit="$4" 'BEGIN {
        printf "  proved %.0f %s, plain C %.0f %s, plain C is %.2f times as fast\n", n / a, unit, n / b, unit, a / b }'
}

echo "load $(cut -d ' ' -f 1-3 /proc/loadavg 2>/dev/null || echo unknown), $(nproc) processors"
compare frames $((millions * 100)) $((millions * 1000000)) "datagrams per second"
compare deltas "$deltas" "$(awk -v n="$deltas" 'BEGIN { printf "%.6f", n * 8293105 / 1000000 }')" "MB per second"
for _ in 1 2 3; do
    python3 "$top/bench/seconds.py" "$program" "${heading}records $records" "$work/records.out" >>"$work/records"
done
cat "$work/records.out"
awk -v a="$(sort -n "$work/records" | head -n 1)" -v n="$records" 'BEGIN { printf "  %.0f appends per second\n", n / a }'
