#!/bin/sh
# A digest and the answer to it between two gateways of 1,000 clients with 20 messages each, of which the one lacks one in a hundred.
#
# Usage: bench/digests.sh [ROUNDS]
#
# Makes the digest of the one and the other's answer ROUNDS times (20), by crates/node_rows. Rates are by processor time without what it
# takes to make the two gateways, and the best of three runs counts: operations that the answering gateway holds.
set -eu
top=$(cd "$(dirname "$0")/.." && pwd)
work=$(mktemp -d)
trap 'rm -rf "$work"' EXIT
rounds=${1:-20}
. "$top/bench/built.sh"
program=$(built node_rows "$top/crates/node_rows/stdin")
heading='=== benchmarks
'
echo "load $(cut -d ' ' -f 1-3 /proc/loadavg 2>/dev/null || echo unknown), $(nproc) processors"
for _ in 1 2 3; do
    python3 "$top/bench/seconds.py" "$program" "${heading}digests 0" "$work/printed" >>"$work/without"
    python3 "$top/bench/seconds.py" "$program" "${heading}digests $rounds" "$work/printed" >>"$work/with"
done
cat "$work/printed"
awk -v a="$(sort -n "$work/with" | head -n 1)" -v b="$(sort -n "$work/without" | head -n 1)" -v n="$rounds" '
    { gsub(/[^0-9 ]/, ""); split($0, count, " ") }
    END {
        printf "  %.1f digests with answers per second, %.0f operations per second\n", n / (a - b), n * count[4] / (a - b)
        printf "  digest and answer are %.1f %% of the octets that are held\n", 100 * (count[1] + count[3]) / count[5]
    }' "$work/printed"
