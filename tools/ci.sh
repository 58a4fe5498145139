#!/bin/sh
# The gate of the kit: every proof, edit, test and program. At its end it says how far the run is from the gate's budget.
#
# Without RT_JOBS the kit reckons with more memory for a task than most take, so lanes stay empty. The four largest, programs
# at the end of a run, take 5 to 7 GB each. So there are as many lanes as have 6 GiB each, and at most one more than
# processors: `rt ci` itself sums up files in between, and a lane stands still. RT_JOBS is taken as it is set.
set -eu
if [ -z "${RT_JOBS:-}" ]; then
    lanes=$(($(nproc) + 1))
    free=$(awk '/^MemAvailable:/ { print int($2 / 1048576) }' /proc/meminfo 2>/dev/null || echo 0)
    if [ "$lanes" -gt $((${free:-0} / 6)) ]; then
        lanes=$((${free:-0} / 6))
    fi
    if [ "$lanes" -ge 2 ]; then
        RT_JOBS=$lanes
        export RT_JOBS
    fi
fi
mkdir -p out
status=0
python3 bench/gate.py out/gate.log crates.txt rt ci || status=$?
python3 bench/gate.py --budget out/gate.log crates.txt
exit $status
