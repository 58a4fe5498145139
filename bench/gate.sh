#!/bin/sh
# The minutes of the gate: of each crate's proof, tests and edits, the chain that ended last, the dearest tasks, and the
# measure of the gate: the processor seconds of the whole run divided by those of the proof of sn_frame in the same run.
#
# Usage: bench/gate.sh          runs `make test`, prints its minutes, and leaves them in out/gate.log
#        bench/gate.sh LOG..    prints the minutes of earlier runs together: of a crate that several proved, the last one's
#
# A task's minutes are told by the clock and by processor. They are read off the processes of the run, once a second. Run it on
# a machine with nothing beside it: other work lengthens both. A run takes what earlier runs on the machine have proved: to
# measure from nothing, move /opt/rattle-kept aside.
set -eu
top=$(cd "$(dirname "$0")/.." && pwd)
if [ $# -gt 0 ]; then
    logs=$(printf '%s,' "$@")
    exec python3 "$top/bench/gate.py" "${logs%,}" "$top/crates.txt"
fi
cd "$top"
status=0
make test || status=$?
python3 bench/gate.py out/gate.log crates.txt
exit $status
