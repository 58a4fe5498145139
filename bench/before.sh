#!/bin/sh
# Proves and builds gw_sim of the last commit at which fields ran on the plain replica alone, in a clone of its own, and prints where it is:
# what bench/publications.py is to be set beside. Some twenty minutes on four processors, the first time.
#
# Usage: bench/before.sh FOLDER      FOLDER is where the clone stands, or shall stand
set -eu
top=$(cd "$(dirname "$0")/.." && pwd)
commit=41d777aa
[ -d "$1/.git" ] || git clone -q --no-checkout "$top" "$1"
folder=$(cd "$1" && pwd)
git -C "$folder" checkout -q "$commit"
cd "$folder/crates/gw_sim"
if [ ! -x out/gw_sim ]; then
    rt run <"$folder/examples/takeover.script" >/dev/null 2>out.log || { tail -n 20 out.log >&2; exit 1; }
fi
echo "$folder/crates/gw_sim/out/gw_sim"
