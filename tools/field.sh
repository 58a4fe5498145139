#!/bin/sh
# Plays the story of `make field`: by the proved daemon if it is there, else by a trial build of it.
#
# Usage: field.sh
set -eu
cd "$(dirname "$0")/.."
. tools/programs.sh

story=trials/field.py
need python3 "it plays the story"
python3 "$story" --check
program=crates/sngw/out/sngw
if is_current "$program"; then
    echo "The gateways run the proved program $program."
else
    program=out/trial/sngw
    is_current "$program" || sh tools/trial.sh sngw
    echo "The gateways run $program, which is NOT PROVED: 'make daemon' proves it, in half an hour."
fi
exec python3 "$story" "$program"
