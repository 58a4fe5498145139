#!/bin/sh
# Plays the scripts of this folder by the simulator, and shows script and output side by side. If a
# file NAME.told is beside NAME.script, its lines explain those of the script.
#
# The proved program is used if it is there (`make prove` makes it); else a trial build, which is
# not proved. The script says so.
set -eu
cd "$(dirname "$0")/.."
. tools/programs.sh

# After each event of a script comes a SEARCHGW from an address that no story uses, which changes
# nothing (MQTT-SN 1.2 section 6.1): its answer ends what the event printed.
marker="frame 1 65000 0 030100"
answered="to 65000 030201"

# Plays a script with its markers, and puts what each event printed into files NAME.1, NAME.2, ..
play() {
    awk -v marker="$marker" '{ print } !/^(gateway|predefine) / { print marker }' \
        "examples/$1.script" >"$work/$1.case"
    "$program" <"$work/$1.case" >"$work/$1.printed" || stop "$program cannot play $1.script"
    awk -v answered="$answered" -v to="$work/$1." \
        'BEGIN { event = 1 } $0 == answered { event++; next } { print > (to event) }' "$work/$1.printed"
}

# Prints a line of a script with the lines that it printed beside it.
show_line() {
    left=$1
    while IFS= read -r answer; do
        printf '  %-40s %s\n' "$left" "$answer"
        left=
    done <"$2"
}

# Prints a script that was played, line by line, with what explains a line below it.
show() {
    event=0
    number=0
    while IFS= read -r line; do
        number=$((number + 1))
        printed=$work/nothing
        case $line in
        "gateway "* | "predefine "*) ;;
        *)
            event=$((event + 1))
            if [ -f "$work/$1.$event" ]; then printed=$work/$1.$event; fi
            ;;
        esac
        show_line "$line" "$printed"
        told=examples/$1.told
        if [ -f "$told" ]; then sed -n "${number}{/./s/^/    # /p}" "$told"; fi
    done <"examples/$1.script"
}

program=crates/gw_sim/out/gw_sim
if ! is_current "$program"; then
    program=out/trial/gw_sim
    is_current "$program" || sh tools/trial.sh gw_sim
    echo "The gateways run in $program, which is NOT PROVED: 'make prove' proves it."
    echo
fi
work=$(mktemp -d 2>/dev/null) || stop "no folder can be made in ${TMPDIR:-/tmp}: is the disk full?"
trap 'rm -rf "$work"' EXIT
trap 'exit 129' HUP
trap 'exit 130' INT
trap 'exit 143' TERM
echo >"$work/nothing"
for script in examples/*.script; do
    name=$(basename "$script" .script)
    play "$name"
    echo "== $name"
    show "$name"
done
