#!/bin/sh
# Tries `make trial`, `make field`, `make run` and `make deb` with what is missing or in the way: no
# rt, no python3, no dpkg-deb, a full disk, ports that are taken, programs that are not there, a
# kill, Ctrl-C. Each must end with one line that says why, with a status above 0, and leave nothing
# running. At last `make field` must play its story within three minutes, from nothing.
#
# Usage: trials/front_door.sh
#
# It works on a copy of the files that git knows. One line for each thing that was tried; the
# status is 1 if one failed. It takes some three minutes, for one trial build and a half.
set -u
cd "$(dirname "$0")/.." || exit 1
. tools/programs.sh

need git "it lists the files"
need python3 "it holds ports"
work=$(mktemp -d)
copy=$work/copy
failed=0
holder=
trap 'rm -rf "$work"; [ -z "$holder" ] || kill "$holder" 2>/dev/null' EXIT
trap 'exit 129' HUP
trap 'exit 130' INT
trap 'exit 143' TERM
mkdir "$copy" "$work/tmp"
git ls-files -z | tar --null -T - -c | tar -x -C "$copy"
export TMPDIR="$work/tmp"

# Prints what came of a trial: its name, whether it went well, and what was said.
report() {
    if [ "$2" = ok ]; then
        echo "ok      $1: $3"
    else
        echo "FAILED  $1: $3"
        failed=1
    fi
}

# The processes that work in the copy or on its files.
running() {
    for process in /proc/[0-9]*; do
        case $(readlink "$process/cwd" 2>/dev/null) in
        "$work"/*) echo "${process#/proc/}" ;;
        esac
    done
}

# Waits up to ten seconds until nothing runs. Fails if something does.
is_quiet() {
    tries=0
    while [ -n "$(running)" ]; do
        tries=$((tries + 1))
        [ $tries -lt 100 ] || return 1
        sleep 0.1
    done
}

# A folder with every command of PATH but one.
path_without() {
    folder=$work/without-$1
    mkdir "$folder"
    echo "$PATH" | tr : '\n' | while read -r place; do
        ln -s "$place"/* "$folder" 2>/dev/null
    done
    rm -f "$folder/$1"
    echo "$folder"
}

# Looks at what a run said: one line beside those of make, with some words in it; a status above 0;
# nothing left running.
judge() {
    grep -v '^make' "$work/said" >"$work/lines"
    said=$(head -n 1 "$work/lines")
    if [ "$status" -eq 0 ]; then
        report "$1" no "the status is 0"
    elif [ "$(wc -l <"$work/lines")" -ne 1 ]; then
        report "$1" no "$(wc -l <"$work/lines") lines: $said"
    elif ! is_quiet; then
        report "$1" no "something is still running"
    else
        case $said in
        *"$2"*) report "$1" ok "$said" ;;
        *) report "$1" no "$said" ;;
        esac
    fi
}

# Runs a command in the copy, and judges it by the words that it must say.
refuses() {
    name=$1
    words=$2
    shift 2
    (cd "$copy" && "$@") >"$work/said" 2>&1
    status=$?
    judge "$name" "$words"
}

# Runs a target with a disk of so many KiB in the place of a folder, if the system lets us.
refuses_on_disk() {
    mount="mount -t tmpfs -o size=$4k none '$5'"
    if unshare --mount --map-root-user sh -c "$mount" 2>/dev/null; then
        refuses "$1" "$2" unshare --mount --map-root-user sh -c "$mount && make $3"
    else
        echo "not tried: $1: no file system can be mounted here"
    fi
}

# Starts a target in a process group of its own, and waits until it has said some words.
start() {
    (cd "$copy" && exec setsid env --default-signal=INT make "$1") >"$work/said" 2>&1 &
    group=$!
    tries=0
    until grep -q "$2" "$work/said"; do
        tries=$((tries + 1))
        [ $tries -lt 2400 ] && kill -0 $group 2>/dev/null || return 1
        sleep 0.1
    done
    sleep "$3"
}

# Looks that a target that was stopped leaves no process and no file of a build.
is_gone() {
    wait "$group" 2>/dev/null
    status=$?
    if [ $status -eq 0 ]; then
        report "$1" no "the status is 0"
    elif ! is_quiet; then
        report "$1" no "something is still running"
    elif [ -n "$(find "$copy/out/trial" -mindepth 1 -name '*.??????' -print -quit)" ]; then
        report "$1" no "a folder of the build is left"
    else
        report "$1" ok "status $status, nothing is left"
    fi
}

# Holds a UDP and a TCP port that the gateways of the story need.
hold_ports() {
    python3 -c 'import signal, socket
held = [socket.socket(socket.AF_INET, kind) for kind in (socket.SOCK_DGRAM, socket.SOCK_STREAM)]
held[0].bind(("127.0.0.1", 18842))
held[1].bind(("127.0.0.1", 18853))
held[1].listen()
print("held", flush=True)
signal.pause()' >"$work/held" &
    holder=$!
    until grep -q held "$work/held" 2>/dev/null; do sleep 0.1; done
}

# Puts a program that proves nothing where each proved program would be.
pretend() {
    for name in sngw sn_client gw_sim jr_look jr_mend sn_bridge; do
        mkdir -p "$copy/crates/$name/out"
        cp "$(command -v env)" "$copy/crates/$name/out/$name"
        touch -d "$1" "$copy/crates/$name/out/$name"
    done
}

for target in trial field run; do
    refuses "make $target without rt" "rt is not on PATH" env PATH="$(path_without rt)" make $target
    rm -rf "$work/without-rt"
    refuses "make $target without python3" "python3 is not on PATH" \
        env PATH="$(path_without python3)" make $target
    rm -rf "$work/without-python3"
done
mkdir -p "$copy/out"
refuses_on_disk "make trial on a full disk" "KiB free" trial 1000 "$copy/out"
refuses_on_disk "make field on a full disk" "KiB free" field 1000 "$copy/out"
refuses_on_disk "make field with a full temporary folder" "the journals need" field 1000 "$TMPDIR"

refuses "make deb without programs" "sngw is missing ('make daemon'" make deb
pretend 2001-01-01
refuses "make deb with old programs" "gw_sim is older than a source ('make prove'" make deb
pretend now
refuses "make deb without python3" "python3 is not on PATH" env PATH="$(path_without python3)" make deb
refuses "make deb without dpkg-deb" "dpkg-deb is not on PATH" env PATH="$(path_without dpkg-deb)" make deb
refuses_on_disk "make deb on a full disk" "KiB free" deb 1000 "$copy/out"
rm -rf "$copy"/crates/*/out

hold_ports
refuses "make field with ports taken" "UDP port 18842, TCP port 18853" make field
kill "$holder"
wait "$holder" 2>/dev/null
holder=

if start trial "Building" 3; then kill -INT -"$group"; fi
is_gone "make trial at Ctrl-C"
if start trial "Building" 3; then kill -TERM "$group"; fi
is_gone "make trial that is killed"
if start field "Building" 3; then kill -TERM "$group"; fi
is_gone "make field that is killed while it builds"

began=$(date +%s)
(cd "$copy" && make field) >"$work/said" 2>&1
status=$?
took=$(($(date +%s) - began))
if [ $status -eq 0 ] && [ $took -le 180 ]; then
    report "make field from nothing" ok "$took seconds"
else
    report "make field from nothing" no "status $status after $took seconds: $(tail -n 1 "$work/said")"
fi

if start field "gateway 1 starts" 0; then kill -TERM "$group"; fi
is_gone "make field that is killed in its story"
if start field "gateway 1 starts" 0; then kill -INT -"$group"; fi
is_gone "make field at Ctrl-C in its story"
exit $failed
