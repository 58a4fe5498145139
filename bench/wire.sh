#!/bin/sh
# The daemon over its UDP socket, beside a plain C server over the same socket calls.
#
# Usage: bench/wire.sh PROGRAM [ROUNDS] [MESSAGES] [MANY] [TURN]
#
# Of the daemon PROGRAM, three times in turn with the plain server, the best of which counts: ROUNDS (20,000) PINGREQ of one client, and
# MESSAGES (5,000) PUBLISH at quality of service 1, of one client and of 32, each with one under way. They wait for sleepers, 100
# for each. The plain server answers the same frames; before a PUBACK it appends as many octets to a file as the journal grew by,
# and calls fdatasync: once for each, and of 32 clients also once for all that wait, 64 at most. The same of PUBLISH on a slow disk,
# of which each sync takes 10 ms longer, a tenth as many. On that disk 300 PUBLISH within 2 ms, and 64 deltas that come over a link at
# once. Then, of either server, a flood of twice what was handled, for some five seconds; and of the daemon the longest gaps between
# answers to 32 clients over the turn of shifts, in TURN (20,480) PUBLISH with 4 links; and its memory behind 1,000 messages that were
# delivered and acknowledged, and behind MANY (20,000). If BEFORE names another daemon, that has its turns with the PUBLISH of one
# client, too.
#
# Time is that on the clock, so the figures mean something on a machine that does nothing else. Files lie in TMPDIR or /var/tmp,
# which should be on a disk. All goes on at 127.0.0.1, at ports that the system gives. What follows `goal` is met or missed.
set -eu
top=$(cd "$(dirname "$0")/.." && pwd)
if [ $# -lt 1 ] || [ $# -gt 5 ] || [ ! -x "$1" ]; then
    sed -n '2,/^set/s/^# \{0,1\}//p' "$0" >&2
    exit 1
fi
program=$(cd "$(dirname "$1")" && pwd)/$(basename "$1")
rounds=${2:-20000}
messages=${3:-5000}
many=${4:-20000}
turn=${5:-20480}
apiece=100
work=$(mktemp -d "${TMPDIR:-/var/tmp}/wire.XXXXXX")
server=
# Ends the server that runs.
finish() {
    if [ -n "$server" ]; then
        kill -9 "$server" 2>/dev/null || true
        wait "$server" 2>/dev/null || true
        server=
    fi
}
trap 'finish; rm -rf "$work"' EXIT
trap 'exit 1' INT TERM HUP
wire=$work/wire
gcc -O2 -Wall -o "$wire" "$top/bench/wire.c"
gcc -O1 -Wall -shared -fPIC -nostdlib -fno-stack-protector -o "$work/slow.so" "$top/trials/slow_sync.c"
echo 10 >"$work/slow"
# What a server is given so that its disk is slow, and its syncs are counted; nothing for the disk as it is.
disk=
slow="LD_PRELOAD=$work/slow.so SLOW_SYNC=$work/slow SYNCS_COUNTED=$work/syncs"

# await COMMAND..: waits until the command has status 0, twenty seconds at most.
await() {
    turns=0
    until "$@"; do
        turns=$((turns + 1))
        if [ "$turns" -gt 400 ] || ! kill -0 "$server" 2>/dev/null; then
            echo "the server did not begin: $(cat "$work/err")" >&2
            exit 1
        fi
        sleep 0.05
    done
}

# daemon [PROGRAM]: a new daemon with nothing in its journal. Its ports are $port and $link.
daemon() {
    finish
    rm -f "$work"/journal.*
    "$wire" ports 2 >"$work/ports"
    port=$(sed -n 1p "$work/ports")
    link=$(sed -n 2p "$work/ports")
    cat >"$work/settings.toml" <<END
gateway = 1
listen = "127.0.0.1:$port"
link = "127.0.0.1:$link"
journal = "$work/journal"
END
    : >"$work/out"
    # shellcheck disable=SC2086
    env $disk "$wire" guard "${1:-$program}" --config "$work/settings.toml" --shifts 1000000 >"$work/out" 2>"$work/err" &
    server=$!
    await grep -q '^gateway 1 records' "$work/out"
}

# plain [FILE OCTETS [MOST]]: the plain server. Its port is $port.
plain() {
    finish
    rm -f "$work/plain.file"
    : >"$work/out"
    # shellcheck disable=SC2086
    env $disk "$wire" plain "$@" >"$work/out" 2>"$work/err" &
    server=$!
    await test -s "$work/out"
    port=$(cat "$work/out")
}

# told NAME LINE: the number behind a name.
told() {
    echo "$2" | awk -v name="$1" '{ for (i = 1; i < NF; i += 2) if ($i == name) print $(i + 1) }'
}

# best FILE: the line with the greatest rate.
best() {
    awk '{ for (i = 1; i < NF; i += 2) if ($i == "rate" && $(i + 1) + 0 > most) { most = $(i + 1) + 0; line = $0 } }
        END { print line }' "$1"
}

# compare WORDS DAEMON PLAIN: two lines side by side.
compare() {
    awk -v words="$1" -v a="$(told rate "$2")" -v b="$(told rate "$3")" -v s="$(told slowest "$2")" -v t="$(told slowest "$3")" \
        -v r="$(told repeats "$2")" 'BEGIN {
        printf "%s\n  daemon %.0f per second (%.0f us each), slowest answer %.1f ms, %d repeated\n", words, a, 1000000 / a, s / 1000, r
        printf "  plain C %.0f per second (%.0f us each), slowest answer %.1f ms\n", b, 1000000 / b, t / 1000
        printf "  the daemon does %.2f of plain C\n", a / b }'
}

# goal WORDS NUMBER LEAST: says whether a number is as great as it should be.
goal() {
    awk -v words="$1" -v n="$2" -v least="$3" 'BEGIN {
        printf "  %s %.2f; goal %s: %s\n", words, n, least, (n + 0 >= least + 0) ? "met" : "missed" }'
}

# by A B: a quotient.
by() {
    awk -v a="$1" -v b="$2" 'BEGIN { print b + 0 ? a / b : 0 }'
}

# puts CLIENTS MESSAGES: so many publications of so many clients, to servers in turn: the daemon, the plain one; of many clients also
# the plain one that syncs once for all that wait, and of one also the daemon BEFORE.
puts() {
    rm -f "$work/proved" "$work/plain" "$work/grouped" "$work/before"
    for _ in 1 2 3; do
        daemon
        "$wire" puts "$port" "$1" "$2" "$apiece" "$work/journal.0" >>"$work/proved"
        octets=$(told octets "$(tail -n 1 "$work/proved")")
        plain "$work/plain.file" "${octets%.*}"
        "$wire" puts "$port" "$1" "$2" "$apiece" >>"$work/plain"
        if [ "$1" -gt 1 ]; then
            plain "$work/plain.file" "${octets%.*}" 64
            "$wire" puts "$port" "$1" "$2" "$apiece" >>"$work/grouped"
        elif [ -n "${BEFORE:-}" ]; then
            daemon "$BEFORE"
            "$wire" puts "$port" "$1" "$2" "$apiece" >>"$work/before"
        fi
    done
    proved_line=$(best "$work/proved")
    plain_line=$(best "$work/plain")
    octets=$(told octets "$proved_line")
}

# one_and_many MESSAGES WORDS TIMES: publications of one client, and of 32, which should be answered so many times as often.
one_and_many() {
    puts 1 "$1"
    compare "$1 PUBLISH of one client$2, $octets octets of the journal each" "$proved_line" "$plain_line"
    alone=$(told rate "$proved_line")
    if [ -n "${BEFORE:-}" ]; then
        goal "of what the daemon before does it does" "$(by "$alone" "$(told rate "$(best "$work/before")")")" 0.95
    fi
    puts 32 "$1"
    compare "$1 PUBLISH of 32 clients$2, $octets octets of the journal each" "$proved_line" "$plain_line"
    rate=$(told rate "$proved_line")
    grouped=$(told rate "$(best "$work/grouped")")
    echo "  plain C with one sync for all that wait ${grouped%.*} per second"
    goal "of what that does the daemon does" "$(by "$rate" "$grouped")" 0.6
    goal "of what it does for one client it does" "$(by "$rate" "$alone")" "$3"
}

# burst: 300 publications within 2 ms, to the daemon.
burst() {
    daemon
    line=$("$wire" flood "$port" 150000 0.002 500)
    awk -v sent="$(told sent "$line")" -v answered="$(told answered "$line")" -v after="$(told after "$line")" 'BEGIN {
        printf "  %d sent, %d dropped; goal none: %s; an answer %.0f ms behind them\n", sent, sent - answered,
            sent == answered ? "met" : "missed", after / 1000 }'
}

# peer: 64 deltas at once, over a link to the daemon.
peer() {
    daemon
    line=$("$wire" deltas "$link" 64 "$work/journal.0" "$work/syncs")
    awk -v syncs="$(told syncs "$line")" 'BEGIN { printf "  %d syncs; goal 1: %s\n", syncs, syncs == 1 ? "met" : "missed" }'
}

# flood WORDS RATE: twice the rate, to the server that runs.
flood() {
    line=$("$wire" flood "$port" "$(awk -v rate="$2" 'BEGIN { printf "%.0f", 2 * rate }')" 5 500)
    awk -v words="$1" -v sent="$(told sent "$line")" -v rate="$(told rate "$line")" -v dropped="$(told dropped "$line")" \
        -v after="$(told after "$line")" 'BEGIN {
        printf "  %s: %d sent at %.0f per second, %.1f %% dropped, ", words, sent, rate, 100 * dropped
        printf "an answer %.1f ms behind it\n", after / 1000 }'
}

echo "load $(cut -d ' ' -f 1-3 /proc/loadavg 2>/dev/null || echo unknown), $(nproc) processors"
echo "files on $(stat -f -c %T "$work" 2>/dev/null || echo an unknown system); on tmpfs a sync costs nothing"

for _ in 1 2 3; do
    daemon
    "$wire" pings "$port" "$rounds" >>"$work/pings"
    plain
    "$wire" pings "$port" "$rounds" >>"$work/echoes"
done
compare "$rounds PINGREQ of one client" "$(best "$work/pings")" "$(best "$work/echoes")"

one_and_many "$messages" "" 5
fast_line=$proved_line
fast_plain=$plain_line
disk=$slow
one_and_many $((messages / 10)) ", each sync 10 ms longer" 15
echo "300 PUBLISH within 2 ms, each sync 10 ms longer"
burst
echo "64 deltas that come over a link at once, each sync 10 ms longer"
peer
disk=

echo "a flood of twice as many PUBLISH as were handled"
daemon
flood daemon "$(told rate "$fast_line")"
plain "$work/plain.file" "${octets%.*}"
flood "plain C" "$(told rate "$fast_plain")"

daemon
line=$("$wire" turn "$port" "$link" 32 4 "$turn" "$apiece")
shifts=$(grep -c '^shift ' "$work/out" || true)
echo "$turn PUBLISH of 32 clients with 4 links, over the end of $shifts shifts"
echo "$line" | awk -v lost="$(told lost "$line")" -v repeats="$(told repeats "$line")" -v slowest="$(told slowest "$line")" '{
    printf "  longest gaps between answers"
    for (i = 1; i < NF; i += 2) if ($i ~ /^gap/) printf " %.1f", $(i + 1) / 1000
    printf " ms; slowest answer %.1f ms, %d repeated, %d links lost\n", slowest / 1000, repeats, lost }'

daemon
line=$("$wire" memory "$port" "$server" 1000 "$many")
awk -v few="$(told few "$line")" -v more="$(told many "$line")" -v most="$(told most "$line")" -v many="$many" 'BEGIN {
    print "messages of quality of service 1, delivered and acknowledged"
    printf "  VmRSS %d KiB behind 1,000, %d behind %d, %.2f times as much; at most %d\n", few, more, many, more / few, most }'
