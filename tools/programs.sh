# What the scripts ask about programs. To be read by them, at the top of the repository.

# Prints why a script ends, and ends it.
stop() {
    echo "$1" >&2
    exit 1
}

# Ends the script if a command is not on PATH.
need() {
    command -v "$1" >/dev/null 2>&1 || stop "$1 is not on PATH: $2"
}

# The target of make that proves and builds a program.
target() {
    case $1 in
    sngw) echo daemon ;;
    sn_client) echo client ;;
    gw_sim) echo prove ;;
    jr_look) echo look ;;
    jr_mend) echo mend ;;
    sn_bridge) echo bridge ;;
    esac
}

# Whether a program is there, and no source is newer. Every source of the repository counts, also one
# that the program does not use.
is_current() {
    [ -x "$1" ] && [ -z "$(find crates.txt crates -path '*/out' -prune -o \
        \( -name '*.rt' -o -name '*.antt' -o -name crates.txt \) -newer "$1" -print -quit)" ]
}

# Ends the script if a file system has less room than so many KiB.
need_room() {
    room=$(df -Pk "$1" | awk 'NR == 2 { print $4 }')
    [ "$room" -ge "$2" ] || stop "$1 has $room KiB free: $3 needs $2 KiB"
}
