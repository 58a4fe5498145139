# A program of crates/NAME, proved and built where it is not there, or where a source is newer: `program=$(built NAME INPUT)`.
# To be read by the other scripts, with `top` and `work` set.
built() {
    program=$top/crates/$1/out/$1
    if [ ! -x "$program" ] || [ -n "$(find "$top/crates" -name out -prune -o -name '*.rt' -newer "$program" -print | head -n 1)" ]; then
        if ! (cd "$top/crates/$1" && rt run <"$2" >"$work/built" 2>&1); then
            tail -n 20 "$work/built" >&2
            return 1
        fi
    fi
    echo "$program"
}
