#!/bin/sh
# Tries the Debian package: packs it, installs it below a folder, runs the programs from there,
# removes it, and looks that nothing is left.
#
# Usage: trials/deb.sh        as root, or without root if fakeroot is there
#
# Lintian reads the package too, if it is there. Nothing outside the folder is changed. One line
# for each thing that was tried; the status is 1 at the first that fails.
set -eu
cd "$(dirname "$0")/.."
. tools/programs.sh

need dpkg "it installs the package"
if [ "$(id -u)" -ne 0 ]; then
    need fakeroot "only root installs without it"
    exec fakeroot sh "$0"
fi
work=$(mktemp -d)
trap 'rm -rf "$work"' EXIT
trap 'exit 129' HUP
trap 'exit 130' INT
trap 'exit 143' TERM
root=$work/root

# A command of dpkg on the folder, which knows of no other package.
in_root() {
    dpkg --root="$root" --log="$work/log" --force-depends "$@" >"$work/said" 2>&1 ||
        stop "FAILED: dpkg $*: $(tail -n 1 "$work/said")"
}

# The files and folders in the folder, without what dpkg notes for itself.
left() {
    (cd "$root" && find . -path ./var -prune -o ! -name . -print)
}

sh tools/deb.sh >"$work/said" 2>&1 || stop "FAILED: $(tail -n 1 "$work/said")"
package=$(sed -n 's/^packed //p' "$work/said")
echo "ok: packed $package"

if command -v lintian >/dev/null; then
    lintian --allow-root --fail-on error "$package" >"$work/said" 2>&1 ||
        stop "FAILED: $(grep '^E' "$work/said")"
    echo "ok: lintian reports no error"
else
    echo "not tried: lintian is not here"
fi

mkdir -p "$root/var/lib/dpkg/info" "$root/var/lib/dpkg/updates" "$root/var/lib/dpkg/triggers"
: >"$root/var/lib/dpkg/status"
in_root --install "$package"
for name in sngw sn_client gw_sim jr_look jr_mend sn_bridge; do
    cmp -s "crates/$name/out/$name" "$root/usr/bin/$name" || stop "FAILED: $name is not the proved program"
done
(cd "$root" && md5sum --quiet -c var/lib/dpkg/info/nimhazel.md5sums) || stop "FAILED: the sums differ"
echo "ok: installed $(left | wc -l) files and folders; the programs are the proved ones"

"$root/usr/bin/gw_sim" <examples/takeover.script >"$work/said" || stop "FAILED: gw_sim"
[ -s "$work/said" ] || stop "FAILED: gw_sim printed nothing"
"$root/usr/bin/sn_client" --help >"$work/said" || stop "FAILED: sn_client"
"$root/usr/bin/sngw" --help >"$work/said" 2>&1 || true
[ "$(cat "$work/said")" = "sngw: arguments" ] || stop "FAILED: sngw --help: $(cat "$work/said")"
"$root/usr/bin/sn_bridge" --help >"$work/said" 2>&1 || true
[ "$(cat "$work/said")" = "sn_bridge: arguments" ] || stop "FAILED: sn_bridge --help: $(cat "$work/said")"
settings=$root/usr/share/doc/nimhazel/examples/field/one.toml
(cd "$work" && "$root/usr/bin/sngw" --config "$settings" --shifts 0 >"$work/said" 2>/dev/null) ||
    stop "FAILED: sngw"
[ "$(cat "$work/said")" = "gateway 1 records 0 clients 0" ] || stop "FAILED: sngw: $(cat "$work/said")"
(cd "$work" && "$root/usr/bin/jr_look" one >"$work/said") || stop "FAILED: jr_look"
(cd "$work" && "$root/usr/bin/jr_mend" one >"$work/said") || stop "FAILED: jr_mend"
[ ! -s "$work/said" ] || stop "FAILED: jr_mend: $(cat "$work/said")"
grep -q '^ExecStartPre=-/usr/bin/jr_mend ' "$root/usr/lib/systemd/system/nimhazel@.service" ||
    stop "FAILED: the unit does not run jr_mend"
echo "ok: all six programs run from there"

in_root --purge nimhazel
[ -z "$(left)" ] || stop "FAILED: the package left $(left | head -n 1)"
echo "ok: removed, and nothing is left"
