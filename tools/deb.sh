#!/bin/sh
# Packs the proved programs as a Debian package: out/nimhazel_VERSION_amd64.deb.
#
# Usage: deb.sh
#
# The package has what `make install PREFIX=/usr` installs, and what Debian asks of each package.
# It is not made if a program is missing or older than a source: what is not proved is not packed.
# Nothing is downloaded, and the package has no script that runs when it is installed.
set -eu
umask 022
cd "$(dirname "$0")/.."
. tools/programs.sh

work=

# Takes away what was not finished.
clean() {
    [ -z "$work" ] || rm -rf "$work"
}

# Ends the script if a program is not there as it was proved, with all of them in one line.
need_programs() {
    lacks=
    for name in sngw sn_client gw_sim jr_look jr_mend sn_bridge; do
        if [ ! -x "crates/$name/out/$name" ]; then
            lacks="$lacks; $name is missing ('make $(target "$name")' proves and builds it)"
        elif ! is_current "crates/$name/out/$name"; then
            lacks="$lacks; $name is older than a source ('make $(target "$name")' proves and builds it)"
        fi
    done
    [ -z "$lacks" ] || stop "nothing is packed: ${lacks#; }"
}

# The version: the newest one in CHANGELOG, with the commit if it is not the released one.
version() {
    heading=$(sed -n 's/^## //p' CHANGELOG.md | head -n 1)
    released=$(sed -n 's/^## v\{0,1\}\([0-9][0-9.]*\).*/\1/p' CHANGELOG.md | head -n 1)
    case $heading in
    [0-9]* | v[0-9]*) echo "$released-1" ;;
    *) echo "${released:-0}+git$(commit)-1" ;;
    esac
}

# How many commits there are, and which one this is; "changed" is added if files differ from it.
commit() {
    if git rev-parse HEAD >/dev/null 2>&1; then
        echo "$(git rev-list --count HEAD).$(git describe --always --abbrev=8 --exclude='*' --dirty=.changed)"
    else
        echo 0
    fi
}

# The packages of the libraries that the programs load, with the oldest version of the C library
# that has every symbol that they use.
depends() {
    for name in sngw sn_client gw_sim jr_look jr_mend sn_bridge; do ldd -v "$root/usr/bin/$name"; done >"$work/libraries"
    libc=$(sed -n 's/.*(GLIBC_\([0-9.]*\)).*/\1/p' "$work/libraries" | sort -V | tail -n 1)
    list="libc6 (>= $libc)"
    if grep -q 'libgcc_s\.so' "$work/libraries"; then list="$list, libgcc-s1"; fi
    echo "$list"
}

# Compresses a file without its name and date, so that the same sources give the same package.
shrink() {
    gzip -9n "$1"
}

# Puts everything that is installed below $root.
fill() {
    sh tools/install.sh "$root" /usr >"$work/installed" 2>&1 || stop "$(tail -n 1 "$work/installed")"
    for page in "$root"/usr/share/man/man*/*; do shrink "$page"; done
    doc=$root/usr/share/doc/nimhazel
    mkdir "$doc/examples"
    mv "$doc/field" "$doc/examples/field"
    mv "$doc/bridge" "$doc/examples/bridge"
    cp tools/deb/copyright CHANGELOG.md "$doc"
    mv "$doc/CHANGELOG.md" "$doc/changelog"
    write_changes >"$doc/changelog.Debian"
    shrink "$doc/changelog"
    shrink "$doc/changelog.Debian"
    overrides=$root/usr/share/lintian/overrides
    mkdir -p "$overrides"
    cp tools/deb/lintian-overrides "$overrides/nimhazel"
    chmod -R u=rwX,go=rX "$root"
}

# Debian's own list of changes: the package is made anew of each version.
write_changes() {
    cat <<END
nimhazel ($version) unstable; urgency=medium

  * The programs, man pages, unit and examples of this version.

 -- $maintainer  $(date -u -R -d "@$SOURCE_DATE_EPOCH")
END
}

# What dpkg reads: the description of the package, and the sum of each file.
write_control() {
    mkdir "$root/DEBIAN"
    (cd "$root" && find usr -type f | LC_ALL=C sort | xargs md5sum) >"$root/DEBIAN/md5sums"
    cat >"$root/DEBIAN/control" <<END
Package: nimhazel
Version: $version
Section: net
Priority: optional
Architecture: amd64
Depends: $(depends)
Installed-Size: $(du -k -s --apparent-size "$root/usr" | cut -f 1)
Maintainer: $maintainer
Description: field of MQTT-SN 1.2 gateways for sensors that sleep and move
 A gateway is also the broker. Gateways are linked and none of them leads:
 a sensor that falls asleep at one can wake up at another, and its session
 and its waiting messages are there. The programs are built from a source
 whose promises about waiting messages are proved.
 .
 sngw is the gateway, sn_client a client for a terminal, sn_bridge a bridge
 to an MQTT broker. jr_look shows the
 journal of a gateway, and jr_mend cuts zeros that a power cut left there.
 gw_sim plays scripts at simulated gateways.
END
}

need dpkg-deb "it makes the package"
need python3 "it makes the man pages"
need_programs
trap clean EXIT
trap 'exit 129' HUP
trap 'exit 130' INT
trap 'exit 143' TERM
mkdir -p out || stop "out cannot be made"
need_room out 60000 "a package"
work=$(mktemp -d out/deb.XXXXXX) || stop "out cannot be written: is the disk full?"
root=$work/root
version=$(version)
maintainer="Nimhazel maintainers <maintainers@users.noreply.nimhazel.example>"
SOURCE_DATE_EPOCH=$(git log -1 --format=%ct 2>/dev/null || date +%s)
export SOURCE_DATE_EPOCH
fill
write_control
package=nimhazel_${version}_amd64.deb
dpkg-deb --build --root-owner-group "$root" "$work/$package" >"$work/packed" 2>&1 ||
    stop "nothing is packed: $(tail -n 1 "$work/packed")"
mv "$work/$package" "out/$package"
echo "packed out/$package"
