#!/bin/sh
# Installs the programs that are built, their man pages, the systemd units and example settings.
#
# Usage: install.sh DESTDIR PREFIX        from the top of the repository; DESTDIR may be empty
#
# A program that is older than a source is not installed: it is not the one that this text
# describes. The status is 1 if there is such a program, or if none is built.
set -eu
root=$1$2
prefix=$2
. tools/programs.sh

installed=0
old=0
for name in sngw sn_client gw_sim jr_look jr_mend sn_bridge; do
    program=crates/$name/out/$name
    if is_current "$program"; then
        install -D -m 755 "$program" "$root/bin/$name"
        installed=$((installed + 1))
        echo "installed $root/bin/$name"
    elif [ -x "$program" ]; then
        old=$((old + 1))
        echo "old       $name: sources changed since it was built; 'make $(target "$name")' proves and builds it"
    else
        echo "missing   $name: it is not built; 'make $(target "$name")' proves and builds it"
    fi
done
python3 tools/man.py "$root/share/man"
echo "installed $root/share/man"
mkdir -p "$root/lib/systemd/system"
for unit in nimhazel@.service nimhazel-bridge@.service; do
    sed "s|/usr/local/bin/|$prefix/bin/|g" "examples/$unit" >"$root/lib/systemd/system/$unit"
    chmod 644 "$root/lib/systemd/system/$unit"
    echo "installed $root/lib/systemd/system/$unit"
done
for name in one two three; do
    install -D -m 644 "examples/field/$name.toml" "$root/share/doc/nimhazel/field/$name.toml"
done
for name in b1.toml mosquitto.conf; do
    install -D -m 644 "examples/bridge/$name" "$root/share/doc/nimhazel/bridge/$name"
done
echo "installed $root/share/doc/nimhazel: settings to begin with"
echo "$installed programs of 6 are installed"
[ "$old" -eq 0 ] && [ "$installed" -gt 0 ]
