#!/usr/bin/env python3
"""Tells which functions a gate's time goes to, by the files that the checks of a run write one after the other.

Usage: bench/functions.py watch FOLDER           notes them in FOLDER, until it is stopped: begin it before `make test`
       bench/functions.py FOLDER [CRATE] [COUNT]  prints the dearest of those noted, or of one crate (40)

A check by one job writes the files of a function together, so the time between two files is the later one's. It is time
by the clock: a machine that does nothing else tells it well. Beside the seconds stands the size of the function's steps
(`Lts`), in kilobytes, which no machine changes.
"""
import collections
import os
import re
import sys
import time

TOP, BEGIN = "/tmp", "rattle-logic-built-"
# A file's name: its crate, what it is of, and which part of that it holds.
NAME = re.compile(r"Rattle-([a-z_0-9]+?)(?:-(?:specs|proofs))?\.(.*)\.oantt$")
PARTS = {"Lts", "Tie", "Mir", "Proof", "Reads", "Code", "TheLink", "Layout", "Named", "Key", "Statement", "Met", "Instances", "Paired", "Symbol"}
# A pause that is longer is no function's: the check stood still.
PAUSE = 300


def look(seen, folder):
    """Notes the files that are new."""
    for check in os.listdir(TOP):
        if not check.startswith(BEGIN):
            continue
        known = seen.setdefault(check, set())
        new = []
        try:
            with os.scandir(f"{TOP}/{check}") as files:
                for file in files:
                    if file.name.endswith(".oantt") and file.name not in known:
                        stat = file.stat()
                        new.append((stat.st_mtime_ns, stat.st_size, file.name))
        except OSError:
            continue
        known.update(name for _, _, name in new)
        with open(f"{folder}/{check}", "a") as out:
            out.writelines(f"{moment} {size} {name}\n" for moment, size, name in sorted(new))


def watch(folder):
    """Notes files until it is stopped."""
    os.makedirs(folder, exist_ok=True)
    seen = {}
    while True:
        look(seen, folder)
        time.sleep(3)


def files_of(path):
    """The files of one check in their order: moment, size, name."""
    with open(path) as it:
        lines = [line.rstrip("\n").split(" ", 2) for line in it]
    return sorted((int(moment), int(size), name) for moment, size, name in lines)


def function_of(rest):
    """What a file is of, without the part that it holds."""
    return ".".join(word for word in rest.split(".") if word not in PARTS and not word.startswith("Kinds"))


def tell(folder, crate, count):
    """Prints the dearest functions."""
    spent, size = collections.Counter(), collections.Counter()
    for check in os.listdir(folder):
        last = None
        for moment, octets, name in files_of(f"{folder}/{check}"):
            seconds, last = (moment - last) / 1e9 if last else 0, moment
            found = NAME.match(name)
            if not found or (crate and found[1] != crate) or seconds > PAUSE:
                continue
            function = found[1], function_of(found[2])
            spent[function] += seconds
            size[function] += octets if found[2].endswith(".Lts") else 0
    print("seconds  kilobytes  crate and function")
    for function, seconds in spent.most_common(count):
        print(f"{seconds:7.1f}  {size[function] // 1000:9d}  {function[0]} {function[1]}")
    print(f"{sum(spent.values()):7.1f}  {sum(size.values()) // 1000:9d}  all")


def main(words):
    if words[:1] == ["watch"] and len(words) == 2:
        watch(words[1])
    if not words or words[0] == "watch":
        return __doc__
    crate = next((word for word in words[1:] if not word.isdigit()), None)
    count = next((int(word) for word in words[1:] if word.isdigit()), 40)
    return tell(words[0], crate, count)


if __name__ == "__main__":
    try:
        sys.exit(main(sys.argv[1:]))
    except KeyboardInterrupt:
        pass
