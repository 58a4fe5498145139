#!/usr/bin/env python3
"""Counts the ways through crates.txt, each of which `rt ci` pays for: it sums up a library's files, those of all that its line names, and so on.

Usage: paths.py [CRATES]      crates.txt where nothing is said

Prints, for each library, how many crates are read for it, those that are read again each time that another way leads to them; all of them together;
how many there would be if each line named its direct neighbours alone; and the lines' words that cost most.
"""
import functools
import os
import sys


def read_crates(path):
    """What each crate's line names, of the crates of this repository."""
    found = {}
    with open(path, encoding="utf-8") as it:
        for line in it:
            name, colon, rest = line.partition(":")
            if colon and not name.startswith("#"):
                found[name.split()[0]] = rest.split()
    return {name: [it for it in rest if it in found] for name, rest in found.items()}


def ways(crates):
    """How many crates are read for each crate."""

    @functools.lru_cache(None)
    def of(name):
        return 1 + sum(map(of, crates[name]))

    return {name: of(name) for name in crates}


def direct(crates):
    """The same lines without what another crate of the line stands on."""

    @functools.lru_cache(None)
    def below(name):
        return frozenset(crates[name]).union(*map(below, crates[name]))

    return {name: [it for it in line if not any(it in below(other) for other in line)] for name, line in crates.items()}


def main(words):
    path = words[0] if words else "crates.txt"
    crates, folder = read_crates(path), os.path.dirname(path)
    libraries = [it for it in crates if os.path.exists(os.path.join(folder, "crates", it, "src", "lib.rt"))]
    count = lambda lines: sum(ways(lines)[it] for it in libraries)
    for name in libraries:
        print(f"{name:16} {ways(crates)[name]:8}")
    few = direct(crates)
    print(f"{'all':16} {count(crates):8}; by direct neighbours {count(few)}")
    spared = []
    for name, line in crates.items():
        for it in line:
            if it not in few[name]:
                spared.append((count(crates) - count({**crates, name: [other for other in line if other != it]}), name, it))
    for less, name, it in sorted(spared, reverse=True)[:12]:
        print(f"  {name} names {it}: {less}")
    return 0


if __name__ == "__main__":
    sys.exit(main(sys.argv[1:]))
