#!/usr/bin/env python3
"""Checks which groups of crates use which, and prints the nearest neighbours of each crate: crates.txt has the headings.

    python3 tools/layers.py            prints each group with its crates; exits 1 if one names what it may not
    python3 tools/layers.py --check    prints the faults and one line

A crate's nearest neighbours are those that no other crate of its line brings. A fault is one line: the crate, and what it names.
"""
import pathlib
import re
import sys

import paths

TOP = pathlib.Path(__file__).resolve().parent.parent
LIST = TOP / "crates.txt"

WORDS = ["base", "words of MQTT-SN"]
STEPS = [*WORDS, "sets", "step table"]

# What each group may use beside itself.
MAY_USE = {
    "base": [],
    "words of MQTT-SN": ["base"],
    "sets": WORDS,
    "bridge": [*WORDS, "sets"],
    "journal": ["base", "sets"],
    "replicas": [*WORDS, "sets"],
    "step table": [*WORDS, "sets"],
    "laws": STEPS,
    "gateway": [*STEPS, "journal"],
    "laws of fields": [*STEPS, "journal", "laws", "gateway"],
    "daemon": [*STEPS, "journal", "gateway"],
    "simulator": [*STEPS, "replicas", "gateway"],
    "programs": [*STEPS, "bridge", "replicas", "journal", "gateway", "daemon", "simulator"],
    "tests and benchmarks": [*STEPS, "bridge", "replicas", "journal", "gateway", "daemon", "simulator"],
}

# Crates that may use a further group: the clauses of gw_world about a run are proved from the laws.
ALSO = {"gw_world": ["laws"]}

# Crates that are not for everybody who may use their group. A name is a group or a crate.
ONLY_FOR = {
    "rep_plain": ["simulator", "gw_sim", "tests and benchmarks"],
    "gw_world": ["laws of fields", "simulator", "call_rows"],
}


def read_groups(text):
    """The group of each crate, or None if it is under no heading, and the faults of the headings."""
    groups, faults, heading, seen = {}, [], None, []
    for line in text.split("\n"):
        if re.fullmatch(r"# [\w -]+", line):
            heading = line[2:]
            faults += [f"crates.txt: the heading {heading!r} is there twice"] * (heading in seen)
            faults += [f"crates.txt: tools/layers.py does not know the group {heading!r}"] * (heading not in MAY_USE)
            seen.append(heading)
        elif ":" in line and not line.startswith("#"):
            groups[line.partition(":")[0].split()[0]] = heading
    return groups, faults


def faults_of(crates, groups):
    """A line for each crate that a crate names and may not."""
    above = set()
    for name, line in crates.items():
        own = groups[name]
        if own is None:
            yield f"{name}: crates.txt has it under no heading"
        allowed = [own, *MAY_USE.get(own, []), *ALSO.get(name, [])]
        for it in line:
            if it not in above:
                yield f"{name} names {it}, which is below it in crates.txt"
            if not {own, groups[it]} <= MAY_USE.keys():
                continue
            if groups[it] not in allowed:
                yield f"{name} ({own}) names {it}: a crate of this group may not use the group {groups[it]!r}"
            elif it in ONLY_FOR and own != groups[it] and not {name, own} & {*ONLY_FOR[it]}:
                yield f"{name} ({own}) names {it}, which is only for: {', '.join(ONLY_FOR[it])}"
        above.add(name)


def main(given):
    if [it for it in given if it != "--check"]:
        print(__doc__)
        return 2
    crates = paths.read_crates(LIST)
    groups, faults = read_groups(LIST.read_text(encoding="utf-8"))
    folders = {it.parent.name for it in TOP.glob("crates/*/src")}
    faults += [f"{it}: crates.txt has no line of it" for it in sorted(folders - crates.keys())]
    faults += faults_of(crates, groups)
    if "--check" not in given:
        nearest = paths.direct(crates)
        for group in dict.fromkeys(groups.values()):
            print(f"\n{group or 'under no heading'}, which may use: {', '.join(MAY_USE.get(group, [])) or 'no other group'}")
            for name in (it for it in crates if groups[it] == group):
                print(f"    {name:14} {' '.join(nearest[name])}".rstrip())
        print()
    for it in faults:
        print(it)
    print(f"{len(crates)} crates in {len({*groups.values()})} groups, {len(faults)} faults of crates.txt")
    return 1 if faults else 0


if __name__ == "__main__":
    sys.exit(main(sys.argv[1:]))
