#!/usr/bin/env python3
"""Names two functions, types or modules of one file, or two files of one folder, whose names differ in case alone: the prover refuses them, after minutes.

Usage: names.py      the last line counts them; the status is 1 if there is one
"""
import collections
import pathlib
import re
import sys

TOP = pathlib.Path(__file__).resolve().parent.parent
ITEM = re.compile(r"^(?:pub(?:\([a-z]+\))? )?(?:const |unsafe )*(?:fn|struct|enum|trait|mod|static) ([A-Za-z_0-9]+)", re.M)


def alike(names: list) -> list:
    """The names that differ from another one in case alone."""
    spellings = collections.defaultdict(set)
    for name in names:
        spellings[name.lower()].add(name)
    return [" and ".join(sorted(it)) for it in spellings.values() if len(it) > 1]


def main() -> int:
    faults, count = [], 0
    for file in sorted(TOP.glob("crates/*/src/**/*.rt")):
        count += 1
        faults += [f"{file.relative_to(TOP)}: {it}" for it in alike(ITEM.findall(file.read_text(encoding="utf-8")))]
    for folder in sorted({it.parent for it in TOP.glob("crates/*/proofs/**/*.antt")}):
        faults += [f"{folder.relative_to(TOP)}: {it}" for it in alike([it.name.removesuffix(".antt") for it in folder.iterdir()])]
    print("\n".join([*faults, f"{count} files, {len(faults)} names that differ in case alone"]))
    return 1 if faults else 0


if __name__ == "__main__":
    sys.exit(main())
