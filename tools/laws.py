#!/usr/bin/env python3
"""Checks one crate over the sources of those below it, where these have no library yet: of a crate of laws it takes definitions and lemmas, and proves no code below.

Usage: laws.py ROOT CRATE [FLAG ..]      flags are those of `rattle check`, as `--only CRATE::laws`; what was proved is kept in ROOT/crates/CRATE/out/laws

A crate that has a library in ROOT (`tools/over.py`) is taken from there. This is for work in between: what counts is `make test`.
"""
import os
import subprocess
import sys

import over

KIT = over.KIT


def words(root: str, name: str) -> list:
    """The words of rattle's command for a crate."""
    crates = over.read_crates(root)
    low = over.below(crates, name)
    built = [it for it in low if over.library(root, it)]
    kit = sorted({dep for it in [*low, name] for dep in crates[it] if dep not in crates})
    found = [f"{KIT}/bin/rattle", "check", "--crate-name", name, over.file_of(root, name), "--extern", f"std={KIT}/rlibs/std.rlib"]
    for it in kit:
        found += ["--extern", f"{it}={KIT}/rlibs/{it}.rlib"]
    for it in built:
        found += ["--extern", f"{it}={over.library(root, it)}", "-L", "dependency=" + os.path.dirname(over.library(root, it))]
    for it in low:
        if it not in built:
            found += ["--lib", f"{it}={root}/crates/{it}/src/lib.rt"]
    return [*found, "-L", f"dependency={KIT}/rlibs", "--antt-project", f"{KIT}/rattle/logic/antt-project.json", "--logic-built", f"{KIT}/logic_built"]


def main(root: str, name: str, *flags: str) -> int:
    root = os.path.abspath(root)
    folder = f"{root}/crates/{name}"
    os.makedirs(f"{folder}/out/laws", exist_ok=True)
    return subprocess.run([*words(root, name), "--incremental", f"{folder}/out/laws", *flags], cwd=folder, check=False).returncode


if __name__ == "__main__":
    sys.exit(main(*sys.argv[1:]) if len(sys.argv) > 2 else __doc__)
