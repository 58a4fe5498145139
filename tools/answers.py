#!/usr/bin/env python3
"""Prints the names by which answers cite parts of a function that the function does not have.

Usage: answers.py [CRATE ..]      of these crates, or of all

An answer says `c.copied-client.ensures` of the call `copied` that gives `client`. If a function, a variable or a call gets
another name, its answers have to follow; a check of the crate says so after minutes, this in a second. Parts that the kit
itself names (of operators, loops and fields of std) may be left over: look at what is new.
"""
import pathlib
import re
import sys

TOP = pathlib.Path(__file__).resolve().parent.parent
# What the kit calls parts that the source does not name.
KIT = set("""not match in in_ok in_err in_default if loop args is new old result ensures requires true false else auto call self next
test index items back then item deref deref_mut index_mut iterator into_iter from_residual type_inv inside end start eq ne
lt le gt eq0 ne0 gt0 Some None Ok Err""".split())
FUNCTION = re.compile(r"\n *(?:pub |pub\(crate\) )?fn |\nimpl")


def source_of(crate, parts):
    """The source file of a proof's folder."""
    for count in range(len(parts) - 1, -1, -1):
        path = crate / "src" / ("/".join(parts[:count]) + ".rt" if count else "lib.rt")
        if path.exists():
            return path.read_text()
    return ""


def words_of(source, name):
    """The words of the functions of this name; none if there is no such function."""
    words = set()
    for found in re.finditer(rf"\bfn {re.escape(name)}\b", source):
        rest = source[found.start() + 3:]
        after = FUNCTION.search(rest)
        words |= set(re.findall(r"\w+", rest[:after.start()] if after else rest))
    return words


def strange(crate):
    """The file and the name of each part that the function lacks."""
    for path in sorted((crate / "proofs").rglob("*.antt")):
        if path.name not in ("Answers.antt", "Invariants.antt"):
            continue
        parts = path.relative_to(crate / "proofs").parts[:-1]
        words = words_of(source_of(crate, parts), parts[-1])
        if not words:
            continue
        for name in sorted(set(re.findall(r"\bc\.(args\.\w+|[\w\-]+)", path.read_text()))):
            if any(not it.isdigit() and it not in KIT and it not in words for it in re.split(r"[-.]", name)):
                yield path.relative_to(TOP), name


def main(names):
    for crate in sorted((TOP / "crates").iterdir()):
        if crate.is_dir() and (not names or crate.name in names):
            for path, name in strange(crate):
                print(f"{path}: {name}")


if __name__ == "__main__":
    sys.exit(main(sys.argv[1:]))
