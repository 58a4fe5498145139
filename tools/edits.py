#!/usr/bin/env python3
"""Checks that each must-fail edit still fits its crate: those of crates/NAME/must-fail, which the gate tries, and those of crates/NAME/edits.

    python3 tools/edits.py             prints how many edits each crate has, and what is wrong with them; exits 1 if one does not fit
    python3 tools/edits.py --check     prints what is wrong, and one line

An edit is lines `file:`, `old:` and `new:`; more pairs follow, each for what the earlier ones made. It fits if each old text is in its file
exactly once, and the new one is another. Whether the prover refuses it, only `make test` and `make edits` can say.
"""
import pathlib
import sys

CRATES = pathlib.Path(__file__).resolve().parent.parent / "crates"


def read_pairs(text):
    """The changes of an edit, each a file with its old and its new text. Raises ValueError with what is wrong."""
    pairs, path, old = [], None, None
    for line in text.split("\n"):
        if line.startswith("file: "):
            path = line[len("file: "):].strip()
        elif line.startswith("old: "):
            old = line[len("old: "):]
        elif line.startswith("new:"):
            if not path or not old:
                raise ValueError("a new text without a file and an old text")
            pairs.append((path, old, line[len("new:"):].removeprefix(" ")))
            old = None
        elif line.strip() and not line.startswith(("#", "--", "//")):
            raise ValueError(f"no line of an edit: {line[:60]}")
    if not pairs or old:
        raise ValueError("it ends before its new text")
    return pairs


def faults_of(crate, edit):
    """What is wrong with an edit of a crate."""
    try:
        pairs = read_pairs(edit.read_text())
    except ValueError as fault:
        return [str(fault)]
    texts, faults = {}, []
    for name, old, new in pairs:
        path = crate / name
        if not path.is_file():
            faults.append(f"there is no {name}")
            continue
        text = texts.get(name) or path.read_text()
        count = text.count(old)
        if count != 1:
            faults.append(f"its old text is {count} times in {name}")
        if old == new:
            faults.append("its new text is its old one")
        texts[name] = text.replace(old, new, 1)
    return faults


def main(words):
    in_gate = outside = wrong = 0
    for crate in sorted(it for it in CRATES.iterdir() if it.is_dir()):
        of_gate, others = sorted(crate.glob("must-fail/*.edit")), sorted(crate.glob("edits/*.edit"))
        in_gate, outside = in_gate + len(of_gate), outside + len(others)
        if "--check" not in words and of_gate + others:
            print(f"{crate.name:16} {len(of_gate):3} in the gate, {len(others):3} outside")
        for edit in of_gate + others:
            for fault in faults_of(crate, edit):
                print(f"{edit.relative_to(CRATES.parent)}: {fault}")
                wrong += 1
        names = [it.name for it in of_gate + others]
        for name in sorted({it for it in names if names.count(it) > 1}):
            print(f"crates/{crate.name}: two edits have the name {name}")
            wrong += 1
    print(f"{in_gate} edits in the gate, {outside} outside, {wrong} faults")
    return 1 if wrong else 0


if __name__ == "__main__":
    sys.exit(main(sys.argv[1:]))
