#!/usr/bin/env python3
"""Checks the plain style of the documents: docs/VOICE.md says the rules, this tool those that can be counted.

    python3 tools/voice.py             checks the files of the list below; exits 1 if one breaks a rule
    python3 tools/voice.py FILE..      checks these files
    python3 tools/voice.py --means     prints words and the mean length of a sentence, for each file

A fault is one line: file, line, rule, and the text. Code blocks, code spans and addresses of links are not prose.
"""
import pathlib
import re
import sys

TOP = pathlib.Path(__file__).resolve().parent.parent

# The documents that are checked. This list only grows.
FILES = [
    "README.md", "CONTRIBUTING.md", "docs/OPERATE.md", "docs/PROVED.md", "docs/LIMITS.md", "docs/TESTING.md",
    "docs/MEASURED.md", "docs/DECISIONS.md", "docs/ARCHITECTURE.md", "docs/VOICE.md", "docs/TRY.md", "docs/JOIN.md",
    "docs/STEPS.md", "docs/JOURNAL.md", "docs/SIMULATOR.md", "docs/GLOSSARY.md", "docs/RATTLE-NOTES.md", "CHANGELOG.md",
    "SECURITY.md", "docs/REFUSALS.md", "docs/BRIDGE.md",
]
# Documents that may name a day or a commit.
DATED = ["CHANGELOG.md", "docs/MEASURED.md"]

LINE, SENTENCE, CELL = 100, 35, 25

# Words to avoid, each with what to write instead. The first is a regular expression.
AVOID = [
    (r"\bbehind\b", "after"),
    (r"\bin (the )?place of\b", "instead of"),
    (r"\bwant of (memory|room)\b", "if memory runs out"),
    (r"\b(no|any) more\b(?! (than|[a-z]+s\b))", "no longer"),
    (r"\banew\b", "again"),
    (r"\bamid\b", "during"),
    (r"\b(is|are|was|were|be) told\b", "is reported, printed, said"),
    (r"\btells?\b(?! (it|them|the|a|an|which|what|you|whether)\b)", "reports, prints, says"),
    (r"\b(is|are) let go\b", "is dropped"),
    (r"\b(is|are) missed\b", "is detected"),
    (r"\bas told\b", "as described"),
    (r"\b(of such|of which|in which case)\b", "that, whose"),
    (r"\bby reading\b", "leave it out"),
    (r"\b(lies|stands) (in|at|on|there|beside|below|above)\b", "is"),
    (r"\bwants (to|a|an|the)\b", "needs"),
    (r"(?:^|[.:;] )Where [a-z][^?]*$", "If, When"),
    (r"\bbut for\b", "except"),
    (r"\bneither does it\b|\bnone is\b", "say who does what"),
]
HASH = re.compile(r"(?<![\w/.#-])(?=[0-9a-f]*[a-f])(?=[0-9a-f]*[0-9])[0-9a-f]{7,40}(?![\w-])")
DATE = re.compile(r"\b20\d\d-\d\d-\d\d\b")


def spoken(text):
    """A line of prose without what nobody reads aloud: code is one word, a link its words."""
    text = re.sub(r"`[^`]*`", "code", text)
    text = re.sub(r"!?\[([^\]]*)\]\([^)]*\)", r"\1", text)
    text = re.sub(r"<[^ >]*>", "", text)
    return text.replace("**", "").replace("*", "")


def parts(lines):
    """What a document is made of: (kind, number of the first line, text). A paragraph is one text."""
    found, begun, at, is_code, was_blank = [], [], 0, False, True
    for number, line in enumerate([*lines, ""], 1):
        fence = line.lstrip().startswith(("```", "~~~"))
        item = re.match(r"\s*([-*+]|\d+\.)\s+", line)
        indented = line.startswith("    ") and not item and (was_blank or found and found[-1][0] == "code") and not begun
        if fence or is_code or indented:
            found.append(("code", number, line))
            is_code = is_code != fence
            was_blank = False
            continue
        ends = not line.strip() or line.startswith(("#", "|")) or item
        if ends and begun:
            found.append(("prose", at, " ".join(begun)))
            begun = []
        was_blank = not line.strip()
        if line.startswith("#"):
            found.append(("head", number, line))
        elif line.startswith("|"):
            found.append(("row", number, line))
        elif line.strip():
            at = at if begun else number
            begun.append(re.sub(r"^\s*([-*+]|\d+\.|>)\s+", "", line).strip())
    return found


def sentences(text):
    """The sentences of a paragraph, as they are spoken."""
    text = re.sub(r"\b(e\.g|i\.e|etc|vs|cf)\.", r"\1", spoken(text))
    return [it for it in re.split(r"(?<=[.!?])[\"')]*\s+(?=[A-Z0-9\"'(]|code)", text) if it.strip()]


def words(text):
    return re.findall(r"[\w'’%-]+(?:[.,/]\w+)*", text)


def cells(row):
    """The cells of a table's row, or none of the line below its head."""
    given = re.split(r"(?<!\\)\|", re.sub(r"`[^`]*`", "code", row.strip().strip("|")))
    return [] if all(re.fullmatch(r"\s*:?-+:?\s*", it) for it in given) else given


def faults(name, text):
    """The faults of a document: (line, rule)."""
    lines = text.split("\n")
    for kind, number, part in parts(lines):
        if kind == "code":
            continue
        if kind == "row":
            for cell in cells(part):
                if len(words(spoken(cell))) > CELL:
                    yield number, f"a cell of {len(words(spoken(cell)))} words ({CELL} at most): {cell.strip()[:60]}"
        else:
            for it in sentences(part):
                if len(words(it)) > SENTENCE:
                    yield number, f"a sentence of {len(words(it))} words ({SENTENCE} at most): {it[:60]}"
        for wrong, better in AVOID:
            hit = re.search(wrong, spoken(part))
            if hit:
                yield number, f"'{hit[0][:30]}': write {better!r}"
        if name not in DATED and (HASH.search(spoken(part)) or DATE.search(spoken(part))):
            yield number, f"a commit or a date: {(HASH.search(spoken(part)) or DATE.search(spoken(part)))[0]}"
    is_code = False
    for number, line in enumerate(lines, 1):
        is_code = is_code != line.lstrip().startswith(("```", "~~~"))
        if len(line) > LINE and not is_code and not line.startswith(("|", "    ")) and " " in line[:LINE].strip():
            yield number, f"a line of {len(line)} columns ({LINE} at most)"


def means(name, text):
    """A line of figures about a document."""
    prose = [it for kind, _, part in parts(text.split("\n")) if kind == "prose" for it in sentences(part)]
    count = sum(len(words(it)) for it in prose)
    lines = text.count("\n")
    return f"{name:28} {lines:6} lines {len(text.split()):7} words {count / max(1, len(prose)):6.1f} a sentence"


def main(given):
    names = [it for it in given if not it.startswith("--")] or FILES
    found = 0
    for name in names:
        path = TOP / name if (TOP / name).exists() else pathlib.Path(name)
        if not path.exists():
            print(f"{name}: the document is not there")
            found += 1
            continue
        text = path.read_text(encoding="utf-8")
        if "--means" in given:
            print(means(name, text))
            continue
        for line, rule in sorted(faults(name, text)):
            print(f"{name}:{line}: {rule}")
            found += 1
    if "--means" not in given:
        print(f"{len(names)} documents, {found} faults of style")
    return 1 if found else 0


if __name__ == "__main__":
    sys.exit(main(sys.argv[1:]))
