#!/usr/bin/env python3
"""Breaks definitions, clauses and comments that are wider than 100 columns.

    python3 tools/wrap.py FILE..      files of specs/ and src/; each is written anew where it has such a line

A definition goes on in a new line behind its `=`; what is still too wide, and a clause, is broken where the fewest brackets are open,
before the operator that binds least, and as far to the right as fits. A paragraph of comments with a line that is too wide is filled
anew. Imports, attributes, tables and lines with a text in quotes are left as they are. Run `rt fmt` behind it, which lays the new lines
out, and look at what an edit of must-fail/ or edits/ names: its line may be two lines now.
"""
import pathlib
import re
import sys

WIDTH = 100
OPENING, CLOSING = "([{", ")]}"
BIND = ">>= λ"
# What a line may be broken at, that which binds least first: behind `;` and `,` and a `>>= λ x.`, before the others.
BREAKS = (";", BIND, " else ", " then ", " >>= ", " → ", " ⊎ ", " × ", " ≡ ", " || ", " && ", " ++ ", " ∷ ", ",", " (", " ")
BEHIND = (";", ",", BIND)
# What opens no new line: behind these an argument begins.
OPERATOR = re.compile(r"(→|⊎|×|≡|\|\||&&|\+\+|∷|=|>>=|\.|≤|<|==|\^|\+|then|else|if|λ[^.]*)$")
COMMENT = re.compile(r"^( *)(///|//!|//|--)( ?)(.*)$")
POINT = re.compile(r"^ *(- |\* |\d+\. )")


def depths(text):
    """How many brackets are open at each place."""
    depth, found = 0, []
    for char in text:
        depth -= char in CLOSING
        found.append(depth)
        depth += char in OPENING
    return found


def begins(text, depth, sign):
    """The places at which a next line may begin, where so many brackets are open."""
    open_at = depths(text)
    if sign == BIND:
        return [it.end() for it in re.finditer(r">>= λ [\w ]+\. ", text) if open_at[it.start()] == depth]
    if sign in BEHIND:
        return [at + 2 for at, char in enumerate(text) if char == sign and open_at[at] == depth and text[at + 1:at + 2] == " "]
    places = [it.start() for it in re.finditer(f"(?={re.escape(sign)})", text)]
    places = [at for at in places if open_at[at] == depth and open_at[at + 1] == depth]
    if sign == " (":
        places = [at for at in places if not OPERATOR.search(text[:at])]
    if sign == " ":
        places = [at for at in places if is_between_arguments(text[:at], text[at + 1:])]
    return [at + 1 for at in places if 0 < at + 1 < len(text)]


def is_between_arguments(before, behind):
    """Whether a space stands between two words of a call."""
    word = before.rsplit(" ", 1)[-1]
    if not behind or behind[0] == "{" or word.lstrip("(") in ("λ", "record", "if", "then", "else"):
        return False
    return "λ" not in before and (word == ")" or not re.fullmatch(r"[^\w()\[\]]+", word))


def broken(text, indent, further, deep=False):
    """A text as lines: the first one indented so far, the others further. `deep`: they stand behind a break in a call already."""
    if indent + len(text) <= WIDTH:
        return [" " * indent + text]
    for depth in range(8):
        for sign in BREAKS:
            fitting = [at for at in begins(text, depth, sign) if indent + len(text[:at].rstrip()) <= WIDTH]
            if not fitting or fitting[-1] < (21 if sign in (" ", " (") else 9):
                continue
            at, inner = fitting[-1], depth > 0 or sign in (" (", " ", *BEHIND)
            further += 2 if inner and not (deep and depth == 0) else 0
            return [" " * indent + text[:at].rstrip()] + broken(text[at:].strip(), further, further, inner or deep)
    return [" " * indent + text]


def of_definition(line):
    """A line of specs/ as lines."""
    text = line.lstrip(" ")
    indent, open_at = len(line) - len(text), depths(text)
    equals = next((it.start() for it in re.finditer(" = ", text) if open_at[it.start()] == 0), 0)
    if equals and " ≡ " not in text[:equals] and indent + equals + 2 <= WIDTH and not text.startswith(("×", "⊎", "→", "&&", "||")):
        return [" " * indent + text[:equals] + " ="] + broken(text[equals + 3:], indent + 4, indent + 4)
    heads = ("abbrev", "unfoldable", "pub", "opaque")
    return broken(text, indent, indent + (4 if text.startswith(heads) else 0))


def of_clause(line):
    """A line of a clause as lines."""
    text = line.lstrip(" ")
    indent = len(line) - len(text)
    return broken(text, indent, indent + (4 if text.startswith(("ensures", "requires", "ghost")) else 0))


def words_of(text):
    """Its words; what stands between two backticks is one."""
    return re.findall(r"(?:`[^`]*`|[^ `])+", text)


def filled(mark, lines):
    """A paragraph of comments."""
    if all(len(f"{mark} {line}") <= WIDTH for line in lines):
        return [f"{mark} {line}".rstrip() for line in lines]
    point = POINT.match(lines[0])
    lead = " " * (len(lines[0]) - len(lines[0].lstrip())) + (point[1] if point else "")
    first, rest, found = f"{mark} {lead}", f"{mark} {' ' * len(lead)}", []
    for word in words_of(" ".join(line.strip() for line in lines)[len(lead.strip()):]):
        if found and len(found[-1]) + 1 + len(word) <= WIDTH:
            found[-1] += " " + word
        else:
            found.append((rest if found else first) + word)
    return found


def of_comments(mark, lines):
    """Comments that stand below each other, paragraph by paragraph."""
    found, paragraph, is_code = [], [], False
    for line in lines + [""]:
        stands = line.startswith("```") or is_code or not line.strip() or line.lstrip().startswith("|") or line.startswith(("    ", "#"))
        if paragraph and (stands or POINT.match(line)):
            found += filled(mark, paragraph)
            paragraph = []
        is_code ^= line.startswith("```")
        if stands:
            found.append(f"{mark} {line}".rstrip())
        else:
            paragraph.append(line)
    return found[:-1]


def wrapped(path):
    """The lines of a file, within the width."""
    lines, found, at = path.read_text(encoding="utf-8").split("\n"), [], 0
    of_code = of_definition if path.suffix == ".antt" else of_clause
    while at < len(lines):
        line, comment = lines[at], COMMENT.match(lines[at])
        at += 1
        if comment:
            mark, run = comment[1] + comment[2], [comment[4]]
            while at < len(lines) and COMMENT.match(lines[at]) and lines[at].startswith(mark) and COMMENT.match(lines[at])[2] == comment[2]:
                run.append(COMMENT.match(lines[at])[4])
                at += 1
            found += of_comments(mark, run)
        elif len(line) <= WIDTH or '"' in line or re.match(r" *(#|(pub |ghost )*use )", line):
            found.append(line)
        else:
            found += of_code(line)
    return "\n".join(found)


def main(paths):
    for path in map(pathlib.Path, paths):
        text = wrapped(path)
        if text != path.read_text(encoding="utf-8"):
            path.write_text(text, encoding="utf-8")
            print(path)


if __name__ == "__main__":
    main(sys.argv[1:])
