"""Writes the man pages from docs/, which has all of their text.

Usage: man.py FOLDER

Status 1 if a section is missing of which a page is made.
"""
import os
import re
import sys

TOP = os.path.dirname(os.path.dirname(os.path.abspath(__file__)))

# Each page: its section, what it is in a line, and its parts. A part is a document, with the
# headings that are taken from it; None takes all of it.
PAGES = {
    "sngw": (8, "a gateway of MQTT-SN 1.2 that is also the broker", [
        ("OPERATE.md", [
            "Command line", "Settings", "What it prints", "Watching", "When something is wrong", "Shifts",
            "Stopping it", "The date", "Disks", "When a disk fails", "Links", "A number is used once",
            "What is not protected", "Reporting a fault"])]),
    "sn_client": (1, "a client of MQTT-SN 1.2 for a person at a terminal", [("TRY.md", ["Commands and options", "What it prints", "Exit status"])]),
    "gw_sim": (1, "plays scripts at simulated MQTT-SN gateways", [("SIMULATOR.md", None)]),
    "jr_look": (8, "shows what a start would read of a gateway's journal", [
        ("OPERATE.md", ["Reading a journal"])]),
    "sn_bridge": (8, "a bridge between a field of MQTT-SN gateways and an MQTT broker", [("BRIDGE.md", None)]),
    "jr_mend": (8, "cuts zeros from the end of a gateway's journal", [("OPERATE.md", ["Mending a journal"])]),
}


def sections(text):
    """The sections of a document: heading and lines. Text before the first is "Description"."""
    found, lines, is_code = [], [], False
    heading = "Description"
    for line in text.splitlines():
        is_code ^= line.startswith("```")
        if line.startswith("## ") and not is_code:
            found.append((heading, lines))
            heading, lines = line[3:], []
        elif not line.startswith("# ") or is_code:
            lines.append(line)
    return [*found, (heading, lines)]


def plain(text):
    """A text that roff takes as it is."""
    text = text.replace("\\", "\\e").replace("-", "\\-")
    return "\\&" + text if text[:1] in (".", "'") else text


def inline(text):
    """Code and bold text in bold. Of a link its text, or nothing if it has brackets of its own."""
    text = re.sub(r" ?\(\[[^\]]*\]\([^)]*\)\)", "", text)
    text = re.sub(r"\[([^\]]*)\]\([^)]*\)", r"\1", text)
    parts = re.split(r"(`[^`]*`|\*\*[^*]+\*\*|\*[^*]+\*)", text)
    made = ""
    for part in parts:
        if len(part) > 2 and part[0] == part[-1] == "`":
            made += f"\\fB{inner(part[1:-1])}\\fR"
        elif len(part) > 2 and part[0] == part[-1] == "*":
            font = "B" if part.startswith("**") else "I"
            made += f"\\f{font}{inner(part.strip('*').replace('`', ''))}\\fR"
        else:
            made += inner(part) if made else plain(part)
    return made


def inner(text):
    """A text that roff takes as it is, within a line."""
    return plain(text).removeprefix("\\&")


def cells(line):
    found = re.split(r"(?<!\\)\|", line.strip().strip("|"))
    return [cell.strip().replace("\\|", "|") for cell in found]


def joined(parts):
    """One text: a part behind a whole sentence needs no mark in front of it."""
    made = ""
    for part in parts:
        made += (" " if made.endswith((".", "?", "!")) else "; ") + part if made else part
    return made


def table(lines):
    """Rows as terms: the first cell, and behind it the others by their headings."""
    heads, made = cells(lines[0]), []
    for line in lines[2:]:
        row = cells(line)
        named = [(head, cell) for head, cell in zip(heads[1:], row[1:]) if cell]
        rest = [f"{head}: {cell}" if len(row) > 2 and head else cell for head, cell in named]
        made += [".TP", inline(row[0]), inline(joined(rest)) or "\\&"]
    return made


def is_new(line):
    """Whether a line begins something else than the paragraph before it goes on with."""
    return not line.strip() or line.startswith(("    ", "|", "- ", "```", "#"))


def block(lines, first):
    """The block that begins with a line, in roff, and where the next one begins."""
    line, last = lines[first], first + 1
    if line.startswith("```"):
        while not lines[last].startswith("```"):
            last += 1
        return code(lines[first + 1:last]), last + 1
    if line.startswith("    "):
        while last < len(lines) and (lines[last].startswith("    ") or not lines[last].strip()):
            last += 1
        return code([it[4:] for it in lines[first:last]]), last
    if line.startswith("|"):
        while last < len(lines) and lines[last].startswith("|"):
            last += 1
        return table(lines[first:last]), last
    if line.startswith("#"):
        return [f".SS {inline(line.lstrip('#').strip())}"], last
    indent = "  " if line.startswith("- ") else ""
    while last < len(lines) and not is_new(lines[last].removeprefix(indent)):
        last += 1
    text = inline(" ".join(it.strip() for it in lines[first:last]).removeprefix("- "))
    return ([".IP \\(bu 2", text] if line.startswith("- ") else [".PP", text]), last


def code(lines):
    while lines and not lines[-1].strip():
        lines = lines[:-1]
    return [".PP", ".RS 4", ".nf", *[plain(it) for it in lines], ".fi", ".RE"]


def body(lines):
    made, place = [], 0
    while place < len(lines):
        if not lines[place].strip():
            place += 1
            continue
        some, place = block(lines, place)
        made += some
    return made


def page(name):
    number, what, parts = PAGES[name]
    made = [f'.TH {name.upper()} {number} "" Nimhazel', ".SH NAME", f"{name} \\- {inline(what)}"]
    for document, wanted in parts:
        with open(f"{TOP}/docs/{document}") as file:
            found = sections(file.read())
        for heading in wanted or []:
            if heading not in [it for it, _ in found]:
                sys.exit(f"man.py: docs/{document} has no section {heading}")
        for heading, lines in found if wanted is None else [(it, dict(found)[it]) for it in wanted]:
            if body(lines):
                made += [f'.SH "{inline(heading.upper())}"', *body(lines)]
    return number, "\n".join(made) + "\n"


def main():
    if len(sys.argv) != 2 or sys.argv[1].startswith("-"):
        sys.exit(__doc__)
    for name in PAGES:
        number, text = page(name)
        folder = f"{sys.argv[1]}/man{number}"
        os.makedirs(folder, exist_ok=True)
        with open(f"{folder}/{name}.{number}", "w") as file:
            file.write(text)


if __name__ == "__main__":
    main()
