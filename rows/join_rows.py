#!/usr/bin/env python3
r"""Joins the rows of this folder to what the simulator plays: `stdin`, `stdout` of `crates/gw_sim`.

Usage:

    join_rows.py                  writes both files, and prints how many rows there are
    join_rows.py --check          compares both files; status 1 and one line if a row differs
    join_rows.py --show NAME      prints a row as it is in its file, a long one written out
    join_rows.py --script NAME    prints the script of a row
    join_rows.py --output NAME    prints what the script of a row must print
    join_rows.py --split NAME SCRIPT PROGRAM
                                  plays a script by a simulator, and prints it as a row

A row is a script for the simulator with the whole output that it must give (docs/SIMULATOR.md). Work
out that output from the step table (docs/STEPS.md) and the byte formats, apart from the program.
Only then play the script. A contract lets a call answer Memory instead of almost anything; a row
does not. So each branch of the step table, each fault and each limit has a row. The comments at the
head of a file say which rows run which branch. A new branch gets a row and a line there.

To add a row, write it by hand into the file of its topic, and run this program without arguments.
Then play the row by a simulator. `make trial` builds this one, which is not proved:

    python3 rows/join_rows.py --output NAME >/tmp/must
    python3 rows/join_rows.py --script NAME | out/trial/gw_sim | diff /tmp/must -

`--split` helps with a long script: it puts each line of output below its command. Those lines are
what the program says. Compare each with the rules before you keep it. `make test` plays all rows by
the proved simulator: with `--rows` it must print `crates/gw_sim/stdout` for `stdin`.

The files are `TOPIC.rows`, in the order of their names. In a file:

    == NAME         a row begins; its name is letters, digits and hyphens, and no other row has it
    # TEXT          a comment; those above the first row are the head of the file
    > TEXT          a line of output, below the command that gives it
    \long           the row is written by make_long_rows.py
    anything else   a line of the script; empty lines are skipped

Output that no command gives alone is below the last line: a script that is refused prints one line.
In a line of a script these stand for what a reader would not see, or would take for something else:

    \xHH            the octet HH
    \\              a backslash
    \e              nothing: it makes an empty line, or guards the begin or the end of one
    \ at the end    no line feed follows: the script ends here

The status of a script is 1 if its output begins with `line ` or `event `, and else 0. A script of
one line `random ..` has no status.
"""

import os
import re
import subprocess
import sys

FOLDER = os.path.dirname(os.path.abspath(__file__))
JOINED = os.path.join(os.path.dirname(FOLDER), "crates", "gw_sim")
HEADS = (b"gateway ", b"predefine ", b"lifetime ")
LONG = "\\long"
# A line of a head that names rows of these files: those of other programs begin with the program's name.
NAMES = re.compile(r"#     (?! |\w+_rows: )")
MARKED = re.compile(r"`([a-z0-9-]+)(\.\.)?`")


class Fault(Exception):
    """What is wrong, in one line."""


class Row:
    """A row: where it is, its lines, its script and its output in octets."""

    def __init__(self, name, file, comments=()):
        self.name, self.file, self.comments = name, file, list(comments)
        self.lines, self.parts = [], []
        self.is_long = False

    def add_line(self, octets, has_end=True):
        self.lines.append(octets + b"\n" * has_end)
        self.parts.append([])

    def add_output(self, octets):
        if not self.parts:
            self.lines.append(b"")
            self.parts.append([])
        self.parts[-1].append(octets + b"\n")

    @property
    def script(self):
        return b"".join(self.lines)

    @property
    def output(self):
        return b"".join(b"".join(part) for part in self.parts)

    @property
    def status(self):
        """The line with the status, which a row of scripts from a seed has not."""
        if self.script.startswith(b"random "):
            return b""
        return b"status %d\n" % is_refused(self.output)

    def text(self):
        """The row as it is in its file."""
        lines = [f"== {self.name}", *self.comments]
        for line, part in zip(self.lines, self.parts):
            if line:
                lines.append(spelled(line))
            lines += ["> " + octets[:-1].decode("ascii") if octets[:-1] else ">" for octets in part]
        return "".join(line + "\n" for line in lines)


def is_refused(printed):
    """A script that is refused prints one line: a bad line, or an event that names nothing."""
    return printed.startswith((b"line ", b"event "))


def spelled(line):
    """A line of a script as it is in a file of rows."""
    body, has_end = (line[:-1], True) if line.endswith(b"\n") else (line, False)
    text = "".join("\\\\" if octet == 92 else chr(octet) if 32 <= octet < 127 else f"\\x{octet:02x}" for octet in body)
    if not text or text.startswith((">", "#", "== ", " ")):
        text = "\\e" + text
    if not has_end:
        return text + "\\"
    return text + "\\e" if text.endswith(" ") else text


def read(text):
    """The octets of a line of a script, and whether a line feed follows."""
    octets, at = bytearray(), 0
    while at < len(text):
        if text[at] != "\\":
            octets += text[at].encode("ascii")
            at += 1
        elif at + 1 == len(text):
            return bytes(octets), False
        elif text[at + 1] == "\\":
            octets += b"\\"
            at += 2
        elif text[at + 1] == "e":
            at += 2
        elif re.match(r"\\x[0-9a-f]{2}", text[at:]):
            octets.append(int(text[at + 2 : at + 4], 16))
            at += 4
        else:
            raise Fault("a backslash with nothing that it stands for")
    return bytes(octets), True


def long_rows():
    """The rows that make_long_rows.py writes: pairs of a line and what it prints, by name."""
    sys.path.insert(0, FOLDER)
    sys.dont_write_bytecode = True
    import make_long_rows

    return make_long_rows.ROWS


def rows_of(file):
    """The rows of one file, and its head."""
    rows, head = [], []
    with open(os.path.join(FOLDER, file), "rb") as given:
        octets = given.read()
    if not octets.isascii() or b"\r" in octets or b"\t" in octets:
        raise Fault(f"rows/{file}: an octet that is no printable ASCII; \\xHH stands for one")
    lines = octets.decode("ascii").split("\n")
    for number, line in enumerate(lines, 1):
        where = f"rows/{file}:{number}"
        if line.startswith("== "):
            if not re.fullmatch(r"[a-z0-9-]+", line[3:]):
                raise Fault(f"{where}: the name of a row is letters, digits and hyphens")
            rows.append(Row(line[3:], file))
        elif line.startswith("#"):
            (rows[-1].comments if rows else head).append(line)
        elif not line:
            continue
        elif not rows:
            raise Fault(f"{where}: a line that belongs to no row")
        elif line == LONG:
            make = long_rows().get(rows[-1].name) if not rows[-1].lines else None
            if make is None:
                raise Fault(f"{where}: make_long_rows.py has no such row, or the row has other lines")
            rows[-1].is_long = True
            for command, printed in make():
                rows[-1].add_line(command.encode("ascii"))
                for one in printed:
                    rows[-1].add_output(one.encode("ascii"))
        elif not rows[-1].is_long and (line == ">" or line.startswith("> ")):
            rows[-1].add_output(line[2:].encode("ascii"))
        elif rows[-1].is_long or rows[-1].lines and not rows[-1].lines[-1].endswith(b"\n"):
            raise Fault(f"{where}: the row has ended above this line")
        else:
            try:
                octets, has_end = read(line)
            except Fault as fault:
                raise Fault(f"{where}: {fault}") from None
            if octets.startswith(b"== "):
                raise Fault(f"{where}: no script of a row may have a line that begins so")
            rows[-1].add_line(octets, has_end)
    return rows, head


def all_rows():
    """The rows of all files in their order, and how many files there are."""
    files = sorted(name for name in os.listdir(FOLDER) if name.endswith(".rows"))
    rows, heads = [], {}
    for file in files:
        found, heads[file] = rows_of(file)
        rows += found
    names = {}
    for row in rows:
        if row.name in names:
            raise Fault(f"{row.name} is the name of a row of rows/{names[row.name]} and of one of rows/{row.file}")
        names[row.name] = row.file
    for file, head in heads.items():
        for line in head:
            for name, goes_on in MARKED.findall(line) if NAMES.match(line) else []:
                if not (any(it.startswith(name) for it in names) if goes_on else name in names):
                    raise Fault(f"the head of rows/{file} names {name}{goes_on}, and there is no such row")
    for name in long_rows():
        if not any(row.is_long and row.name == name for row in rows):
            raise Fault(f"make_long_rows.py writes {name}, and no file has a row of this name with a line {LONG}")
    return rows, len(files)


def joined(rows):
    """What the program reads, and what it must print."""
    scripts = b"\n".join(b"== %s\n%s" % (row.name.encode(), row.script) for row in rows)
    printed = b"".join(b"== %s\n%s%s" % (row.name.encode(), row.output, row.status) for row in rows)
    return {"stdin": scripts, "stdout": printed}


def pieces(text):
    """Name and text of each part of a joined text, in order."""
    parts = re.split(rb"(?m)^== (.*)\n", text)
    return list(zip(parts[1::2], parts[2::2]))


def compare(rows):
    """Whether the files are those that the rows give, or else the first row that differs."""
    for name, wanted in joined(rows).items():
        path = os.path.join(JOINED, name)
        if not os.path.isfile(path):
            raise Fault(f"crates/gw_sim/{name} is not there: rows/join_rows.py writes it")
        with open(path, "rb") as file:
            found = file.read()
        if found == wanted:
            continue
        have, must = pieces(found), pieces(wanted)
        at = next((at for at, pair in enumerate(zip(have, must)) if pair[0] != pair[1]), min(len(have), len(must)))
        which = f"row {must[at][0].decode()} of rows/{rows[at].file} differs" if at < len(must) else "it has more than the rows"
        raise Fault(f"crates/gw_sim/{name} is not what the rows give: {which}; rows/join_rows.py writes it")


def ends_of_events(lines):
    """The places of the lines that end an event: each by itself, and the last call of those that come together."""
    ends, calls = [], 0
    for at, line in enumerate(lines):
        together = re.fullmatch(rb"together \d+ (\d+)\n?", line)
        if calls == 0 and together:
            calls = int(together[1]) or 1
        elif calls > 0 or line != b"\n" and not line.startswith(HEADS):
            calls -= calls > 0
            ends += [at] if calls == 0 else []
    return ends


def split(name, script, program):
    """A script as a row. A gateway that it does not have answers a SEARCHGW behind each event, which ends what that printed."""
    used = {int(number) for number in re.findall(rb"(?m)^gateway 0*(\d+)$", script)}
    other = next(number for number in range(255, 0, -1) if number not in used)
    marker, answer = b"frame %d 65000 0 030100\n" % other, b"to 65000 0302%02x\n" % other
    row, lines = Row(name, ""), re.findall(rb"[^\n]*\n|[^\n]+$", script)
    play = lambda text: subprocess.run([program], input=text, capture_output=True, check=False).stdout
    whole, marked, ends = play(script), [b"gateway %d\n" % other], ends_of_events(lines)
    for at, line in enumerate(lines):
        marked += [line.removesuffix(b"\n") + b"\n", marker] if at in ends else [line]
    parts = play(b"".join(marked)).split(answer)
    if is_refused(whole) or len(parts) != len(ends) + 1 or b"".join(parts) != whole or parts[-1]:
        parts = None
    for at, line in enumerate(lines):
        row.add_line(line.removesuffix(b"\n"), line.endswith(b"\n"))
        if parts and at in ends:
            for one in parts[ends.index(at)].splitlines():
                row.add_output(one)
    if not parts:
        for one in whole.splitlines():
            row.add_output(one)
    return row


def main(words):
    if words[:1] == ["--split"] and len(words) == 4:
        with open(words[2], "rb") as file:
            sys.stdout.write(split(words[1], file.read(), words[3]).text())
        return
    rows, files = all_rows()
    if not words:
        for name, text in joined(rows).items():
            with open(os.path.join(JOINED, name), "wb") as file:
                file.write(text)
        print(f"{len(rows)} rows in {files} files")
    elif words == ["--check"]:
        compare(rows)
        print(f"{len(rows)} rows in {files} files")
    elif len(words) == 2 and words[0] in ("--show", "--script", "--output"):
        row = next((row for row in rows if row.name == words[1]), None)
        if row is None:
            raise Fault(f"there is no row {words[1]}")
        sys.stdout.buffer.write({"--show": row.text().encode(), "--script": row.script, "--output": row.output}[words[0]])
    else:
        raise Fault("usage: join_rows.py [--check | --show NAME | --script NAME | --output NAME | --split NAME SCRIPT PROGRAM]")


if __name__ == "__main__":
    try:
        main(sys.argv[1:])
    except (Fault, OSError, UnicodeError) as fault:
        sys.exit(f"join_rows.py: {fault}")
