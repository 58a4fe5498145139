#!/usr/bin/env python3
"""Checks that every link of the documents leads somewhere: a file or folder of the repository, and a heading of it;
and that no document has what a merge left.

    python3 tools/links.py      prints each link that leads nowhere; exits 1 if there is one

Links to other sites are not looked at: the gate has no network.
"""
import collections
import pathlib
import re
import subprocess
import sys

TOP = pathlib.Path(__file__).resolve().parent.parent
LINK = re.compile(r"\[[^\]]*\]\(([^)\s]+)\)")
HREF = re.compile(r"""href=["']([^"']+)["']""")


def documents():
    """The documents that git knows."""
    listed = subprocess.run(["git", "-C", TOP, "ls-files", "*.md", "*.html"], capture_output=True, text=True, check=True)
    return [TOP / it for it in listed.stdout.split("\n") if it and (TOP / it).exists()]


def without_code(text):
    """The text with its code blocks and code spans blanked."""
    text = re.sub(r"(?ms)^\s*(```|~~~).*?^\s*\1", "", text)
    return re.sub(r"`[^`\n]*`", "code", text)


def anchors(path):
    """The places of a document that a link may name: its headings as GitHub spells them, and its anchors."""
    text = path.read_text(encoding="utf-8")
    found = set(re.findall(r"""(?:id|name)=["']([^"']+)["']""", text))
    seen = collections.Counter()
    for head in re.findall(r"(?m)^#+\s+(.*?)\s*$", re.sub(r"(?ms)^(```|~~~).*?^\1", "", text)):
        plain = re.sub(r"\[([^\]]*)\]\([^)]*\)", r"\1", head).replace("`", "").replace("*", "")
        slug = re.sub(r"[^\w\- ]", "", plain.lower()).replace(" ", "-")
        found.add(f"{slug}-{seen[slug]}" if seen[slug] else slug)
        seen[slug] += 1
    return found


def broken(path, known):
    """The links of a document that lead nowhere."""
    text = path.read_text(encoding="utf-8")
    is_page = path.suffix == ".html"
    for link in (HREF if is_page else LINK).findall(text if is_page else without_code(text)):
        if re.match(r"[a-z]+:", link):
            continue
        name, _, anchor = link.partition("#")
        target = (path.parent / name).resolve() if name else path
        if not target.exists():
            yield link
        elif anchor and target.suffix == ".md":
            if target not in known:
                known[target] = anchors(target)
            if anchor not in known[target]:
                yield link


def unmerged(path):
    """The lines of a document that a merge left."""
    return re.findall(r"(?m)^(?:<<<<<<<|>>>>>>>|=======$).*", path.read_text(encoding="utf-8"))


def main():
    known, count, found = {}, 0, documents()
    for path in found:
        for link in broken(path, known):
            print(f"{path.relative_to(TOP)}: {link} leads nowhere")
            count += 1
        for line in unmerged(path):
            print(f"{path.relative_to(TOP)}: {line} is left of a merge")
            count += 1
    print(f"{len(found)} documents, {count} links that lead nowhere")
    return 1 if count else 0


if __name__ == "__main__":
    sys.exit(main())
