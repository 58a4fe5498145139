#!/usr/bin/env python3
"""Writes docs/TRUST.md: the promise in four levels, with the definitions that it stands on.

    python3 tools/trust.py            writes the page, and the long form in out/trust/ (`trust_parts.py`)
    python3 tools/trust.py --check    tells whether the page is what the sources say and short enough, and whether each definition is
                                      in specs/ or in specs/inner/ as clauses cite it; exits 1 if not
    python3 tools/trust.py --unused   lists the definitions of specs/ that no clause cites which a caller can see

`trust_levels.py` has the text of level 1, the clauses that each other level begins with, and the words that the page names and does
not enter. The words of the clauses are followed by `sources.py`. If a clause or a word is not there, a line on the error stream says
so.
"""
import sys

sys.dont_write_bytecode = True
import trust_parts
from printing import comment_mark, first_sentence, packed, prose, short, size, slug, wrapped
from sources import TOP, Book, cone, renamed
from trust_levels import ENDING, HEAD, LEVELS, NAMED, READING, SENTENCES

PAGE = TOP / "docs" / "TRUST.md"
# The page is for one evening. Crates of a level share a block if it has no more lines than this.
MOST_LINES, BLOCK_LINES = 1500, 230

NOTES = []


def note(words):
    NOTES.append(words)
    print("trust.py: " + words, file=sys.stderr)


# ---- what each level enters

class Level:
    """A level of the page: its contracts, with the clauses that it shows of each, and the items that it enters."""

    def __init__(self, number, title, intro, contracts):
        self.number, self.title, self.intro = number, title, intro
        self.contracts, self.items = contracts, []

    def heading(self):
        return f"Level {self.number}: {self.title}"

    def of_kind(self, kind):
        return [item for item in self.items if item.kind == kind]


def named_as(item):
    """What an item is called in the list of words that are named and not entered."""
    return f"{item.crate}/{item.path.stem}/{item.name}"


def is_named(item):
    """Whether the page names the item and does not enter it: those of the list, faults, and members of traits."""
    return item.kind == "contract" or named_as(item) in NAMED or item.kind == "type" and item.name.endswith("Fault")


def is_listed(item):
    """Whether clauses see a type as a list or a number. One table has these types."""
    return item.kind == "type" and item.value is not None and item.value.split()[0] in ("List", "ℕ")


def chosen(book, name, clauses):
    """A contract with these of its clauses, or none."""
    found = book.contracts_of(name)
    if not found:
        note(f"no {name}, left out")
        return None
    for clause in clauses:
        if clause not in found[0].clauses:
            note(f"{name} has no clause {clause or 'without a name'}, left out")
    part = found[0].part(clauses)
    part.others = [clause for clause in found[0].clauses if clause not in clauses]
    return part if part.clauses else None


def levels_of(book):
    """The levels, each with what it enters, and the words that are named."""
    done, named, levels = set(), {}, []
    for number, (title, intro, contracts) in enumerate(LEVELS, 2):
        parts = [chosen(book, name, clauses.split(" ") if clauses else [""]) for name, clauses in contracts]
        level = Level(number, title, intro, [part for part in parts if part])
        level.items = entered(book, [item for part in level.contracts for item in part.cites()[0]], done, named)
        levels.append(level)
    for name in sorted(NAMED - {named_as(item) for item in named}):
        note(f"no level uses {name}, which is on the list of words that are named")
    return levels, sorted(named, key=lambda item: (item.name.lower(), item.place()))


def entered(book, cited, done, named):
    """What these items lead to and no level before has entered: crate by crate from the top, breadth first in each."""
    waiting, found = {crate: [] for crate in reversed(book.crates)}, []
    for item in cited:
        waiting[item.crate].append(item)
    while any(waiting.values()):
        item = next(items for items in waiting.values() if items).pop(0)
        if is_named(item):
            named[item] = True
        elif item not in done:
            done.add(item)
            found.append(item)
            for more in item.cites()[0]:
                waiting[more.crate].append(more)
    return found


# ---- a level

def source_link(item, text):
    return f"[{text}](../crates/{item.place()})"


def definition(item):
    """The lines of a definition or a type: its comment, then its text in few lines."""
    return wrapped(" ".join(item.comment), comment_mark(item)) + short(item)


def contract(part):
    """The lines of a contract: its head, the clauses that were chosen, and of a law the names of the others."""
    is_law = "()" in part.text[0]
    return packed(part.text) + (wrapped(f"Its other clauses: {', '.join(part.others)}.", "    // ") if is_law and part.others else [])


def clauses(level):
    """The contracts of a level in one block."""
    files = {}
    for part in level.contracts:
        files.setdefault(part.path, []).append(part)
    links = [source_link(parts[0], f"{parts[0].crate}: " + ", ".join(f"`{part.name}`" for part in parts)) for parts in files.values()]
    lines = wrapped("Clauses from " + "; ".join(links) + ".") + ["", "```rust"]
    for parts in files.values():
        lines += [line for part in parts for line in contract(part)] + [""]
    return lines[:-1] + ["```", ""]


class Block:
    """Some items of a level that share a heading and a block of code."""

    def __init__(self, level, items, language):
        crates = list(dict.fromkeys(item.crate for item in items))
        self.items, self.language = items, language
        self.name = "types" if language == "rust" else crates[0] + (" and below" if len(crates) > 1 else "")
        self.heading = f"Level {level.number}, {self.name}"

    def lines(self):
        files = {item.path: item for item in self.items}.values()
        lines = ["#### " + self.heading, "From " + ", ".join(source_link(item, item.path.stem) for item in files) + ".", ""]
        lines += ["```" + self.language] + [line for item in self.items for line in definition(item)]
        return lines + ["```", ""]

    def words(self):
        """A point of the list of words."""
        words = f"[{self.name}](#{slug(self.heading)}): " + ", ".join(f"`{item.name}`" for item in self.items)
        return wrapped("- " + words + ".")


def blocks(level):
    """The types of a level that are no plain values, then its definitions crate by crate. Small neighbours share a block."""
    types = [item for item in level.of_kind("type") if not is_listed(item)]
    definitions, groups = level.of_kind("definition"), [[]]
    for crate in dict.fromkeys(item.crate for item in definitions):
        group = [item for item in definitions if item.crate == crate]
        if size(groups[-1] + group) > BLOCK_LINES:
            groups.append([])
        groups[-1] += group
    return [Block(level, group, language) for group, language in [(types, "rust")] + [(group, "agda") for group in groups] if group]


def body(level):
    """A level: its clauses, its types and definitions, and a list of its words."""
    lines, made = [f"## {level.heading()}", ""] + prose(level.intro) + clauses(level), blocks(level)
    for block in made:
        lines += block.lines()
    return lines + [f"**Words of level {level.number}:**", ""] + [line for block in made for line in block.words()] + [""]


# ---- the page

def present(book, names, title):
    """Those of the names FUNCTION.CLAUSE that are there. One that is not there is noted."""
    found = []
    for name in names:
        function, _, clause = name.partition(".")
        if any(clause in contract.clauses for contract in book.contracts_of(function)):
            found.append(name)
        else:
            note(f"level 1, \"{title}\": there is no {name}")
    return found


def in_short(names):
    """Names of clauses, in which a function is said once."""
    last, words = "", []
    for name in names:
        function, _, clause = name.partition(".")
        words.append(f"`.{clause}`" if function == last else f"`{name}`")
        last = function
    return ", ".join(words)


def level_1(book):
    """The promise in words. A sentence whose clauses are not there is left out."""
    lines = ["## Level 1: the promise", ""]
    for number, (title, says, names, words, not_said) in enumerate(SENTENCES, 1):
        names = present(book, names, title)
        if names:
            lines += prose([f"**{number}. {title}** {says} ({in_short(names)})", "", "*Words.* " + words, "", "*Not said.* " + not_said])
    return lines


def list_types(levels):
    """The table of types that clauses see as lists or numbers."""
    items = {item.name: item for level in levels for item in level.of_kind("type") if is_listed(item)}
    lines = ["| Type | Clauses see it as | What it is |", "|---|---|---|"]
    return lines + [f"| {source_link(item, f'`{name}`')} | `{item.value}` | {first_sentence(item.comment)} |"
                    for name, item in sorted(items.items())] + [""]


def other_names(levels):
    """The names that files give to words of others: a paragraph."""
    singles, modules = {}, {}
    for item in (item for level in levels for item in level.contracts + level.of_kind("definition")):
        for word, (base, name) in renamed(item):
            owner = base[-2] if base[-1] == "TheVariants" else base[0]
            if name is None:
                modules[word] = f"`{word}` of `{owner}`"
            else:
                singles[word] = f"`{word}` is `{owner}::{name}`" if base[-1] == "TheVariants" else f"`{word}` is `{name}` of {owner}"
    return prose(["Files rename some words that they use: " + ", ".join(singles[word] for word in sorted(singles)) + ". Some names stand "
                  "for the variants of a type: " + ", ".join(modules[word] for word in sorted(modules)) + "."])


def twice(levels, named):
    """The names that stand for two things: a paragraph."""
    places = {}
    for item in [item for level in levels for item in level.items if not is_listed(item)] + named:
        places.setdefault(item.name, []).append(item)
    found = [f"`{name}` ({' and '.join(sorted(item.crate for item in items))})" for name, items in sorted(places.items()) if len(items) > 1]
    return prose(["Some names stand for two things, in different crates: " + ", ".join(found) + "."]) if found else []


def named_words(named):
    """The words that the page does not enter, one line each. The members of a trait share a line."""
    lines = []
    for item in named:
        if "::" not in item.name:
            comment = first_sentence(item.comment) if item.kind == "type" else " ".join(item.comment).rstrip(".")
            lines.append(f"- {source_link(item, f'`{item.name}`')} of {item.crate}" + (f": {comment}." if comment else ""))
    traits = {}
    for item in named:
        if "::" in item.name:
            traits.setdefault(item.name.split("::")[0], []).append(item)
    for trait, items in traits.items():
        members = "; ".join(f"`{item.name.split('::')[1]}`, {first_sentence(item.comment)}" for item in items)
        lines.append(f"- {source_link(items[0], f'`{trait}`')}, a trait: {members}.")
    return sorted(lines, key=str.lower) + [""]


def contents(first, levels, bodies, named):
    """The table of the levels."""
    rows = ["| Level | Says | Lines |", "|---|---|--:|", f"| [1](#level-1-the-promise) | the promise | {len(first)} |"]
    rows += [f"| [{level.number}](#{slug(level.heading())}) | {level.title} | {len(lines)} |" for level, lines in zip(levels, bodies)]
    return rows + [f"| [words](#{slug(ENDING[0][0][3:])}) | words that are named and not entered | {len(named)} |", ""]


def page(book):
    levels, named = levels_of(book)
    first, bodies, words = level_1(book), [body(level) for level in levels], named_words(named)
    lines = HEAD[0] + prose(HEAD[1]) + contents(first, levels, bodies, words[:-1])
    lines += first + READING[0] + prose(READING[1]) + other_names(levels) + twice(levels, named) + prose(READING[2]) + list_types(levels)
    for text in bodies:
        lines += text
    lines += ENDING[0] + prose(ENDING[1]) + words
    lines += [f"[level {level.number}]: #{slug(level.heading())}" for level in levels]
    return "\n".join(lines) + "\n"


# ---- what nothing cites

def cited(book):
    """The clauses that a caller can see, and the definitions that they stand on."""
    everything = dict.fromkeys([item for items in book.contracts.values() for item in items] + book.impls)
    return everything, {found for item in everything if book.is_exported(item) for found in cone(item)}


def unused(book):
    """The definitions that no clause cites which a caller can see, each with the files that cite it."""
    everything, reached = cited(book)
    citing = {}
    for item in list(everything) + book.definitions:
        for found in item.cites()[0]:
            citing.setdefault(found, set()).add(item.place())
    left = [item for item in book.definitions if item not in reached]
    lines = [f"{item.place()}:{item.line} {item.name}: {', '.join(sorted(citing.get(item, ['cited nowhere'])))}" for item in left]
    return lines + [f"{len(left)} of {len(book.definitions)} definitions, {size(left):,} of {size(book.definitions):,} lines"]


def misplaced(book):
    """Definitions of specs/ that no clause cites which a caller can see, and those of specs/inner/ that one does."""
    reached = cited(book)[1]
    for item in book.definitions:
        is_inner = "/specs/inner/" in str(item.path)
        if is_inner and item in reached:
            yield f"{item.place()}:{item.line}: a public clause stands on {item.name}, so it belongs into specs/"
        elif not is_inner and item not in reached:
            yield f"{item.place()}:{item.line}: no public clause stands on {item.name}, so it belongs into specs/inner/"


def check(text):
    """Whether the page is what the sources say, and short enough."""
    count = text.count("\n")
    if count > MOST_LINES:
        note(f"the page has {count:,} lines, more than {MOST_LINES:,}")
    if not PAGE.exists() or PAGE.read_text(encoding="utf-8") != text:
        note("docs/TRUST.md is not what the sources say: make trust writes it")


def main():
    book = Book()
    if sys.argv[1:] == ["--unused"]:
        print("\n".join(unused(book)))
        return 0
    text = page(book)
    for word, where in sorted(book.unknown):
        note(f"what is {word} in {where}?")
    for words in misplaced(book):
        note(words)
    if sys.argv[1:] == ["--check"]:
        check(text)
        return int(bool(NOTES))
    PAGE.write_text(text, encoding="utf-8")
    trust_parts.write(book, note)
    return 0


if __name__ == "__main__":
    sys.exit(main())
