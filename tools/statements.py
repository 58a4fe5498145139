#!/usr/bin/env python3
"""Compares what public functions said at an earlier commit with what they say now, clause by clause.

Usage: statements.py COMMIT [CRATE ..]      a line for each crate of that commit; of these crates also each clause that is not word for word what it was

A clause is the `same` where its words are, each followed to its definition (`sources.py`), and so of every definition that it stands on; it `stands` where
that is so of its own words alone. Names that are bound, line breaks, and a constant in the place of its number make no difference. One that said only that
the fault is want of memory is a `type` where the function answers `NoMemory`. Whether other words say the same is for a reader to judge.
"""
import re
import subprocess
import sys
import tempfile
from pathlib import Path

sys.dont_write_bytecode = True
import sources
from sources import TOP, Book, Item

# Crates that were cut since, with those that they became; and other names.
CUT = {"gw_node": "gw_node gw_event gw_answer", "gw_sim": "gw_script gw_play gw_sim", "gw_world": "gw_world field_laws gw_event gw_node", "jr_journal": "jr_journal jr_disk",
       "rep_ops": "rep_ops rep_op rep_write rep_read sn_topic", "rep_octets": "rep_write rep_read rep_op", "sn_session": "sn_session sn_tables", "rep_model": "rep_model rep_ops rep_op",
       "sn_flow": "sn_flow sn_plan sn_local sn_subscribe row_laws rep_op", "sn_topic": "sn_topic octets",
       "sn_deliver": "sn_deliver sn_publish sn_exchange sn_tick sn_local sn_plan step_laws",
       "received_laws": "promise_laws", "cause_laws": "put_laws"}
RENAMED, KINDS = {"so_far": "session_after", "ops_of": "all_of", "may_name": "is_topic_id"}, ["same", "type", "stands", "other", "gone"]


def book_at(commit, folder):
    """The sources of all crates at a commit."""
    packed = subprocess.run(["git", "-C", str(TOP), "archive", commit, "crates", "crates.txt"], capture_output=True, check=True).stdout
    subprocess.run(["tar", "-x", "-C", folder], input=packed, check=True)
    sources.TOP = Path(folder)
    return Book()


class Pairs:
    """Items of the old sources, with those that are in their places now."""

    def __init__(self, now):
        self.now, self.found, self.same = now, {}, {}

    def of(self, old):
        """What has an item's name in a crate that its own became, in a file of the same name first; of a definition, else in any crate."""
        if old not in self.found:
            crates = CUT.get(old.crate, old.crate).split()
            names = [RENAMED.get(old.name, old.name), old.name, old.name.replace("::copy", "::copied")]
            items = self.now.contracts.values() if old.kind == "contract" else [self.now.definitions, self.now.types]
            fits = [it for some in items for it in some if it.kind == old.kind and it.name in names and (it.crate in crates or it.kind != "contract")]
            self.found[old] = min(fits, default=None, key=lambda it: (
                it.crate not in crates, names.index(it.name), it.path.stem != old.path.stem, (crates + [it.crate]).index(it.crate)))
        return self.found[old]

    def word(self, item):
        """A word for an item: the number that a constant is, else where it stands now."""
        number = re.search(r"\bconst\b.*= ([\d_]+);", " ".join(item.text)) if item.kind == "type" else None
        meant = item if item.path.is_relative_to(TOP) else self.of(item)
        return number[1].replace("_", "") if number else f"{meant.crate}/{meant.name}" if meant else "gone/" + item.name

    def is_same(self, old):
        """Whether a definition is word for word what it was, and each that it stands on."""
        if old not in self.same:
            self.same[old], new = True, self.of(old)
            self.same[old] = bool(new) and words_of(self, old) == words_of(self, new) and all(map(self.is_same, below(old.cites()[0])))
        return self.same[old]


def below(items):
    """The definitions among these, and those that types among them name."""
    seen, todo = set(), list(items)
    while todo:
        it = todo.pop()
        todo += it.cites()[0] if it not in seen and it.kind != "definition" else []
        seen.add(it)
    return [it for it in seen if it.kind == "definition"]


def meaning(pairs, scope, token):
    """A word of a text as what it stands for."""
    head, *more = token.split(".")
    found, here = scope.find(head, more[0] if more else None), scope
    while here and head not in getattr(here, "names", {}):
        here = getattr(here, "around", None)
    base, name = here.names[head] if here else ([""], head)
    if base[-1] == "TheVariants":
        return ".".join([base[-2], *([name] if name else []), *more])
    rest = more if name else more[1:]
    if isinstance(found, Item) and head not in found.constructors:
        return ".".join([found.name if found.kind == "type" and rest else pairs.word(found), *rest])
    return ".".join([found.split(": ")[-1], *rest]) if isinstance(found, str) else token


def plain(pairs, text, scope, bound):
    """The words of a text, with what they stand for; names that it binds are numbered."""
    text = re.sub(r"⟦<.*?>⟧(\.\w+)*|(^|\s)--\s.*|\bpub\b|^(abbrev|unfoldable|\s)+", " ", text, flags=re.M)
    tokens = re.findall(r"\[\]|[()\[\]{};,]|[^\s()\[\]{};,]+", text)
    names, told, numbers = dict.fromkeys(bound or []), [], {}
    for binder in re.findall(r"λ\s*([^.(){}]*?)\s*(?:\.(?=\s)|(?=[({]))|[({]((?:[^\s()\[\]{};,:]+\s+)+):|\{\w+ = (\w+)\}|\blet (\w+)", text):
        names.update(dict.fromkeys(" ".join(binder).split()))
    if bound is None and "=" in tokens:
        names.update(dict.fromkeys(it for it in tokens[:tokens.index("=")] if sources.is_name(it) and "." not in it and not scope.is_constructor(it)))
    for at, token in enumerate(tokens):
        head, *more = token.rstrip(".").split(".")
        if not head or token in "()[]{};,=:→×" or tokens[at + 1:at + 2] == ["="] and at and tokens[at - 1] in "{;":
            told.append(token)
        elif head in names:
            told.append(".".join([head if head in (bound or []) else f"v{numbers.setdefault(head, len(numbers))}", *more]))
        else:
            told.append(meaning(pairs, scope, token.rstrip(".")))
    return re.sub(r"[;,] (?=[)}])", "", " ".join(told))


def words_of(pairs, item):
    """A definition without its own name, equation by equation."""
    pieces = re.split(r"\n(?=[^\s)}])", "\n".join(text for text, _, _ in item.scans))
    told = [plain(pairs, piece, item.scans[0][1], None if at else item.scans[0][2]) for at, piece in enumerate(pieces)]
    return [re.sub(rf"(?<!\S)(\w+/)?{re.escape(item.name)}(?!\S)", "this", it) for it in told]


def clauses_of(pairs, item):
    """Of each clause its word, its name, what it says, and what it names."""
    heads = re.findall(r"\b(ensures|requires|decreases)\b\s*(\w*)\s*\{", re.sub(r"//[^\n]*", "", "\n".join(item.text)))
    return [(word, name, plain(pairs, *scan), [it for it in scan[1].read(scan[0], scan[2]) if isinstance(it, Item)])
            for (word, name), scan in zip(heads, item.scans)]


def kind_of(pairs, clause, new):
    """What became of a clause, where this is the function now."""
    word, _, words, cites = clause
    if new and (word, words) in [(word, told) for word, _, told, _ in clauses_of(pairs, new)]:
        return "same" if all(map(pairs.is_same, below(cites))) else "stands"
    of_memory = re.fullmatch(r"IfErr result \( λ v0 v0 ◌≡◌ \S*Memory \)|result ◌≡◌ Err \S+ → ⊥", words)
    return "gone" if not new else "type" if of_memory and "NoMemory" in " ".join(new.text) else "other"


def main(words):
    with tempfile.TemporaryDirectory() as folder:
        pairs = Pairs(Book())
        items = [it for some in book_at(words[0], folder).contracts.values() for it in some if it.public and it.scans[:-1] and " for " not in it.name]
        print(f"{'crate':12}{'functions':>10}{'clauses':>10}" + "".join(f"{kind:>10}" for kind in KINDS))
        for crate in dict.fromkeys(it.crate for it in items):
            mine = list(dict.fromkeys(it for it in items if it.crate == crate))
            found = [(kind_of(pairs, clause, pairs.of(it)), f"{it.name}.{clause[1]}") for it in mine for clause in clauses_of(pairs, it)]
            print(f"{crate:12}{len(mine):10}{len(found):10}" + "".join(f"{[it[0] for it in found].count(kind):10}" for kind in KINDS))
            for kind, name in [it for it in found if it[0] != "same" and crate in words[1:]]:
                print(f"  {kind:7}{name}")
    return 0


if __name__ == "__main__":
    sys.exit(main(sys.argv[1:]) if sys.argv[1:] and not sys.argv[1].startswith("-") else __doc__)
