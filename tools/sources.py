"""Reads the sources of all crates as text: definitions of specs/, types, contracts, and what each of them cites.

A word of a clause or a definition is followed as the compiler would follow it: through the `use` lines of its file or block, to the
definition in specs/ or the type in src/. Variables that a pattern, a `λ` or `(x : A)` binds are told from names.
"""
import re
import textwrap
from pathlib import Path

TOP = Path(__file__).resolve().parent.parent

# Words of the language itself.
BUILT_IN = set("Type Unit tt ⊥ ¬ absurd × → = : record where pub abbrev unfoldable data let in elim as open use refl unfolding self "
               "result Self _ u8 u16 u32 u64 usize".split())
OPENING, CLOSING = "([{", ")]}"


class Item:
    """A definition, a type, or a contract: where it stands, its comment and its text."""

    def __init__(self, kind, crate, path, line, name, comment, text):
        self.kind, self.crate, self.path, self.line = kind, crate, path, line
        self.name, self.comment, self.text = name, comment, text
        self.public, self.module, self.model, self.constructors = False, (), None, []
        self.clauses, self.others, self.value, self.scans, self._cites = [], [], None, [], None

    def cites(self):
        """The items that it names itself, and the words of the toolchain, each once."""
        if self._cites is None:
            found = dict.fromkeys(word for text, scope, bound in self.scans for word in scope.read(text, bound) if word is not self)
            self._cites = [word for word in found if isinstance(word, Item)], [word for word in found if isinstance(word, str)]
        return self._cites

    def part(self, names):
        """This contract with the clauses of these names alone; a clause without a name goes by an empty one."""
        made = Item(self.kind, self.crate, self.path, self.line, self.name, self.comment, [])
        begins = [i for i, line in enumerate(self.text) if CLAUSE.match(line)]
        made.text = self.text[:begins[0]] if begins else self.text[:]
        while made.text and made.text[-1].lstrip().startswith("//"):
            made.text.pop()
        for name, begin, end, scan in zip(self.clauses, begins, begins[1:] + [len(self.text)], self.scans):
            if name in names:
                made.clauses.append(name)
                made.text += [line for line in self.text[begin:end] if not line.lstrip().startswith("//")]
                made.scans.append(scan)
        return made

    def place(self):
        return "/".join(self.path.relative_to(TOP / "crates").parts)


def cone(item):
    """All definitions that an item stands on."""
    found, todo = {}, [item]
    while todo:
        more = [other for other in todo.pop().cites()[0] if other not in found]
        found.update(dict.fromkeys(more))
        todo += more
    return [other for other in found if other.kind == "definition"]


# ---- words of a text

def tokens_of(text):
    """Its words and brackets. `λ x. e` is read as `(x : ) e`, `{x = y}` in a pattern as `{y}`, and a member that is quoted from an `impl` as nothing."""
    text = re.sub(r"⟦<.*?>⟧(\.\w+)*", " ", text)
    text = re.sub(r"(^|\s)--\s.*", "", text, flags=re.M)
    text = re.sub(r"\{\w+ = (\w+)\}", r"{\1}", text)
    text = re.sub(r"λ\s*([^().{}λ]*?)\s*(?:\.(?=\s)|(?=[({]))", lambda found: f"({found[1]} : )" if found[1] else " ", text)
    return re.findall(r"\[\]|[()\[\]{};,]|[^\s()\[\]{};,]+", text)


def is_name(token):
    return token == "[]" or token[0] not in "()[]{};,:.→×"


def free_words(tokens, bound):
    """The words that no binder of the text binds, each with the word behind its first dot."""
    scopes, leaving, i = [set(bound)], [], 0
    while i < len(tokens):
        token, behind = tokens[i], tokens[i + 1:i + 2]
        if token in OPENING:
            j = i + 1
            while j < len(tokens) and is_name(tokens[j]):
                j += 1
            binds = tokens[i + 1:j] if tokens[j:j + 1] == [":"] else []
            scopes.append(set())
            leaving.append(binds)
            i = j if binds else i
        elif token in CLOSING and leaving:
            scopes.pop()
            scopes[-1].update(leaving.pop())
        elif token == "let" or token == "pub" and tokens[i + 2:i + 3] == [":"]:
            i += 1
            scopes[-1].update(behind)
        elif is_name(token) and not (behind == ["="] and i > 0 and tokens[i - 1] in "{;"):
            head, *more = token.split(".")
            if not any(head in scope for scope in scopes):
                yield head, more[0] if more else None
        i += 1


class Scope:
    """What words mean in clauses and definitions: names of the file, names that use lines bring in, then those of the scope around."""

    def __init__(self, book, names, local, around=None):
        self.book, self.names, self.local, self.around = book, names, local, around
        both = list(names) + list(local)
        self.operators = {name.strip("◌").split("◌")[0]: name for name in both if "◌" in name}
        self.parts = {part for name in both for part in name.split("◌")} | (around.parts if around else set())

    def find(self, word, member=None):
        """An item, items, a word of the toolchain (as text), or None."""
        if word in self.local:
            return self.local[word]
        if word in self.names:
            base, name = self.names[word]
            found = self.book.resolve(base, name) if name else tuple(base)
            if isinstance(found, tuple):
                return self.book.resolve(list(found), member) if member else None
            return found
        if word in self.operators:
            return self.find(self.operators[word])
        return self.around.find(word, member) if self.around else None

    def is_constructor(self, word):
        if not re.match(r"\w", word) or word in ("zero", "suc", "true", "false", "refl"):
            return True
        found = self.find(word)
        if isinstance(found, Item):
            return found.kind == "type" or word in found.constructors
        return isinstance(found, str) and word[0].isupper()

    def read(self, text, bound):
        """What a text cites. In an equation (bound is None) the variables of the patterns are bound."""
        tokens = tokens_of(text)
        if bound is None:
            at = tokens.index("=") if "=" in tokens else 0
            bound = [token for token in tokens[:at] if is_name(token) and "." not in token and not self.is_constructor(token)]
        for word, member in free_words(tokens, bound):
            found = self.find(word, member)
            if found is not None:
                yield from found if isinstance(found, list) else [found]
            elif not (word in BUILT_IN or word in self.parts or word[0].isdigit()):
                self.book.unknown.add((word, text.strip().split("\n")[0][:70]))


def renamed(item):
    """The words of an item that a use line brings in under another name than their own, each with where it is from and that name."""
    for text, scope, _ in item.scans:
        words = {token.split(".")[0] for token in tokens_of(text)}
        while isinstance(scope, Scope):
            for word in words & scope.names.keys():
                base, name = scope.names[word]
                if word != (name or base[-1]):
                    yield word, (base, name)
            scope = scope.around


class RustScope:
    """What words mean in Rust: types, and type parameters with their traits' ghosts."""

    def __init__(self, book, source, bounds, models=False):
        self.book, self.source, self.bounds, self.models = book, source, bounds, models
        self.parts = set(bounds)

    def find(self, word, member=None):
        if word not in self.bounds:
            return self.source.find_type(word) if word[:1].isupper() else None
        trait = self.source.find_type(self.bounds[word])
        if isinstance(trait, list) and member:
            return next((item for item in trait if item.name.endswith("::" + member)), None)
        return trait

    def read(self, text, bound):
        """The types that a type or a function's head names; of a head also what clauses see in their places."""
        for word in re.findall(r"\b[A-Z]\w*", text):
            found = self.find(word)
            if isinstance(found, Item):
                yield from [found, found.model] if self.models and found.model else [found]


# ---- specs/*.antt

USE = re.compile(r"(?:pub\s+|ghost\s+)*use\s+(?:Rattle\.)?([^\s{;]+?)(?:\.?\{([^}]*)\}|\s+as\s+(\S+?))?;?\s*$", re.S)
DEFINES = re.compile(r"(?:(?:abbrev|unfoldable|pub|record|data|def)\s+)+(\S+)")


def use_names(text):
    """What a use line brings in: a name, and where it is from; a module has no name there."""
    found = USE.match(text.strip())
    if not found:
        return {}
    base = found[1].split(".")
    if found[2] is None:
        return {found[3] or base[-1]: (base, None)}
    return {part.split()[-1]: (base, part.split()[0]) for part in found[2].split(",") if part.strip()}


def read_specs(book, crate, path):
    """The definitions of a file: each with the comment above it, up to a blank line, a comment or the next one."""
    lines = path.read_text(encoding="utf-8").split("\n")
    file = "/".join(path.relative_to(TOP / "crates" / crate / "specs").with_suffix("").parts)
    names, exports, local = {}, {}, {}
    scope = Scope(book, {}, {})
    comment, prefix, i = [], [], 0
    while i < len(lines):
        line = lines[i]
        if line.startswith("--"):
            comment.append(line[2:].strip())
        elif line.startswith("infix"):
            prefix = [line]
        elif line.startswith(("use ", "pub use ")):
            while "{" in line and "}" not in line:
                i += 1
                line += " " + lines[i]
            names.update(use_names(line))
            exports.update(use_names(line) if line.startswith("pub") else {})
            comment = []
        elif DEFINES.match(line) and not line.startswith("pub mod"):
            start = i
            while i + 1 < len(lines) and lines[i + 1].strip() and not lines[i + 1].startswith(("--", "use ", "infix")) \
                    and not DEFINES.match(lines[i + 1]):
                i += 1
            item = Item("definition", crate, path, start + 1 - len(prefix), DEFINES.match(line)[1], comment, prefix + lines[start:i + 1])
            local[item.name] = item
            if re.match(r"(pub )?data\b", line):
                item.constructors = re.findall(r"^  (\S+) :", "\n".join(item.text), re.M)
                local.update({word: item for word in item.constructors})
            pieces = re.split(r"\n(?=\S)", "\n".join(lines[start:i + 1]))
            item.scans = [(pieces[0].replace(" " + item.name + " ", " ", 1), scope, item.constructors)]
            item.scans += [(piece, scope, None) for piece in pieces[1:]]
            book.definitions.append(item)
            comment, prefix = [], []
        else:
            comment = []
        i += 1
    scope.__init__(book, names, local)
    book.specs[crate, file] = (local, exports)


# ---- src/*.rt

RUST_ITEM = re.compile(r"(pub(?:\([a-z ]+\))?\s+)?(ghost\s+use|ghost|use|mod|fn|struct|enum|trait|impl|const|static|type)\b")
GHOST_FIELD = re.compile(r"\bghost\s+\w+\s*:\s*\{([^\n]*)\}")
CLAUSE = re.compile(r"\s*(?:ensures|requires|decreases)\b\s*(\w*)\s*(?=\{)")


def masked(text):
    """The text with comments and strings made blank, so that brackets can be counted."""
    return re.sub(r'//[^\n]*|/\*.*?\*/|b?"(?:\\.|[^"\\])*"|b?\'(?:\\.[^\']*|[^\'\\\n])\'',
                  lambda found: re.sub(r"[^\n]", " ", found[0]), text, flags=re.S)


def closing(mask, at):
    """The place behind the bracket that closes the one here."""
    depth = 0
    for found in re.compile(r"[()\[\]{}]").finditer(mask, at):
        depth += 1 if found[0] in OPENING else -1
        if depth == 0:
            return found.end()
    return len(mask)


def until(mask, at, stops):
    """The first of these outside of brackets."""
    while at < len(mask) and mask[at] not in stops:
        at = closing(mask, at) if mask[at] in OPENING else at + 1
    return at


class RustItem:
    """An item of a file of src/: its places in the text, and those of its clauses."""

    def __init__(self, mask, found):
        self.word, self.public = " ".join(found[2].split()), (found[1] or "").strip() == "pub"
        self.begin, self.clauses = found.start(), []
        self.head = until(mask, found.end(), "{;")
        if self.word in ("use", "ghost use", "ghost", "const", "static", "type"):
            self.head = until(mask, found.end(), ";") + 1
        elif self.word == "fn":
            clause = re.compile(r"\b(ensures|requires|decreases)\b").search(mask, found.end(), self.head)
            self.signature = mask[self.begin:clause.start() if clause else self.head]
            self.head = clause.start() if clause else self.head
            while CLAUSE.match(mask, self.head):
                found = CLAUSE.match(mask, self.head)
                self.head = closing(mask, found.end())
                self.clauses.append((found[1], mask[found.end() + 1:self.head - 1]))
        body = until(mask, self.head, "{;")
        self.end = self.head if self.word in ("use", "ghost use", "ghost", "const", "static", "type") else (
            closing(mask, body) if mask[body:body + 1] == "{" else body + 1)


def rust_items(mask, at, end):
    """The items between two places."""
    while at < end:
        if mask[at] == "#":
            at = closing(mask, mask.index("[", at))
        elif RUST_ITEM.match(mask, at):
            item = RustItem(mask, RUST_ITEM.match(mask, at))
            yield item
            at = item.end
        else:
            at += 1


class Source:
    """A file of src/."""

    def __init__(self, book, crate, path):
        self.book, self.crate, self.path = book, crate, path
        parts = path.relative_to(TOP / "crates" / crate / "src").with_suffix("").parts
        self.module = () if parts in (("lib",), ("main",)) else parts
        self.text = path.read_text(encoding="utf-8")
        self.mask, self.lines = masked(self.text), self.text.split("\n")
        self.uses, self.exports, self.ghosts, self.types, self.late = {}, {}, {}, {}, []
        for item in rust_items(self.mask, 0, len(self.text)):
            if item.word == "use":
                brought = rust_uses(self.text[item.begin:item.end])
                self.uses.update(brought)
                self.exports.update(brought if item.public else {})
            elif item.word == "ghost use":
                self.ghosts.update(use_names(self.text[item.begin:item.end]))
            elif item.word in ("struct", "enum", "const", "type"):
                self.add_type(item)
            else:
                self.late.append(item)

    def make(self, kind, begin, end, name):
        """An item with the doc comment above it; attributes are left out."""
        number = self.text.count("\n", 0, begin)
        start = self.text.rfind("\n", 0, begin) + 1
        text = textwrap.dedent(re.sub(r"^\s*#\[[^\n]*\]\n", "", self.text[start:end], flags=re.M)).strip("\n").rstrip()
        comment, above = [], number - 1
        while above >= 0 and re.match(r"\s*(//|#\[)", self.lines[above]):
            if self.lines[above].lstrip().startswith("///"):
                comment.insert(0, self.lines[above].strip()[3:].strip())
            above -= 1
        made = Item(kind, self.crate, self.path, number + 1, name, comment, text.split("\n"))
        made.module = self.module
        return made

    def scope(self, ghosts, bounds, own=()):
        """What clauses mean here: ghost names of the block, of the file, then Rust's names."""
        return Scope(self.book, ghosts, dict(own), Scope(self.book, self.ghosts, {}, RustScope(self.book, self, bounds)))

    def add_type(self, item):
        """A type stands on those of its fields. Ghost fields are for the prover, and no caller sees them."""
        name = re.compile(item.word + r"\s+(\w+)").search(self.mask, item.begin)[1]
        made = self.make("type", item.begin, item.end, name)
        made.text = [line for line in made.text if not re.match(r"\s*ghost\s", line)]
        made.public = item.public
        fields = re.sub(r"ghost\s[^\n]*", "", self.mask[item.begin:item.end]).split(name, 1)[1]
        made.scans = [(fields, RustScope(self.book, self, {}), [])]
        self.types[name] = made
        self.book.types.append(made)
        for found in GHOST_FIELD.finditer(self.mask, item.begin, item.end):
            field = self.make("contract", *found.span(1), "a ghost field")
            field.scans = [(found[1], self.scope({}, {}), [])]
            self.book.impls.append(field)

    def finish(self):
        """Functions, traits and impls, once all types are known."""
        for item in self.late:
            title = self.mask[item.begin:item.head]
            if item.word == "fn":
                self.add_function(item, "", self.scope({}, bounds_of(item.signature)), item.public)
            elif item.word in ("trait", "impl"):
                block = list(rust_items(self.mask, item.head + 1, item.end - 1))
                ghosts = {}
                for inner in block:
                    ghosts.update(use_names(self.text[inner.begin:inner.end]) if inner.word == "ghost use" else {})
                (self.add_trait if item.word == "trait" else self.add_impl)(item, title, block, ghosts)

    def add_function(self, item, owner, scope, public, title=""):
        name = owner + re.compile(r"fn\s+(\w+)").search(self.mask, item.begin)[1]
        made = self.make("contract", item.begin, item.head, name)
        bound = re.findall(r"(\w+)\s*:", item.signature) + ["self", "result"]
        made.clauses = [name for name, _ in item.clauses]
        made.scans = [(clause, scope, bound) for _, clause in item.clauses]
        made.scans.append((item.signature + " " + title, RustScope(self.book, self, {}, True), []))
        made.public = public
        self.book.contracts.setdefault((self.crate, name), []).append(made)
        return made

    def add_trait(self, item, title, block, ghosts):
        name = re.search(r"trait\s+(\w+)", title)[1]
        own = {}
        for inner in block:
            if inner.word == "ghost":
                ghost = re.compile(r"ghost\s+(\w+)").match(self.mask, inner.begin)[1]
                own[ghost] = self.make("contract", inner.begin, inner.end, name + "::" + ghost)
                own[ghost].scans = [(self.mask[inner.begin:inner.end].split(ghost, 1)[1], self.scope(ghosts, {}), [])]
                own[ghost].public = item.public
                self.book.contracts[self.crate, own[ghost].name] = [own[ghost]]
        calls = [self.add_function(inner, name + "::", self.scope(ghosts, {"Self": name, **bounds_of(inner.signature)}, own), item.public)
                 for inner in block if inner.word == "fn"]
        self.types[name] = list(own.values())
        self.book.contracts[self.crate, name] = self.types[name] + calls

    def add_impl(self, item, title, block, ghosts):
        found = re.match(r"impl\s*(?:<.*?>\s*)?(?:([\w:]+)(?:<.*?>)?\s+for\s+)?(\w+)", title, re.S)
        trait, owner = found[1], self.find_type(found[2])
        public = not isinstance(owner, Item) or owner.public
        said = [inner for inner in block if inner.word == "ghost"]
        if not trait:
            for inner in block:
                if inner.word == "fn":
                    scope = self.scope(ghosts, {**bounds_of(title), **bounds_of(inner.signature)})
                    self.add_function(inner, found[2] + "::", scope, inner.public and public, title)
        elif said:
            made = self.make("contract", item.begin, item.head, f"impl {trait} for {found[2]}")
            made.text = [" ".join(title.split()) + " {"]
            made.text += ["    " + line for inner in said for line in self.make("contract", inner.begin, inner.end, "").text] + ["}"]
            bound = ["self"] + re.findall(r"\w+", (re.findall(r"^impl\s*<(.*?)>", title) or [""])[0])
            for inner in said:
                body = self.mask[inner.begin:inner.end].split("=", 1)[1]
                made.scans.append((re.sub(r"^\s*\{\s*|\s*\};\s*$", "", body), self.scope(ghosts, bounds_of(title)), bound))
            made.public = public
            self.book.impls.append(made)
            if trait == "Model" and isinstance(owner, Item):
                self.add_model(made, owner, [self.mask[inner.begin:inner.head] for inner in said])
            else:
                self.book.contracts.setdefault((self.crate, found[2] + "::" + trait), []).append(made)

    def add_model(self, made, owner, said):
        """Where a definition names the type it stands for its `Value` alone; a function's head brings in the whole model."""
        made.kind, owner.model = "type", made
        value = [scan for scan, text in zip(made.scans, said) if re.match(r"ghost\s+Value\b", text)]
        made.scans.append((owner.scans[0][0], RustScope(self.book, self, {}, True), []))
        if value:
            owner.scans = value
            owner.value = value[0][0].strip()
            owner.comment.append(f"Clauses see it as `{value[0][0]}`.")

    def find_type(self, name):
        """A type, or the ghosts of a trait."""
        if name in self.types:
            return self.types[name]
        return self.book.rust(self.crate, self.module, self.uses[name]) if name in self.uses else None


def bounds_of(title):
    """Type parameters with a trait each."""
    found = re.findall(r"\b([A-Z]\w*)\s*:\s*([\w:+ ]+)", title)
    traits = {name: [word for word in re.findall(r"\w+", words) if word not in ("Drop", "Copy", "Clone")] for name, words in found}
    return {name: words[0] for name, words in traits.items() if words}


def rust_uses(text):
    """What a use item of Rust brings in: names with their paths."""
    def walk(path, rest):
        if rest.startswith("{"):
            for part in re.findall(r"(?:[^,{}]|\{[^{}]*\})+", rest[1:rest.rindex("}")]):
                yield from walk(path, part.strip())
        elif re.match(r"\w+::", rest):
            head, tail = rest.split("::", 1)
            yield from walk(path + [head], tail)
        elif rest:
            full = path if rest.startswith("self") else path + [rest.split()[0]]
            yield (rest.split()[-1] if " as " in rest else full[-1]), full
    return dict(walk([], re.sub(r"^(pub(\([a-z ]+\))?\s+)?use\s+|\s*;$", "", text.strip())))


# ---- all of it

class Book:
    """All crates."""

    def __init__(self):
        self.specs, self.sources, self.contracts = {}, {}, {}
        self.definitions, self.types, self.impls, self.unknown = [], [], [], set()
        listed = re.findall(r"^(\w+)[^:\n]*:", (TOP / "crates.txt").read_text(encoding="utf-8"), re.M)
        self.crates = [crate for crate in listed if (TOP / "crates" / crate).is_dir()]
        for crate in self.crates:
            for path in sorted((TOP / "crates" / crate / "specs").rglob("*.antt")):
                read_specs(self, crate, path)
            for path in sorted((TOP / "crates" / crate / "src").rglob("*.rt")):
                source = Source(self, crate, path)
                self.sources[crate, source.module] = source
        for source in self.sources.values():
            source.finish()

    def resolve(self, base, name):
        """What a name at a path is: an item, items, a word of the toolchain (as text), or a module (its path)."""
        crate, rest = base[0], base[2:]
        if crate not in self.crates:
            return ".".join(base) + ": " + name
        if base[1:2] != ["specs"]:
            return None
        if rest[:1] == ["declared"]:
            path = [part for part in rest[1:] if part not in ("TheVariants", "TheConstants")]
            path += [name] if rest[-1] == "TheConstants" else []
            source = self.sources.get((crate, tuple(path[:-1])))
            found = source.types.get(path[-1]) if source else None
            if found is None:
                self.unknown.add((name, ".".join(base)))
            return found
        local, exports = self.specs.get((crate, "/".join(rest) or "Lib"), ({}, {}))
        if name in local:
            return local[name]
        if name in exports:
            path, word = exports[name]
            return self.resolve(path, word) if word else tuple(path)
        if (crate, "/".join(rest + [name])) in self.specs:
            return tuple(base + [name])
        self.unknown.add((name, ".".join(base)))
        return None

    def rust(self, crate, module, path, depth=0):
        """The type at a path of Rust, through what modules hand on."""
        here, path = list(module), list(path)
        if path[0] == "crate":
            here, path = [], path[1:]
        # (one crate may be named through another, which passes it on)
        while len(path) > 1 and path[0] in self.crates:
            crate, here, path = path[0], [], path[1:]
        while path and path[0] in ("super", "self"):
            here, path = here[:-1] if path[0] == "super" else here, path[1:]
        source = self.sources.get((crate, tuple(here + path[:-1])))
        if not source or not path or depth > 9:
            return None
        if path[-1] in source.types:
            return source.types[path[-1]]
        return self.rust(crate, source.module, source.uses[path[-1]], depth + 1) if path[-1] in source.uses else None

    def is_exported(self, item):
        """Whether other crates can name what a contract is about; in a program, whether other modules can."""
        root = self.sources[item.crate, ()]
        name = item.name.split("::")[0].split(" for ")[-1]
        if not item.public or root.path.name != "lib.rt":
            return item.public
        path = tuple(root.exports.get(name, [""])[:-1])
        return item.module == () or name in root.exports and ("::" in item.name or " for " in item.name or item.module[:len(path)] == path)

    def contracts_of(self, root):
        """The public contracts that CRATE::NAME means: a function, all of a trait, or the functions and traits of a type."""
        crate, name = root.split("::", 1)
        found = self.contracts.get((crate, name)) or [
            item for (where, what), items in self.contracts.items() if where == crate and what.startswith(name + "::") for item in items]
        return [item for item in found if self.is_exported(item)]
