#!/usr/bin/env python3
"""Plants wrong bodies in one crate over libraries that are built already, where `rt plant` would prove all below it first.

Usage: plant.py ROOT CRATE [FLAG ..]      with the flags of `rt plant` (--only WORD, or several with commas between them, --max N, --minutes N,
                                         --all), and --cured for those bodies alone that the kit's own script cannot write;
                                         --csv, or --csv=N, writes the crate's row of docs/planted.csv, where somebody read the
                                         bodies that passed and N of them only say that memory ran out, or cost time
       plant.py count ROOT [CRATE ..]     how many bodies --cured has that give up, before anything is checked

Libraries are looked for as by over.py, whose kept checks it uses. It drives the kit's own script, and so may want a change with a new kit.
One fault of that script is cured here: it takes the doc comment of a field or of a variant for its name, so that a body that answers
such a variant does not compile, and a documented field is never set.
"""
import contextlib
import csv
import importlib.machinery
import io
import os
import re
import subprocess
import sys
import types

sys.dont_write_bytecode = True
import over


def planter():
    """The kit's script."""
    script = types.ModuleType("rt-plant")
    script.__file__ = f"{over.KIT}/bin/rt-plant"
    sys.path.insert(0, f"{over.KIT}/bin")
    importlib.machinery.SourceFileLoader("rt-plant", script.__file__).exec_module(script)
    return script


class Docs:
    """Whether doc comments before a field or a variant are read over, as they should be, or taken for its name, as the kit does."""

    def __init__(self, bodies):
        self.bodies, self.kit = bodies, bodies.without_attributes
        bodies.without_attributes, self.are_read_over = self.without_attributes, True

    def without_attributes(self, words):
        if self.are_read_over:
            words = [it for it in words if not it.startswith("///")]
        return self.kit(words)

    def only_cured(self):
        """Leaves the bodies out that the kit writes too."""
        as_written = {name: getattr(self.bodies.Bodies, name) for name in ("giving_up", "over_the_real_one")}

        def cured(name):
            def written(of, *given):
                self.are_read_over = False
                by_kit = {it.text for it in as_written[name](self.bodies.Bodies(of.source, of.f), *given)}
                self.are_read_over = True
                return [it for it in as_written[name](of, *given) if it.text not in by_kit]

            return written

        for name in as_written:
            setattr(self.bodies.Bodies, name, cured(name))


def count(root, *names):
    """Prints how many bodies of each crate give up and are not the kit's."""
    crates, script = over.read_crates(root), planter()
    Docs(script.bodies).only_cured()
    for name in names or crates:
        source = script.bodies.Source(f"{root}/crates/{name}")
        source.read("src/main.rt" if over.file_of(root, name) == "src/main.rt" else "src/lib.rt")
        for it, path in libraries_of(script, root, crates, name).items():
            if path and it not in (*script.rt.SEALED, "libc", "os"):
                source.add_library(it, f"{path}/lang")
        functions = [it for it in source.functions if it.has_body and it.has_ensures]
        found = {it.shown: [body.text for body in script.bodies.Bodies(source, it).giving_up()] for it in functions}
        print(name, sum(map(len, found.values())), {it: texts for it, texts in found.items() if texts})
    return 0


def libraries_of(script, root, crates, name):
    """The library of each crate below, and of each library of the kit that they use."""
    found = {it: over.library(root, it) for it in over.below(crates, name)}
    names = list({use for it in [name, *over.below(crates, name)] for use in crates[it] if use not in crates})
    for it in names:
        found[it] = f"{over.KIT}/rlibs/{it}.rlib"
        uses = re.findall(r"(?m)^dep (\w+)$", script.rt.text_of(f"{found[it]}/format"))
        names += [use for use in uses if use not in names]
    return found


def of_any(one, crate, source, symbols, only):
    """The functions that one of several words chooses, each once."""
    found = [one(crate, source, symbols, word) for word in only.split(",")]
    return [[it for it in source.functions if any(it in chosen[part] for chosen in found)] for part in (0, 1)]


def write_row(root, name, printed, harmless):
    """Writes a crate's row of docs/planted.csv, by the counts in the last line that the kit's script prints."""
    line = re.findall(r"(?m)^plants crate=.*$", printed)
    counts = {kind: int(number) for kind, number in re.findall(r"([a-z-]+)=(\d+)", line[-1])} if line else {}
    if not line or counts["not-run"] or harmless > counts["proves"]:
        return "no row is written: the run was not whole"
    refused, passed, same, unjudged = (counts[kind] for kind in ("refused", "proves", "same", "not-judged"))
    row = [name, refused + passed + same + unjudged, refused, passed - harmless, same + harmless, unjudged, "none"]
    path = f"{root}/docs/planted.csv"
    with open(path, encoding="utf-8", newline="") as it:
        rows = list(csv.reader(it))
    places = [place for place, old in enumerate(rows) if old[0] == name]
    rows = [*rows[: places[0]], row, *rows[places[0] + 1 :]] if places else [*rows, row]
    with open(path, "w", encoding="utf-8", newline="") as it:
        csv.writer(it, lineterminator="\n").writerows(rows)
    return 0


def main(given):
    if len(given) < 2:
        return __doc__
    if given[0] == "count":
        return count(os.path.abspath(given[1]), *given[2:])
    is_cured = "--cured" in given
    noted = [int(it[6:] or 0) for it in given if re.fullmatch(r"--csv(=\d+)?", it)]
    given = [it for it in given if it != "--cured" and not it.startswith("--csv")]
    root, name, *flags = given
    if noted and (is_cured or "--only" in flags):
        return "--csv is for the bodies of a whole crate"
    root = os.path.abspath(root)
    folder, crates = f"{root}/crates/{name}", over.read_crates(root)
    words = over.words(root, crates, "check", name, "2")[2:]
    script = planter()
    docs = Docs(script.bodies)
    if is_cured:
        docs.only_cured()

    class Crate:
        """What the script asks of a crate."""

        def __init__(self, *_, **__):
            self.name, self.folder, self.out = name, folder, None
            self.is_program = os.path.exists(f"{folder}/src/main.rt")
            self.of_kit = [it for it in crates[name] if it not in crates]

        def words(self, more, **_):
            return [*words, *more]

        def below(self):
            return []

    def check(*_):
        ran = subprocess.run([script.rt.RATTLE, "check", *words, *script.rt.KEPT], cwd=folder, capture_output=True, text=True)
        print(ran.stdout + ran.stderr)
        return ran.returncode

    script.rt.KEPT = ["--incremental", "out/over"]
    script.rt.main, script.rt.Crate, script.rt.root_above = check, Crate, lambda _: root
    script.libraries = lambda _: libraries_of(script, root, crates, name)
    one = script.chosen
    script.chosen = lambda *given: of_any(one, *given)
    os.makedirs(f"{folder}/out/over", exist_ok=True)
    os.chdir(folder)
    if not noted:
        return script.main(*flags)
    printed = io.StringIO()
    with contextlib.redirect_stdout(printed):
        status = script.main(*flags)
    print(printed.getvalue(), end="")
    return status or write_row(root, name, printed.getvalue(), noted[0])


if __name__ == "__main__":
    sys.exit(main(sys.argv[1:]))
