#!/usr/bin/env python3
"""Checks one crate over libraries that are built already, in seconds to minutes, where `rt check` would prove all below it first.

Usage: over.py libs ROOT [CRATE ..]      builds the libraries of a clone that are not there, lowest first, four at a time
       over.py build ROOT CRATE ..        builds these libraries anew, one after the other, by all lanes
       over.py check ROOT CRATE [FLAG ..] checks a crate; what it proved is kept, and a second check is quick
       over.py edit ROOT CRATE [EDIT ..]  tries edits that must fail, those named or all of must-fail/ and edits/, over a copy of what was kept
       over.py program ROOT CRATE ..      proves and builds programs, as out/NAME, and tests, as out/NAME_tests, and runs them as the gate would
       over.py kept ROOT                  puts the libraries that `rt ci` kept on this machine into ROOT/crates/NAME/out, newest first, for OVER

A library is looked for in ROOT/crates/NAME/out/rlib, and then in the clones that the variable OVER names (paths, `:` between
them); so `libs` builds none that stands there, and `build` does. LANES says how many run side by side (4). Flags are those of `rattle check`: `--only crate::module`, `--allow-holes`, `--jobs 4`. This is for work in between: what
counts is `make test`, which takes nothing from here.
"""
import concurrent.futures
import glob
import json
import os
import shutil
import subprocess
import sys
import tempfile
import threading
import time

KIT = "/opt/rattle"
LANES = int(os.environ.get("LANES", "4"))
CLONES = [os.path.abspath(it) for it in os.environ.get("OVER", "").split(":") if it]


def read_crates(root):
    """What each crate stands on, lowest first."""
    crates = {}
    with open(f"{root}/crates.txt") as it:
        for line in it:
            name, found, rest = line.partition(":")
            if found and not name.startswith("#"):
                crates[name.split()[0]] = rest.split()
    return crates


def below(crates, name):
    """The crates below one, lowest first."""
    found = []
    for it in crates.get(name, []):
        if it in crates:
            found += [deeper for deeper in below(crates, it) if deeper not in found]
            if it not in found:
                found.append(it)
    return found


def library(root, name):
    """Where a crate's library is, or nothing."""
    for top in [root, *CLONES]:
        path = f"{top}/crates/{name}/out/rlib/{name}.rlib"
        if os.path.exists(f"{path}/format"):
            return path
    return None


def file_of(root, name):
    is_program = os.path.exists(f"{root}/crates/{name}/src/main.rt")
    return "src/main.rt" if is_program else "src/lib.rt"


def words(root, crates, command, name, jobs):
    """The words of rattle's command for a crate."""
    found = [f"{KIT}/bin/rattle", command, "--crate-name", name, file_of(root, name), "--extern", f"std={KIT}/rlibs/std.rlib"]
    for it in crates[name]:
        path = library(root, it) if it in crates else f"{KIT}/rlibs/{it}.rlib"
        if not path:
            sys.exit(f"no library of {it}: run over.py libs ROOT {it} first")
        found += ["--extern", f"{it}={path}"]
    for path in [f"{KIT}/rlibs", *(os.path.dirname(library(root, it) or "") for it in below(crates, name))]:
        found += ["-L", f"dependency={path}"]
    project = f"{KIT}/rattle/logic/antt-project.json"
    return [*found, "--antt-project", project, "--logic-built", f"{KIT}/logic_built", "--links", f"{name}=", "--jobs", jobs]


def build(root, crates, name, jobs):
    """Builds a library by so many jobs, and tells how that went."""
    folder = f"{root}/crates/{name}"
    os.makedirs(f"{folder}/out/rlib", exist_ok=True)
    command = words(root, crates, "build", name, str(jobs))
    with open(f"{folder}/out/over.log", "w") as log:
        out = [*command, "--statements", "-o", f"{folder}/out/rlib/{name}.rlib"]
        status = subprocess.run(out, cwd=folder, stdout=log, stderr=subprocess.STDOUT).returncode
    print(f"{name}: {'built' if status == 0 else f'failed, see {folder}/out/over.log'}", flush=True)


def libs(root, names):
    """Builds the libraries that are not there, as many side by side as there are lanes."""
    crates = read_crates(root)
    named = names or [it for it in crates if file_of(root, it) == "src/lib.rt"]
    wanted = {deeper for it in named for deeper in [*below(crates, it), it]}
    left = [it for it in crates if it in wanted and file_of(root, it) == "src/lib.rt" and not library(root, it)]
    running, turn = set(), threading.Condition()

    def work(name, jobs):
        build(root, crates, name, jobs)
        with turn:
            running.discard(name)
            turn.notify()

    with turn:
        while left or running:
            ready = [it for it in left if all(library(root, deeper) for deeper in below(crates, it))]
            # a build gets the processors that no other build waits for
            jobs = max(1, LANES // max(1, len(ready) + len(running)))
            for name in ready[:LANES - len(running)]:
                left.remove(name)
                running.add(name)
                threading.Thread(target=work, args=(name, jobs)).start()
            if not running:
                return f"these have no library below them: {' '.join(left)}" if left else 0
            turn.wait()
    return 0


def made(root, crates, name, tests):
    """Proves a program, or a crate's tests, builds it by LLVM, and runs it as `rt ci` would; tells how that went."""
    folder, program = f"{root}/crates/{name}", f"out/{name}{'_tests' if tests else ''}"
    os.makedirs(f"{folder}/out", exist_ok=True)
    toolchain = ["--toolchain", f"{KIT}/toolchain"]
    build = [*words(root, crates, "build", name, "1"), *(["--test"] if tests else []), *toolchain, "--backend", "llvm", "-o", f"{program}.o"]
    link = [f"{KIT}/bin/rattle-link", "--target", "x86_64-unknown-linux-gnu", *toolchain, "-o", program, f"{program}.o"]
    link += [f"{KIT}/c/libos_c.a", f"{KIT}/c/liblibc_c.a"]
    log = f"{folder}/{program}.log"
    with open(log, "w") as out:
        for command in (build, link):
            if subprocess.run(command, cwd=folder, stdout=out, stderr=subprocess.STDOUT).returncode:
                return f"not built, see {log}"
    if tests:
        ran = subprocess.run([f"{KIT}/bin/rattle-test", "--seconds", "60", program], cwd=folder, capture_output=True)
        with open(log, "ab") as out:
            out.write(ran.stdout + ran.stderr)
        return "tests passed" if ran.returncode == 0 else f"tests failed, see {log}"
    return "built; " + runs(folder, program)


def runs(folder, program):
    """Runs a program on its stdin, args and data, and compares what it prints with stdout and status."""
    read = lambda it: open(f"{folder}/{it}", "rb").read() if os.path.exists(f"{folder}/{it}") else b""
    with tempfile.TemporaryDirectory() as room:
        if os.path.isdir(f"{folder}/data"):
            shutil.copytree(f"{folder}/data", room, dirs_exist_ok=True)
        ran = subprocess.run([f"{folder}/{program}", *read("args").decode().splitlines()], cwd=room, input=read("stdin"), capture_output=True, timeout=120)
    is_well = ran.stdout == read("stdout") and ran.returncode == int(read("status") or 0)
    return "prints what it must" if is_well else f"prints something else, or ends with another status ({ran.returncode})"


def programs(root, names):
    """Builds and runs programs and tests, as many side by side as there are lanes."""
    crates = read_crates(root)
    tasks = []
    for name in names or crates:
        if file_of(root, name) == "src/main.rt":
            tasks.append((name, False))
        if any("#[test]" in open(os.path.join(at, it)).read() for at, _, files in os.walk(f"{root}/crates/{name}/src") for it in files):
            tasks.append((name, True))

    def work(task):
        began = time.monotonic()
        said = made(root, crates, *task)
        print(f"{task[0]}{' (tests)' if task[1] else ''}: {said}, {time.monotonic() - began:.0f} seconds", flush=True)
        return "see " in said or "else" in said

    with concurrent.futures.ThreadPoolExecutor(LANES) as pool:
        return int(any(list(pool.map(work, tasks))))


def check(root, name, flags):
    folder = f"{root}/crates/{name}"
    os.makedirs(f"{folder}/out/over", exist_ok=True)
    jobs = flags[flags.index("--jobs") + 1] if "--jobs" in flags else "1"
    rest = [it for at, it in enumerate(flags) if it != "--jobs" and (at == 0 or flags[at - 1] != "--jobs")]
    command = words(root, read_crates(root), "check", name, jobs)
    return subprocess.run([*command, "--incremental", f"{folder}/out/over", *rest], cwd=folder).returncode


def edited(folder, path):
    """Makes an edit in a copy of a crate, and says why where that cannot be done."""
    with open(path) as it:
        lines = [line.partition(": ")[::2] for line in it.read().splitlines() if line.strip()]
    at = old = None
    for key, value in lines:
        if key == "file":
            at = os.path.join(folder, value)
        elif key == "old":
            old = value
        else:
            with open(at) as it:
                text = it.read()
            if text.count(old) != 1:
                return f"stands {text.count(old)} times: {old}"
            with open(at, "w") as it:
                it.write(text.replace(old, value))
    return None


def edit(root, name, names):
    """Tries edits; each is to be refused by the prover."""
    folder = f"{root}/crates/{name}"
    found = sorted((it, part) for part in ("must-fail", "edits") if os.path.isdir(f"{folder}/{part}") for it in os.listdir(f"{folder}/{part}"))
    unknown = set(names) - {os.path.splitext(it)[0] for it, _ in found}
    if unknown or not found:
        return f"{name} has no edit {' '.join(sorted(unknown))}".rstrip()
    let_through = 0
    for it, part in [one for one in found if not names or os.path.splitext(one[0])[0] in names]:
        with tempfile.TemporaryDirectory() as top:
            copy = f"{top}/{name}"
            shutil.copytree(folder, copy, ignore=shutil.ignore_patterns("rlib", "must-fail", "edits"))
            why = edited(copy, f"{folder}/{part}/{it}")
            if why:
                print(f"{it}: BAD EDIT: {why}", flush=True)
                let_through += 1
                continue
            command = words(root, read_crates(root), "check", name, "1")
            ran = subprocess.run([*command, "--incremental", f"{copy}/out/over"], cwd=copy, capture_output=True, text=True)
            lines = (ran.stdout + ran.stderr).splitlines()
            first = next((line for line in lines if ": error" in line or ": note" in line), "")
            refused = ran.returncode == 1 and any(line.startswith("logic=not-proved") for line in lines)
            print(f"{it}: {'refused' if refused else 'NOT REFUSED'}: {first[:160]}", flush=True)
            let_through += not refused
    return let_through


def kept(root):
    """Puts the newest library of each crate that `rt ci` kept into a folder, unless it is there."""
    newest = {}
    for at in sorted(glob.glob("/opt/rattle-kept/proof-*/made.json"), key=os.path.getctime):
        newest[os.path.basename(os.path.dirname(at)).split("-")[1]] = os.path.dirname(at)
    for name, folder in sorted(newest.items()):
        out, files = f"{root}/crates/{name}/out", json.load(open(f"{folder}/made.json"))["files"]
        mark = f"{out}/kept"
        if not any(it.startswith("rlib/") for it, _ in files) or os.path.exists(mark) and open(mark).read() == folder:
            continue
        shutil.rmtree(out, ignore_errors=True)
        # the files of what is kept are numbered
        for number, (path, _) in enumerate(files):
            os.makedirs(os.path.dirname(f"{out}/{path}"), exist_ok=True)
            shutil.copyfile(f"{folder}/{number}", f"{out}/{path}")
        with open(mark, "w") as it:
            it.write(folder)
        print(name, flush=True)
    return 0


def main(given):
    if len(given) < 2 or given[0] not in ("libs", "build", "check", "edit", "program", "kept"):
        return __doc__
    what, root, *rest = given
    root = os.path.abspath(root)
    if what == "libs":
        return libs(root, rest)
    if what == "kept":
        return kept(root)
    if what == "build":
        crates = read_crates(root)
        for name in rest:
            build(root, crates, name, LANES)
        return 0
    if what == "program":
        return programs(root, rest)
    if not rest:
        return __doc__
    if rest[0] not in read_crates(root):
        return f"crates.txt has no crate {rest[0]}"
    return check(root, rest[0], rest[1:]) if what == "check" else edit(root, rest[0], rest[1:])


if __name__ == "__main__":
    sys.exit(main(sys.argv[1:]))
