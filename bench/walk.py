#!/usr/bin/env python3
"""Counts the functions, files and crates through which one PUBLISH of the daemon goes, and how often its body is copied.

Usage: bench/walk.py [--names]    after `sh tools/trial.sh sngw`, with gdb; --names prints the functions, as first called

The daemon that is not proved is used, as each of its functions is still a function there. A client sleeps and has
subscribed by a wildcard; another publishes 182 octets at quality of service 1. gdb stops at each function of the
repository. What counts is the worker's thread, from `gw_serve::worker::handle` until the answer is sent. A function that
the compiler wrote, a closure, and a `drop` do not count. A copy is a copy in memory of 182 octets or more that has the
body, by any thread; what the system copies does not count.
"""
import collections
import json
import os
import pathlib
import re
import shutil
import signal
import socket
import subprocess
import sys
import tempfile
import time

try:
    import gdb
except ImportError:
    gdb = None

TOP = pathlib.Path(__file__).resolve().parent.parent
BODY = bytes(range(65, 91)) * 7
# Seconds that gdb may need to set its stops, and the daemon to answer while it is stopped at each function.
SETTING, ANSWERING = 120, 120
BEGIN, END = "gw_serve::worker::handle", "OpenGateGate::sent"
COPIES = ("memcpy", "memmove", "__asan_memcpy", "__asan_memmove", "__interceptor_memcpy", "__interceptor_memmove")


# ---- within gdb


def trace(plan):
    """Notes each call until a signal comes: thread and name, or thread and size of a copy with the body."""
    calls = []

    class Stop(gdb.Breakpoint):
        def __init__(self, at, name):
            super().__init__(f"*{plan['base'] + at}", internal=True)
            self.silent, self.name = True, name

        def stop(self):
            calls.append((gdb.selected_thread().ptid[1], self.name))
            return False

    class Copy(Stop):
        def stop(self):
            size = int(gdb.parse_and_eval("$rdx"))
            if len(BODY) <= size <= 4096:
                octets = gdb.selected_inferior().read_memory(int(gdb.parse_and_eval("$rsi")), size)
                if BODY in bytes(octets):
                    calls.append((gdb.selected_thread().ptid[1], size))
            return False

    for at, name in plan["functions"]:
        Stop(at, name)
    for at in plan["copies"]:
        Copy(at, "copy")
    gdb.execute("handle SIGUSR1 stop nopass print")
    pathlib.Path(plan["ready"]).touch()
    gdb.execute("continue")
    pathlib.Path(plan["out"]).write_text(json.dumps(calls))
    gdb.execute("kill")


# ---- around it


def symbols(program, crates):
    """Where the functions of the repository begin, and those that copy."""
    lines = subprocess.run(["nm", "--defined-only", program], check=True, capture_output=True, text=True).stdout
    functions, copies = {}, set()
    for line in lines.splitlines():
        at, kind, name = line.split(" ", 2)
        if kind in "tT" and name.split("::")[0] in crates:
            functions.setdefault(int(at, 16), name)
        elif name in COPIES:
            copies.add(int(at, 16))
    return sorted(functions.items()), sorted(copies)


def base_of(pid, program):
    """Where the program begins in the memory of a process."""
    with open(f"/proc/{pid}/maps") as maps:
        return min(int(line.split("-")[0], 16) for line in maps if line.rstrip().endswith(str(program)))


def ask(sink, octets, kind):
    """Sends a datagram until the answer of this type comes."""
    for _ in range(60):
        sink.send(octets)
        try:
            while True:
                answer = sink.recv(2048)
                if answer[1] == kind:
                    return answer
        except OSError:
            time.sleep(0.2)
    raise SystemExit("the daemon does not answer")


def walk(program, plan, folder):
    """The calls of one PUBLISH, or its copies. The folder is for what the daemon and gdb write."""
    folder.mkdir()
    plan = {**plan, "out": f"{folder}/calls", "ready": f"{folder}/ready"}
    sys.path.insert(0, str(TOP / "trials"))
    from gateway import HOST, at_port, connect, free_ports, leave, publish, register, settings_text, subscribe

    def client(port):
        sink = socket.socket(socket.AF_INET, socket.SOCK_DGRAM)
        sink.connect((HOST, port))
        sink.settimeout(1)
        return sink

    port, link = free_ports(2)
    settings = folder / "settings.toml"
    values = {"gateway": 1, "listen": at_port(port), "link": at_port(link), "journal": f'"{folder}/journal"'}
    settings.write_text(settings_text(values))
    quiet = {"stdout": subprocess.DEVNULL, "stderr": subprocess.DEVNULL}
    daemon = subprocess.Popen([TOP / "out/trial/sngw", "--config", settings], **quiet)
    try:
        sleeper, publisher = client(port), client(port)
        ask(sleeper, connect(b"sleeper"), 0x05)
        ask(sleeper, subscribe(b"a/+", 1), 0x13)
        ask(sleeper, leave(60000), 0x18)
        ask(publisher, connect(b"publisher"), 0x05)
        topic = ask(publisher, register(b"a/b", 7), 0x0B)[2:4]
        ask(publisher, publish(topic, b"first", 1, 0x20), 0x0D)
        plan["base"] = base_of(daemon.pid, program)
        (folder / "plan").write_text(json.dumps(plan))
        words = ["gdb", "-q", "-batch", "-ex", "set auto-solib-add off", "-p", str(daemon.pid), "-x", __file__]
        tracer = subprocess.Popen(words, env={**os.environ, "WALK": str(folder / "plan")}, **quiet)
        end = time.monotonic() + SETTING
        while not os.path.exists(plan["ready"]):
            if tracer.poll() is not None or time.monotonic() > end:
                raise SystemExit("gdb cannot stop the daemon at its functions")
            time.sleep(0.5)
        time.sleep(5)
        publisher.settimeout(ANSWERING)
        publisher.send(publish(topic, BODY, 77, 0x20))
        publisher.recv(2048)
        time.sleep(2)
        daemon.send_signal(signal.SIGUSR1)
        tracer.wait(ANSWERING)
        return json.loads(pathlib.Path(plan["out"]).read_text())
    finally:
        daemon.kill()
        daemon.wait()


def file_of(name):
    """The source file of a function."""
    crate, *path = name.split("::")
    source = TOP / "crates" / crate / "src"
    files = [source.joinpath(*path[:depth]).with_suffix(".rt") for depth in range(1, len(path))]
    tops = [source / "lib.rt", source / "main.rt"]
    return next(file for file in [*reversed(files), *tops] if file.exists())


def main(words):
    program = TOP / "out/trial/programs/sngw"
    if not program.exists() or not all(map(shutil.which, ("gdb", "nm"))):
        return __doc__
    crates = {path.name for path in (TOP / "crates").iterdir()}
    functions, copies = symbols(program, crates)
    with tempfile.TemporaryDirectory() as name:
        folder = pathlib.Path(name)
        calls = walk(program, {"functions": functions, "copies": []}, folder / "calls")
        copied = [size for _, size in walk(program, {"functions": [], "copies": copies}, folder / "copies")]
    thread = next(thread for thread, name in calls if name.startswith(BEGIN))
    own = [re.sub(r"::<.*", "", name) for at, name in calls if at == thread]
    own = [name for name in own if "++" not in name and "::fn::" not in name]
    begin = own.index(BEGIN)
    end = max(at for at, name in enumerate(own) if name.endswith(END))
    way = [name for name in own[begin : end + 1] if not name.endswith("::drop")]
    found = dict.fromkeys(way)
    if "--names" in words:
        print("\n".join(found))
    count = collections.Counter(name.split("::")[0] for name in found)
    print(f"calls {len(way)}, functions {len(found)}, files {len({file_of(name) for name in found})}, crates {len(count)}")
    print(f"copies of the body {len(copied)}, of {', '.join(map(str, copied))} octets")
    print(", ".join(f"{crate} {number}" for crate, number in count.most_common()))
    return 0


if gdb:
    trace(json.loads(pathlib.Path(os.environ["WALK"]).read_text()))
elif __name__ == "__main__":
    sys.exit(main(sys.argv[1:]))
