#!/usr/bin/env python3
"""Tries the daemon: what it tells and its statuses, clients over UDP, linked gateways, kills, the turn of shifts, hostile octets.

Usage: trials/daemon.py PROGRAM [PART..] [--kills N] [--datagrams N] [--streams N] [--requests N] [--growth MIB] [--seed N] [--seconds N]

The parts, all where none is named:

  messages  every message and status of the program that can be provoked; a program of `make trial`
            fails at `memory`, as what checks its accesses needs more than the process may have there
  loopback  a client sleeps and wakes at one gateway, also where the daemon is killed in between
  links     two and three gateways, linked in a ring; one is killed, another hands the messages over
  retained  what is published with Retain at one gateway is handed to who subscribes later at another, also behind a restart of both, until an
            empty message ends it; who is there gets it with Retain clear; a will; all places that there are for topics
  kills     the daemon is killed N times (100) amid publications; what was acknowledged is there in the end
  shifts    N requests (600) over shifts of 16 calls are all answered
  compact   the journal shrinks when a shift is over; kills amid that; a write fails, and the clock opens the gateway anew in its shift; a
            disk is full, and the daemon goes on once there is room
  hostile   N datagrams (20,000) and N streams of a link (500) that were made up: the daemon answers, and grows by MIB (512) at most

A start may take N seconds (30). All goes on at 127.0.0.1, at ports that the system gives, in a folder that is gone afterwards. Status 0 only
where nothing failed.
"""
import argparse
import os
import random
import re
import select
import signal
import socket
import struct
import subprocess
import sys
import tempfile
import time

sys.dont_write_bytecode = True
from gateway import (AGAIN, BEGUN, CONNECTED, GONE, HOST, PONG, RETAIN, Client, Display, Failed, Gateway, at_port, connect, expect, frame,
                     free_ports, leave, number, opened, ping, publish, published, register, search, settings_text, subscribe, until,
                     with_the_starter)

# The journal of gateway 1 behind the CONNECT of a client s1: header, seal, and a record (docs/JOURNAL.md).
HEADER = bytes.fromhex("534e4a31 01 0000000000000001")
SEAL = b"\x53"
DELTA = bytes.fromhex("0100000001 01 027331 0000000000000001 01 00 0000 01 003c 0001 0000000000000000")
RECORD = b"\x44" + len(DELTA).to_bytes(4, "big") + DELTA


def headed(generation: int) -> bytes:
    """A header of another generation."""
    return HEADER[:5] + generation.to_bytes(8, "big")


class Account:
    """Counts what was tried, and goes on behind what failed."""

    def __init__(self):
        self.tried, self.failed = 0, 0

    def check(self, words: str, trial) -> None:
        self.tried += 1
        try:
            said = trial()
            print(f"  ok    {words}{': ' + said if said else ''}", flush=True)
        except (Failed, OSError, subprocess.SubprocessError, IndexError, ValueError) as why:
            self.failed += 1
            print(f"  FAIL  {words}: {why}", flush=True)


# ---- messages and statuses


def run(program: str, arguments: list, folder: str, limit: int = 0) -> tuple:
    """One run to its end: status, standard output and standard error without the line that tells that a journal is begun."""
    status, printed, told = run_whole(program, arguments, folder, limit)
    return status, printed, BEGUN.sub("", told)


def run_whole(program: str, arguments: list, folder: str, limit: int = 0) -> tuple:
    """One run to its end: status, standard output and standard error."""
    try:
        done = subprocess.run([program] + arguments, stdin=subprocess.DEVNULL, capture_output=True, cwd=folder, timeout=30,
                              preexec_fn=with_the_starter(limit))
    except subprocess.TimeoutExpired:
        raise Failed("it did not end within 30 seconds") from None
    return done.returncode, done.stdout.decode(errors="replace"), done.stderr.decode(errors="replace")


def wanted(got: tuple, status: int, told: str, printed: str = None, before: str = "") -> None:
    """Of a refusal one line is told, and nothing else; or another line before it that has these words."""
    ends = got[2].endswith("\n" + told) and before in got[2][:-len(told)] if before else got[2] == told
    expect(got[0] == status and ends,
           f"status {got[0]} and {got[2][:300]!r} on the error stream, wanted {status} and {told!r}" + (f" behind {before!r}" if before else ""))
    if printed is not None:
        expect(got[1] == printed, f"{got[1][:200]!r} on standard output, wanted {printed!r}")


class Texts:
    """Settings of a gateway that could run, and files with them and with others."""

    def __init__(self, program: str, folder: str):
        self.program, self.folder, self.count = program, folder, 0
        self.port, self.link = free_ports(2)
        self.good = {"gateway": "1", "listen": at_port(self.port), "link": at_port(self.link), "journal": f'"{folder}/journal"'}

    def file(self, text: bytes) -> str:
        self.count += 1
        path = os.path.join(self.folder, f"settings-{self.count}.toml")
        with open(path, "wb") as file:
            file.write(text)
        return path

    def run_text(self, text: bytes, shifts: str = "0") -> tuple:
        return run(self.program, ["--config", self.file(text), "--shifts", shifts], self.folder)

    def run_with(self, shifts: str = "0", **values) -> tuple:
        return self.run_text(settings_text({**self.good, **values}).encode(), shifts)


BAD = {
    "gateway": [None, "0", "256", "-1", '"1"', "1.0", "true"],
    "listen": [None, '"127.0.0.1"', '"127.0.0.1:65536"', '"256.0.0.1:1"', '"127.0.0:1"', '"+1.0.0.1:1"', '"localhost:1"', '""', "7"],
    "link": [None, '"127.0.0.1"', '"127.0.0.1:"', '"127.0.0.1:-1"', '"127.0.0.1:1 "', "7"],
    "journal": [None, "1", "[]", "true"],
    "workers": ["0", "9", "-1", '"2"', "1.5"],
    "steps": ["0", "4097", "-1", '"16"'],
    "advertise": ["-1", "65536", '"1"'],
    "lifetime": ["-1", "31536001", '"5"', "1.5"],
    "field": ['"127.0.0.1:1"', '["127.0.0.1"]', "[1]", '["127.0.0.1:1", ""]', "1"],
    "peers": ['"127.0.0.1:1"', '["127.0.0.1"]', "[1]", '["127.0.0.1:1", "::1"]', "1"],
    "predefined": ["1", "[1]", '["a"]', "[{ id = 1 }]", '[{ topic = "a" }]', '[{ id = 0, topic = "a" }]', '[{ id = 65535, topic = "a" }]',
                   '[{ id = 1, topic = "a" }, { id = 1, topic = "b" }]', '[{ id = 1, topic = "" }]', '[{ id = 1, topic = "a/#" }]',
                   f'[{{ id = 1, topic = "{"a" * 257}" }}]', '[{ id = "1", topic = "a" }]'],
    "numbers": ["1", '["1"]', "[0]", "[256]", "[1, 1.0]"],
}


def try_arguments(account: Account, texts: Texts) -> None:
    good = texts.file(settings_text(texts.good).encode())
    lists = [[], ["--help"], ["--config"], ["--shifts", "0"], ["--config", good, "--shifts"], ["--config", good, "--shifts", "-1"],
             ["--config", good, "--shifts", "1000001"], ["--config", good, "--shifts", "some"], ["--config", good, "--shifts", ""],
             ["--config", good, "--shifts", "0", "more"], ["--config", good, "--shifts", "0", "--help"], ["--nothing"], [good]]
    for arguments in lists:
        words = " ".join("FILE" if word == good else word or "''" for word in arguments) or "no arguments"
        account.check(f"arguments: {words}", lambda: wanted(run(texts.program, arguments, texts.folder), 1, "sngw: arguments\n", ""))


def try_files(account: Account, texts: Texts) -> None:
    def refused(path: str, before: str, told: str = "file") -> None:
        wanted(run(texts.program, ["--config", path, "--shifts", "0"], texts.folder), 1, f"sngw: settings {told}\n", "", f"{path}: {before}")

    good = settings_text(texts.good).encode()
    account.check("settings file: not there", lambda: refused(os.path.join(texts.folder, "nowhere.toml"), "entity not found"))
    account.check("settings file: a folder", lambda: refused(texts.folder, "is a directory"))
    account.check("settings file: 32 MiB", lambda: refused(texts.file(good + (b"#" * 63 + b"\n") * (1 << 19)), "more than 1048576 octets"))
    for name, octets in [("a lone octet", b"\xff"), ("a cut character", b"\xe2\x82"), ("a surrogate", b"\xed\xa0\x80")]:
        account.check(f"settings text: no UTF-8, {name}", lambda: refused(texts.file(good + b"# " + octets + b"\n"), "not UTF-8", "text"))


def try_keys(account: Account, texts: Texts) -> None:
    for text in [b"gateway = = 1\n", b"gateway\n", b"[gateway\n", b"gateway = 1\ngateway = 1\n", b'listen = "\n']:
        account.check(f"settings text: {text!r}", lambda: wanted(texts.run_text(text), 1, "sngw: settings text\n", "", "TOML parse error at line "))
    for key, values in BAD.items():
        for value in values:
            shown = "not there" if value is None else value if len(value) < 60 else value[:40] + ".."
            account.check(f"settings {key}: {shown}",
                          lambda: wanted(texts.run_with(**{key: value}), 1, f"sngw: settings {key}\n", ""))
    for place, key in enumerate(BAD):
        wrong = {other: values[-1] for other, values in list(BAD.items())[place:]}
        account.check(f"settings {key}: the first of {len(wrong)} that are wrong",
                      lambda: wanted(texts.run_with(**wrong), 1, f"sngw: settings {key}\n", ""))


def try_good_settings(account: Account, texts: Texts) -> None:
    """What may stand in a settings file; each opens a journal of its own."""
    good = {
        "no more than there must be": {},
        "the least": {"workers": "1", "steps": "1", "advertise": "0", "lifetime": "0", "field": "[]", "peers": "[]", "predefined": "[]"},
        "the most": {"workers": "8", "steps": "4096", "advertise": "65535", "lifetime": "31536000"},
        "lists": {"field": '["127.0.0.1:1", "127.0.0.1:2"]', "peers": '["127.0.0.1:3"]',
                  "predefined": f'[{{ id = 1, topic = "a/b" }}, {{ id = 65534, topic = "{"a" * 256}" }}]'},
    }
    for place, (words, values) in enumerate(good.items()):
        values = {"journal": f'"{texts.folder}/good-{place}"', **values}
        account.check(f"good settings: {words}", lambda: wanted(texts.run_with(**values), 0, "", "gateway 1 records 0 clients 0\n"))
    ignored = [("a key that nobody knows", "unknown = [1, 2]\n", "unknown is no key, and is ignored"),
               ("peers behind an entry", '[[predefined]]\nid = 1\ntopic = "a"\npeers = []\n', "peers stands in an entry of predefined, and is ignored there")]
    for place, (words, more, said) in enumerate(ignored):
        text = settings_text({**texts.good, "journal": f'"{texts.folder}/ignored-{place}"'}) + more

        def told(text: str = text, said: str = said) -> None:
            status, printed, errors = texts.run_text(text.encode())
            expect((status, printed) == (0, "gateway 1 records 0 clients 0\n") and errors.endswith(f": {said}\n") and errors.count("\n") == 1,
                   f"status {status}, {printed!r}, {errors!r}")

        account.check(f"settings of which a key is ignored: {words}", told)
    tables = settings_text({**texts.good, "gateway": "255", "journal": f'"{texts.folder}/good-tables"'})
    tables += '[[predefined]]\nid = 7\ntopic = "a"\n\n[[predefined]]\nid = 8\ntopic = "b"\n'
    account.check("good settings: predefined as tables, gateway 255",
                  lambda: wanted(texts.run_text(tables.encode()), 0, "", "gateway 255 records 0 clients 0\n"))


def begun(texts: Texts) -> None:
    """That a journal is begun is told once, by the first start on its path."""
    path = os.path.join(texts.folder, "begun")
    words = ["--config", texts.file(settings_text({**texts.good, "journal": f'"{path}"'}).encode()), "--shifts", "0"]
    first = run_whole(texts.program, words, texts.folder)
    expect(first == (0, "gateway 1 records 0 clients 0\n", f"{path}.0, {path}.1: no journal is there, one is begun\n"), f"{first}")
    second = run_whole(texts.program, words, texts.folder)
    expect(second == (0, "gateway 1 records 0 clients 0\n", ""), f"at the second start {second}")


def lost(texts: Texts, ending: str) -> None:
    """A journal is begun, for its owner alone to read, and loses a file: it is refused, and nothing is made anew."""
    path = os.path.join(texts.folder, f"lost-{ending}")
    wanted(texts.run_with(journal=f'"{path}"'), 0, "", "gateway 1 records 0 clients 0\n")
    rights = [os.stat(f"{path}.{it}").st_mode & 0o777 for it in "01"]
    expect(rights == [0o600, 0o600], f"rights {rights}")
    os.remove(f"{path}.{ending}")
    wanted(texts.run_with(journal=f'"{path}"'), 2, "sngw: journal J1\n", "", "one of the two files of the journal is not there any more")
    expect(not os.path.exists(f"{path}.{ending}"), "it was made anew")


def try_journals(account: Account, texts: Texts) -> None:
    def opened_with(name: str, first: bytes, second: bytes = b"") -> tuple:
        path = os.path.join(texts.folder, name)
        for ending, octets in ((".0", first), (".1", second)):
            with open(path + ending, "wb") as file:
                file.write(octets)
        return texts.run_with(journal=f'"{path}"')

    def refused(fault: str, name: str, first: bytes, second: bytes = b"") -> None:
        wanted(opened_with(name, first, second), 2, f"sngw: journal {fault}\n")

    account.check("journal J1: a folder that is not there",
                  lambda: wanted(texts.run_with(journal=f'"{texts.folder}/nowhere/journal"'), 2, "sngw: journal J1\n", None, "entity not found"))
    os.mkdir(os.path.join(texts.folder, "taken.0"))
    account.check("journal J1: a folder in the place of its file",
                  lambda: wanted(texts.run_with(journal=f'"{texts.folder}/taken"'), 2, "sngw: journal J1\n", None, "is a directory"))
    for ending in ("0", "1"):
        account.check(f"journal J1: the file .{ending} is not there any more", lambda: lost(texts, ending))
    account.check("that a journal is begun is told once", lambda: begun(texts))
    other = HEADER[:4] + b"\x02" + HEADER[5:] + SEAL
    foreign = [("another gateway's number", other, b""), ("other octets", b"something else", b""),
               ("other octets in the second file", HEADER + SEAL, b"\x00"), ("no seal", HEADER + RECORD, b""),
               ("two files of one generation", HEADER + SEAL, HEADER + RECORD + SEAL),
               ("no seal in either file", HEADER, headed(2) + RECORD)]
    for place, (words, first, second) in enumerate(foreign):
        account.check(f"journal J2: {words}", lambda: refused("J2", f"foreign-{place}", first, second))
    whole = HEADER + SEAL + RECORD
    damaged = [("another tag", whole + b"\x45"), ("a second seal", whole + SEAL),
               ("a record over the limit", whole + b"\x44\x00\x80\x00\x01"),
               ("a delta of another version", HEADER + SEAL + RECORD[:5] + b"\x02" + RECORD[6:]),
               ("a record of one octet", whole + b"\x44\x00\x00\x00\x01\x00"), ("a record of nothing", whole + b"\x44\x00\x00\x00\x00")]
    for place, (words, first) in enumerate(damaged):
        account.check(f"journal J3: {words}", lambda: refused("J3", f"damaged-{place}", first))
    either = [("read", HEADER + SEAL, headed(2) + SEAL + b"\x45"), ("not read", whole + b"\x45", headed(2) + SEAL)]
    for place, (words, first, second) in enumerate(either):
        account.check(f"journal J3: another tag in the file that is {words}", lambda: refused("J3", f"damaged-two-{place}", first, second))
    two = [("the second is newer", HEADER + SEAL, headed(2) + RECORD + SEAL),
           ("the first is newer", headed(3) + SEAL + RECORD, headed(2) + SEAL),
           ("the newer one has no seal", whole, headed(2) + RECORD + RECORD), ("the newer one is cut", whole, headed(2) + RECORD[:20]),
           ("the end cuts the newer one's header", whole, headed(2)[:9]), ("of the newer one there are three octets", whole, HEADER[:3]),
           ("the newer one has a torn end", HEADER + SEAL, headed(2) + RECORD + SEAL + RECORD[:-1])]
    for place, (words, first, second) in enumerate(two):
        account.check(f"a journal in two files opens: {words}",
                      lambda: wanted(opened_with(f"two-{place}", first, second), 0, "", "gateway 1 records 1 clients 1\n"))
    for length in range(0, len(whole) + 1):
        if length in (0, 1, 13, 14, 15, 20, len(whole) - 1, len(whole)):
            records = 1 if length == len(whole) else 0
            said = f"gateway 1 records {records} clients {records}\n"
            account.check(f"a journal cut to {length} octets opens",
                          lambda: wanted(opened_with(f"cut-{length}", whole[:length]), 0, "", said))


def try_sockets(account: Account, texts: Texts) -> None:
    taken = socket.socket(socket.AF_INET, socket.SOCK_DGRAM)
    busy = socket.socket(socket.AF_INET, socket.SOCK_STREAM)
    with taken, busy:
        taken.bind((HOST, 0))
        busy.bind((HOST, 0))
        busy.listen(1)
        listen, link = at_port(taken.getsockname()[1]), at_port(busy.getsockname()[1])
        journal = f'"{texts.folder}/sockets"'
        account.check("socket: the UDP port is taken",
                      lambda: wanted(texts.run_with("1", listen=listen, journal=journal), 3, "sngw: socket\n", None, "listen: "))
        account.check("socket: the TCP port is taken",
                      lambda: wanted(texts.run_with("1", link=link, journal=journal), 3, "sngw: socket\n", None, "link: "))
        account.check("no shifts: both ports are taken, and no socket is opened",
                      lambda: wanted(texts.run_with("0", listen=listen, link=link, journal=journal), 0, "",
                                     "gateway 1 records 0 clients 0\n"))


def try_memory(account: Account, texts: Texts) -> None:
    """A journal of 512 MiB is opened by a process that may have 256 MiB."""
    path = os.path.join(texts.folder, "large")
    with open(path + ".0", "wb") as file:
        file.write(HEADER + SEAL + RECORD)
        file.truncate(1 << 29)
    open(path + ".1", "wb").close()
    settings = texts.file(settings_text({**texts.good, "journal": f'"{path}"'}).encode())

    def trial() -> str:
        got = run(texts.program, ["--config", settings, "--shifts", "0"], texts.folder, 1 << 28)
        expect((got[0], got[2]) in ((2, "sngw: journal J4\n"), (4, "sngw: memory\n")),
               f"status {got[0]} and {got[2][:200]!r}, wanted 2 with 'sngw: journal J4' or 4 with 'sngw: memory'")
        return got[2].strip()

    account.check("memory: a journal larger than what the process may have", trial)
    os.remove(path + ".0")


def try_closed_streams(account: Account, texts: Texts) -> None:
    """What a program prints to a stream that was closed when it began does not stand in its journal."""
    def trial(words: str, closed: str) -> None:
        path = os.path.join(texts.folder, "closed-" + words.replace(" ", "-"))
        settings = texts.file(settings_text({**texts.good, "journal": f'"{path}"'}).encode())
        ended = subprocess.run(["sh", "-c", f'exec "$0" "$@" {closed}', texts.program, "--config", settings, "--shifts", "0"],
                               cwd=texts.folder, timeout=30, stdin=subprocess.DEVNULL, stdout=subprocess.DEVNULL, stderr=subprocess.DEVNULL)
        expect(ended.returncode == 0, f"status {ended.returncode}")
        got = run(texts.program, ["--config", settings, "--shifts", "0"], texts.folder)
        wanted(got, 0, "", "gateway 1 records 0 clients 0\n")

    for words, closed in (("standard output", ">&-"), ("standard error", "2>&-"), ("all three", "<&- >&- 2>&-")):
        account.check(f"a start with {words} closed leaves a journal that opens", lambda: trial(words, closed))


def try_lock(account: Account, texts: Texts) -> None:
    """A second program is kept from the journal of one that runs, and finds it free when that has been killed."""
    def trial() -> None:
        with Gateway(texts.program, texts.folder, 9, free_ports(2)) as gateway:
            gateway.start()
            settings = texts.file(settings_text({**texts.good, "gateway": "9", "journal": f'"{gateway.journal}"'}).encode())
            wanted(run(texts.program, ["--config", settings, "--shifts", "0"], texts.folder), 2, "sngw: journal J1\n", None, "another program has the journal open")
            gateway.kill()
            wanted(run(texts.program, ["--config", settings, "--shifts", "0"], texts.folder), 0, "", "gateway 9 records 0 clients 0\n")

    account.check("a journal that a running gateway writes is not opened", trial)


def part_messages(account: Account, program: str, folder: str, _) -> None:
    texts = Texts(program, folder)
    for trial in (try_arguments, try_files, try_keys, try_good_settings, try_journals, try_sockets, try_memory, try_closed_streams, try_lock):
        trial(account, texts)


# ---- one gateway


def puback(client: Client, field: bytes, body: bytes, message: int, flags: int = 0x22) -> None:
    """A publication at quality of service 1 is acknowledged with code 0."""
    client.ask(publish(field, body, message, flags), published(field, message))


def try_first_answers(gateway: Gateway) -> None:
    """With a clean session: what was thrown at the gateway may have given this client another one."""
    with Client(b"s1", gateway) as one:
        expect(one.ask(bytes.fromhex("08040401003c7331"), b"\x03") == CONNECTED, "CONNECT was answered otherwise")
        got = one.ask(subscribe(b"ab", 1), b"\x08\x13")
        expect(got == bytes.fromhex("0813200001000100"), f"SUBSCRIBE was answered {got.hex()}")
        got = one.ask(register(b"t/b", 2), b"\x07\x0b")
        expect(got == bytes.fromhex("070b0002000200"), f"REGISTER was answered {got.hex()}")
        one.ask(ping(), PONG)
        got = one.ask(subscribe(b"t/+", 3), b"\x08\x13")
        expect(got == bytes.fromhex("0813200000000300"), f"SUBSCRIBE with a wildcard was answered {got.hex()}")
        one.ask(leave(), GONE)
        got = one.ask(publish(b"ab", b"x", 1), b"\x02")
        expect(got == GONE, f"PUBLISH of a client that left was answered {got.hex()}")


def try_sleep(gateway: Gateway, cut: bool) -> str:
    """A message that waits for a sleeper comes when it wakes, also where the daemon was killed in between."""
    name = b"sleeper-cut" if cut else b"sleeper"
    topic = b"t/" + name
    with Client(name, gateway) as sleeper, Client(b"publisher", gateway) as publisher:
        sleeper.connect()
        sleeper.ask(subscribe(topic), b"\x08\x13\x20\x00\x01")
        sleeper.sleep()
        publisher.connect(clean=True)
        answer = publisher.ask(register(topic, 1), b"\x07\x0b")
        field, told = answer[2:4], ""
        for message, body in ((2, b"first"), (3, b"second")):
            puback(publisher, field, body, message, 0x20)
        if cut:
            gateway.kill()
            records, clients = gateway.start()
            expect(records >= 6 and clients >= 2, f"{records} records and {clients} clients were read")
            told = f"{records} records, {clients} clients"
        got = publisher.sends_once(sleeper.wake())
        expect(got == [b"first", b"second"], f"the sleeper got {got}")
        again = sleeper.wake()
        expect(again == [], f"the sleeper woke again and got {again}")
        return told


def try_active(gateway: Gateway) -> str:
    """A client that is there gets a message without asking: time goes by at the daemon."""
    with Client(b"listener", gateway) as listener, Client(b"publisher", gateway) as publisher:
        listener.connect()
        listener.ask(subscribe(b"li", 1, 0x22), b"\x08\x13")
        publisher.connect(clean=True)
        began = time.monotonic()
        puback(publisher, b"li", b"now", 1)
        got = listener.hear(10)
        expect(got == [b"now"], f"it got {got} within 10 seconds")
        return f"{time.monotonic() - began:.2f} seconds"


def try_qualities(gateway: Gateway) -> None:
    """Publications at -1, 0 and 2, and by a predefined id, wait for a sleeper in their order."""
    with Client(b"quality", gateway) as sleeper, Client(b"publisher", gateway) as publisher:
        sleeper.connect()
        sleeper.ask(subscribe(b"qq", 1, 0x22), b"\x08\x13")
        sleeper.ask(subscribe(number(7), 2, 0x21), b"\x08\x13\x20\x00\x07")
        sleeper.sleep()
        publisher.send(publish(b"qq", b"without a connection", 0, 0x62))
        gateway.await_octets(b"without a connection")
        publisher.connect(clean=True)
        publisher.send(publish(b"qq", b"at 0", 0, 0x02))
        gateway.await_octets(b"at 0")
        publisher.ask(publish(b"qq", b"at 2", 9, 0x42), frame(0x0F, number(9)))
        publisher.ask(frame(0x10, number(9)), frame(0x0E, number(9)))
        puback(publisher, number(7), b"predefined", 10, 0x21)
        got = publisher.sends_once(sleeper.wake())
        expect(got == [b"without a connection", b"at 0", b"at 2", b"predefined"], f"the sleeper got {got}")


def try_order(gateway: Gateway) -> None:
    """Publications at 0 that are sent one right behind the other, and DISCONNECT behind them, are handled in this order."""
    bodies = [b"%03d" % place for place in range(60)]
    with Client(b"ordered", gateway) as sleeper, Client(b"hurried", gateway) as publisher:
        sleeper.connect()
        sleeper.ask(subscribe(b"oo", 1, 0x22), b"\x08\x13")
        sleeper.sleep()
        for first in range(0, len(bodies), 6):
            publisher.connect(clean=True)
            for body in bodies[first:first + 6]:
                publisher.send(publish(b"oo", body, 0, 0x02))
            publisher.ask(leave(), GONE)
        got = sleeper.wake()
        expect(got == bodies, f"the sleeper got {b' '.join(got).decode()}")


def try_advertise(program: str, folder: str) -> None:
    """ADVERTISE comes to the addresses of the field, again and again."""
    with socket.socket(socket.AF_INET, socket.SOCK_DGRAM) as hearer:
        hearer.bind((HOST, 0))
        hearer.settimeout(10)
        field = f'["{HOST}:{hearer.getsockname()[1]}"]'
        with Gateway(program, folder, 9, advertise="1", field=field) as gateway:
            gateway.start()
            for _ in range(2):
                try:
                    octets, sender = hearer.recvfrom(65536)
                except TimeoutError:
                    raise Failed("none came within 10 seconds") from None
                expect((octets, sender) == (bytes.fromhex("0500090001"), gateway.address), f"{octets.hex()} came from {sender}")


def part_loopback(account: Account, program: str, folder: str, _) -> None:
    with Gateway(program, folder, 1, predefined='[{ id = 7, topic = "p/seven" }]') as gateway:
        account.check("a gateway starts", lambda: gateway.start() and None)
        account.check("first answers", lambda: try_first_answers(gateway))
        account.check("a client sleeps and wakes", lambda: try_sleep(gateway, False))
        account.check("the daemon is killed between sleep and wake", lambda: try_sleep(gateway, True))
        account.check("a message comes to a client that is there", lambda: try_active(gateway))
        account.check("qualities of service and a predefined id", lambda: try_qualities(gateway))
        account.check("publications that follow each other at once", lambda: try_order(gateway))
        account.check("the daemon still runs", gateway.alive)
    account.check("ADVERTISE", lambda: try_advertise(program, folder))


# ---- linked gateways


def ring(program: str, folder: str, count: int, **more: str) -> list:
    """Gateways of which each dials the next, with more settings."""
    ports = free_ports(2 * count)
    pairs = list(zip(ports[::2], ports[1::2]))
    return [Gateway(program, folder, place + 1, pairs[place], peers=f"[{at_port(pairs[(place + 1) % count][1])}]", **more)
            for place in range(count)]


def take_over(gateways: list, killed: Gateway, waker: Gateway, tag: bytes) -> str:
    """Sleep at the first, publish at the second, which is killed then, and wake at another."""
    topic, body = b"take/" + tag, b"kept " + tag
    with Client(b"s-" + tag, gateways[0]) as sleeper, Client(b"p-" + tag, gateways[1]) as publisher:
        sleeper.connect()
        sleeper.ask(subscribe(topic), b"\x08\x13\x20\x00\x01")
        sleeper.sleep()
        heard = gateways[1].await_octets(topic)
        publisher.connect(clean=True)
        field = publisher.ask(register(topic, 1), b"\x07\x0b")[2:4]
        puback(publisher, field, body, 2, 0x20)
        moved = waker.await_octets(body)
        waker.settle()
        killed.kill()
        sleeper.gateway = waker
        got = publisher.sends_once(sleeper.wake())
        expect(got == [body], f"the sleeper woke at gateway {waker.number} and got {got}")
        again = sleeper.wake()
        expect(again == [], f"the sleeper woke again and got {again}")
    return f"deltas took {heard * 1000:.0f} and {moved * 1000:.0f} ms"


def catch_up(gateways: list) -> str:
    """A gateway that was away gets what was published meanwhile."""
    away = gateways[2]
    with Client(b"s-away", gateways[0]) as sleeper, Client(b"p-away", gateways[1]) as publisher:
        sleeper.connect()
        sleeper.ask(subscribe(b"aw", 1, 0x22), b"\x08\x13")
        sleeper.sleep()
        gateways[1].await_octets(b"s-away")
        gateways[1].settle()
        away.kill()
        publisher.connect(clean=True)
        puback(publisher, b"aw", b"while it was away", 1)
        gateways[0].await_octets(b"while it was away")
        away.start()
        moved = away.await_octets(b"while it was away", 30)
        away.settle()
        sleeper.gateway = away
        got = publisher.sends_once(sleeper.wake())
        expect(got == [b"while it was away"], f"the sleeper got {got}")
        return f"it had what it lacked {moved * 1000:.0f} ms after its first answer"


def tells_all(gateways: list, messages: int) -> str:
    """Whatever is published at the first comes to the second, although a shift is over as soon as it has begun."""
    with Client(b"s-short", gateways[0]) as sleeper, Client(b"p-short", gateways[0]) as publisher:
        sleeper.connect()
        sleeper.ask(subscribe(b"sh", 1, 0x22), b"\x08\x13")
        sleeper.sleep()
        gateways[1].await_octets(b"s-short")
        publisher.connect(clean=True)
        sent = [b"<%06d>" % message for message in range(messages)]
        for message, body in enumerate(sent):
            puback(publisher, b"sh", body, message + 1)
    gateways[1].await_octets(sent[-1], 60)
    gateways[1].settle(60)
    held = gateways[1].held()
    missing = [body for body in sent if body not in held]
    expect(not missing, f"gateway 2 was not told of {len(missing)} of {messages} messages, as {missing[:3]}")
    return f"{messages} messages over {len(gateways[0].shifts())} shifts"


LONG = 4_000  # octets of a message of which many are to be lacking
EACH = 250  # messages that wait for a sleeper


def fill(gateway: Gateway, sleepers: int) -> list:
    """So many sleepers, each with messages that wait: their bodies."""
    kept = []
    for place in range(sleepers):
        name = b"%d-%d" % (gateway.number, place)
        field = b"%c%d" % (ord("a") + place // 10, place % 10)
        with Client(b"s-" + name, gateway) as sleeper, Client(b"p-" + name, gateway) as publisher:
            sleeper.connect()
            sleeper.ask(subscribe(field, 1, 0x22), b"\x08\x13")
            sleeper.sleep()
            publisher.connect(clean=True)
            for message in range(1, EACH + 1):
                body = b"<%s-%06d>" % (name, message)
                puback(publisher, field, body.ljust(LONG, b"."), message)
                kept.append(body)
    return kept


def lack_much(program: str, folder: str, sleepers: int) -> str:
    """Two gateways, of which each lacks more of the other's than sockets hold, are linked: then both have all."""
    gateways = ring(program, folder, 2)
    try:
        kept = []
        for gateway in gateways:
            gateway.start()
            kept.append(fill(gateway, sleepers))
            gateway.kill()
        octets = [len(gateway.held()) for gateway in gateways]
        began = time.monotonic()
        for gateway in gateways:
            gateway.start()
        for gateway, bodies in zip(gateways, reversed(kept)):
            gateway.await_octets(bodies[-1], 120)
            gateway.settle(120)
            held = gateway.held()
            missing = [body for body in bodies if body not in held]
            expect(not missing, f"gateway {gateway.number} was not told of {len(missing)} of {len(bodies)} messages, as {missing[:3]}")
        return f"journals of {octets[0]} and {octets[1]} octets, {time.monotonic() - began:.1f} seconds"
    finally:
        for gateway in gateways:
            gateway.kill()


def comes_past_the_silent(program: str, folder: str) -> str:
    """Eight who dial and say nothing have each place for links that are accepted: they are given up, and a gateway that dials gets one."""
    ports = free_ports(4)
    with Gateway(program, folder, 2, (ports[2], ports[3])) as called, \
            Gateway(program, folder, 1, (ports[0], ports[1]), peers=f"[{at_port(ports[3])}]") as caller:
        called.start()
        silent = [socket.create_connection((HOST, called.link), 5) for _ in range(8)]
        try:
            time.sleep(1)
            caller.start()
            with Client(b"s-silent", caller) as client:
                client.connect()
            took = called.await_octets(b"s-silent", 60)
        finally:
            for link in silent:
                link.close()
        return f"{took:.1f} seconds"


def says_again(program: str, folder: str) -> str:
    """A link on which nothing comes hears the gateway's number, once more with the numbers that it is linked with, and again within a minute or
    two, so that an end that is gone is noticed."""
    ports = free_ports(2)
    with Gateway(program, folder, 7, (ports[0], ports[1])) as gateway:
        gateway.start()
        with socket.create_connection((HOST, gateway.link), 5) as link:
            link.sendall(message_of(1, b"\xc8"))
            hello, got, began = message_of(1, bytes([7])), b"", time.monotonic()
            link.settimeout(120)
            while got.count(hello) < 3:
                more = link.recv(4096)
                expect(more, "the link was closed")
                got += more
        return f"{time.monotonic() - began:.1f} seconds"


def answers_end_a_shift(program: str, folder: str) -> str:
    """Who asks again and again for all that is there does not have the gateway keep every answer: the shift ends. Each link says another number,
    as one number is answered once in ten seconds; and what a gateway made in a shift it tells each new link without an answer."""
    ports = free_ports(2)
    with Gateway(program, folder, 9, (ports[0], ports[1])) as gateway:
        gateway.start()
        last = fill(gateway, 3)[-1]
        gateway.kill()
        gateway.start()
        before, asked, octets = len(gateway.shifts()), 0, 0
        while len(gateway.shifts()) == before:
            expect(asked < 30, f"{asked} answers of {octets} octets together were given in one shift")
            asked, octets = asked + 1, octets + ask_all_of(gateway, last, 200 + asked)
            time.sleep(0.5)
    return f"{asked} answers of {octets} octets together"


def ask_all_of(gateway: Gateway, last: bytes, peer: int) -> int:
    """A link of this number asks for all that is there, and hears this body. How many octets it was told."""
    got = b""
    with socket.create_connection((HOST, gateway.link), 5) as link:
        link.settimeout(60)
        link.sendall(message_of(1, bytes([peer])) + message_of(2, b"\x01\x00\x00\x00\x00"))
        while last not in got[-100_000:]:
            more = link.recv(65536)
            expect(more, "the link was closed")
            got += more
    return len(got)


def with_ring(program: str, folder: str, count: int, trial, **more: str) -> str:
    gateways = ring(program, folder, count, **more)
    try:
        for gateway in gateways:
            gateway.start()
        return trial(gateways)
    finally:
        for gateway in gateways:
            gateway.kill()


def part_links(account: Account, program: str, folder: str, _) -> None:
    def trial_in(name: str, count: int, trial, **more: str) -> str:
        place = os.path.join(folder, name)
        os.mkdir(place)
        return with_ring(program, place, count, trial, **more)

    account.check("two gateways: sleep at 1, publish at 2, kill 2, wake at 1",
                  lambda: trial_in("two", 2, lambda g: take_over(g, g[1], g[0], b"two")))
    account.check("two gateways: sleep at 1, publish at 2, kill 1, wake at 2",
                  lambda: trial_in("two-first", 2, lambda g: take_over(g, g[0], g[1], b"two-first")))
    account.check("three gateways: sleep at 1, publish at 2, kill 2, wake at 3",
                  lambda: trial_in("three", 3, lambda g: take_over(g, g[1], g[2], b"three")))
    account.check("three gateways: 3 is away, publish at 2, start 3, wake at 3", lambda: trial_in("away", 3, catch_up))
    for steps in ("1", "2"):
        account.check(f"two gateways: shifts of {steps} calls, and each delta is told",
                      lambda: trial_in(f"short-{steps}", 2, lambda g: tells_all(g, 150), steps=steps))

    def lack_in(sleepers: int) -> str:
        place = os.path.join(folder, "lacking")
        os.mkdir(place)
        return lack_much(program, place, sleepers)

    def silent_in() -> str:
        place = os.path.join(folder, "silent")
        os.mkdir(place)
        return comes_past_the_silent(program, place)

    def again_in() -> str:
        place = os.path.join(folder, "again")
        os.mkdir(place)
        return says_again(program, place)

    def asked_in() -> str:
        place = os.path.join(folder, "asked")
        os.mkdir(place)
        return answers_end_a_shift(program, place)

    account.check("answers of more than 64 MiB together end their shift", asked_in)
    account.check("a gateway dials where eight have dialled and say nothing", silent_in)
    account.check("a quiet link hears the gateway's number again", again_in)
    account.check("two gateways that each lack twenty megabytes of the other's", lambda: lack_in(20))


# ---- what is retained

BY_ID = 7  # the predefined id of the topic of who publishes without a connection
PREDEFINED = ((BY_ID, b"r/b"),)
PLACES = 1024  # topics of which something may be retained
# Topics that are read: the flags of how each is named in a PUBLISH, and its quality of service.
READINGS = [(b"r/a", 0x00, 2), (b"r/b", 0x01, -1), (b"r/c", 0x00, 0), (b"r/d", 0x00, 1), (b"rs", 0x02, 1)]
# What displays subscribe to: the flags of how it is named, the topics, the quality of service, and of what they are handed the last readings.
DISPLAYS = [(0x00, b"#", 2, READINGS), (0x00, b"r/+", 1, READINGS[:4]), (0x00, b"r/d", 2, READINGS[3:4]), (0x01, number(BY_ID), 1, READINGS[1:2]),
            (0x02, b"rs", 0, READINGS[4:])]


def reading(topic: bytes, turn: int) -> bytes:
    return b"<%s read %d>" % (topic, turn)


def field_of(sensor: Client, topic: bytes, kind: int, message: int) -> bytes:
    """How the topic is named in a PUBLISH; a name in full is registered first."""
    if kind == 0x00:
        sensor.flush()
        return sensor.ask(register(topic, message), b"\x07\x0b")[2:4]
    return number(BY_ID) if kind == 0x01 else topic


def retain(publisher: Client, field: bytes, kind: int, quality: int, body: bytes, message: int) -> None:
    """Publishes with Retain, until the gateway has it."""
    octets = publish(field, body, message if quality > 0 else 0, kind | RETAIN | (quality & 3) << 5)
    if quality < 1:
        publisher.send(octets)
        publisher.gateway.await_octets(body)
    elif quality == 1:
        publisher.ask(octets, published(field, message))
    else:
        publisher.ask(octets, frame(0x0F, number(message)))
        publisher.ask(frame(0x10, number(message)), frame(0x0E, number(message)))


def read_all(gateway: Gateway, turn: int) -> None:
    """A reading of each topic, and not in the order of topics."""
    with Client(b"sensor", gateway) as sensor, Client(b"unconnected", gateway) as other:
        sensor.connect(clean=True)
        for place, (topic, kind, quality) in enumerate(reversed(READINGS)):
            field = field_of(sensor, topic, kind, 2 * place + 1)
            retain(other if quality < 0 else sensor, field, kind, quality, reading(topic, turn), 2 * place + 2)


def look_at_displays(gateway: Gateway, tag: bytes) -> None:
    """Each display is new and is handed the last readings, in the order of topics, at the smaller quality of service, with Retain, and once."""
    for place, (kind, topic, asked, readings) in enumerate(DISPLAYS):
        with Display(b"display-%s-%d" % (tag, place), gateway, PREDEFINED) as display:
            display.connect(clean=True)
            display.subscribe(topic, kind | asked << 5)
            got = display.hears(len(readings))
            last = [(topic, reading(topic, 2), min(max(quality, 0), asked), True) for topic, _, quality in readings]
            expect(got == last, f"{display.name.decode()} at gateway {gateway.number} was handed {got} and not {last}")
            again = display.fetches()
            expect(again == [], f"{display.name.decode()} was sent {again} behind that")


def last_readings(gateways: list) -> str:
    """Two readings of each topic at the first gateway: displays at the second are handed the last ones, also behind a restart of both."""
    first, second = gateways
    for turn in (1, 2):
        read_all(first, turn)
    for topic, _, _ in READINGS:
        second.await_octets(reading(topic, 2))
    look_at_displays(second, b"before")
    for gateway in gateways:
        gateway.kill()
    for gateway in gateways:
        records, _ = gateway.start()
    look_at_displays(second, b"behind")
    look_at_displays(first, b"first")
    return f"{records} records of gateway {second.number} were read"


def knows_of(gateway: Gateway, name: bytes) -> None:
    """Waits until the gateway knows of a client at another one, and of what it did just now."""
    gateway.await_octets(name)
    gateway.settle()


def handed(gateway: Gateway, name: bytes, topic: bytes, flags: int) -> list:
    """What a new display is handed: topics, and what was retained of each."""
    with Display(name, gateway, PREDEFINED) as display:
        display.connect(clean=True)
        display.subscribe(topic, flags)
        got = display.fetches()
    expect(all(is_retained for *_, is_retained in got), f"{name.decode()} was handed {got}, and not all of it with Retain")
    return [(topic, body) for topic, body, *_ in got]


def comes_clear(gateways: list) -> None:
    """Who subscribed before is sent what is published with Retain as all else is. Who subscribes again is handed the last with Retain."""
    first, second = gateways
    with Display(b"is-there", second) as display, Client(b"s-there", first) as sensor, Client(b"unconnected", first) as other:
        display.connect(clean=True)
        display.subscribe(b"th", 0x42)
        knows_of(first, b"is-there")
        sensor.connect(clean=True)
        for quality in (-1, 0, 1, 2):
            retain(other if quality < 0 else sensor, b"th", 0x02, quality, b"<at %d>" % quality, 10 + quality)
        got = sensor.sends_once(display.hears(4))
        expect(got == [(b"th", b"<at %d>" % quality, max(quality, 0), False) for quality in (-1, 0, 1, 2)], f"who was there got {got}")
        display.subscribe(b"th", 0x22)
        got = display.hears(1)
        expect(got == [(b"th", b"<at 2>", 1, True)], f"who subscribed again got {got}")


def empty_ends(gateways: list) -> None:
    """An empty message ends what was retained of its topic, until something is retained anew. Who is there is sent it."""
    first, second = gateways
    one, other = b"e/a", b"e/b"
    turns = [(one, b"<a>", [(one, b"<a>")]), (other, b"<b>", [(one, b"<a>"), (other, b"<b>")]), (one, b"", [(other, b"<b>")]),
             (one, b"<anew>", [(one, b"<anew>"), (other, b"<b>")])]
    with Display(b"e-there", second) as there, Client(b"s-empty", first) as sensor:
        there.connect(clean=True)
        there.subscribe(b"e/+", 0x20)
        knows_of(first, b"e-there")
        sensor.connect(clean=True)
        fields = {topic: field_of(sensor, topic, 0x00, place) for place, topic in enumerate((one, other), 1)}
        for place, (topic, body, later) in enumerate(turns):
            retain(sensor, fields[topic], 0x00, 1, body, 10 + place)
            got = sensor.sends_once(there.hears(1))
            expect(got == [(topic, body, 1, False)], f"who was there got {got} and not {body!r}")
            got = handed(second, b"e-late-%d" % place, b"e/+", 0x20)
            expect(got == later, f"who came behind {body!r} was handed {got} and not {later}")


def with_will(mortal: Client, flags: int, topic: bytes, body: bytes) -> None:
    """A client with a will, that has to be heard of each second."""
    mortal.ask(frame(0x04, b"\x0c\x01" + number(1) + mortal.name), b"\x02\x06")
    mortal.ask(frame(0x07, bytes([flags]) + topic), b"\x02\x08")
    mortal.ask(frame(0x09, body), CONNECTED)


def wills_stay(gateways: list) -> None:
    """Of two clients that are lost the will with Retain is handed over later, and both are sent to who is there."""
    first, second = gateways
    with Display(b"w-there", second) as there, Client(b"kept", first) as kept, Client(b"told", first) as told:
        there.connect(clean=True)
        there.subscribe(b"w/+", 0x20)
        knows_of(first, b"w-there")
        for mortal, flags in ((kept, 0x20 | RETAIN), (told, 0x20)):
            with_will(mortal, flags, b"w/" + mortal.name, b"<will of %s>" % mortal.name)
        got = sorted(there.hears(2))
        expect(got == [(b"w/" + name, b"<will of %s>" % name, 1, False) for name in (b"kept", b"told")], f"who was there got {got}")
    for gateway in gateways:
        got = handed(gateway, b"w-late-%d" % gateway.number, b"w/+", 0x20)
        expect(got == [(b"w/kept", b"<will of kept>")], f"who came later to gateway {gateway.number} was handed {got}")


def short_name(place: int) -> bytes:
    """Short names, ascending."""
    return bytes([65 + place // 32, 65 + place % 32])


def fills_all_places(gateway: Gateway) -> str:
    """A display is handed a reading of each topic that there may be. One topic more is sent to who is there, and not retained."""
    gateway.start()
    with Client(b"s-many", gateway) as sensor, Display(b"d-many", gateway) as display:
        sensor.connect(clean=True)
        for place in range(PLACES):
            retain(sensor, short_name(place), 0x02, 1, b"<%04d>" % place, place + 1)
        began = time.monotonic()
        display.connect(clean=True)
        display.subscribe(b"#", 0x20)
        got = display.hears(PLACES, 120)
        took = time.monotonic() - began
        differ = [place for place, it in enumerate(got) if it != (short_name(place), b"<%04d>" % place, 1, True)]
        expect(len(got) == PLACES and not differ, f"{len(got)} readings came, and {len(differ)} of them otherwise: {[got[it] for it in differ[:2]]}")
        retain(sensor, b"zz", 0x02, 1, b"<one more>", PLACES + 1)
        retain(sensor, short_name(0), 0x02, 1, b"<anew>", PLACES + 2)
        got = sensor.sends_once(display.hears(2))
        expect(got == [(b"zz", b"<one more>", 1, False), (short_name(0), b"<anew>", 1, False)], f"the display then got {got}")
    for topic, kept in ((b"zz", []), (short_name(0), [(short_name(0), b"<anew>")])):
        got = handed(gateway, b"d-late-" + topic, topic, 0x22)
        expect(got == kept, f"who came later was handed {got} and not {kept}")
    return f"{PLACES} readings were handed over within {took:.1f} seconds"


def part_retained(account: Account, program: str, folder: str, _) -> None:
    first, second = gateways = ring(program, folder, 2, predefined=f'[{{ id = {BY_ID}, topic = "r/b" }}]')
    with first, second:
        account.check("two gateways start", lambda: [gateway.start() for gateway in gateways] and None)
        account.check("publish with Retain at 1, subscribe at 2, also behind a restart of both", lambda: last_readings(gateways))
        account.check("publish with Retain at 1 to who is there at 2", lambda: comes_clear(gateways))
        account.check("an empty message ends what is retained", lambda: empty_ends(gateways))
        account.check("a will with Retain is handed to who subscribes later", lambda: wills_stay(gateways))
    with Gateway(program, folder, 3) as gateway:
        account.check(f"something is retained of {PLACES} topics, and of no other", lambda: fills_all_places(gateway))


# ---- kills

WINDOW = 8  # publications that are not answered yet
MOST = 80  # publications of a round
ROUNDS = 10  # rounds to a subscriber, for which at most 1,024 messages may wait


def publish_and_kill(gateway: Gateway, publisher: Client, topic: bytes, first: int, stop: int) -> tuple:
    """Publishes with a window, and kills the daemon behind so many answers. Gives what was sent and what was acknowledged.

    Nothing is sent twice: what was not answered within a second is given up."""
    sent, acknowledged, waiting, end = {}, set(), set(), time.monotonic() + 30
    publisher.flush()
    while len(acknowledged) < stop and len(sent) < MOST + WINDOW:
        while len(waiting) < WINDOW and len(sent) < MOST + WINDOW:
            message = (first + len(sent)) % 65535 + 1
            waiting.add(message)
            sent[message] = b"%08d" % (first + len(sent))
            publisher.send(publish(topic, sent[message], message))
        octets = publisher.receive(1)
        if octets is None:
            waiting.clear()
            expect(time.monotonic() < end, f"{len(acknowledged)} of {len(sent)} publications were acknowledged within 30 seconds")
        note(octets, sent, acknowledged)
        waiting -= acknowledged
    gateway.kill()
    while (octets := publisher.receive(0.02)) is not None:
        note(octets, sent, acknowledged)
    return list(sent.values()), {sent[message] for message in acknowledged}


def note(octets, sent: dict, acknowledged: set) -> None:
    """A PUBACK."""
    if octets is None:
        return
    kind, body = opened(octets)
    message = int.from_bytes(body[2:4], "big") if kind == 0x0D else 0
    if message in sent:
        expect(body[4] == 0, f"a publication was refused with code {body[4]}")
        acknowledged.add(message)


def read_back(gateway: Gateway, place: int, sent: list, acknowledged: set) -> int:
    """What the subscriber of this place gets. Each message that was acknowledged must be there, and none twice."""
    with Client(b"kept-%d" % place, gateway) as subscriber:
        got = subscriber.wake(120)
    missing = acknowledged - set(got)
    expect(not missing, f"{len(missing)} acknowledged messages are missing, as {sorted(missing)[:5]}")
    expect(len(got) == len(set(got)), f"{len(got) - len(set(got))} messages came twice")
    expect(set(got) <= set(sent), "messages came that nobody sent")
    return len(got)


def kill_again_and_again(gateway: Gateway, kills: int, chance: random.Random) -> str:
    """A journal that a start compacted has fewer records than there were publications; the messages tell all the same what is missing."""
    gateway.start()
    sent, acknowledged, counted, slowest = {}, {}, 0, 0.0
    with Client(b"publisher", gateway) as publisher:
        for turn in range(kills):
            place = turn // ROUNDS
            topic = number(0x4141 + place // 26 * 256 + place % 26)
            if turn % ROUNDS == 0:
                with Client(b"kept-%d" % place, gateway) as subscriber:
                    subscriber.connect()
                    subscriber.ask(subscribe(topic, 1, 0x22), b"\x08\x13")
                    subscriber.sleep()
                sent[place], acknowledged[place] = [], set()
            publisher.connect(clean=True)
            more, held = publish_and_kill(gateway, publisher, topic, counted, chance.randint(1, MOST - WINDOW))
            sent[place] += more
            acknowledged[place] |= held
            counted += len(more)
            began = time.monotonic()
            gateway.start()
            slowest = max(slowest, time.monotonic() - began)
    got = sum(read_back(gateway, place, sent[place], acknowledged[place]) for place in sent)
    total = sum(map(len, acknowledged.values()))
    return f"{counted} sent, {total} acknowledged, {got} got, none of these missing; the slowest start took {slowest:.2f} seconds"


def part_kills(account: Account, program: str, folder: str, options) -> None:
    with Gateway(program, folder, 1) as gateway:
        account.check(f"{options.kills} kills amid publications",
                      lambda: kill_again_and_again(gateway, options.kills, random.Random(options.seed)))


# ---- the turn of shifts


class Asker:
    """A client with one request under way."""

    def __init__(self, place: int, gateway: Gateway):
        self.client, self.place, self.done = Client(b"asker-%d" % place, gateway), place, 0
        self.first, self.again, self.repeats, self.slowest = 0.0, 0.0, 0, 0.0
        self.client.connect()
        self.octets, self.wanted = b"", (0, b"")

    def next(self) -> None:
        """A publication, a topic or a PINGREQ, in turn."""
        message = self.done % 65535 + 1
        self.octets, self.wanted = [
            (publish(b"sh", b"%d-%d" % (self.place, self.done), message), (0x0D, number(message))),
            (register(b"topic/%d" % (self.done % 50), message), (0x0B, number(message))),
            (ping(), (0x17, b"")),
        ][self.done % 3]
        self.first = self.again = time.monotonic()
        self.client.send(self.octets)

    def look(self) -> bool:
        """Whether the answer is there: of a kind, with a message id behind the topic id."""
        octets = self.client.receive(0.001)
        if octets is None or (octets[1], octets[4:6]) != self.wanted:
            return False
        self.slowest = max(self.slowest, time.monotonic() - self.first)
        self.done += 1
        return True

    def repeat(self) -> None:
        if time.monotonic() - self.again >= AGAIN:
            self.again = time.monotonic()
            self.repeats += 1
            self.client.send(self.octets)


def ask_all(gateway: Gateway, requests: int) -> str:
    askers = [Asker(place, gateway) for place in range(8)]
    each = -(-requests // len(askers))
    last, longest, end = time.monotonic(), 0.0, time.monotonic() + 30 + requests * 0.2
    for asker in askers:
        asker.next()
    while any(asker.done < each for asker in askers):
        expect(time.monotonic() < end, f"{sum(asker.done for asker in askers)} of {each * len(askers)} requests were answered in time")
        busy = {asker.client.socket: asker for asker in askers if asker.done < each}
        for found in select.select(list(busy), [], [], 0.05)[0]:
            if busy[found].look():
                longest, last = max(longest, time.monotonic() - last), time.monotonic()
                if busy[found].done < each:
                    busy[found].next()
        for asker in busy.values():
            asker.repeat()
    for asker in askers:
        asker.client.close()
    return (f"{each * len(askers)} requests of 8 clients, {sum(asker.repeats for asker in askers)} repeated, longest gap between answers "
            f"{longest:.3f} seconds, slowest answer {max(asker.slowest for asker in askers):.3f}")


def shifts_turn(gateway: Gateway, requests: int) -> str:
    gateway.start()
    with Client(b"over-shifts", gateway) as sleeper:
        sleeper.connect()
        sleeper.ask(subscribe(b"so", 1, 0x22), b"\x08\x13")
        sleeper.sleep()
        said = ask_all(gateway, requests)
        with Client(b"publisher", gateway) as publisher:
            publisher.connect(clean=True)
            puback(publisher, b"so", b"over shifts", 1)
        got = sleeper.wake()
        expect(b"over shifts" in got, f"the sleeper got {got}")
    closed = gateway.shifts()
    expect(len(closed) >= requests // 16 // 2, f"{len(closed)} lines 'shift I steps N' behind {requests} requests")
    numbers = [shift for shift, _ in closed]
    expect(numbers == list(range(numbers[0], numbers[0] + len(numbers))) and numbers[0] <= 1, f"shifts were counted {numbers[:5]}..")
    expect(all(steps <= 16 for _, steps in closed), f"a shift had {max(steps for _, steps in closed)} calls")
    full = sum(steps == 16 for _, steps in closed)
    expect(2 * full > len(closed), f"{full} of {len(closed)} shifts had 16 calls")
    return f"{said}; {len(closed)} shifts, {full} of 16 calls"


def delivers_soon(gateway: Gateway, subscribers: int) -> str:
    """A message comes to each of many who are there, although a shift has few calls and a tick serves one of them."""
    clients = [Client(b"soon-%03d" % place, gateway) for place in range(subscribers)]
    try:
        for client in clients:
            client.connect()
            client.ask(subscribe(b"sn", 1, 0x22), b"\x08\x13")
        with Client(b"p-soon", gateway) as publisher:
            publisher.connect(clean=True)
            began = time.monotonic()
            puback(publisher, b"sn", b"soon", 1)
        missing = [client.name for client in clients if client.hear(30) != [b"soon"]]
        took = time.monotonic() - began
        expect(not missing, f"{len(missing)} of {subscribers} did not get it, as {missing[:3]}")
        expect(took < 5, f"the last one got it after {took:.1f} seconds")
        return f"{subscribers} subscribers within {took:.1f} seconds"
    finally:
        for client in clients:
            client.socket.close()


def turns_when_full(gateway: Gateway, datagrams: int) -> str:
    """What is dropped in a flood takes no call: a shift that is over has had all its calls."""
    with Client(b"flood", gateway) as client:
        client.socket.setblocking(False)
        for _ in range(datagrams):
            try:
                client.send(search())
            except BlockingIOError:
                pass
        time.sleep(1)
        closed = gateway.shifts()
        expect(closed, "no shift was over")
        few = [steps for _, steps in closed if steps < 4_000]
        expect(not few, f"of {len(closed)} shifts {len(few)} had fewer calls, as {few[:5]}")
        return f"{datagrams} datagrams, {sum(steps for _, steps in closed)} calls in {len(closed)} shifts"


def ends_by_itself(program: str, folder: str) -> None:
    """Three shifts, and the program ends with status 0."""
    with Gateway(program, folder, 3, steps="16") as gateway:
        gateway.start(3)

        def ended() -> bool:
            probe.send(search())
            return gateway.process.poll() is not None

        with Client(b"probe", gateway) as probe:
            until(ended, 60, "the program did not end behind its shifts", 0.005)
        expect(gateway.process.returncode == 0, f"status {gateway.process.returncode}: {gateway.told().strip()}")
        expect([steps for _, steps in gateway.shifts()] == [16, 16, 16], f"it printed {gateway.printed()!r}")
        expect(gateway.told() == "", f"it told {gateway.told()!r}")


def part_shifts(account: Account, program: str, folder: str, options) -> None:
    with Gateway(program, folder, 1, steps="16") as gateway:
        account.check("shifts of 16 calls turn", lambda: shifts_turn(gateway, options.requests))
    with Gateway(program, folder, 2, steps="1", workers="8") as gateway:
        account.check("shifts of 1 call, 8 workers", lambda: gateway.start() and ask_all(gateway, max(8, options.requests // 10)))
    with Gateway(program, folder, 4, steps="16") as gateway:
        account.check("shifts of 16 calls, a message to 100 who are there", lambda: gateway.start() and delivers_soon(gateway, 100))
    with Gateway(program, folder, 5) as gateway:
        account.check("a flood ends no shift before it is full", lambda: gateway.start() and turns_when_full(gateway, 200_000))
    account.check("the program ends behind three shifts", lambda: ends_by_itself(program, folder))


# ---- compaction


def generations(gateway: Gateway) -> list:
    return [int.from_bytes(octets[5:13], "big") for octets in gateway.slots() if len(octets) >= 13]


def turn_shifts(gateway: Gateway, probe: Client, count: int) -> None:
    """Asks until so many more shifts are closed, and their journals compacted."""
    wanted_behind = len(gateway.shifts()) + count

    def closed() -> bool:
        probe.send(search())
        return len(gateway.shifts()) > wanted_behind

    until(closed, 60, f"{count} shifts were not closed", 0.002)


def shrinks(gateway: Gateway, messages: int) -> str:
    """The journal is written anew once it has grown by more than 1 MiB, and by a start. What was delivered and acknowledged leaves it."""
    gateway.start()
    with Client(b"shrinks", gateway) as sleeper, Client(b"publisher", gateway) as publisher:
        sleeper.connect()
        sleeper.ask(subscribe(b"sk", 1, 0x22), b"\x08\x13")
        sleeper.sleep()
        publisher.connect(clean=True)
        sent = [b"%06d" % message * 600 for message in range(messages)]
        for message, body in enumerate(sent):
            puback(publisher, b"sk", body, message + 1)
        full = max(map(len, gateway.slots()))
        expect(full > sum(map(len, sent)), f"the journal had {full} octets with {messages} messages that waited")
        grown = max(generations(gateway))
        expect(2 <= grown <= 4, f"the journal's generation is {grown} after {messages} messages")
        got = publisher.sends_once(sleeper.wake(60))
        expect(got == sent, f"the sleeper got {len(got)} messages of {messages}")
        turn_shifts(gateway, publisher, 2)
        gateway.kill()
        gateway.start()
        newest = max(generations(gateway))
        left = min(len(slot) for slot in gateway.slots() if slot[5:13] == newest.to_bytes(8, "big"))
        expect(newest > grown and left * 4 < full, f"generation {newest} with {left} octets of {full}")
        gateway.kill()
        records, clients = gateway.start()
        expect(clients == 2 and records < 80, f"{records} records and {clients} clients were read")
        again = sleeper.wake()
        expect(again == [], f"the sleeper woke again and got {len(again)} messages")
    return f"{full} octets, and then {left}; generation {newest}, {records} records"


def offer(client: Client, field: bytes, body: bytes, message: int) -> str:
    """A publication that is sent once: kept, refused, or silent. A client that the gateway does not know connects again."""
    client.flush()
    client.send(publish(field, body, message))
    end = time.monotonic() + AGAIN
    while (octets := client.receive(end - time.monotonic())) is not None:
        kind, fields = opened(octets)
        if kind == 0x0D and fields[2:4] == number(message):
            return "refused" if fields[4] else "kept"
        if octets == GONE:
            client.send(connect(client.name, 0, True))
        if kind == 0x05:
            return "refused" if fields[0] else "silent"
    return "silent"


def offer_until(client: Client, field: bytes, sent: dict, wanted_said: str, count: int, seconds: float) -> None:
    """Publishes until that was said so often. What was said of each message stands in `sent`."""
    end, heard = time.monotonic() + seconds, 0
    while heard < count:
        expect(time.monotonic() < end, f"{heard} publications were {wanted_said} within {seconds:.0f} seconds, and not {count}")
        message = len(sent) + 1
        body = b"%06d" % message * 10
        sent[body] = offer(client, field, body, message)
        heard += sent[body] == wanted_said


def all_kept(gateway: Gateway, sleeper: Client, sent: dict) -> str:
    """The daemon is killed and starts again: what it acknowledged is there, once, and nothing that nobody sent."""
    gateway.alive()
    gateway.kill()
    gateway.start()
    got = sleeper.wake(60)
    kept = {body for body, said in sent.items() if said == "kept"}
    missing = kept - set(got)
    expect(not missing, f"{len(missing)} acknowledged messages are missing, as {sorted(missing)[:3]}")
    expect(set(got) <= set(sent) and len(got) == len(set(got)), "messages came twice, or such as nobody sent")
    expect(gateway.told() == "", f"it told {gateway.told()!r}")
    return f"{len(sent)} sent, {len(kept)} acknowledged, {len(got)} got"


def fall_asleep(sleeper: Client, publisher: Client, topic: bytes) -> None:
    """A client subscribes and sleeps, and a publisher is connected."""
    sleeper.connect()
    sleeper.ask(subscribe(topic, 1, 0x22), b"\x08\x13")
    sleeper.sleep()
    publisher.connect(clean=True)


def opens_in_its_shift(gateways: list) -> str:
    """One write of the first fails, and then there is room. The clock finds it halted; its next call of the shift opens it anew. In the
    first shift that can be seen: how the gateway stands is printed before the shift's line, and not behind it. Links go on."""
    gateway, other = gateways
    gateway.room = 6_000
    for each in gateways:
        each.start()
    sent = {}
    with Client(b"waits", gateway) as sleeper, Client(b"publisher", gateway) as publisher:
        fall_asleep(sleeper, publisher, b"in")
        offer_until(publisher, b"in", sent, "refused", 1, 60)
        gateway.make_room()
        until(gateway.shifts, 20, "the shift in which a write failed was not closed")
        time.sleep(0.5)
        printed = gateway.printed()
        found = re.fullmatch(r"gateway 1 records 0 clients 0\ngateway 1 records (\d+) clients 2\nshift 1 steps (\d+)\n", printed)
        expect(found is not None, f"it printed {printed!r}")
        # The starter's SEARCHGW, four calls of the two clients, the publications, a tick, the opening.
        calls = len(sent) + 7
        expect(int(found[2]) >= calls, f"the shift had {found[2]} calls, and not {calls} at least")
        offer_until(publisher, b"in", sent, "kept", 20, 60)
        for body in [body for body, said in sent.items() if said == "kept"]:
            other.await_octets(body)
        said = all_kept(gateway, sleeper, sent)
    return f"{said}; a shift of {found[2]} calls, {found[1]} records read in it"


def fills_up(gateway: Gateway) -> str:
    """There is room for so much. The daemon goes on without it, and keeps messages again once there is more."""
    gateway.room = 6_000
    gateway.start()
    sent = {}
    with Client(b"waits", gateway) as sleeper, Client(b"publisher", gateway) as publisher:
        fall_asleep(sleeper, publisher, b"fu")
        offer_until(publisher, b"fu", sent, "refused", 5, 60)
        gateway.alive()
        opened_before = len(gateway.openings())
        expect(opened_before > 1, "the journal was not opened in place")
        full = max(map(len, gateway.slots()))
        expect(full <= 6_000, f"a file has {full} octets")
        gateway.make_room()
        offer_until(publisher, b"fu", sent, "kept", 20, 60)
        numbers = [shift for shift, _ in gateway.shifts()]
        expect(numbers == list(range(1, len(numbers) + 1)), f"the shifts that were closed are {numbers}")
        said = all_kept(gateway, sleeper, sent)
    return f"{said}; opened {opened_before} times without room"


def part_compact(account: Account, program: str, folder: str, options) -> None:
    with Gateway(program, folder, 1, steps="64") as gateway:
        account.check("the journal shrinks behind its shifts", lambda: shrinks(gateway, 400))
    kills = max(1, options.kills // 4)
    with Gateway(program, folder, 2, steps="16") as gateway:
        account.check(f"{kills} kills amid publications, in shifts of 16 calls",
                      lambda: kill_again_and_again(gateway, kills, random.Random(options.seed)))
    place = os.path.join(folder, "in-its-shift")
    os.mkdir(place)
    first, second = ring(program, place, 2)
    with first, second:
        account.check("a write fails, and the clock opens the gateway anew in its shift", lambda: opens_in_its_shift([first, second]))
    with Gateway(program, folder, 3, steps="64") as gateway:
        account.check("a disk is full, and has room again", lambda: fills_up(gateway))


# ---- hostile octets


def good_datagrams(chance: random.Random) -> list:
    name = b"hostile-%d" % chance.randrange(200)
    message = chance.randrange(65536)
    return [connect(name, chance.randrange(65536), chance.random() < 0.5), frame(0x04, b"\x0c\x01\x00\x3c" + name),
            frame(0x07, b"\x20will"), frame(0x09, b"message"),
            register(b"topic/%d" % chance.randrange(400), message), subscribe(b"topic/+", message),
            subscribe(b"ab", message, 0x22), frame(0x14, b"\x22" + number(message) + b"ab"), publish(b"ab", b"body", message),
            publish(b"ab", bytes(chance.randrange(300)), message, 0x42), publish(number(7), b"body", 0, 0x61),
            publish(b"ab", bytes(chance.randrange(3)), message, 0x22 | RETAIN), frame(0x10, number(message)), published(b"ab", message),
            frame(0x0F, number(message)), frame(0x0B, number(1) + number(message) + b"\x00"), ping(name), ping(),
            leave(chance.randrange(65536)), frame(0x1A, b"\x20will"), frame(0x1C, b"message"), search(), frame(0xFE, b"\x01" + name)]


def hostile_datagram(chance: random.Random) -> bytes:
    """Random octets, or a good message that was changed, cut, or made longer."""
    if chance.random() < 0.3:
        length = chance.choice([chance.randrange(8), chance.randrange(64), chance.randrange(1500), chance.randrange(65000)])
        octets = bytearray(chance.randbytes(length))
        if octets and chance.random() < 0.5:
            octets[0] = min(length, 255)
        return bytes(octets)
    octets = bytearray(chance.choice(good_datagrams(chance)))
    for _ in range(chance.randrange(3)):
        octets[chance.randrange(len(octets))] = chance.randrange(256)
    if chance.random() < 0.2:
        del octets[chance.randrange(len(octets)):]
    if chance.random() < 0.2:
        octets += chance.randbytes(chance.randrange(20))
    if octets and chance.random() < 0.5:
        octets[0] = min(len(octets), 255)
    return bytes(octets)


def throw_datagrams(gateway: Gateway, count: int, chance: random.Random) -> str:
    before, held = gateway.memory(), len(gateway.held())
    senders = [Client(b"sender-%d" % place, gateway) for place in range(32)]
    with Client(b"probe", gateway) as probe:
        for place in range(count):
            sender = chance.choice(senders)
            sender.send(hostile_datagram(chance))
            if place % 40 == 39:
                probe.ask(search(), frame(0x02, bytes([gateway.number])), Gateway.within)
                sender.flush()
    for sender in senders:
        sender.close()
    gateway.alive()
    return f"VmRSS {before} KiB before, {gateway.memory()} behind; journal {held} octets before, {len(gateway.held())} behind"


def message_of(kind: int, body: bytes) -> bytes:
    return bytes([kind]) + len(body).to_bytes(4, "big") + body


def records_of(octets: bytes) -> list:
    """The deltas of a journal."""
    found, place = [], 14
    while place + 5 <= len(octets) and octets[place] == 0x44:
        length = int.from_bytes(octets[place + 1:place + 5], "big")
        found.append(octets[place + 5:place + 5 + length])
        place += 5 + length
    return found


def hostile_stream(chance: random.Random, deltas: list) -> bytes:
    hello = message_of(1, bytes([chance.randrange(1, 256)]))
    delta = bytearray(chance.choice(deltas))
    delta[chance.randrange(len(delta))] = chance.randrange(256)
    return chance.choice([
        lambda: chance.randbytes(chance.randrange(2000)),
        lambda: hello + chance.randbytes(chance.randrange(2000)),
        lambda: message_of(1, b"\x00"),
        lambda: message_of(1, b""),
        lambda: hello * chance.randrange(1, 20),
        lambda: hello[:chance.randrange(6)],
        lambda: hello + bytes([chance.randrange(1, 4)]) + chance.randbytes(4),
        lambda: hello + b"\x03\x00\x80\x00\x00" + chance.randbytes(10000),
        lambda: hello + message_of(2, chance.randbytes(chance.randrange(100))),
        lambda: hello + message_of(2, b"\x01\x00\x00\x00\x00") * chance.randrange(1, 4),
        lambda: message_of(2, b"\x01\x00\x00\x00\x00"),
        lambda: hello + message_of(3, chance.randbytes(chance.randrange(100))),
        lambda: hello + message_of(3, b"\x01\xff\xff\xff\xff" + chance.randbytes(50)),
        lambda: hello + message_of(2, b"\x01\x00\x00\x00\x00") + message_of(3, bytes(delta)),
        lambda: hello + message_of(3, bytes(delta[:chance.randrange(len(delta))])),
    ])()


def throw_stream(gateway: Gateway, octets: bytes, chance: random.Random):
    """Dials, sends in pieces, and closes, breaks off, or gives the socket back open."""
    link = socket.socket(socket.AF_INET, socket.SOCK_STREAM)
    link.settimeout(5)
    try:
        link.connect((HOST, gateway.link))
        place = 0
        while place < len(octets):
            size = chance.choice([1, 5, 64, 4096])
            link.sendall(octets[place:place + size])
            place += size
            if size == 1 and chance.random() < 0.1:
                time.sleep(0.001)
    except (ConnectionError, TimeoutError):
        link.close()
        return None
    end = chance.random()
    if end < 0.2:
        return link
    if end < 0.5:
        link.setsockopt(socket.SOL_SOCKET, socket.SO_LINGER, struct.pack("ii", 1, 0))
    link.close()
    return None


def link_answers(gateway: Gateway) -> str:
    """A link that says who it is hears who is there."""
    wanted_octets, began, end = message_of(1, bytes([gateway.number])), time.monotonic(), time.monotonic() + 20
    while time.monotonic() < end:
        with socket.socket(socket.AF_INET, socket.SOCK_STREAM) as link:
            link.settimeout(5)
            try:
                link.connect((HOST, gateway.link))
                link.sendall(message_of(1, b"\xc8") + message_of(2, b"\x01\x00\x00\x00\x00"))
                got = b""
                while len(got) < len(wanted_octets) and (more := link.recv(4096)):
                    got += more
                if got.startswith(wanted_octets):
                    return f"{time.monotonic() - began:.2f} seconds"
            except (ConnectionError, TimeoutError):
                pass
        time.sleep(0.1)
    raise Failed(f"no link was told {wanted_octets.hex()} within 20 seconds")


def throw_streams(gateway: Gateway, count: int, chance: random.Random) -> str:
    before, kept = gateway.memory(), []
    deltas = [delta for delta in records_of(gateway.held()) if delta] or [DELTA]
    with Client(b"probe", gateway) as probe:
        for place in range(count):
            link = throw_stream(gateway, hostile_stream(chance, deltas), chance)
            kept += [link] if link else []
            while len(kept) > 16:
                kept.pop(0).close()
            if place % 10 == 9:
                probe.ask(search(), frame(0x02, bytes([gateway.number])))
    for link in kept:
        link.close()
    gateway.alive()
    return f"VmRSS {before} KiB before, {gateway.memory()} behind"


def grown(gateway: Gateway, before: int, most: int) -> str:
    growth = (gateway.memory() - before) / 1024
    expect(growth <= most, f"VmRSS grew by {growth:.1f} MiB, and {most} are allowed")
    return f"{growth:.1f} MiB, {most} are allowed"


def part_hostile(account: Account, program: str, folder: str, options) -> None:
    """All clients of the checks are there before, since the daemon may be full of others behind what is thrown. Shifts are short: the calls
    of a shift are kept until it is closed, and those of a stranger's link may be large."""
    chance = random.Random(options.seed)
    with Gateway(program, folder, 1, steps="256", predefined='[{ id = 7, topic = "p/seven" }]') as gateway:
        account.check("a gateway starts", lambda: gateway.start() and None)
        account.check("first answers", lambda: try_first_answers(gateway))
        account.check("the daemon is killed between sleep and wake", lambda: try_sleep(gateway, True))
        account.check("a link is answered", lambda: link_answers(gateway))
        before = gateway.memory() if gateway.process and gateway.process.poll() is None else 0
        account.check(f"{options.datagrams} datagrams", lambda: throw_datagrams(gateway, options.datagrams, chance))
        account.check("first answers, behind the datagrams", lambda: try_first_answers(gateway))
        account.check(f"{options.streams} streams", lambda: throw_streams(gateway, options.streams, chance))
        account.check("a link is answered, behind the streams", lambda: link_answers(gateway))
        account.check("first answers, behind the streams", lambda: try_first_answers(gateway))
        account.check("what VmRSS has grown by", lambda: grown(gateway, before, options.growth))
        account.check("the daemon is killed between sleep and wake, behind all that", lambda: try_sleep(gateway, True))


# ---- all

PARTS = {"messages": part_messages, "loopback": part_loopback, "links": part_links, "retained": part_retained, "kills": part_kills,
         "shifts": part_shifts, "compact": part_compact, "hostile": part_hostile}


def options_of() -> argparse.Namespace:
    reader = argparse.ArgumentParser(description=__doc__, formatter_class=argparse.RawDescriptionHelpFormatter, add_help=True)
    reader.add_argument("program")
    reader.add_argument("parts", nargs="*", metavar="PART")
    for name, usual in (("kills", 100), ("datagrams", 20000), ("streams", 500), ("requests", 600), ("growth", 512), ("seed", 1), ("seconds", 30)):
        reader.add_argument(f"--{name}", type=int, default=usual)
    options = reader.parse_args()
    for part in options.parts:
        if part not in PARTS:
            reader.error(f"no part {part}; there are {', '.join(PARTS)}")
    return options


def stop(*_) -> None:
    sys.exit("stopped")


def main() -> int:
    options = options_of()
    program = os.path.abspath(options.program)
    if not os.access(program, os.X_OK):
        sys.exit(f"{options.program}: no program")
    signal.signal(signal.SIGTERM, stop)
    Gateway.within = float(options.seconds)
    account = Account()
    for part in options.parts or PARTS:
        began = time.monotonic()
        print(part, flush=True)
        with tempfile.TemporaryDirectory(prefix="daemon-") as folder:
            PARTS[part](account, program, folder, options)
        print(f"  {time.monotonic() - began:.1f} seconds", flush=True)
    print(f"{account.tried} tried, {account.failed} failed")
    return 1 if account.failed else 0


if __name__ == "__main__":
    sys.exit(main())
