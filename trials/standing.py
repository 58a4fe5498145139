#!/usr/bin/env python3
"""Tries whether a gateway stands by itself: herds, stalls, full disks, wear, starts under a used number.

Usage: trials/standing.py PROGRAM [PART..]

The parts, all where none is named, with about the seconds that each takes. An unproved build needs some minutes for `short`, `wear`, `bound` and `room`.

  herd      20  300 clients connect at once, and again while each sync takes 10 ms: at most 15 of each 300 are not answered within 30 seconds, though nobody sends twice
  stall     80  250 clients with a keep-alive of ten seconds ping each two; the program is stopped for 20 seconds: no will is told
  hang     170  the same, and one sync of a tick that takes 20 seconds; then with 10 clients; then with 250 and one sync of a worker
  backlog   75  the same with 50 clients, while 250 others connect at once and each sync takes 100 ms: no will is told
  radio    145  nothing can be sent for 70 seconds while messages are under way to 30 silent clients with a keep-alive of ten seconds: no will is told, each is told its
                message afterwards, and one line says so
  reopens   10  while nothing can be sent a write fails: the journal is opened anew all the same
  nobody    20  datagrams from an address to which nothing can be sent do not stop the clock: a client that is dead is found within 40 seconds; it needs root
  idle      30  a gateway that has nothing to do wakes at most 140 times a second, and a quiet link costs no more at the end of a long shift than at its begin
  unread    30  nobody reads what the program prints: it serves on, tells later how many lines were left out, and ends when it is to end, also by a fault
  threads   20  no thread is made for eight seconds: afterwards clients are served within 15
  slow      15  a shift does not wait for what the network has not taken yet; it needs root, tc, and net.core.wmem_max of 376832
  dates     75  30 clients with a keep-alive of ten seconds ping each two; the date goes a day ahead, a day back, and both again: no client is lost, no will is told,
                no message expires, and each step is told in a line; eight days ahead what has a lifetime of seven expires
  paused    35  a date that goes 70 seconds back behind a gateway that stood still for 15 seconds opens it anew once, and ends no shift after that
  undated   10  a start before 2026 says that messages get no lifetime; once the date is set they do
  listens   40  20 sleepers whose messages came to a peer wake right after a start: none is told that nothing waits; where the peer tells what it made in its shift,
                where it answers a digest eleven seconds after its last answer, and where each sync of the gateway takes half a second
  alone      7  a gateway whose peer is away answers nobody after a start, and everybody within six seconds
  wear      40  what is written for a change of some 30 octets, while 30,000 messages wait: at most 300 octets, at shifts of 4,096 calls and of 64, over shifts that end
  first      2  a start with records writes its journal anew before it answers
  waits     10  a start on a full disk is silent, and serves once there is room
  short     30  a start whose first compaction is refused memory is silent, and writes its journal anew and serves once there is memory
  hole      40  on a full disk fewer than one of ten SEARCHGW are answered, the journal is opened less than 16 times in 30 seconds, and once there is room clients are
                served within 40
  blocks    35  the same openings, where each compaction makes room for one record
  room       5  a compaction without room turns clients away once at most, over many shifts; it needs root, for a small disk in memory
  garbage   10  5,000 datagrams that are no frames end no shift of 64 calls, and memory does not grow
  bound     20  1,300 PUBLISH of 60,000 octets end a shift before its calls are used up, and memory stays below 256 MiB
  handed    40  a shift ends before what is handed over, 600 times 1,024 messages of one octet, takes more than 256 MiB
  fence      8  a forged DISCONNECT between two gateways is answered at most 150 times, and then no more; it needs root
  ids       65  clients that no pattern of the settings is like, and one newcomer too many, are turned away and leave no trace; a minute later one comes in
  learned   75  clients that came over a link are no newcomers a minute after a shift's begin
  full      10  a field whose 1,024 ids are used up begins anew, by the steps of docs/OPERATE.md
  zeros      5  jr_mend cuts zeros that a power cut left, and nothing else; then a start goes on; it is left out if no jr_mend is built
  begun     35  a gateway that lost its journal, or has an older one, ends with status 1 where a peer knows more of it, and until then answers nobody and makes
                nothing; without that it serves; where the peer tells what it made in its shift, and where it answers a digest
  unit       1  the unit says nothing that systemd does not know, asserts the journal, and starts again after every status but 1; it is left out if there is no
                systemd-analyze

All goes on at 127.0.0.1, at ports that the system gives, in a folder that is gone afterwards. Parts that slow syncs, cut the network or set the date compile a library of trials/.
Status 0 only where nothing failed.
"""
import argparse
import fcntl
import os
import re
import select
import shutil
import signal
import socket
import struct
import subprocess
import sys
import tempfile
import threading
import time

sys.dont_write_bytecode = True
from gateway import (CONNECTED, GONE, HOST, PONG, Client, Failed, Gateway, at_port, connect, expect, frame, free_ports, leave, number, opened, ping,
                     publish, published, search, subscribe, until, with_the_starter)

HERE = os.path.dirname(os.path.abspath(__file__))


class Loaded:
    """Loads a library of trials/ before the C library of the programs that are started meanwhile. A file has the number by which it acts."""

    name = ""

    def __init__(self, folder: str):
        self.library, self.control, self.others = os.path.join(folder, f"{self.name}.so"), os.path.join(folder, self.name), ""
        source = os.path.join(HERE, f"{self.name}.c")
        subprocess.run(["cc", "-shared", "-fPIC", "-nostdlib", "-O1", "-fno-stack-protector", "-o", self.library, source], check=True)
        self.say(0)

    def say(self, wanted) -> None:
        with open(self.control + ".new", "w", encoding="ascii") as text:
            text.write(f"{wanted}\n")
        os.replace(self.control + ".new", self.control)

    def __enter__(self):
        self.others = os.environ.get("LD_PRELOAD", "")
        os.environ["LD_PRELOAD"], os.environ[self.name.upper()] = f"{self.library}:{self.others}".rstrip(":"), self.control
        return self

    def __exit__(self, *_):
        os.environ["LD_PRELOAD"] = self.others
        del os.environ[self.name.upper()]


class Slow(Loaded):
    """Slows each sync by as many milliseconds as it is told."""

    name = "slow_sync"


class Cut(Loaded):
    """Lets no datagram be sent while it is told a number other than 0."""

    name = "no_network"


class Alone(Loaded):
    """Lets no thread be made while it is told a number other than 0."""

    name = "no_thread"


class Dated(Loaded):
    """Sets the date of the programs ahead by as many seconds as it is told, or back."""

    name = "set_date"


def sleeps_at(gateway: Gateway, name: bytes, topic: bytes = b"ow") -> None:
    with Client(name, gateway) as sleeper:
        sleeper.connect()
        sleeper.ask(subscribe(topic, 1, 0x22), b"\x08\x13")
        sleeper.sleep()


def say(gateway: Gateway, name: bytes, body: bytes, count: int = 1, topic: bytes = b"ow") -> None:
    with Client(name, gateway) as publisher:
        publisher.connect(clean=True)
        for place in range(1, count + 1):
            publisher.ask(publish(topic, body, place), published(topic, place), 30, 5)


class LeftOut(Exception):
    """Why a part is not tried here."""


def turn(gateway: Gateway) -> None:
    """Closes two shifts of a gateway: what it made before, it tells in answers to digests alone."""
    wanted, end = len(gateway.shifts()) + 2, time.monotonic() + 60
    with Client(b"turner", gateway) as client:
        while len(gateway.shifts()) < wanted:
            expect(time.monotonic() < end, "shifts do not end")
            client.ask(search(), b"\x03\x02")


def insist(client: Client, octets: bytes, wanted: bytes, seconds: float = 120) -> int:
    """Sends until this answer comes, each ten seconds, as a message that comes twice counts twice. Connects again whenever the client was turned away, and
    gives how often that was."""
    end, away = time.monotonic() + seconds, 0
    while time.monotonic() < end:
        client.send(octets)
        answer = client.receive(10)
        if answer == wanted:
            return away
        if answer == GONE:
            away += 1
            client.connect(clean=True)
    raise Failed(f"{client.name.decode()} had no answer {wanted.hex()} within {seconds:.0f} seconds")


# ---- herds and stalls


def answered(clients: list, octets, wanted: bytes, seconds: float) -> int:
    """All send at once, each once; how many get the answer."""
    for client in clients:
        client.send(octets(client))
    left, end = {client.socket: client for client in clients}, time.monotonic() + seconds
    while left and time.monotonic() < end:
        for ready in select.select(list(left), [], [], 0.2)[0]:
            octets_got, _ = ready.recvfrom(65536)
            if octets_got.startswith(wanted):
                del left[ready]
    return len(clients) - len(left)


def herd(program: str, folder: str) -> str:
    said = []
    for milliseconds in (0, 10):
        place = os.path.join(folder, str(milliseconds))
        os.mkdir(place)
        with Slow(place) as slow, Gateway(program, place, 7) as gateway:
            gateway.start()
            slow.say(milliseconds)
            clients = [Client(b"h-%d" % place, gateway) for place in range(300)]
            began = time.monotonic()
            found = answered(clients, lambda client: connect(client.name, 60), CONNECTED, 30)
            for client in clients:
                client.close()
        said.append(f"{found} of 300 at a sync of {milliseconds} ms, in {time.monotonic() - began:.1f} seconds")
        expect(found >= 285, ", ".join(said))
    return ", ".join(said)


def with_will(client: Client, keep_alive: int) -> None:
    client.ask(frame(0x04, b"\x08\x01" + number(keep_alive) + client.name), b"\x02\x06")
    client.ask(frame(0x07, b"\x00wi"), b"\x02\x08")
    client.ask(frame(0x09, b"dead " + client.name), CONNECTED)


class Wills:
    """Who is told the wills."""

    def __init__(self, gateway: Gateway):
        self.client, self.seen = Client(b"watch", gateway), set()
        self.client.connect()
        self.client.ask(subscribe(b"wi", 1, 0x22), b"\x08\x13")

    def look(self) -> None:
        while (octets := self.client.receive(0.001)) is not None:
            kind, body = opened(octets)
            if kind == 0x0C:
                self.seen.add(body[5:])
                self.client.send(published(body[1:3], int.from_bytes(body[3:5], "big")))


def stays(clients: list, wills: Wills, seconds: float, at: dict) -> None:
    """All ping each two seconds; at some seconds something happens."""
    began, due = time.monotonic(), {client: time.monotonic() + 2 * place / len(clients) for place, client in enumerate(clients)}
    happened = set()
    while (now := time.monotonic() - began) < seconds:
        for second, act in at.items():
            if second not in happened and now >= second:
                happened.add(second)
                act()
        for client in clients:
            if time.monotonic() >= due[client]:
                due[client] += 2
                client.flush()
                client.send(ping())
        wills.client.send(ping())
        wills.look()
        time.sleep(0.02)


def stall(program: str, folder: str) -> str:
    with Gateway(program, folder, 7) as gateway:
        gateway.start()
        wills, clients = Wills(gateway), [Client(b"k-%d" % place, gateway) for place in range(250)]
        for client in clients:
            with_will(client, 10)
        process = gateway.process
        stays(clients, wills, 45, {3: lambda: process.send_signal(signal.SIGSTOP), 23: lambda: process.send_signal(signal.SIGCONT)})
        expect(not wills.seen, f"{len(wills.seen)} wills of 250 that lived")
        # a client that is dead is found all the same
        clients[0].close()
        stays(clients[1:], wills, 25, {})
    expect(wills.seen == {b"dead k-0"}, f"the wills of {sorted(wills.seen)[:5]}")
    return "none of 250, and one that was dead"


def hang_once(program: str, folder: str, count: int, is_worker: bool) -> int:
    """One sync takes 20 seconds: that of the call in which a worker stores a message, or that of the tick which finds that a client is dead."""
    with Slow(folder) as slow, Gateway(program, folder, 7) as gateway:
        gateway.start()
        sleeps_at(gateway, b"s-hang")
        wills, clients = Wills(gateway), [Client(b"k-%d" % one, gateway) for one in range(count)]
        for client in clients:
            with_will(client, 10)
        dead, teller = Client(b"dead", gateway), Client(b"teller", gateway)
        with_will(dead, 20 if is_worker else 2)
        teller.connect()

        def begin() -> None:
            slow.say(20_000)
            if is_worker:
                teller.send(publish(b"ow", b"<hangs>", 1))

        stays(clients, wills, 65 if is_worker else 45, {1: begin, 8: lambda: slow.say(0)})
        expect(b"dead dead" in wills.seen, "the client that was dead was not found")
        if is_worker:
            expect(b"<hangs>" in gateway.held(), "the worker's call wrote nothing")
    return len(wills.seen) - 1


def hang(program: str, folder: str) -> str:
    said, fine = [], True
    for count, is_worker in ((250, False), (10, False), (250, True)):
        place = os.path.join(folder, f"{count}-{is_worker}")
        os.mkdir(place)
        wrong = hang_once(program, place, count, is_worker)
        said.append(f"{wrong} of {count} by a {'worker' if is_worker else 'tick'}")
        fine = fine and wrong == 0
    expect(fine, ", ".join(said) + " wills of clients that lived")
    return ", ".join(said)


def backlog(program: str, folder: str) -> str:
    with Slow(folder) as slow, Gateway(program, folder, 7) as gateway:
        gateway.start()
        wills, clients = Wills(gateway), [Client(b"k-%d" % one, gateway) for one in range(50)]
        for client in clients:
            with_will(client, 10)
        others = [Client(b"h-%d" % one, gateway) for one in range(250)]

        def herd_comes() -> None:
            slow.say(100)
            for other in others:
                other.send(connect(other.name, 0))

        stays(clients, wills, 55, {1: herd_comes, 40: lambda: slow.say(0)})
        known = sum(b"h-%d" % one in gateway.held() for one in range(250))
    expect(known >= 200, f"{known} of 250 newcomers were heard of: the backlog was too small")
    expect(not wills.seen, f"{len(wills.seen)} wills of 50 that lived")
    return f"none of 50, beside {known} newcomers"


def hear(clients: list, body: bytes, seconds: float) -> int:
    """How many clients are told a message, which they acknowledge."""
    left, end = set(clients), time.monotonic() + seconds
    while left and time.monotonic() < end:
        for client in list(left):
            octets = client.receive(0.01)
            if octets is not None and opened(octets)[0] == 0x0C and opened(octets)[1][5:] == body:
                found = opened(octets)[1]
                client.send(published(found[1:3], int.from_bytes(found[3:5], "big")))
                left.remove(client)
    return len(clients) - len(left)


def radio(program: str, folder: str) -> str:
    with Cut(folder) as cut, Gateway(program, folder, 7) as gateway:
        gateway.start()
        wills, clients = Wills(gateway), [Client(b"k-%d" % one, gateway) for one in range(30)]
        for client in clients:
            with_will(client, 10)
            client.ask(subscribe(b"rd", 1, 0x22), b"\x08\x13")
        teller = Client(b"teller", gateway)
        teller.connect()
        cut.say(1)
        teller.send(publish(b"rd", b"<waits>", 1))
        stays([], wills, 70, {})
        cut.say(0)
        told = hear(clients, b"<waits>", 20)
        stays(clients, wills, 25, {})
        expect(not wills.seen, f"{len(wills.seen)} wills of 30 that lived")
        expect(told == 30, f"{told} of 30 were told what waited")
        with open(gateway.err, encoding="utf-8") as text:
            lines = text.read().count("nothing could be sent")
        expect(lines == 1, f"{lines} lines said that nothing could be sent")
        # a client that is dead is found all the same
        clients[0].close()
        stays(clients[1:], wills, 25, {})
    expect(wills.seen == {b"dead k-0"}, f"the wills of {sorted(wills.seen)[:5]}")
    return "none of 30, each was told what waited, and one line said so"


def reopens(program: str, folder: str) -> str:
    """Nothing can be sent, and then the disk is full for a moment: the gateway is halted by that."""
    with Cut(folder) as cut, Gateway(program, folder, 7) as gateway:
        gateway.room = 1 << 30
        gateway.start()
        subscriber, teller = Client(b"awake", gateway), Client(b"teller", gateway)
        subscriber.connect()
        subscriber.ask(subscribe(b"rd", 1, 0x22), b"\x08\x13")
        teller.connect()
        cut.say(1)
        teller.send(publish(b"rd", b"<unsent>", 1))
        time.sleep(3)
        before = len(gateway.openings())
        gateway.limit_room(14)
        teller.send(publish(b"rd", b"<refused>", 2))
        time.sleep(1)
        gateway.make_room()
        began = time.monotonic()
        until(lambda: len(gateway.openings()) > before, 15, "the journal is not opened anew")
        return f"{time.monotonic() - began:.1f} seconds after there was room"


def nobody(program: str, folder: str) -> str:
    """Port 0 is nobody's: what is to be sent there is refused by the system. One stranger asks from there all the time, and one who subscribes there is told
    a message each second."""
    with Gateway(program, folder, 7) as gateway:
        gateway.start()
        wills, dead, teller = Wills(gateway), Client(b"dead", gateway), Client(b"teller", gateway)
        with_will(dead, 10)
        teller.connect()
        forge(0, gateway.port, connect(b"none"))
        time.sleep(1)
        forge(0, gateway.port, subscribe(b"nb", 1, 0x22))
        dead.close()
        began, said = time.monotonic(), 0
        while time.monotonic() - began < 40 and not wills.seen:
            forge(0, gateway.port, search())
            if time.monotonic() - began > said:
                said += 1
                wills.client.send(ping())
                teller.send(publish(b"nb", b"<nobody>", said))
                teller.flush()
            wills.look()
        took = time.monotonic() - began
    expect(wills.seen == {b"dead dead"}, f"after {took:.0f} seconds the wills of {sorted(wills.seen)[:5]}")
    return f"a client that was dead was found after {took:.0f} seconds"


# ---- what it costs to stand there, and what may not hold it up


def tasks(gateway: Gateway, file: str) -> list:
    """What a file of the system says of each thread of the process."""
    folder, said = f"/proc/{gateway.process.pid}/task", []
    for task in os.listdir(folder):
        with open(f"{folder}/{task}/{file}", encoding="ascii") as text:
            said.append(text.read())
    return said


def worked(gateway: Gateway) -> tuple:
    """How often its threads were woken, and for how many milliseconds they ran."""
    woken = sum(int(re.search(r"^voluntary_ctxt_switches:\s+(\d+)$", said, re.M)[1]) for said in tasks(gateway, "status"))
    return woken, sum(int(said.split()[0]) for said in tasks(gateway, "schedstat")) / 1e6


def rests(gateway: Gateway, seconds: int = 10) -> tuple:
    """The same for each second in which nothing comes, beside what the program's other threads take."""
    time.sleep(2)
    before = worked(gateway)
    time.sleep(seconds)
    return tuple((now - then) / seconds for now, then in zip(worked(gateway), before))


def idle(program: str, folder: str) -> str:
    """At the end of a long shift a link has thousands of calls before it that made no delta."""
    with Gateway(program, folder, 1) as gateway:
        gateway.start()
        alone = rests(gateway)
    two = [Gateway(program, folder, 2), Gateway(program, folder, 3)]
    two[0].values["peers"] = f"[{at_port(two[1].link)}]"
    with two[0], two[1]:
        for gateway in two:
            gateway.start()
        sleeps_at(two[0], b"s-idle")
        say(two[0], b"p-idle", b"<first>")
        two[1].await_octets(b"<first>")
        fresh = rests(two[0])
        with Client(b"asker", two[0]) as asker:
            for _ in range(3900):
                asker.ask(search(), frame(0x02, b"\x02"), 30, 5)
        expect(not two[0].shifts(), "a shift was closed meanwhile")
        late = rests(two[0])
        # what is made now is told all the same
        say(two[0], b"p-idle", b"<last>")
        took = two[1].await_octets(b"<last>")
    said = (f"{alone[0]:.0f} wakes a second alone, {fresh[0]:.0f} with a link; {fresh[1]:.1f} ms of a processor in each second at a shift's begin, "
            f"{late[1]:.1f} after 3,900 calls; what was made then came within {took:.2f} seconds")
    expect(alone[0] <= 140 and late[1] <= 1.3 * fresh[1] + 1 and took < 1, said)
    return said


class Pipe:
    """A pipe that nobody reads, and that is full."""

    def __init__(self):
        self.source, self.sink = os.pipe()
        fcntl.fcntl(self.sink, fcntl.F_SETPIPE_SZ, 4096)

    def first_line(self) -> bytes:
        line = b""
        while not line.endswith(b"\n"):
            line += os.read(self.source, 1)
        return line

    def fill(self) -> None:
        os.set_blocking(self.sink, False)
        try:
            while True:
                os.write(self.sink, b"\n" * 256)
        except BlockingIOError:
            os.set_blocking(self.sink, True)

    def lines(self, seconds: float) -> list:
        """All that comes within a while."""
        octets, end = b"", time.monotonic() + seconds
        while time.monotonic() < end:
            if select.select([self.source], [], [], 0.1)[0]:
                octets += os.read(self.source, 65536)
        return [line for line in octets.decode().splitlines() if line]


def begun_unread(gateway: Gateway, pipe: Pipe, shifts: int) -> None:
    """Starts the process, which prints all into the pipe, reads until its first line, and then reads nothing more."""
    gateway.write()
    gateway.process = subprocess.Popen([gateway.program, "--config", gateway.settings, "--shifts", str(shifts)], stdin=subprocess.DEVNULL,
                                       stdout=pipe.sink, stderr=pipe.sink, cwd=gateway.folder, preexec_fn=with_the_starter(0, gateway.room))
    while not pipe.first_line().startswith(b"gateway"):
        pass
    pipe.fill()


def ends_unread(gateway: Gateway, pipe: Pipe, shifts: int, before) -> tuple:
    """The seconds until a process ends that nobody reads, from a moment on, and its status."""
    begun_unread(gateway, pipe, shifts)
    before()
    began = time.monotonic()
    with Client(b"asker", gateway) as asker:
        while gateway.process.poll() is None and time.monotonic() - began < 30:
            asker.send(connect(asker.name, 60))
            time.sleep(0.05)
    took, status = time.monotonic() - began, gateway.process.poll()
    gateway.kill()
    return took, status


def spoil(gateway: Gateway) -> None:
    """No write goes out any more, and what is there is no journal: the next opening is refused."""
    for slot in (".0", ".1"):
        if os.path.exists(gateway.journal + slot):
            put(gateway.journal + slot, b"no journal at all")
    gateway.limit_room(14)


def unread(program: str, folder: str) -> str:
    with Gateway(program, folder, 1, steps="4") as gateway:
        pipe, longest = Pipe(), 0.0
        begun_unread(gateway, pipe, 1_000_000)
        with Client(b"asker", gateway) as asker:
            for _ in range(1500):
                began = time.monotonic()
                asker.ask(search(), frame(0x02, b"\x01"), 20, 1)
                longest = max(longest, time.monotonic() - began)
            lines = pipe.lines(3)
            for _ in range(8):
                asker.ask(search(), frame(0x02, b"\x01"), 20, 1)
        lines += pipe.lines(3)
        gateway.kill()
    told = [int(line.split()[1]) for line in lines if line.startswith("shift ")]
    left_out = sum(int(line.split()[-1]) for line in lines if line.startswith("lines left out "))
    gap = sum(later - now - 1 for now, later in zip(told, told[1:]))
    expect(told[:256] == list(range(1, 257)) and 0 < left_out == gap, f"{len(told)} lines of shifts, {left_out} left out, {gap} are not there")
    with Gateway(program, folder, 2, steps="4") as gateway:
        well = ends_unread(gateway, Pipe(), 3, lambda: None)
    with Gateway(program, folder, 3, steps="4") as gateway:
        gateway.room = 1 << 30
        badly = ends_unread(gateway, Pipe(), 1_000_000, lambda: spoil(gateway))
    said = (f"the longest answer took {longest:.1f} seconds, {left_out} lines were left out; three shifts ended after {well[0]:.0f} seconds with status "
            f"{well[1]}, a refused reopening after {badly[0]:.0f} with status {badly[1]}")
    expect(longest < 2 and well[1] == 0 and badly[1] == 2, said)
    return said


def threads(program: str, folder: str) -> str:
    """Shifts of 64 calls: each asks for its threads anew. A program that gets none at its start prints all the same."""
    with Alone(folder) as alone:
        with Gateway(program, folder, 1, steps="64") as gateway:
            gateway.start()
            usual = len(tasks(gateway, "status"))
            with Client(b"asker", gateway) as asker:
                alone.say(1)
                began, heard, fewest = time.monotonic(), 0, usual
                while time.monotonic() - began < 8:
                    asker.send(search())
                    heard += asker.receive(0.02) is not None
                    fewest = min(fewest, len(tasks(gateway, "status")))
                alone.say(0)
                began = time.monotonic()
                asker.flush()
                asker.ask(search(), frame(0x02, b"\x01"), 40, 0.5)
                took = time.monotonic() - began
                time.sleep(2)
                before = len(gateway.shifts())
                for _ in range(200):
                    asker.ask(search(), frame(0x02, b"\x01"), 20, 5)
                until(lambda: len(gateway.shifts()) > before + 1, 10, "no shift was closed afterwards")
        alone.say(1)
        with Gateway(program, folder, 2, steps="8") as gateway:
            gateway.write()
            gateway.begin()
            until(gateway.opening, 20, "no first line")
            alone.say(0)
            with Client(b"asker", gateway) as asker:
                end = time.monotonic() + 30
                while len(gateway.shifts()) < 2 and time.monotonic() < end:
                    asker.send(search())
                    time.sleep(0.02)
            expect(len(gateway.shifts()) >= 2, "a program that got no thread at its start prints nothing")
    said = f"{heard} answers while no thread was made for eight seconds ({fewest} of {usual} were left), the next one {took:.1f} seconds afterwards"
    expect(took < 15 and fewest < usual - 4, said)
    return said


def behind_a_radio(program: str, folder: str) -> tuple:
    """A network beyond this one, what starts a program there, and who keeps it. What comes from there comes at 1 Mbit/s."""
    keeper = subprocess.Popen(["unshare", "-n", "sleep", "300"])
    time.sleep(0.5)
    there = f"nsenter -t {keeper.pid} -n"
    for words in (f"ip link add here type veth peer name there netns {keeper.pid}", "ip addr add 10.9.9.2/24 dev here", "ip link set here up",
                  f"{there} ip link set lo up", f"{there} ip addr add 10.9.9.1/24 dev there", f"{there} ip link set there up",
                  f"{there} tc qdisc add dev there root tbf rate 1mbit burst 4kb limit 2mb"):
        subprocess.run(words.split(), check=True)
    start = os.path.join(folder, "start")
    with open(start, "w", encoding="ascii") as text:
        text.write(f'#!/bin/sh\nexec {there} {program} "$@"\n')
    os.chmod(start, 0o755)
    return keeper, start


def slow(program: str, folder: str) -> str:
    if not os.environ.get("OWN_NETWORK"):
        if os.geteuid() != 0 or not shutil.which("tc"):
            raise LeftOut("it needs root, and tc")
        with open("/proc/sys/net/core/wmem_max", encoding="ascii") as most:
            if int(most.read()) < 376_832:
                raise LeftOut("it needs net.core.wmem_max of 376832")
        words = f"ip link set lo up && exec {sys.executable} {os.path.abspath(__file__)} {program} slow"
        found = subprocess.run(["unshare", "-n", "sh", "-c", words], env={**os.environ, "OWN_NETWORK": "1"}, capture_output=True, text=True, check=False)
        said = found.stdout.strip().split(": ", 1)[-1] or found.stderr.strip()[-200:]
        expect(found.returncode == 0, said)
        return said
    ports = tuple(free_ports(2))
    sys.modules["gateway"].HOST, Client.host = "10.9.9.1", "10.9.9.2"
    keeper, start = behind_a_radio(program, folder)
    try:
        with Gateway(start, folder, 1, ports, steps="1010", workers="2") as gateway:
            gateway.start()
            with Client(b"sleeper", gateway) as sleeper, Client(b"teller", gateway) as teller, Client(b"asker", gateway) as asker:
                sleeper.connect()
                sleeper.ask(subscribe(b"sl", 1, 0x02), b"\x08\x13")
                sleeper.sleep(600)
                teller.connect()
                for one in range(900):
                    teller.send(publish(b"sl", b"." * 100, 0, 0x02))
                    if one % 10 == 9:
                        asker.ask(search(), b"\x03\x02")
                before = len(gateway.shifts())
                while len(gateway.shifts()) == before:
                    asker.ask(search(), b"\x03\x02")
                for _ in range(950):
                    asker.ask(search(), b"\x03\x02")
                shifts = len(gateway.shifts())
                sleeper.send(ping(b"sleeper"))
                began = time.monotonic()
                while len(gateway.shifts()) == shifts and time.monotonic() - began < 20:
                    asker.send(search())
                    time.sleep(0.0005)
                took = time.monotonic() - began
    finally:
        keeper.kill()
        keeper.wait()
    said = f"a shift of which some 50 calls were left was over {took:.2f} seconds after a client woke for which 900 messages of 100 octets waited, at 1 Mbit/s"
    expect(took < 0.3, said)
    return said


# ---- dates


def opened_again(gateway: Gateway, count: int) -> None:
    """Closes shifts until the journal was opened so often."""
    end = time.monotonic() + 60
    while len(gateway.openings()) < count:
        expect(time.monotonic() < end, f"the journal was opened {len(gateway.openings())} times, not {count}")
        turn(gateway)


def come_back(clients: list, seconds: float, is_done=lambda: False) -> None:
    """All ping each two seconds, and connect again whenever they are turned away, so long or until something is done."""
    end = time.monotonic() + seconds
    while time.monotonic() < end and not is_done():
        for client in clients:
            is_gone = False
            while (octets := client.receive(0.001)) is not None:
                is_gone = is_gone or octets == GONE
            client.send(connect(client.name, 10) if is_gone else ping())
        time.sleep(2)


def dates(program: str, folder: str) -> str:
    day = 86_400
    with Dated(folder) as date, Gateway(program, folder, 7, steps="64", lifetime=str(7 * day)) as gateway:
        gateway.start()
        sleeps_at(gateway, b"s-soon")
        sleeps_at(gateway, b"s-late")
        say(gateway, b"teller", b"<waits>")
        wills, clients = Wills(gateway), [Client(b"k-%d" % one, gateway) for one in range(30)]
        for client in clients:
            with_will(client, 10)
        come_back(clients, 3)
        for count, ahead in enumerate((day, 0, -day, 0), 2):
            date.say(ahead)
            come_back(clients, 40, lambda: len(gateway.openings()) >= count)
            come_back(clients, 8)
            expect(len(gateway.openings()) == count, f"the journal was opened {len(gateway.openings())} times, not {count}")
        lines = gateway.told().count("date: ")
        expect(lines == 4, f"{lines} lines told of the date, not 4")
        wills.client.connect()
        stays([], wills, 5, {})
        expect(not wills.seen, f"{len(wills.seen)} wills of 30 that lived")
        with Client(b"s-soon", gateway) as soon:
            found = soon.wake()
        expect(found == [b"<waits>"], f"a message that had time got {found}")
        date.say(8 * day)
        opened_again(gateway, 6)
        time.sleep(3)
        with Client(b"s-late", gateway) as late:
            found = late.wake()
        expect(found == [], f"a message that was eight days old came: {found}")
    return "no will of 30, four lines, and nothing expired early"


def paused(program: str, folder: str) -> str:
    """Its moments are 15 seconds behind by then, and 55 seconds from the new date."""
    with Dated(folder) as date, Gateway(program, folder, 7) as gateway:
        gateway.start()
        client = Client(b"k-one", gateway)
        client.connect()
        gateway.process.send_signal(signal.SIGSTOP)
        time.sleep(15)
        gateway.process.send_signal(signal.SIGCONT)
        come_back([client], 3)
        before = len(gateway.shifts())
        date.say(-70)
        come_back([client], 20)
        closed, openings = len(gateway.shifts()) - before, len(gateway.openings())
        expect(closed == 1 and openings == 2, f"{closed} shifts were closed, and the journal was opened {openings} times")
    return "one shift was closed, and the journal was opened once more"


def undated(program: str, folder: str) -> str:
    with Dated(folder) as date, Gateway(program, folder, 7, steps="64", lifetime="604800") as gateway:
        date.say(1_000 - int(time.time()))
        gateway.start()
        expect("date: before 2026" in gateway.told(), f"no line told that the machine has no date: {gateway.told()!r}")
        sleeps_at(gateway, b"s-one")
        say(gateway, b"teller", b"<undated>")
        date.say(0)
        opened_again(gateway, 2)
        sleeps_at(gateway, b"s-two")
        say(gateway, b"teller", b"<dated>")
        date.say(8 * 86_400)
        opened_again(gateway, 3)
        time.sleep(3)
        with Client(b"s-one", gateway) as one, Client(b"s-two", gateway) as two:
            first, second = one.wake(), two.wake()
    expect(first == [b"<undated>"] and second == [], f"{first} and {second} waited")
    return "without a date no lifetime, and with it one"


# ---- starts


def wakes(here: Gateway, names: list, seconds: float) -> tuple:
    """All wake, and ask again each three seconds. How many were told that nothing waits, and how many got what waits."""
    sleepers, none, got = [Client(name, here) for name in names], 0, 0
    waiting, again, end = set(sleepers), 0.0, time.monotonic() + seconds
    while waiting and time.monotonic() < end:
        if time.monotonic() > again:
            again = time.monotonic() + 3
            for sleeper in waiting:
                sleeper.send(ping(sleeper.name))
        for sleeper in list(waiting):
            octets = sleeper.receive(0.005)
            if octets == PONG:
                none += 1
                waiting.discard(sleeper)
            elif octets is not None and opened(octets)[0] == 0x0C:
                got += 1
                waiting.discard(sleeper)
    for sleeper in sleepers:
        sleeper.close()
    return none, got


def listens_once(program: str, folder: str, steps: int, milliseconds: int) -> tuple:
    """If shifts of the peer are short, it has to answer a digest; each sync of the gateway takes so long until it has listened."""
    ports = free_ports(4)
    with Gateway(program, folder, 1, (ports[0], ports[1]), peers=f"[{at_port(ports[3])}]") as here, \
            Gateway(program, folder, 2, (ports[2], ports[3]), steps=str(steps)) as there:
        there.start()
        here.start()
        names = [b"s-%d" % place for place in range(20)]
        for name in names:
            sleeps_at(here, name)
        there.await_octets(b"s-19", 20)
        there.settle()
        here.kill()
        for place in range(2):
            with Client(b"other-%d" % place, there) as other:
                other.connect(clean=True)
        say(there, b"teller", b"<it waits>")
        if steps < 4096:
            turn(there)
            time.sleep(11)
        with Slow(folder) as slow:
            slow.say(milliseconds)
            here.begin()
        until(here.opening, 30, "it did not start")
        ends = threading.Timer(5.5, slow.say, (0,))
        ends.start()
        found = wakes(here, names, 40)
        ends.join()
    return found


def listens(program: str, folder: str) -> str:
    said, fine = [], True
    for words, steps, milliseconds in (("pushed", 4096, 0), ("answered", 16, 0), ("slow", 4096, 500)):
        place = os.path.join(folder, words)
        os.mkdir(place)
        none, got = listens_once(program, place, steps, milliseconds)
        said.append(f"{words}: {got} of 20 got what waited, {none} were told that nothing waits")
        fine = fine and (none, got) == (0, 20)
    expect(fine, "; ".join(said))
    return "; ".join(said)


def alone(program: str, folder: str) -> str:
    with Gateway(program, folder, 1, peers=f"[{at_port(free_ports(1)[0])}]") as gateway:
        gateway.write()
        gateway.begin()
        until(gateway.opening, 30, "it did not start")
        began = time.monotonic()
        with Client(b"asker", gateway) as asker:
            asker.ask(search(), b"\x03\x02\x01", 20, 0.3)
        took = time.monotonic() - began
    expect(3 <= took <= 6, f"{took:.1f} seconds")
    return f"{took:.1f} seconds"


def newest(gateway: Gateway) -> tuple:
    """The generation of the slot in use, and its length."""
    return max((int.from_bytes(octets[5:13], "big"), len(octets)) for octets in gateway.slots() if len(octets) >= 13)


def first(program: str, folder: str) -> str:
    with Gateway(program, folder, 1) as gateway:
        gateway.start()
        sleeps_at(gateway, b"s-first")
        say(gateway, b"p-first", b"<first>" * 20, 50)
        with Client(b"s-first", gateway) as sleeper:
            sleeper.wake()
        gateway.kill()
        before = newest(gateway)
        gateway.start()
        after = newest(gateway)
    expect(after[0] > before[0] and after[1] < before[1], f"generation and octets {before}, and then {after}")
    return f"generation and octets {before}, and then {after}"


def waits(program: str, folder: str) -> str:
    with Gateway(program, folder, 1) as gateway:
        gateway.start()
        sleeps_at(gateway, b"s-waits")
        gateway.kill()
        gateway.room = 20
        gateway.begin()
        with Client(b"asker", gateway) as asker:
            end, heard = time.monotonic() + 6, 0
            while time.monotonic() < end:
                asker.send(search())
                heard += asker.receive(0.2) is not None
            gateway.alive()
            gateway.make_room()
            began = time.monotonic()
            asker.ask(search(), b"\x03\x02\x01", 40, 0.5)
        expect(heard == 0, f"{heard} SEARCHGW were answered while it could not write")
        return f"silent, and {time.monotonic() - began:.1f} seconds after there was room it answered"


def is_asleep(gateway: Gateway) -> bool:
    """Whether the process waits, and has worked nothing for half a second."""
    def worked() -> tuple:
        with open(f"/proc/{gateway.process.pid}/stat", encoding="ascii") as text:
            words = text.read().rpartition(")")[2].split()
        return words[0], words[11], words[12]

    before = worked()
    time.sleep(0.5)
    return before[0] == "S" and worked() == before


def short(program: str, folder: str) -> str:
    """Memory is limited while the first line waits for a pipe that is full: after the opening, and before anything is written. Of the 32 MB of the base
    so much is refused, and the threads of a start get theirs."""
    with Gateway(program, folder, 1) as gateway:
        gateway.start()
        for place in range(100):
            sleeps_at(gateway, b"s-%d" % place)
        say(gateway, b"p-much", b"." * 4000, 80)
        gateway.kill()
        before, gateway.printing = newest(gateway), threading.Event()
        gateway.begin()
        until(lambda: is_asleep(gateway), 60, "it did not come to its first line")
        gateway.limit_memory(25_165_824)
        gateway.printing.set()
        until(gateway.opening, 20, "it printed nothing")
        with Client(b"asker", gateway) as asker:
            end, heard = time.monotonic() + 5, 0
            while time.monotonic() < end:
                asker.send(search())
                heard += asker.receive(0.2) is not None
            gateway.alive()
            expect(newest(gateway)[0] == before[0], "memory was not refused")
            expect(heard == 0, f"{heard} SEARCHGW were answered without memory")
            gateway.free_memory()
            began = time.monotonic()
            until(lambda: newest(gateway)[0] > before[0], 60, "the journal was not written anew, though there was memory", 0.5)
            asker.ask(search(), b"\x03\x02\x01", 60, 0.5)
        took = time.monotonic() - began
        with Client(b"s-0", gateway) as sleeper:
            got = len(sleeper.wake(300))
    expect(got == 80, f"{got} messages of 80")
    return f"silent, and {took:.1f} seconds after there was memory it answered"


def openings_in(gateway: Gateway, seconds: float) -> tuple:
    """Each half second somebody asks and somebody connects. How many were asked, how many of that answered, and how often the journal was opened."""
    heard, asked, before = 0, 0, len(gateway.openings())
    with Client(b"asker", gateway) as asker:
        end = time.monotonic() + seconds
        while time.monotonic() < end:
            asked += 1
            asker.flush()
            asker.send(search())
            heard += (asker.receive(0.25) or b"").startswith(b"\x03\x02")
            with Client(b"s-hole", gateway) as client:
                client.send(connect(client.name, 60))
                client.receive(0.25)
    return asked, heard, len(gateway.openings()) - before


def served_with_room(gateway: Gateway) -> float:
    gateway.make_room()
    began = time.monotonic()
    with Client(b"late", gateway) as late:
        late.ask(connect(b"late", 60), CONNECTED, 40, 0.5)
    return time.monotonic() - began


def hole(program: str, folder: str) -> str:
    with Gateway(program, folder, 1) as gateway:
        gateway.room = 1 << 30
        gateway.start()
        sleeps_at(gateway, b"s-hole")
        gateway.limit_room(14)
        asked, heard, openings = openings_in(gateway, 30)
        took = served_with_room(gateway)
        said = f"{heard} of {asked} SEARCHGW answered, {openings} openings in 30 seconds, served {took:.1f} seconds after there was room"
    expect(heard * 10 < asked and 2 <= openings < 16, said)
    return said


def blocks(program: str, folder: str) -> str:
    """The same client connects again and again: each record takes some 40 octets, and the base stays as it is."""
    with Gateway(program, folder, 1) as gateway:
        gateway.room = 1 << 30
        gateway.start()
        sleeps_at(gateway, b"s-hole")
        gateway.kill()
        gateway.start()
        base = newest(gateway)[1]
        gateway.limit_room(base + 60)
        generation = newest(gateway)[0]
        asked, heard, openings = openings_in(gateway, 30)
        written = newest(gateway)[0] - generation
        took = served_with_room(gateway)
        said = f"{heard} of {asked} SEARCHGW answered, {openings} openings and {written} compactions in 30 seconds, served {took:.1f} seconds after there was room"
    expect(written >= 2 and 2 <= openings < 16, said)
    return said


def room(program: str, folder: str) -> str:
    """When the journal has grown by 1 MiB, a base of as much does not fit beside it; what comes then does."""
    disk = os.path.join(folder, "disk")
    os.mkdir(disk)
    subprocess.run(["mount", "-t", "tmpfs", "-o", "size=1900k", "none", disk], check=True)
    try:
        with Gateway(program, folder, 1, journal=f'"{disk}/journal"', steps="32") as gateway:
            gateway.journal = f"{disk}/journal"
            gateway.start()
            sleeps_at(gateway, b"s-room")
            with Client(b"p-room", gateway) as publisher:
                publisher.connect(clean=True)
                away = sum(insist(publisher, publish(b"ow", b"." * 4000, place), published(b"ow", place)) for place in range(1, 401))
            openings, shifts = len(gateway.openings()) - 1, len(gateway.shifts())
            with Client(b"s-room", gateway) as sleeper:
                got = len(sleeper.wake(300))
    finally:
        subprocess.run(["umount", "-l", disk], check=True)
    said = f"{shifts} shifts, {openings} openings, turned away {away} times, {got} messages of 400"
    expect(1 <= openings <= 2 and away <= 1 and got == 400, said)
    return said


# ---- what is written and kept


def written(gateway: Gateway) -> int:
    """The octets that the process gave to the system to write."""
    with open(f"/proc/{gateway.process.pid}/io", encoding="ascii") as text:
        return int(re.search(r"^wchar: (\d+)$", text.read(), re.M)[1])


def wear(program: str, folder: str) -> str:
    """At most 1,024 messages wait for a client: each of five sleepers gets a part of the changes. The start before them writes what the messages took."""
    said, fine = [], True
    for steps, changes in ((4096, 4500), (64, 400)):
        place = os.path.join(folder, str(steps))
        os.mkdir(place)
        with Gateway(program, place, 1, steps=str(steps)) as gateway:
            gateway.start()
            for one in range(100):
                sleeps_at(gateway, b"s-%d" % one)
            say(gateway, b"p-much", b"thirty-two octets of a message..", 300)
            for one in range(5):
                sleeps_at(gateway, b"t-%d" % one, b"o%d" % one)
            gateway.kill()
            gateway.start()
            before, shifts = written(gateway), len(gateway.shifts())
            for one in range(5):
                say(gateway, b"p-one", b"123", changes // 5, b"o%d" % one)
            octets, shifts = (written(gateway) - before) / changes, len(gateway.shifts()) - shifts
            said.append(f"{octets:.0f} octets a change at {steps} calls, in {shifts} shifts")
            fine = fine and octets <= 300 and shifts >= 1
    expect(fine, ", ".join(said))
    return ", ".join(said)


def resident(gateway: Gateway) -> int:
    """RssAnon in MiB."""
    with open(f"/proc/{gateway.process.pid}/status", encoding="ascii") as text:
        return int(re.search(r"^RssAnon:\s+(\d+) kB$", text.read(), re.M)[1]) // 1024


GARBAGE = [b"\xff" * 1000, b"\x02\xfe", b"\x01\x00\x05\x19\x00", b"\x03\x04\x00", b"\x00", bytes(900)]


def garbage(program: str, folder: str) -> str:
    """None is a frame. Between them a client asks that the settings turn away, which is no call either: only ticks are."""
    with Gateway(program, folder, 1, steps="64", clients='["s*"]') as gateway:
        gateway.start()
        turn(gateway)
        before, shifts, began = resident(gateway), len(gateway.shifts()), time.monotonic()
        with Client(b"x", gateway) as client:
            for place in range(5000):
                client.send(GARBAGE[place % len(GARBAGE)])
                if place % 20 == 19:
                    client.ask(connect(client.name, 60), b"\x03\x05", 60, 5)
        ended, seconds = len(gateway.shifts()) - shifts, time.monotonic() - began
        more = resident(gateway) - before
        with Client(b"s-1", gateway) as client:
            client.connect()
    said = f"{ended} shifts of 64 calls were closed in {seconds:.0f} seconds, RssAnon grew by {more} MiB"
    expect(ended <= 1 + seconds // 30 and more <= 8, said)
    return said


def bound(program: str, folder: str) -> str:
    """A message that is longer than a field takes is answered by PUBACK 3, and is kept to the end of its shift as every datagram is."""
    with Gateway(program, folder, 1) as gateway:
        gateway.start()
        most, refused = 0, published(b"ow", 7, 3)
        with Client(b"p-long", gateway) as client:
            client.connect()
            for place in range(1300):
                insist(client, publish(b"ow", b"." * 60_000, 7), refused, 120)
                most = max(most, resident(gateway) if place % 20 == 0 else 0)
            until(gateway.shifts, 120, "no shift was closed by 78 MB of datagrams")
        steps = gateway.shifts()[0][1]
    said = f"a shift of {steps} calls, and RssAnon of {most} MiB at most"
    expect(steps < 1300 and most < 256, said)
    return said


def handed(program: str, folder: str) -> str:
    """A SUBSCRIBE of six octets is handed what 1,024 topics retain, again and again. Each message has one octet; what the gateway keeps of it has far more."""
    with Gateway(program, folder, 1, steps="4096") as gateway:
        gateway.start()
        with Client(b"p-kept", gateway) as publisher:
            publisher.connect(clean=True)
            for one in range(1024):
                name = bytes([65 + one // 32, 65 + one % 32])
                publisher.ask(publish(name, b"x", one + 1, 0x32), published(name, one + 1), 30, 5)
        most, before, rounds = 0, len(gateway.shifts()), 0
        with Client(b"s-all", gateway) as subscriber:
            subscriber.connect()
            while rounds < 600 and len(gateway.shifts()) == before:
                rounds += 1
                subscriber.send(subscribe(b"#", rounds, 0x00))
                subscriber.send(ping())
                while subscriber.receive(0.5) not in (PONG, None):
                    pass
                most = max(most, resident(gateway) if rounds % 20 == 0 else 0)
    said = f"the shift was closed after {rounds} rounds of 1,024 messages, RssAnon of {most} MiB at most"
    expect(rounds < 600 and most < 256, said)
    return said


def calls(gateway: Gateway) -> int:
    return sum(steps for _, steps in gateway.shifts())


def forge(source: int, target: int, body: bytes) -> None:
    """A datagram whose sender is a port that another program has."""
    with socket.socket(socket.AF_INET, socket.SOCK_RAW, socket.IPPROTO_UDP) as raw:
        raw.sendto(struct.pack("!HHHH", source, target, 8 + len(body), 0) + body, (HOST, 0))


def fence(program: str, folder: str) -> str:
    """Shifts of four calls: those that were closed say how many datagrams were answered, but for three at each gateway. Ticks are calls too."""
    with Gateway(program, folder, 1, steps="4") as one, Gateway(program, folder, 2, steps="4") as two:
        one.start()
        two.start()
        time.sleep(2)
        found = []
        for seconds in (0, 5, 5):
            time.sleep(seconds)
            found.append(calls(one) + calls(two))
            if seconds == 0:
                forge(one.port, two.port, b"\x02\x18")
    first, then = found[1] - found[0], found[2] - found[1]
    expect(first <= 150 and then <= 30, f"{first} calls in five seconds, and {then} in the next five")
    return f"{first} calls in five seconds, and {then} in the next five"


# ---- a used number


def ends_as_used(gateway: Gateway) -> None:
    """Meanwhile somebody asks to connect, is not answered, and is no operation of the journal."""
    gateway.begin()
    with Client(b"s-early", gateway) as early:
        end, heard = time.monotonic() + 20, 0
        while gateway.process.poll() is None and time.monotonic() < end:
            early.send(connect(early.name, 60))
            heard += early.receive(0.1) is not None
    status, told = gateway.process.poll(), gateway.told()
    expect(status is not None, "it serves, though a peer has what it made and lost")
    expect(status == 1 and told.endswith("sngw: number\n") and "made, and this journal does not" in told, f"status {status}, told {told!r}")
    expect(heard == 0 and early.name not in gateway.held(), f"{heard} CONNECT were answered before it ended")


def begun_once(program: str, folder: str, steps: int) -> None:
    """If shifts of the peer are short, it has to answer a digest, which it does eleven seconds after its last answer."""
    ports = free_ports(4)

    def answers(there: Gateway) -> None:
        if steps < 4096:
            turn(there)
            time.sleep(11)

    with Gateway(program, folder, 1, (ports[0], ports[1]), peers=f"[{at_port(ports[3])}]") as here, \
            Gateway(program, folder, 2, (ports[2], ports[3]), steps=str(steps)) as there:
        there.start()
        here.start()
        sleeps_at(here, b"s-old")
        say(here, b"p-old", b"<old>")
        there.await_octets(b"<old>", 20)
        here.kill()
        files = [here.journal + ending for ending in (".0", ".1")]
        for file in files:
            shutil.copy(file, file + ".yesterday")
        here.start()
        say(here, b"p-new", b"<new>")
        there.await_octets(b"<new>", 20)
        # what waited was fetched at the other gateway, and only its acknowledgement is left
        with Client(b"s-old", there) as sleeper:
            expect(len(sleeper.wake()) >= 1, "nothing waited")
        time.sleep(1)
        here.kill()
        for file in files:
            os.rename(file, file + ".newest")
        answers(there)
        ends_as_used(here)
        for file in files:
            shutil.copy(file + ".yesterday", file)
        answers(there)
        ends_as_used(here)
        for file in files:
            os.replace(file + ".newest", file)
        here.start()
        say(here, b"p-last", b"<last>")
        there.await_octets(b"<last>", 20)


def begun(program: str, folder: str) -> str:
    for words, steps in (("pushed", 4096), ("answered", 16)):
        place = os.path.join(folder, words)
        os.mkdir(place)
        try:
            begun_once(program, place, steps)
        except Failed as why:
            raise Failed(f"{words}: {why}") from None
    return "twice, pushed and answered, and with the newest journal it serves"


def code_of(gateway: Gateway, name: bytes) -> int:
    """The return code by which a CONNECT is answered."""
    with Client(name, gateway) as client:
        return client.ask(connect(name, 60), b"\x03\x05")[2]


def ids(program: str, folder: str) -> str:
    with Gateway(program, folder, 1, clients='["s*", "p?"]', newcomers="5") as gateway:
        gateway.start()
        began = time.monotonic()
        codes = {name: code_of(gateway, name) for name in (b"s", b"s-1", b"p1", b"p", b"p12", b"t", b"Zs")}
        wanted = {b"s": 0, b"s-1": 0, b"p1": 0, b"p": 3, b"p12": 3, b"t": 3, b"Zs": 3}
        expect(codes == wanted, f"codes {codes}")
        codes = [code_of(gateway, b"s-%d" % place) for place in range(2, 6)]
        expect(codes == [0, 0, 1, 1], f"newcomers get {codes}")
        expect(code_of(gateway, b"s-1") == 0, "one that is known is turned away")
        time.sleep(max(0.0, began + 62 - time.monotonic()))
        expect(code_of(gateway, b"s-9") == 0, "a newcomer is turned away a minute later")
        gateway.kill()
        clients = gateway.start()[1]
        expect(clients == 6, f"{clients} clients are known after a start")
    return "3 names of 7, 2 newcomers of 4, and one a minute later"


def learned(program: str, folder: str) -> str:
    """One newcomer a minute comes in; ten clients came over the link after the shift began."""
    ports, names = free_ports(4), [b"s-%d" % place for place in range(10)]
    with Gateway(program, folder, 1, (ports[0], ports[1]), newcomers="1", peers=f"[{at_port(ports[3])}]") as here, \
            Gateway(program, folder, 2, (ports[2], ports[3])) as there:
        there.start()
        here.start()
        began = time.monotonic()
        for name in names:
            sleeps_at(there, name)
        here.await_octets(names[-1], 20)
        here.settle()
        there.kill()
        time.sleep(max(0.0, 63 - (time.monotonic() - began)))
        left, end = set(names), time.monotonic() + 15
        while left and time.monotonic() < end:
            for name in list(left):
                with Client(name, here) as client:
                    client.send(connect(name, 60))
                    if client.receive(0.5) == CONNECTED:
                        left.discard(name)
    expect(not left, f"{len(left)} of 10 clients that came over the link were turned away for 15 seconds")
    return "none of 10 is a newcomer"


def full(program: str, folder: str) -> str:
    with Gateway(program, folder, 1) as old:
        old.start()
        for place in range(1024):
            with Client(b"f-%d" % place, old) as client:
                expect(client.ask(connect(client.name, 60), b"\x03\x05", 30, 5)[2] == 0, f"id {place} was refused")
        expect(code_of(old, b"new") == 1, "the field is not full")
        old.kill()
    with Gateway(program, folder, 2, clients='["s-*"]') as new:
        new.write()
        new.begin(0)
        expect(new.process.wait(30) == 0, "a new journal was not begun")
        new.start()
        sleeps_at(new, b"s-1")
        say(new, b"s-2", b"<new>")
        with Client(b"s-1", new) as sleeper:
            expect(sleeper.wake() == [b"<new>"], "the new field does not deliver")
        expect(code_of(new, b"f-1") == 3, "an old id came in")
    return "1,024 ids, and a new field without them"


def mender(program: str) -> str:
    """jr_mend, beside the program or where it is built."""
    beside = os.path.dirname(program)
    for path in (os.path.join(beside, "jr_mend"), os.path.join(beside, "..", "..", "jr_mend", "out", "jr_mend")):
        if os.access(path, os.X_OK):
            return path
    raise LeftOut("no jr_mend is built")


def mended(mend: str, gateway: Gateway, status: int) -> str:
    done = subprocess.run([mend, gateway.journal], capture_output=True, text=True, timeout=60)
    expect(done.returncode == status, f"status {done.returncode} and {done.stdout + done.stderr!r}, wanted {status}")
    return done.stdout


def refuses(gateway: Gateway) -> None:
    gateway.begin()
    status = gateway.process.wait(30)
    expect(status == 2 and "sngw: journal J" in gateway.told(), f"a start ended with status {status}, {gateway.told()!r}")


def put(file: str, octets: bytes) -> None:
    with open(file, "wb") as out:
        out.write(octets)


def zeros(program: str, folder: str) -> str:
    """The other file is empty, as nothing was compacted. An octet that is not 0 after the zeros is nothing to be mended, and a start says so."""
    mend = mender(program)
    with Gateway(program, folder, 1) as gateway:
        gateway.start()
        sleeps_at(gateway, b"s-zero")
        say(gateway, b"p-zero", b"<kept>", 3)
        gateway.kill()
        place = max((0, 1), key=lambda slot: gateway.slots()[slot][5:13])
        file, whole = f"{gateway.journal}.{place}", gateway.slots()[place]
        expect(not gateway.slots()[1 - place], "the other file is not empty")
        mended(mend, gateway, 0)
        expect(gateway.slots()[place] == whole, "a whole journal was changed")
        put(file, whole + bytes(5000))
        refuses(gateway)
        said = mended(mend, gateway, 0)
        expect(gateway.slots()[place] == whole and "5000 zeros" in said, f"it said {said!r}")
        for octets, status in ((whole + bytes(5000) + b"1", 0), (whole + b"1" + bytes(5000), 2), (bytes(len(whole)), 0)):
            put(file, octets)
            mended(mend, gateway, status)
            expect(gateway.slots()[place] == octets, "something else was cut")
            if any(octets):
                refuses(gateway)
        put(file, whole)
        gateway.start()
        with Client(b"s-zero", gateway) as sleeper:
            expect(len(sleeper.wake()) == 3, "a message is missing")
    return said.strip()


# ---- the unit


def analyzed(*words: str) -> subprocess.CompletedProcess:
    return subprocess.run(["systemd-analyze", *words], capture_output=True, text=True, timeout=60)


def unit(_program: str, folder: str) -> str:
    """With programs that are there, and without the man page. Keys of a newer systemd are told by an older one."""
    if shutil.which("systemd-analyze") is None:
        raise LeftOut("there is no systemd-analyze")
    with open(os.path.join(HERE, "..", "examples", "nimhazel@.service"), encoding="utf-8") as text:
        said = text.read()
    place = os.path.join(folder, "nimhazel@.service")
    with open(place, "w", encoding="utf-8") as text:
        text.write(re.sub(r"/usr/local/bin/\w+", "/bin/true", said).replace("Documentation=man:sngw(8)\n", ""))
    newer = ("RestartSteps", "RestartMaxDelaySec")
    told = [line for line in analyzed("verify", place).stderr.splitlines() if not any(word in line for word in newer)]
    expect(not told, f"systemd-analyze says {told[:3]}")
    asserted = re.findall(r"^AssertPathExists=(.*)$", said, re.M)
    mended_at = re.findall(r"^ExecStartPre=-\S*/jr_mend (.*)$", said, re.M)
    expect(asserted == ["/var/lib/nimhazel/%i.0"] and mended_at == ["/var/lib/nimhazel/%i"], f"it asserts {asserted}, and mends {mended_at}")
    again = re.findall(r"^(Restart|RestartPreventExitStatus|StartLimitIntervalSec)=(.*)$", said, re.M)
    expect(sorted(again) == [("Restart", "always"), ("RestartPreventExitStatus", "1"), ("StartLimitIntervalSec", "0")], f"it starts again as {again}")
    journal = os.path.join(folder, "1.0")
    for is_there in (False, True):
        if is_there:
            put(journal, b"")
        found = analyzed("condition", f"AssertPathExists={journal}")
        expect((found.returncode == 0) == is_there, f"the assertion answers {found.stdout + found.stderr!r}")
    return "it asserts that the journal is there, and starts again after every status but 1"


PARTS = {"herd": herd, "stall": stall, "hang": hang, "backlog": backlog, "radio": radio, "reopens": reopens, "nobody": nobody, "dates": dates, "paused": paused, "undated": undated,
         "idle": idle, "unread": unread, "threads": threads, "slow": slow, "listens": listens, "alone": alone, "wear": wear, "first": first, "waits": waits,
         "short": short, "hole": hole, "blocks": blocks, "room": room, "garbage": garbage, "bound": bound, "handed": handed, "fence": fence, "ids": ids, "learned": learned,
         "full": full, "zeros": zeros, "begun": begun, "unit": unit}


def main() -> int:
    reader = argparse.ArgumentParser()
    reader.add_argument("program")
    reader.add_argument("parts", nargs="*", choices=[*PARTS, []])
    asked = reader.parse_args()
    program, good = os.path.abspath(asked.program), True
    # a CONNECT that was repeated and comes late would wake a sleeper
    Client.again = 3.0
    for part in asked.parts or PARTS:
        with tempfile.TemporaryDirectory(prefix="standing-") as folder:
            try:
                print(f"  ok    {part}: {PARTS[part](program, folder)}", flush=True)
            except LeftOut as why:
                print(f"  --    {part}: left out, {why}", flush=True)
            except (Failed, OSError, subprocess.SubprocessError) as why:
                good = False
                print(f"  FAIL  {part}: {str(why)[:300]}", flush=True)
    return 0 if good else 1


if __name__ == "__main__":
    sys.exit(main())
