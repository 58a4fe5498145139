#!/usr/bin/env python3
"""Tries how a running gateway is seen: its page, its events, its alarms.

Usage: trials/watch.py PROGRAM [PART..] [--shot FILE]

The parts, all where none is named, with about the seconds that each takes:

  asks       5  the five paths answer as they say, in whole and in pieces; other paths, methods and octets are refused by their status
  bad        40 requests of over 4,096 octets and of 65 fields, that never end, and 100 at once that read nothing: all end within half a minute, and a good one beside
                them is answered within ten seconds
  port       3  an address that is taken ends the start by `status: ..` and `sngw: socket`, 3
  names      5  client ids of quotes, line feeds and `# HELP`: no line but of digits is theirs, and the numbers' page has none of them
  links      15 links that come and go, a peer with this gateway's number: lines of `log` by level, and the numbers of each link
  apart      10 what one gateway put is known at the other: equal numbers of messages and equal marks, and different ones while the link is cut
  same       20 the same datagrams with and without a page that is asked 50 times a second: equal octets of the journal, and equal lines of shifts
  pings      60 PINGREQ beside 1,000 clients and a page that is asked 50 times a second: what they take on the average is within a tenth of that at a gateway that is
                not watched, and what 99 of 100 take at most within a tenth and a millisecond
  slow       60 the same beside 100 callers that read an octet a second
  unread     40 nobody reads standard error: the page and the gateway go on, what could not be told is counted, and the program ends when it is to end
  files      10 the page is asked while no file can be opened: the gateway answers on, and the page once there can
  grow       30 as many requests as come in 20 seconds: memory does not grow by more than 4 MiB
  memory     10 memory is refused while the page is asked: the gateway answers on, and the page once there is memory
  health     60 a gateway whose disk is full is told as ill, and half a minute after there is room as well
  version    1  `sngw --version`
  rules      1  promtool has nothing to tell of the numbers and of the alarms; left out if there is no promtool
  scraped    20 a prometheus reads the page and the rules; left out if there is none
  browser    30 the page at / of three gateways, of which one is killed, in chromium without a screen; left out if there is none. With --shot a picture is taken

All goes on at 127.0.0.1, at ports that the system gives, in a folder that is gone afterwards. Status 0 only where nothing failed.
"""
import argparse
import json
import os
import re
import resource
import shutil
import socket
import subprocess
import sys
import tempfile
import threading
import time
import urllib.error
import urllib.request

sys.dont_write_bytecode = True
from gateway import HOST, Client, Failed, Gateway, at_port, connect, expect, fill, frame, free_ports, ping, publish, published, search, subscribe, until

HERE = os.path.dirname(os.path.abspath(__file__))
TOP = os.path.dirname(HERE)
RULES = os.path.join(TOP, "examples", "watch", "nimhazel.rules.yml")
FIVE = ["/", "/metrics", "/clients", "/log", "/healthz"]


class LeftOut(Exception):
    """Why a part is not tried here."""


class Watched(Gateway):
    """A gateway with a page, and with events down to a level."""

    def __init__(self, program: str, folder: str, number: int, log: str = "info", **more: str):
        ports = free_ports(3)
        self.page = ports[2]
        super().__init__(program, folder, number, (ports[0], ports[1]), status=at_port(self.page), log=f'"{log}"', **more)

    def ask(self, path: str, seconds: float = 10.0) -> tuple:
        """The status, the fields and the body."""
        return ask(self.page, f"GET {path} HTTP/1.0\r\n\r\n".encode(), seconds)

    def numbers(self) -> dict:
        status, _, body = self.ask("/metrics")
        expect(status == 200, f"/metrics answers {status}")
        return numbers_of(body.decode("ascii"))

    def events(self) -> str:
        return self.ask("/log")[2].decode("utf-8")

    def rows(self) -> list:
        lines = self.ask("/clients")[2].decode("utf-8").splitlines()
        heads = lines[0].split("\t")
        return [dict(zip(heads, line.split("\t"))) for line in lines[1:]]


def read_all(stream, seconds: float) -> bytes:
    stream.settimeout(seconds)
    octets = b""
    while piece := stream.recv(65536):
        octets += piece
    return octets


def taken_apart(octets: bytes) -> tuple:
    head, found, body = octets.partition(b"\r\n\r\n")
    expect(bool(found), f"no answer, but {octets[:80]!r}")
    lines = head.decode("ascii").split("\r\n")
    fields = dict(line.split(": ", 1) for line in lines[1:])
    expect(lines[0].startswith("HTTP/1.0 "), f"another version: {lines[0]}")
    return int(lines[0].split()[1]), fields, body


def ask(port: int, octets: bytes, seconds: float = 10.0, pieces: int = 1) -> tuple:
    """Asks the page, and gives what it answers. The request goes out in so many pieces."""
    with socket.create_connection((HOST, port), seconds) as stream:
        size = max(1, -(-len(octets) // pieces))
        for at in range(0, len(octets), size):
            try:
                stream.sendall(octets[at:at + size])
            except OSError:
                break
            if pieces > 1:
                time.sleep(0.01)
        return taken_apart(read_all(stream, seconds))


def numbers_of(text: str) -> dict:
    found = {}
    for line in text.splitlines():
        if line.startswith("#"):
            continue
        name, _, value = line.rpartition(" ")
        expect(name not in found, f"{name} stands there twice")
        found[name] = float(value)
    return found


def asks(program: str, folder: str) -> str:
    with Watched(program, folder, 1) as gateway:
        gateway.start()
        for path in FIVE:
            status, fields, body = gateway.ask(path)
            expect(status == 200, f"{path} answers {status}")
            expect(int(fields["Content-Length"]) == len(body), f"{path}: another length")
            expect(fields["Connection"] == "close" and fields["Cache-Control"] == "no-store", f"{path}: {fields}")
            head = ask(gateway.page, f"HEAD {path} HTTP/1.1\r\nHost: x\r\n\r\n".encode())
            expect(head[0] == 200 and head[2] == b"", f"HEAD {path} answers {head}")
            whole = ask(gateway.page, f"GET {path} HTTP/1.1\r\nHost: x\r\nA: b\r\n\r\n".encode(), 10, 12)
            expect(whole[0] == 200, f"{path} in pieces answers {whole[0]}")
        for octets, status in [(b"GET /metrics?x=1 HTTP/1.0\r\n\r\n", 404), (b"POST /metrics HTTP/1.0\r\n\r\n", 405), (b"\x00\x01\r\n\r\n", 400),
                               (b"GET / HTTP/2.0\r\n\r\n", 400)]:
            expect(ask(gateway.page, octets)[0] == status, f"{octets!r} is not answered by {status}")
        front = gateway.ask("/")[2].decode("utf-8")
        expect(not re.search(r"https?://", front), "the page takes something from elsewhere")
        numbers = until(lambda: (found := gateway.numbers())["nimhazel_datagrams_received_total"] >= 1 and found, 5, "no datagram was counted")
        gateway.alive()
        return f"five paths, {len(numbers)} numbers"


def bad(program: str, folder: str) -> str:
    with Watched(program, folder, 1) as gateway:
        gateway.start()
        status = ask(gateway.page, b"GET /" + b"a" * 5000 + b" HTTP/1.0\r\n\r\n")[0]
        expect(status == 431, f"5,000 octets are answered by {status}")
        status = ask(gateway.page, b"GET / HTTP/1.0\r\n" + b"a: b\r\n" * 65 + b"\r\n")[0]
        expect(status == 431, f"65 fields are answered by {status}")
        began = time.monotonic()
        status = ask(gateway.page, b"GET / HTTP/1.0\r\n")[0]
        expect(status == 400 and time.monotonic() - began < 6, f"a request without an end is answered by {status}")
        held = []
        for place in range(100):
            stream = socket.create_connection((HOST, gateway.page), 5)
            stream.sendall(b"GET / HT" if place % 2 else b"GET / HTTP/1.0\r\n\r\n")
            held.append(stream)
        ends = []
        began = time.monotonic()
        ended = ask(gateway.page, b"GET /healthz HTTP/1.0\r\n\r\n", 60)
        waited = time.monotonic() - began
        expect(ended[0] == 200 and waited < 10, f"beside 100 others {ended[0]}, within {waited:.1f} seconds")
        for stream in held:
            try:
                ends.append(bool(read_all(stream, 60)))
            except OSError:
                ends.append(False)
            stream.close()
        took = time.monotonic() - began
        expect(sum(ends) > 50 and took < 30, f"of 100 callers {sum(ends)} were answered, the last after {took:.0f} seconds")
        gateway.alive()
        expect(gateway.ask("/healthz")[0] == 200, "it is ill afterwards")
        return f"one of 101 waited for {waited:.1f} seconds, the last of them for {took:.1f}"


def port(program: str, folder: str) -> str:
    taken = socket.socket()
    taken.bind((HOST, 0))
    taken.listen()
    gateway = Watched(program, folder, 1)
    gateway.values["status"] = at_port(taken.getsockname()[1])
    with gateway:
        gateway.write()
        gateway.begin()
        status = gateway.process.wait(30)
        told = gateway.told()
        expect(status == 3 and told.startswith("status: ") and told.endswith("sngw: socket\n"), f"status {status}, {told!r}")
    taken.close()
    return told.strip().replace("\n", ", ")


def names(program: str, folder: str) -> str:
    bad_ids = [b'a"b', b"x\ny 1", b"# HELP x", b'"} 1\nnimhazel_up 1', b"\xff\x00", b"plain-1"]
    with Watched(program, folder, 1, log="debug") as gateway:
        gateway.start()
        gateway.ask("/clients")
        clients = [Client(name, gateway) for name in bad_ids]
        for client in clients:
            client.connect()
        found = until(lambda: (rows := gateway.rows()) and len(rows) >= len(bad_ids) and rows, 20, "not all clients are shown")
        for row in found:
            expect(re.fullmatch(r"[0-9a-f]+", row["id"]) is not None, f"id {row['id']!r}")
            name = bytes.fromhex(row["id"])
            shown = row["name"]
            expect(shown == (name.decode() if re.fullmatch(rb"[A-Za-z0-9_.:-]+", name) else "-"), f"{name!r} is shown as {shown!r}")
        text = gateway.ask("/metrics")[2].decode("ascii")
        for line in text.splitlines():
            expect(re.fullmatch(r'# (HELP|TYPE) nimhazel_[a-z_]+ [ -~]+|nimhazel_[a-z_]+(\{[a-z]+="[A-Za-z0-9_-]+"(,[a-z]+="[A-Za-z0-9_-]+")?\})? \d+(e-3)?', line)
                   is not None, f"a line of another form: {line!r}")
        events = until(lambda: (text := gateway.events()) and text.count(" connected") >= len(bad_ids) - 1 and text, 20, "no events of clients")
        expect(all(re.fullmatch(r"\d+\t[a-z]+\t[ -~]+", line) for line in events.splitlines()), f"an event of another form: {events!r}")
        for client in clients:
            client.close()
        return f"{len(found)} clients, {len(events.splitlines())} events"


def links(program: str, folder: str) -> str:
    two_ports, three_ports = free_ports(3), free_ports(3)
    with Watched(program, folder, 1, peers=f"[{at_port(two_ports[1])}]") as one, Gateway(program, folder, 2, two_ports[:2]) as two:
        two.start()
        one.start()
        found = until(lambda: (numbers := one.numbers())['nimhazel_link_up{place="dialled-0"}'] == 1 and numbers, 20, "no link is up")
        expect(found['nimhazel_link_number{place="dialled-0"}'] == 2, "another number")
        until(lambda: "<6>a link to gateway 2 is made\n" in one.told(), 10, f"nothing told of the link: {one.told()!r}")
        two.kill()
        until(lambda: "<4>the link to gateway 2 is lost\n" in one.told(), 20, f"nothing told of its loss: {one.told()!r}")
        expect(one.numbers()['nimhazel_link_up{place="dialled-0"}'] == 0, "a link that is gone is up")
        until(lambda: one.numbers()['nimhazel_dials_failed_total{place="dialled-0"}'] > 0, 10, "no dial failed")
        with Gateway(program, os.path.join(folder, "other"), 1, three_ports[:2], peers=f"[{at_port(one.link)}]") as other:
            os.makedirs(os.path.join(folder, "other"), exist_ok=True)
            other.start()
            until(lambda: "<3>another gateway has the number 1 of this one: " in one.told(), 20, f"nothing told of a number: {one.told()!r}")
        one.alive()
        return f"{len(one.told().splitlines())} lines"


def apart(program: str, folder: str) -> str:
    ports = free_ports(6)
    with Watched(program, folder, 1, peers=f"[{at_port(ports[1])}]") as one, \
            Gateway(program, folder, 2, (ports[0], ports[1]), status=at_port(ports[2])) as two:
        two.start()
        one.start()
        with Client(b"sub", one) as sleeper:
            sleeper.connect()
            sleeper.ask(subscribe(b"ow", 1, 0x22), b"\x08\x13")
            sleeper.sleep()
        with Client(b"pub", one) as publisher:
            publisher.connect(clean=True)
            for place in range(1, 6):
                publisher.ask(publish(b"ow", b"x", place), published(b"ow", place), 30, 5)
        name = 'nimhazel_messages_known{origin="1"}'
        theirs = lambda: numbers_of(ask(ports[2], b"GET /metrics HTTP/1.0\r\n\r\n")[2].decode("ascii"))
        until(lambda: one.numbers().get(name) == theirs().get(name) == 5, 30, "the other does not know five messages")
        until(lambda: one.numbers()["nimhazel_set_mark"] == theirs()["nimhazel_set_mark"] > 0, 30, "equal sets have other marks")
        two.kill()
        with Client(b"pub", one) as publisher:
            publisher.connect(clean=True)
            publisher.ask(publish(b"ow", b"y", 9), published(b"ow", 9), 30, 5)
        until(lambda: one.numbers().get(name) == 6, 20, "a sixth message is not known")
        expect('nimhazel_messages_known{origin="2"}' in one.numbers(), "a gateway that is away is forgotten")
        return "5 known at both, 6 at one"


class Asker:
    """Asks for pages by several threads until it is left, and counts what is answered: each thread so many times a second at most."""

    def __init__(self, gateway, path: str = "/clients", threads: int = 8, rate: float = 8):
        self.gateway, self.path, self.rate, self.count, self.over, self.began = gateway, path, rate, 0, threading.Event(), time.monotonic()
        self.threads = [threading.Thread(target=self.ask, daemon=True) for _ in range(threads)]

    def ask(self) -> None:
        while not self.over.is_set():
            began = time.monotonic()
            try:
                self.gateway.ask(self.path, 10)
                self.count += 1
            except (OSError, Failed):
                pass
            if self.rate:
                self.over.wait(max(0.0, 1 / self.rate - (time.monotonic() - began)))

    def each_second(self) -> float:
        return self.count / (time.monotonic() - self.began)

    def __enter__(self):
        for thread in self.threads:
            thread.start()
        return self

    def __exit__(self, *_):
        self.over.set()
        for thread in self.threads:
            thread.join(15)


def spoken(gateway) -> None:
    """A sleeper, and 200 messages for it."""
    with Client(b"sub", gateway) as sleeper:
        sleeper.connect()
        sleeper.ask(subscribe(b"ow", 1, 0x22), b"\x08\x13")
        sleeper.sleep()
    with Client(b"one", gateway) as client:
        client.connect()
        for message in range(1, 201):
            client.ask(publish(b"ow", b"x", message), published(b"ow", message), 30, 5)


def same(program: str, folder: str) -> str:
    found = []
    for place in range(2):
        home = os.path.join(folder, str(place))
        os.makedirs(home)
        with (Watched(program, home, 1) if place else Gateway(program, home, 1)) as gateway:
            gateway.values["steps"] = "64"
            gateway.start()
            if place:
                with Asker(gateway) as asker:
                    spoken(gateway)
                    until(lambda: asker.count >= 50 and asker.each_second() > 0, 10, "the page is not asked")
            else:
                spoken(gateway)
            gateway.settle()
            gateway.alive()
            gateway.kill()
            found.append((gateway.slots(), gateway.shifts()))
    (octets, lines), (watched, others) = found
    both = min(len(lines), len(others))
    expect(both > 2 and lines[:both] == others[:both], f"lines of shifts without a page {lines}, with one {others}")
    expect(octets == watched, f"without a page the journal has {[len(it) for it in octets]} octets, with one {[len(it) for it in watched]}, and others")
    return f"{sum(len(it) for it in octets)} octets, {both} shifts"


def times_of(client: Client, count: int) -> list:
    """What PINGREQ take, in seconds."""
    times = []
    for _ in range(count):
        began = time.monotonic()
        client.ask(ping(), b"\x02\x17", 10, 1)
        times.append(time.monotonic() - began)
    return times


def crowd(gateway, count: int = 1000) -> list:
    """So many clients, each at an address of its own, that connected, and say nothing any more."""
    clients = [Client(b"c-%04d" % place, gateway) for place in range(count)]
    for client in clients:
        client.connect()
    return clients


class Dawdlers:
    """A hundred callers that ask for the clients, and read an octet a second. Who is sent away calls again."""

    def __init__(self, gateway):
        self.gateway, self.is_over = gateway, threading.Event()
        self.thread = threading.Thread(target=self.dawdle)

    def call(self):
        try:
            stream = socket.create_connection((HOST, self.gateway.page), 1)
            stream.sendall(b"GET /clients HTTP/1.0\r\n\r\n")
            stream.setblocking(False)
            return stream
        except OSError:
            return None

    def dawdle(self) -> None:
        held = [self.call() for _ in range(100)]
        while not self.is_over.wait(1):
            for place, stream in enumerate(held):
                try:
                    is_gone = stream is None or not stream.recv(1)
                except BlockingIOError:
                    is_gone = False
                except OSError:
                    is_gone = True
                if is_gone:
                    if stream is not None:
                        stream.close()
                    held[place] = self.call()
        for stream in held:
            if stream is not None:
                stream.close()

    def __enter__(self):
        self.thread.start()
        return self

    def __exit__(self, *_):
        self.is_over.set()
        self.thread.join()


def beside(plain, watched) -> str:
    """Asks both in turn, so that what else the machine does comes to both, and compares."""
    times = {plain: [], watched: []}
    with Client(b"pinger", plain) as one, Client(b"pinger", watched) as other:
        one.connect()
        other.connect()
        for _ in range(24):
            times[plain] += times_of(one, 400)
            times[watched] += times_of(other, 400)
    mean = [sum(times[each]) / len(times[each]) * 1000 for each in (plain, watched)]
    most = [sorted(times[each])[len(times[each]) * 99 // 100] * 1000 for each in (plain, watched)]
    said = f"PINGREQ take {mean[0]:.3f} ms without and {mean[1]:.3f} with it, 99 of 100 at most {most[0]:.2f} and {most[1]:.2f}"
    expect(mean[1] < mean[0] * 1.1 and most[1] < most[0] * 1.1 + 1, said)
    return said


def pings(program: str, folder: str) -> str:
    with Gateway(program, folder, 2) as plain, Watched(program, folder, 1) as watched:
        crowds = []
        for gateway in (plain, watched):
            gateway.start()
            crowds += crowd(gateway)
        until(lambda: len(watched.rows()) >= 1000, 20, "not all clients are shown")
        with Asker(watched) as asker:
            said = beside(plain, watched)
            rate = asker.each_second()
        for client in crowds:
            client.close()
        expect(rate >= 50, f"the page was asked {rate:.0f} times a second")
        return f"{said}; asked {rate:.0f} times a second"


def slow(program: str, folder: str) -> str:
    with Gateway(program, folder, 2) as plain, Watched(program, folder, 1) as watched:
        crowds = []
        for gateway in (plain, watched):
            gateway.start()
            crowds += crowd(gateway)
        with Dawdlers(watched), Asker(watched, threads=1):
            said = beside(plain, watched)
        for client in crowds:
            client.close()
        return said


def begun_unread(gateway, shifts: int) -> int:
    """Starts the process, waits for its first line, and fills the pipe of standard error, which nobody reads."""
    gateway.write()
    gateway.out, gateway.err = os.path.join(gateway.folder, "unread.out"), os.path.join(gateway.folder, "unread.err")
    with open(gateway.err, "wb"):
        source, sink = os.pipe()
    with open(gateway.out, "wb") as out:
        gateway.process = subprocess.Popen([gateway.program, "--config", gateway.settings, "--shifts", str(shifts)], stdin=subprocess.DEVNULL, stdout=out,
                                           stderr=sink, cwd=gateway.folder)
    until(gateway.opening, 30, "no first line")
    fill(sink)
    os.close(sink)
    return source


def unread(program: str, folder: str) -> str:
    longest = {"page": 0.0, "gateway": 0.0}

    def took(what: str, asked) -> None:
        began = time.monotonic()
        asked()
        longest[what] = max(longest[what], time.monotonic() - began)

    with Watched(program, folder, 1, log="debug") as gateway, Client(b"crowd", gateway) as client:
        source = begun_unread(gateway, 1_000_000)
        until(lambda: "nimhazel_set_mark" in gateway.numbers(), 20, "no page")
        time.sleep(6)
        for place in range(400):
            client.name = b"c-%04d" % place
            took("gateway", client.connect)
        until(lambda: gateway.numbers()["nimhazel_events_lost_total"] > 0, 30, "nothing was left out")
        for _ in range(20):
            took("page", lambda: gateway.ask("/log"))
        lost = gateway.numbers()["nimhazel_events_lost_total"]
        gateway.alive()
        gateway.kill()
        os.close(source)
    home = os.path.join(folder, "other")
    os.makedirs(home)
    with Watched(program, home, 2, log="debug", steps="64") as gateway, Client(b"asker", gateway) as client:
        source = begun_unread(gateway, 2)
        time.sleep(6)
        client.connect()
        until(lambda: "connected" in gateway.events(), 30, "no event")
        began = time.monotonic()
        while gateway.process.poll() is None and time.monotonic() - began < 30:
            client.send(search())
            time.sleep(0.02)
        ended, status = time.monotonic() - began, gateway.process.poll()
        gateway.kill()
        os.close(source)
    said = (f"the longest answer of the page took {longest['page']:.1f} seconds, that of the gateway {longest['gateway']:.1f}; {lost:.0f} events were left out; "
            f"two shifts ended after {ended:.0f} seconds with status {status}")
    expect(max(longest.values()) < 2 and status == 0, said)
    return said


def files(program: str, folder: str) -> str:
    with Watched(program, folder, 1) as gateway:
        gateway.start()
        gateway.numbers()
        time.sleep(1)
        opened = {int(name) for name in os.listdir(f"/proc/{gateway.process.pid}/fd")}
        least = min(set(range(len(opened) + 1)) - opened)
        had = resource.prlimit(gateway.process.pid, resource.RLIMIT_NOFILE, (least, resource.prlimit(gateway.process.pid, resource.RLIMIT_NOFILE)[1]))
        refused = 0
        for _ in range(3):
            try:
                gateway.ask("/clients", 2)
            except (OSError, Failed):
                refused += 1
        with Client(b"still", gateway) as client:
            client.connect()
            client.ask(search(), frame(0x02, b"\x01"), 30, 1)
        gateway.alive()
        resource.prlimit(gateway.process.pid, resource.RLIMIT_NOFILE, had)
        until(lambda: gateway.ask("/healthz")[0] == 200, 20, "no page once files can be opened")
        expect(refused > 0, "the page was answered all the same")
        return f"{refused} of 3 callers were refused"


def grow(program: str, folder: str) -> str:
    with Watched(program, folder, 1) as gateway:
        gateway.start()
        crowd(gateway, 200)
        for path in FIVE * 20:
            gateway.ask(path)
        before = gateway.memory()
        with Asker(gateway, "/metrics", 24, 0) as asker:
            time.sleep(20)
        after = gateway.memory()
        said = f"{asker.count} requests, VmRSS {before} KiB before and {after} after"
        expect(after < before + 4096, said)
        return said


def memory(program: str, folder: str) -> str:
    with Watched(program, folder, 1) as gateway:
        gateway.start()
        gateway.numbers()
        gateway.limit_memory(0)
        for _ in range(50):
            try:
                gateway.ask("/clients", 5)
            except (OSError, Failed):
                pass
        with Client(b"still", gateway) as client:
            client.ask(search(), frame(0x02, b"\x01"), 30, 1)
        gateway.alive()
        gateway.free_memory()
        until(lambda: gateway.ask("/healthz")[0] in (200, 503), 20, "no page once there is memory")
        return "the gateway answered on"


def health(program: str, folder: str) -> str:
    with Watched(program, folder, 1) as gateway:
        gateway.room = 1 << 30
        gateway.start()
        until(lambda: gateway.ask("/healthz")[0] == 200, 10, "it is not well")
        with Client(b"writer", gateway) as client:
            client.connect()
            gateway.limit_room(max(len(octets) for octets in gateway.slots()))
            over = time.monotonic() + 30
            while gateway.ask("/healthz")[0] == 200:
                expect(time.monotonic() < over, "it is well on a full disk")
                client.send(connect(client.name))
                time.sleep(0.2)
        told = gateway.ask("/healthz")
        expect(told[0] == 503 and b"a write failed\n" in told[2], f"it says {told}")
        until(lambda: "<3>a write failed, and the gateway is halted\n" in gateway.told(), 30, "no event says so")
        gateway.make_room()
        until(lambda: gateway.ask("/healthz")[0] == 200, 90, "it is not well again")
        gateway.alive()
        return "ill while the disk was full"


def version(program: str, folder: str) -> str:
    told = subprocess.run([program, "--version"], capture_output=True, text=True, timeout=10)
    expect(told.returncode == 0 and re.fullmatch(r"sngw \d[\d.]*\n", told.stdout) is not None, f"{told}")
    return told.stdout.strip()


def promtool() -> str:
    tool = shutil.which("promtool")
    if not tool:
        raise LeftOut("no promtool")
    return tool


def rules(program: str, folder: str) -> str:
    tool = promtool()
    with Watched(program, folder, 1) as gateway:
        gateway.start()
        body = gateway.ask("/metrics")[2]
    told = subprocess.run([tool, "check", "metrics"], input=body, capture_output=True, timeout=30)
    expect(told.returncode == 0 and not told.stdout and not told.stderr, f"promtool: {told}")
    told = subprocess.run([tool, "check", "rules", RULES], capture_output=True, text=True, timeout=30)
    expect(told.returncode == 0, f"promtool: {told.stdout}{told.stderr}")
    return told.stdout.strip().replace("\n", " ")


def scraped(program: str, folder: str) -> str:
    server = shutil.which("prometheus")
    if not server:
        raise LeftOut("no prometheus")
    with Watched(program, folder, 1) as gateway:
        gateway.start()
        at = free_ports(1)[0]
        config = os.path.join(folder, "prometheus.yml")
        with open(config, "w", encoding="utf-8") as text:
            text.write(f"global: {{scrape_interval: 1s, evaluation_interval: 1s}}\nrule_files: ['{RULES}']\n"
                       f"scrape_configs:\n  - job_name: nimhazel\n    static_configs: [{{targets: ['{HOST}:{gateway.page}']}}]\n")
        process = subprocess.Popen([server, f"--config.file={config}", f"--storage.tsdb.path={folder}/data", f"--web.listen-address={HOST}:{at}"],
                                   stdout=subprocess.DEVNULL, stderr=subprocess.DEVNULL)
        try:
            def value():
                try:
                    with urllib.request.urlopen(f"http://{HOST}:{at}/api/v1/query?query=nimhazel_up_seconds", timeout=5) as answer:
                        return json.load(answer)["data"]["result"]
                except (OSError, urllib.error.URLError):
                    return None
            found = until(value, 30, "prometheus has read nothing")
            with urllib.request.urlopen(f"http://{HOST}:{at}/api/v1/rules", timeout=5) as answer:
                groups = json.load(answer)["data"]["groups"]
            faults = [rule["name"] for group in groups for rule in group["rules"] if rule.get("lastError")]
            expect(not faults, f"rules with faults: {faults}")
            return f"{len(found)} gateway, {sum(len(group['rules']) for group in groups)} rules"
        finally:
            process.terminate()
            process.wait(20)


def browser_of() -> str:
    for name in ("chromium", "chromium-browser", "google-chrome"):
        if shutil.which(name):
            return shutil.which(name)
    raise LeftOut("no chromium")


def shown(browser: str, folder: str, at: int, milliseconds: int, shot: str = "") -> str:
    """The page as a browser has it after so long."""
    words = [browser, "--headless", "--no-sandbox", "--disable-gpu", f"--user-data-dir={folder}/browser", f"--virtual-time-budget={milliseconds}",
             "--window-size=1200,1400"]
    url = f"http://{HOST}:{at}/"
    if shot:
        subprocess.run([*words, f"--screenshot={shot}", url], capture_output=True, timeout=120, check=True)
    return subprocess.run([*words, "--dump-dom", url], capture_output=True, text=True, timeout=120, check=True).stdout


def browser(program: str, folder: str, shot: str = "") -> str:
    tool = browser_of()
    ports = [free_ports(3) for _ in range(3)]
    gateways = []
    for place in range(3):
        peer = ports[(place + 1) % 3][1]
        gateways.append(Gateway(program, folder, place + 1, ports[place][:2], status=at_port(ports[place][2]), log='"info"', peers=f"[{at_port(peer)}]"))
    one, two, three = gateways
    try:
        for gateway in gateways:
            gateway.start()
        with Client(b'q"1', one) as client:
            client.connect()
        page = ports[0][2]
        up = lambda: numbers_of(ask(page, b"GET /metrics HTTP/1.0\r\n\r\n")[2].decode("ascii"))['nimhazel_link_up{place="dialled-0"}']
        until(lambda: up() == 1, 30, "no link")
        until(lambda: b"712231" in ask(page, b"GET /clients HTTP/1.0\r\n\r\n")[2], 20, "no client")
        text = shown(tool, folder, page, 4000)
        expect(re.search(r'id="health"[^>]*class="ok"', text) is not None, "the page does not say that it is well")
        expect("712231" in text, "no client is shown")
        two.kill()
        until(lambda: up() == 0, 30, "a link to a gateway that was killed is up")
        time.sleep(2)
        text = shown(tool, folder, page, 4000, shot)
        expect('class="bad"' in text, "the page does not show that a link is down")
        expect("is lost" in text, "no event says so")
        return "three gateways, one killed"
    finally:
        for gateway in gateways:
            gateway.kill()


PARTS = [asks, bad, port, names, links, apart, same, pings, slow, unread, files, grow, memory, health, version, rules, scraped, browser]


def main() -> int:
    resource.setrlimit(resource.RLIMIT_NOFILE, (4096, max(4096, resource.getrlimit(resource.RLIMIT_NOFILE)[1])))
    reader = argparse.ArgumentParser(usage=__doc__.split("\n\n")[1].partition(": ")[2])
    reader.add_argument("program")
    reader.add_argument("parts", nargs="*")
    reader.add_argument("--shot", default="")
    words = reader.parse_args()
    known = {part.__name__: part for part in PARTS}
    wrong = [name for name in words.parts if name not in known]
    if wrong:
        reader.error(f"no part: {', '.join(wrong)}")
    failed = 0
    for name in words.parts or known:
        with tempfile.TemporaryDirectory() as folder:
            try:
                told = known[name](os.path.abspath(words.program), folder, *([words.shot] if name == "browser" else []))
                print(f"{name}: {told}", flush=True)
            except LeftOut as why:
                print(f"{name}: left out: {why}", flush=True)
            except (Failed, OSError, subprocess.SubprocessError) as fault:
                failed += 1
                print(f"{name}: FAILED: {fault}", flush=True)
    return 1 if failed else 0


if __name__ == "__main__":
    sys.exit(main())
