#!/usr/bin/env python3
"""Tries what links cost and how they end: a peer far away, one that is gone, one that hangs up, one that asks and asks.

Usage: trials/links.py PROGRAM [PART..]

The parts, all where none is named:

  far     a peer is 1.5 seconds away in each direction, over a device that holds each packet back: news come to it all the same. It needs root and
          /dev/net/tun
  places  eight connections that said one number have each place for accepted links: the gateway of that number dials, and has a link at once
  gone    a peer stops without a word: its link is closed within two minutes
  busy    a peer that only tells, and to which nothing is told, is not given up meanwhile
  knock   for a minute a peer takes calls and closes them: the gateway dials it less than ten times, and its memory hardly grows
  mute    a connection that says no number is told a number alone, and no digest
  pieces  the answer to a digest, of some 400,000 octets, comes in deltas of 65,536 octets at most
  breaks  a link that breaks each 1.5 MB brings an answer of 6 MB all the same, within 90 seconds, and nothing twice but what broke off
  lines   two gateways of one number, a contradiction, a 4,097th client and a ninth peer are told by a line of standard error each. The contradiction
          comes three times more within a minute: that line comes no second time before the minute is over, and then says 3
  numbers of two gateways that dial the one is linked that the settings name, and a line tells of the other
  twice   a gateway that dials two gateways of one number, and two connections that say one number, are told of
  sick    a peer whose disk is full, and that lacks some 9 MB, asks for it again and again: it ends no shift of a gateway in 30 seconds, and until its
          journal was opened five times
  asks    a peer that asks each half second for all that is there is answered four times in 35 seconds at most
  bound   a peer that tells the same megabyte 256 times ends three shifts at least, as the history of each keeps 64 MiB and one call. VmRSS never grows
          by more than 192 MiB, three times as much: what a shift gave back still counts while the next one fills its history, and the rest is for
          what the gateway has and hands on. A build that is not proved keeps more, as it gives nothing back for a while. The megabyte is of
          messages, and at another gateway of what is retained
  memory  memory is refused for an answer of some 90 MB: that link is closed, clients are served, and once there is memory all is answered

All but the first goes on at 127.0.0.1, at ports that the system gives, in a folder that is gone afterwards. Status 0 only where nothing failed.
"""
import argparse
import fcntl
import os
import re
import select
import socket
import struct
import subprocess
import sys
import tempfile
import threading
import time

sys.dont_write_bytecode = True
from gateway import HOST, Client, Failed, Gateway, at_port, expect, free_ports, publish, published, subscribe, until

# Seconds between two lines of one trouble.
PAUSE = 60
NEAR, FAR, DEVICE = "10.78.0.1", "10.78.0.2", "nimhazel-far"


def message(kind: int, body: bytes) -> bytes:
    return bytes([kind]) + len(body).to_bytes(4, "big") + body


HELLO, ASK_ALL = message(1, b"\xc8"), message(2, b"\x01\x00\x00\x00\x00")


class Distance:
    """A device with one address. What goes to the other address comes back to the first one from there, so many seconds later."""

    def __init__(self, seconds: float):
        self.seconds, self.over = seconds, False
        self.device = os.open("/dev/net/tun", os.O_RDWR)
        fcntl.ioctl(self.device, 0x400454CA, struct.pack("16sH", DEVICE.encode(), 0x1001))
        for words in (["addr", "add", f"{NEAR}/24", "dev", DEVICE], ["link", "set", DEVICE, "up"]):
            subprocess.run(["ip", *words], check=True)
        threading.Thread(target=self.carry, daemon=True).start()

    def carry(self) -> None:
        held = []
        while not self.over:
            wait = max(0.0, held[0][0] - time.monotonic()) if held else 0.2
            if select.select([self.device], [], [], min(wait, 0.2))[0]:
                packet = os.read(self.device, 65536)
                if packet[0] >> 4 == 4 and packet[16:20] == socket.inet_aton(FAR):
                    held.append((time.monotonic() + self.seconds, packet[:12] + packet[16:20] + packet[12:16] + packet[20:]))
            while held and held[0][0] <= time.monotonic():
                os.write(self.device, held.pop(0)[1])

    def close(self) -> None:
        self.over = True
        time.sleep(0.5)
        os.close(self.device)


class Cut:
    """A way to an address that breaks as soon as so many octets came back over it."""

    def __init__(self, port: int, most: int):
        self.port, self.most, self.calls, self.octets = port, most, 0, 0
        self.listener = socket.create_server((HOST, 0))
        self.at = self.listener.getsockname()[1]
        threading.Thread(target=self.accept, daemon=True).start()

    def accept(self) -> None:
        while True:
            try:
                here, _ = self.listener.accept()
                there = socket.create_connection((HOST, self.port), 5)
            except OSError:
                return
            self.calls += 1
            self.carry(here, there)

    def carry(self, here: socket.socket, there: socket.socket) -> None:
        left = self.most
        with here, there:
            try:
                while left > 0:
                    for one in select.select([here, there], [], [])[0]:
                        octets = one.recv(min(65536, left))
                        if not octets:
                            return
                        (there if one is here else here).sendall(octets)
                        if one is there:
                            left -= len(octets)
                            self.octets += len(octets)
            except OSError:
                return

    def close(self) -> None:
        self.listener.close()


def sleeps_at(gateway: Gateway, name: bytes) -> None:
    with Client(name, gateway) as sleeper:
        sleeper.connect()
        sleeper.ask(subscribe(b"ow", 1, 0x22), b"\x08\x13")
        sleeper.sleep()


def say(gateway: Gateway, body: bytes, identifier: int = 1) -> None:
    with Client(b"p-%d" % identifier, gateway) as publisher:
        publisher.connect(clean=True)
        publisher.ask(publish(b"ow", body, identifier), published(b"ow", identifier))


def far(program: str, folder: str) -> str:
    distance, ports = Distance(1.5), free_ports(4)
    try:
        with Gateway(program, folder, 1, (ports[0], ports[1]), peers=f'["{FAR}:{ports[3]}"]') as here, \
                Gateway(program, folder, 2, (ports[2], ports[3]), link=f'"0.0.0.0:{ports[3]}"') as there:
            there.start()
            here.start()
            sleeps_at(here, b"s-far")
            return f"{there.await_octets(b's-far', 30):.1f} seconds"
    finally:
        distance.close()


def held_links(gateway: Gateway, count: int) -> list:
    links = [socket.create_connection((HOST, gateway.link), 5) for _ in range(count)]
    for link in links:
        link.sendall(message(1, b"\x01"))
    return links


def places(program: str, folder: str) -> str:
    ports = free_ports(4)
    with Gateway(program, folder, 2, (ports[2], ports[3])) as called, \
            Gateway(program, folder, 1, (ports[0], ports[1]), peers=f"[{at_port(ports[3])}]") as caller:
        called.start()
        links = held_links(called, 8)
        try:
            time.sleep(1)
            caller.start()
            sleeps_at(caller, b"s-place")
            return f"{called.await_octets(b's-place', 10):.1f} seconds"
        finally:
            for link in links:
                link.close()


def gone(program: str, folder: str) -> str:
    ports = free_ports(2)
    with Gateway(program, folder, 7, (ports[0], ports[1])) as gateway:
        gateway.start()
        with socket.create_connection((HOST, gateway.link), 5) as link:
            link.sendall(HELLO)
            began = time.monotonic()
            link.settimeout(125)
            try:
                while link.recv(65536):
                    expect(time.monotonic() - began < 120, "the link is open after two minutes")
                    link.settimeout(125 - (time.monotonic() - began))
            except ConnectionError:
                pass
            except TimeoutError:
                raise Failed("the link is open after two minutes") from None
            return f"{time.monotonic() - began:.0f} seconds"


def busy(program: str, folder: str) -> str:
    """What the gateway tells is read, and its number said each 20 seconds by a peer of an older kind, which says nothing else."""
    ports = free_ports(2)
    with Gateway(program, folder, 7, (ports[0], ports[1])) as gateway:
        gateway.start()
        with socket.create_connection((HOST, gateway.link), 5) as link:
            link.setblocking(False)
            began = spoke = time.monotonic()
            link.sendall(HELLO)
            while time.monotonic() - began < 130:
                if time.monotonic() - spoke > 60:
                    spoke = time.monotonic()
                    link.sendall(HELLO)
                if select.select([link], [], [], 0.2)[0]:
                    expect(link.recv(65536), f"the link was closed after {time.monotonic() - began:.0f} seconds")
        return "130 seconds"


def knock(program: str, folder: str) -> str:
    """Beside a gateway without a peer, since an unproved build keeps what it gave back for a while."""
    ports = free_ports(4)
    with socket.create_server((HOST, 0)) as door:
        calls = []

        def hang_up() -> None:
            while True:
                try:
                    door.accept()[0].close()
                except OSError:
                    return
                calls.append(time.monotonic())

        threading.Thread(target=hang_up, daemon=True).start()
        with Gateway(program, folder, 1, (ports[0], ports[1]), peers=f"[{at_port(door.getsockname()[1])}]") as gateway, \
                Gateway(program, folder, 2, (ports[2], ports[3])) as idle:
            for each in (gateway, idle):
                each.start()
                for place in range(50):
                    sleeps_at(each, b"s-%d" % place)
            before, first = (gateway.memory(), idle.memory()), len(calls)
            time.sleep(60)
            more, count = gateway.memory() - before[0] - (idle.memory() - before[1]), len(calls) - first
    said = f"{count} calls in a minute, and VmRSS grew by {more} KiB more than that of a gateway without a peer"
    expect(count < 10 and more < 8192, said)
    return said


def mute(program: str, folder: str) -> str:
    ports = free_ports(2)
    with Gateway(program, folder, 7, (ports[0], ports[1])) as gateway:
        gateway.start()
        sleeps_at(gateway, b"s-mute")
        with socket.create_connection((HOST, gateway.link), 5) as link:
            got, end = b"", time.monotonic() + 3
            while (left := end - time.monotonic()) > 0:
                if select.select([link], [], [], left)[0]:
                    got += link.recv(65536)
        expect(got == message(1, b"\x07"), f"{len(got)} octets were told to nobody: {got[:40].hex()}")
    return f"{len(got)} octets"


def asks(program: str, folder: str) -> str:
    ports = free_ports(2)
    with Gateway(program, folder, 7, (ports[0], ports[1])) as gateway:
        gateway.start()
        sleeps_at(gateway, b"s-asks")
        say(gateway, b"<all that is there>")
        # what a gateway made since its start it tells each link that is new
        gateway.kill()
        gateway.start()
        answers, end = 0, time.monotonic() + 35
        while time.monotonic() < end:
            with socket.create_connection((HOST, gateway.link), 5) as link:
                link.sendall(HELLO + ASK_ALL)
                got, until = b"", time.monotonic() + 0.5
                while (left := until - time.monotonic()) > 0:
                    if select.select([link], [], [], left)[0]:
                        got += link.recv(65536)
                answers += b"<all that is there>" in got
    expect(1 <= answers <= 4, f"{answers} answers in 35 seconds")
    return f"{answers} answers in 35 seconds"


def pieces(program: str, folder: str) -> str:
    ports = free_ports(2)
    with Gateway(program, folder, 7, (ports[0], ports[1])) as gateway:
        gateway.start()
        sleeps_at(gateway, b"s-much")
        with Client(b"p-much", gateway) as publisher:
            publisher.connect(clean=True)
            for place in range(100):
                publisher.ask(publish(b"ow", (b"<%06d>" % place).ljust(4000, b"."), place + 1), published(b"ow", place + 1))
        with socket.create_connection((HOST, gateway.link), 5) as link:
            link.settimeout(20)
            link.sendall(HELLO + ASK_ALL)
            got, sizes = b"", []
            while b"<000099>" not in got:
                got += link.recv(65536)
            while len(got) >= 5:
                size = int.from_bytes(got[1:5], "big")
                sizes += [size] if got[0] == 3 else []
                got = got[5 + size:]
    expect(max(sizes) <= 65536, f"{len(sizes)} deltas of up to {max(sizes)} octets")
    return f"{len(sizes)} deltas of up to {max(sizes)} octets"


def heard(gateway: Gateway, count: int, seconds: float) -> tuple:
    """How many messages a link hears that asks for all, up to so many; and whether it was closed before."""
    with socket.create_connection((HOST, gateway.link), 5) as link:
        link.sendall(HELLO + ASK_ALL)
        found, rest, end = 0, b"", time.monotonic() + seconds
        while found < count and time.monotonic() < end:
            if select.select([link], [], [], 0.2)[0]:
                try:
                    more = link.recv(65536)
                except ConnectionError:
                    more = b""
                if not more:
                    return found, True
                rest += more
                found += rest.count(b"<much")
                rest = rest[-4:]
    return found, False


def fill(gateway: Gateway, clients: int, messages: int, size: int = 2000) -> None:
    """So many clients sleep, and so many messages of this size wait for each. Then the gateway is started again, and has made nothing since."""
    gateway.start()
    for place in range(clients):
        sleeps_at(gateway, b"s-%d" % place)
    with Client(b"p-much", gateway) as publisher:
        publisher.connect(clean=True)
        for place in range(messages):
            body = (b"<much %06d>" % place).ljust(size, b".")
            publisher.ask(publish(b"ow", body, place + 1), published(b"ow", place + 1))
    gateway.kill()
    gateway.start(seconds=120)


def memory(program: str, folder: str) -> str:
    """Bodies are shared in memory, and written out for each client in an answer: 150 clients, each with 150 messages of 4,000 octets. The limit is
    one of addresses, of which a process has more than it uses."""
    ports = free_ports(2)
    with Gateway(program, folder, 7, (ports[0], ports[1])) as gateway:
        fill(gateway, 150, 150, 4000)
        # without this pause the program ended in 3 trials of 11: threads of a shift take memory when it begins. Which of them had none is not known
        time.sleep(1.5)
        gateway.limit_memory(16_777_216)
        found, closed = heard(gateway, 150 * 150, 30)
        time.sleep(0.5)
        gateway.alive()
        expect(found == 0 and closed, f"{found} messages came, and the link was {'' if closed else 'not '}closed: was memory refused?")
        with Client(b"s-0", gateway) as sleeper:
            try:
                got = sleeper.wake(60)
            finally:
                gateway.alive()
        expect(len(set(got)) == 150, f"a sleeper got {len(set(got))} messages of 150")
        gateway.free_memory()
        time.sleep(10)
        found, closed = heard(gateway, 149 * 150, 60)
    expect(found == 149 * 150, f"{found} messages were answered of {149 * 150}")
    return "closed, and then all answered"


def breaks(program: str, folder: str) -> str:
    """60 clients, each with 50 messages of 2,000 octets, at a gateway that made nothing since its start."""
    ports, wanted = free_ports(4), 60 * 50
    with Gateway(program, folder, 1, (ports[0], ports[1])) as full:
        fill(full, 60, 50)
        way, began = Cut(full.link, 1_500_000), time.monotonic()
        with Gateway(program, folder, 2, (ports[2], ports[3]), peers=f"[{at_port(way.at)}]") as empty:
            empty.start()
            until(lambda: max(slot.count(b"<much") for slot in empty.slots()) >= wanted, 90, f"{wanted} messages did not come to the journal", 0.5)
        way.close()
    said = f"{time.monotonic() - began:.0f} seconds, {way.calls} links, {way.octets} octets"
    expect(way.octets < 12_000_000, said)
    return said


def peak(gateway: Gateway) -> int:
    """The most that VmRSS ever was, in KiB."""
    gateway.alive()
    with open(f"/proc/{gateway.process.pid}/status", encoding="ascii") as text:
        return int(re.search(r"^VmHWM:\s+(\d+) kB$", text.read(), re.M)[1])


def bound(program: str, folder: str) -> str:
    """250 messages of 4,000 octets for client s1, put by gateway 200; and at another gateway as many that are retained, each of its own topic."""
    body = b"." * 4000
    spelled = len(body).to_bytes(2, "big") + body
    puts = [b"\x02\x02s1\xc8" + place.to_bytes(8, "big") + b"\x00\x02ow\x01" + spelled for place in range(1, 251)]
    kept = [b"\x04\x00\x03%03d" % place + (1).to_bytes(8, "big") + b"\xc8\x01" + spelled for place in range(1, 251)]
    said = [told_again(Gateway(program, folder, 7), b"\x01", puts, body), told_again(Gateway(program, folder, 8), b"\x02", kept, body)]
    return "; of what is retained ".join(said)


def told_again(gateway: Gateway, version: bytes, operations: list, body: bytes) -> str:
    """Gateway 200 tells these operations 256 times. From the second time on they change nothing."""
    delta = message(3, version + len(operations).to_bytes(4, "big") + b"".join(operations))
    with gateway:
        gateway.start()
        before = gateway.memory()
        with socket.create_connection((HOST, gateway.link), 5) as link:
            link.settimeout(120)
            link.sendall(HELLO)
            for _ in range(256):
                link.sendall(delta)
            time.sleep(2)
            shifts, more = len(gateway.shifts()), (peak(gateway) - before) // 1024
            expect(gateway.held().count(body) >= len(operations), "the delta was refused")
    said = f"{shifts} shifts were closed, and VmRSS grew by {more} MiB at most"
    expect(shifts >= 3 and more <= 192, said)
    return said


def sick(program: str, folder: str) -> str:
    """60 clients, each with 75 messages of 2,000 octets, at a gateway that made nothing since its start. The files of the other one take what begins a
    journal, and no record."""
    ports = free_ports(4)
    with Gateway(program, folder, 1, (ports[0], ports[1])) as healthy, \
            Gateway(program, folder, 2, (ports[2], ports[3]), peers=f"[{at_port(ports[1])}]") as ill:
        fill(healthy, 60, 75)
        ill.room = 20
        ill.write()
        ill.begin()
        began = time.monotonic()
        until(lambda: len(ill.openings()) >= 5, 240, "the journal of the peer was not opened five times", 0.2)
        time.sleep(max(0.0, began + 30 - time.monotonic()))
        healthy.alive()
        said = f"{len(healthy.shifts())} shifts were closed in {time.monotonic() - began:.0f} seconds, in which the journal of the peer was opened {len(ill.openings())} times"
        expect(not healthy.shifts(), said)
    return said


def take(name: bytes, duration: int = 60) -> bytes:
    """An operation: a client is taken under stamp 1.200."""
    return b"\x01" + bytes([len(name)]) + name + bytes(7) + b"\x01\xc8\x00\x00\x00\x01" + duration.to_bytes(2, "big") + b"\x00\x01" + bytes(8)


def tells(gateway: Gateway, *deltas: list) -> None:
    """Gateway 200 tells deltas of these operations."""
    with socket.create_connection((HOST, gateway.link), 5) as link:
        link.sendall(HELLO + b"".join(message(3, b"\x01" + len(ops).to_bytes(4, "big") + b"".join(ops)) for ops in deltas))
        time.sleep(1)


def lines(program: str, folder: str) -> str:
    """The contradiction: client s1 is taken under one stamp for another time. It is one of 4,096 clients."""
    names, wrong = [place.to_bytes(2, "big") for place in range(4096)], [take(b"s1", 61)]
    told = {"link: another gateway has the number 7 of this one, and is not linked: 1 times",
            "link: gateway 200 told what contradicts what is kept, and was refused: 1 times",
            "link: gateway 200 told more than may be kept, and was refused: 1 times",
            "link: 8 that dialled are linked, and another was turned away: 1 times"}
    with Gateway(program, folder, 7) as gateway:
        gateway.start()
        with socket.create_connection((HOST, gateway.link), 5) as link:
            link.sendall(message(1, b"\x07"))
            time.sleep(0.5)
        began = time.monotonic()
        tells(gateway, [take(b"s1")], wrong)
        tells(gateway, [take(name) for name in names[:-1]], [take(names[-1])])
        until(lambda: take(names[-2]) in gateway.held(), 30, "there are not 4,096 clients")
        links = [socket.create_connection((HOST, gateway.link), 5) for _ in range(9)]
        time.sleep(1)
        for link in links:
            link.close()
        time.sleep(0.5)
        tells(gateway, wrong, wrong, wrong)
        time.sleep(max(0.0, began + PAUSE - 2 - time.monotonic()))
        found = gateway.told().splitlines()
        expect(len(found) == 4 and set(found) == told, f"told {found}")
        expect(take(names[-1]) not in gateway.held(), "there are 4,097 clients")
        time.sleep(4)
        found = gateway.told().splitlines()[4:]
    expect(found == ["link: gateway 200 told what contradicts what is kept, and was refused: 3 times"], f"a minute later told {found}")
    return "four lines, and one a minute later"


def numbers(program: str, folder: str) -> str:
    """A gateway links with those alone that its settings name."""
    ports = free_ports(6)
    with Gateway(program, folder, 1, (ports[0], ports[1]), numbers="[2]") as here, \
            Gateway(program, folder, 2, (ports[2], ports[3]), peers=f"[{at_port(ports[1])}]") as friend, \
            Gateway(program, folder, 3, (ports[4], ports[5]), peers=f"[{at_port(ports[1])}]") as stranger:
        for gateway in (here, friend, stranger):
            gateway.start()
        sleeps_at(here, b"s-here")
        friend.await_octets(b"s-here", 10)
        time.sleep(3)
        expect(b"s-here" not in stranger.held(), "a gateway was linked that is not among numbers")
        told = here.told()
    expect(told.startswith("link: gateway 3 is not among numbers, and is not linked: 1 times\n"), f"told {told!r}")
    return "one of two"


def twice(program: str, folder: str) -> str:
    """Gateway 3 dials two gateways of number 1; and whoever says 9 while a link has said it is told of, too."""
    ports, homes = free_ports(6), [os.path.join(folder, name) for name in ("one", "other")]
    for home in homes:
        os.mkdir(home)
    with Gateway(program, homes[0], 1, (ports[0], ports[1])) as one, Gateway(program, homes[1], 1, (ports[2], ports[3])) as other, \
            Gateway(program, folder, 3, (ports[4], ports[5]), peers=f"[{at_port(ports[1])}, {at_port(ports[3])}]") as third:
        for gateway in (one, other, third):
            gateway.start()
        line = "link: gateway {} was linked once more while it was linked: 1 times\n"
        until(lambda: line.format(1) in third.told(), 10, "no line tells of two gateways of number 1")
        with socket.create_connection((HOST, third.link), 5) as first, socket.create_connection((HOST, third.link), 5) as second:
            first.sendall(message(1, b"\x09"))
            time.sleep(0.5)
            second.sendall(message(1, b"\x09"))
            until(lambda: line.format(9) in third.told(), 10, "no line tells of two links that said 9")
    return "a line each"


PARTS = {"far": far, "places": places, "gone": gone, "busy": busy, "knock": knock, "mute": mute, "pieces": pieces, "breaks": breaks, "lines": lines,
         "numbers": numbers, "twice": twice, "sick": sick, "asks": asks, "bound": bound, "memory": memory}


def main() -> int:
    reader = argparse.ArgumentParser()
    reader.add_argument("program")
    reader.add_argument("parts", nargs="*", choices=[*PARTS, []])
    asked = reader.parse_args()
    program, good = os.path.abspath(asked.program), True
    for part in asked.parts or PARTS:
        with tempfile.TemporaryDirectory(prefix="links-") as folder:
            try:
                print(f"  ok    {part}: {PARTS[part](program, folder)}", flush=True)
            except (Failed, OSError, subprocess.SubprocessError) as why:
                good = False
                print(f"  FAIL  {part}: {why}", flush=True)
    return 0 if good else 1


if __name__ == "__main__":
    sys.exit(main())
