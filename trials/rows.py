#!/usr/bin/env python3
"""Tries rows: calls that wait for each other's sync, and share the next one.

Usage: trials/rows.py PROGRAM [PART..] [--kills N] [--failures N] [--clients N] [--seed N] [--seconds N]

The parts, all where none is named:

  kills   the daemon is killed N times (100) amid publications at quality of service 1 of N clients (32), of which each has one under way, while
          each sync takes 10 ms longer. Behind each start all that was acknowledged is in the journal, and in the end it comes to who sleeps.
          There are fewer syncs than half of what was acknowledged, though the clients connect anew behind each start
  fails   N times (10) a write or a sync fails amid the same: one publication is refused each time, and what was acknowledged comes to who sleeps
  held    the reply to one datagram goes out two seconds late, and a datagram right behind it is answered before, by the other of two workers
  peer    64 deltas that come over a link at once are in the journal with one sync, or with two

A start may take N seconds (30). It needs cc. All goes on at 127.0.0.1, at ports that the system gives, in a folder that is gone afterwards.
Status 0 only where nothing failed.
"""
import argparse
import os
import random
import re
import select
import signal
import socket
import subprocess
import sys
import tempfile
import time

sys.dont_write_bytecode = True
from gateway import AGAIN, CONNECTED, GONE, HOST, PONG, Client, Failed, Gateway, connect, expect, number, opened, ping, publish, subscribe, until
from standing import Loaded, Slow, sleeps_at

LATER = 10  # milliseconds that a sync takes longer
MOST = 900  # messages of a turn; 1,024 may wait for a client
DELTAS = 64  # deltas that come at once


class Counted(Slow):
    """Slows each sync, and fails it where it is to fail; and counts them."""

    def __init__(self, folder: str):
        super().__init__(folder)
        self.count = os.path.join(folder, "syncs")
        open(self.count, "wb").close()

    def syncs(self) -> int:
        return os.path.getsize(self.count)

    def fail(self) -> None:
        self.say(f"{LATER}!")

    def __enter__(self):
        os.environ["SYNCS_COUNTED"] = self.count
        return super().__enter__()

    def __exit__(self, *words):
        super().__exit__(*words)
        del os.environ["SYNCS_COUNTED"]


class Late(Loaded):
    """Lets what goes to a port go out late."""

    name = "late_reply"


class Publisher:
    """A client with one publication under way. It sends it again if no answer comes, and connects where it is not known."""

    def __init__(self, place: int, gateway: Gateway):
        self.client, self.place, self.done, self.message = Client(b"p-%02d" % place, gateway), place, 0, 0
        self.octets, self.body, self.late = b"", b"", 0.0

    def next(self, topic: bytes) -> None:
        self.done, self.message = self.done + 1, self.message % 65535 + 1
        self.body = b"<%02d-%06d>" % (self.place, self.done)
        self.octets = publish(topic, self.body, self.message)
        self.send(self.octets)

    def send(self, octets: bytes) -> None:
        self.late = time.monotonic() + AGAIN
        self.client.send(octets)

    def repeat(self, moment: float) -> None:
        if self.octets and moment > self.late:
            self.client.repeats += 1
            self.send(self.octets)

    def hear(self) -> str:
        """What one datagram says of the publication under way: kept, refused or nothing."""
        octets = self.client.receive(0.001)
        if octets is None:
            return ""
        kind, body = opened(octets)
        if octets == GONE:
            self.send(connect(self.client.name))
        elif octets == CONNECTED and self.octets:
            self.send(self.octets)
        elif kind == 0x0D and body[2:4] == number(self.message):
            return "refused" if body[4] else "kept"
        return ""


class Crowd:
    """So many publishers, and what was acknowledged to them."""

    def __init__(self, gateway: Gateway, count: int):
        self.gateway, self.kept, self.refused = gateway, set(), 0
        self.all = [Publisher(place, gateway) for place in range(count)]
        self.by_socket = {one.client.socket: one for one in self.all}

    def begin(self) -> None:
        """Nothing is under way. Who is not known to the gateway connects when it publishes."""
        for one in self.all:
            one.octets = b""
            one.client.flush()

    def listen(self, topic: bytes, most: int) -> None:
        """Hears what has come within a moment. Who is answered publishes on, so many messages in all at most."""
        for found in select.select(list(self.by_socket), [], [], 0.01)[0]:
            one = self.by_socket[found]
            said = one.hear()
            if said == "kept":
                self.kept.add(one.body)
                one.octets = b""
                if topic and sum(other.done for other in self.all) < most:
                    one.next(topic)
            self.refused += said == "refused"

    def publish(self, topic: bytes, seconds: float, is_done=lambda: False) -> None:
        """All publish for so long, or until something holds."""
        most, end = sum(one.done for one in self.all) + MOST, time.monotonic() + seconds
        for one in self.all:
            if not one.octets:
                one.next(topic)
        while (moment := time.monotonic()) < end and not is_done():
            self.listen(topic, most)
            for one in self.all:
                one.repeat(moment)

    def finish(self, seconds: float) -> None:
        """Waits until nothing is under way any more."""
        end = time.monotonic() + seconds
        while any(one.octets for one in self.all):
            expect(time.monotonic() < end, f"{sum(1 for one in self.all if one.octets)} publications are not answered")
            self.listen(b"", 0)
            for one in self.all:
                one.repeat(time.monotonic())

    def drain(self) -> None:
        """Hears what came before the daemon was killed."""
        while select.select(list(self.by_socket), [], [], 0.02)[0]:
            self.listen(b"", 0)

    def look(self) -> None:
        """All that was acknowledged is in the journal."""
        missing = self.kept - set(re.findall(rb"<\d\d-\d{6}>", self.gateway.held()))
        expect(not missing, f"{len(missing)} acknowledged messages are not in the journal, as {sorted(missing)[:3]}")


def topic_of(turn: int) -> bytes:
    return number(0x4141 + turn // 26 * 256 + turn % 26)


def wake_all(gateway: Gateway, crowd: Crowd, turns: int) -> int:
    """What was acknowledged comes to who sleeps. How many messages came."""
    got = []
    for turn in range(turns):
        with Client(b"s-%03d" % turn, gateway) as sleeper:
            got += sleeper.wake(120)
    missing = crowd.kept - set(got)
    expect(not missing, f"{len(missing)} acknowledged messages did not come, as {sorted(missing)[:3]}")
    return len(got)


def kills(program: str, folder: str, options) -> str:
    chance, syncs, slowest = random.Random(options.seed), 0, 0.0
    with Counted(folder) as slow, Gateway(program, folder, 1) as gateway:
        crowd = Crowd(gateway, options.clients)
        for turn in range(options.kills):
            slow.say(0)
            began = time.monotonic()
            gateway.start()
            slowest = max(slowest, time.monotonic() - began)
            crowd.look()
            sleeps_at(gateway, b"s-%03d" % turn, topic_of(turn))
            crowd.begin()
            slow.say(LATER)
            before = slow.syncs()
            wanted = len(crowd.kept) + chance.randint(1, 3 * options.clients)
            crowd.publish(topic_of(turn), 60, lambda wanted=wanted: len(crowd.kept) >= wanted)
            gateway.kill()
            syncs += slow.syncs() - before
            crowd.drain()
        slow.say(0)
        gateway.start()
        crowd.look()
        got = wake_all(gateway, crowd, options.kills)
    said = f"{len(crowd.kept)} acknowledged with {syncs} syncs, {got} got, none of these missing; the slowest start took {slowest:.2f} seconds"
    expect(crowd.refused == 0, f"{crowd.refused} publications were refused")
    expect(2 * syncs < len(crowd.kept), said)
    return said


def fails(program: str, folder: str, options) -> str:
    """In turn a write fails, as on a full disk, in the middle of its records, and the gateway goes on; and a sync fails, and the gateway ends, as
    nobody knows what the file has."""
    with Counted(folder) as slow, Gateway(program, folder, 1) as gateway:
        crowd = Crowd(gateway, options.clients)
        for turn in range(options.failures):
            if turn % 2 == 0:
                gateway.room = 1 << 30
                gateway.start()
            sleeps_at(gateway, b"s-%03d" % turn, topic_of(turn))
            crowd.begin()
            slow.say(LATER)
            crowd.publish(topic_of(turn), 0.3)
            refused = crowd.refused
            if turn % 2 == 0:
                gateway.limit_room(max(map(len, gateway.slots())) + 100)
            else:
                slow.fail()
            crowd.publish(topic_of(turn), 20, lambda refused=refused: crowd.refused > refused)
            slow.say(0)
            expect(crowd.refused > refused, "no publication was refused")
            if turn % 2 == 0:
                gateway.make_room()
                crowd.finish(30)
            else:
                status = gateway.process.wait(30)
                expect((status, gateway.told()) == (2, "sngw: journal J1\n"), f"it ended with {status} and told {gateway.told()!r}")
            crowd.look()
        expect(crowd.refused == options.failures, f"{crowd.refused} publications were refused, and {options.failures} writes or syncs failed")
        gateway.kill()
        gateway.start()
        crowd.look()
        got = wake_all(gateway, crowd, options.failures)
    return f"{len(crowd.kept)} acknowledged, {crowd.refused} refused, {got} got, none of these missing"


def held(program: str, folder: str, _) -> str:
    """While a sync is under way two PINGREQ come. The reply to the first is late."""
    with Counted(folder) as slow, Late(folder) as late, Gateway(program, folder, 1, workers="2") as gateway:
        gateway.start()
        sleeps_at(gateway, b"s-held")
        took = []
        with Client(b"slow", gateway) as writer, Client(b"first", gateway) as first, Client(b"second", gateway) as second:
            for client in (writer, first, second):
                client.connect()
            late.say(first.socket.getsockname()[1])
            for turn in range(3):
                slow.say(500)
                writer.send(publish(b"ow", b"<%d>" % turn, turn + 1))
                time.sleep(0.2)
                slow.say(0)
                first.send(ping())
                second.send(ping())
                began = time.monotonic()
                expect(second.receive(10) == PONG, "the datagram behind it was not answered")
                took.append(time.monotonic() - began)
                expect(first.receive(10) == PONG and time.monotonic() - began > 2, "the reply was not late")
                while writer.receive(0.2) is not None:
                    pass
    expect(max(took) < 1.9, f"the datagram behind it was answered after {max(took):.2f} seconds")
    return f"the datagram behind it was answered after {max(took):.2f} seconds at most"


def message_of(kind: int, body: bytes) -> bytes:
    return bytes([kind]) + len(body).to_bytes(4, "big") + body


def delta_of(place: int) -> bytes:
    """What gateway 2 makes of the first CONNECT of a client (docs/JOURNAL.md)."""
    return bytes.fromhex("0100000001 01 04") + b"d-%02d" % place + bytes.fromhex("0000000000000001 02 00 0000 01 003c 0001 0000000000000000")


def peer(program: str, folder: str, _) -> str:
    with Counted(folder) as slow, Gateway(program, folder, 1) as gateway:
        gateway.start()
        with socket.create_connection((HOST, gateway.link), 5) as link:
            link.sendall(message_of(1, b"\x02") + message_of(2, b"\x01\x00\x00\x00\x00"))
            until(lambda: link.recv(4096), 20, "the link is not answered")
            time.sleep(1)
            slow.say(LATER)
            before = slow.syncs()
            link.sendall(b"".join(message_of(3, delta_of(place)) for place in range(DELTAS)))
            for place in range(DELTAS):
                gateway.await_octets(b"d-%02d" % place)
            time.sleep(0.2)
            syncs = slow.syncs() - before
    expect(1 <= syncs <= 2, f"{DELTAS} deltas took {syncs} syncs")
    return f"{DELTAS} deltas took {syncs} syncs"


PARTS = {"kills": kills, "fails": fails, "held": held, "peer": peer}


def stop(*_) -> None:
    sys.exit("stopped")


def main() -> int:
    reader = argparse.ArgumentParser(description=__doc__, formatter_class=argparse.RawDescriptionHelpFormatter)
    reader.add_argument("program")
    reader.add_argument("parts", nargs="*", choices=[*PARTS, []])
    for name, usual in (("kills", 100), ("failures", 10), ("clients", 32), ("seed", 1), ("seconds", 30)):
        reader.add_argument(f"--{name}", type=int, default=usual)
    options = reader.parse_args()
    program, good = os.path.abspath(options.program), True
    signal.signal(signal.SIGTERM, stop)
    Gateway.within = float(options.seconds)
    for part in options.parts or PARTS:
        with tempfile.TemporaryDirectory(prefix="rows-") as folder:
            try:
                print(f"  ok    {part}: {PARTS[part](program, folder, options)}", flush=True)
            except (Failed, OSError, subprocess.SubprocessError) as why:
                good = False
                print(f"  FAIL  {part}: {str(why)[:300]}", flush=True)
    return 0 if good else 1


if __name__ == "__main__":
    sys.exit(main())
