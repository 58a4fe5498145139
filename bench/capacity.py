#!/usr/bin/env python3
"""Measures what clients and waiting messages cost a gateway, in its journal and in memory, and how long a start takes.

Usage: bench/capacity.py PROGRAM [--clients N] [--messages N] [--steps N] [--records N]

N sensors (200) connect over UDP, subscribe to one topic and fall asleep. Then N messages (20) of 32 octets are published for all of them,
and as many of 4,096. Before and behind each of these the shift is let run out, so that the journal is compacted and the calls of the shift
are not kept any more. Printed are then the octets of the file that a start would read, and VmRSS; and for each client and each message by
how much both have grown. Last a journal of N records (10,000) is made up, one message in each, and opened. Octets are the same by every
build; VmRSS and seconds mean something by a proved build alone, on a machine that does nothing else.
"""
import argparse
import os
import subprocess
import sys
import tempfile
import time

sys.dont_write_bytecode = True
sys.path.insert(0, os.path.join(os.path.dirname(os.path.dirname(os.path.abspath(__file__))), "trials"))
from compaction import HEADER, SEAL, put, record, take
from gateway import (CONNECTED, FOREVER, GONE, Client, Gateway, connect, frame, leave, publish, published, register, search, subscribe)

TOPIC = b"field/7/soil"
PATIENCE = 300  # seconds that an answer may take: while a shift turns nobody is served
AGAIN = 30.0  # seconds after which a frame is sent again: one that is only late would put its message twice
HEAD = 14  # octets of a header with its seal: four of a mark, the gateway, eight of the generation, the seal


def length(gateway: Gateway) -> int:
    """The octets of the file that a start would read: of the two the one of the greater generation."""
    sealed = [slot for slot in gateway.slots() if len(slot) >= HEAD]
    return len(max(sealed, key=lambda slot: slot[5:13]))


def settle(gateway: Gateway, client: Client) -> tuple:
    """Lets two shifts run out; then octets of the journal, and VmRSS in octets."""
    wanted = len(gateway.shifts()) + 2
    answer = frame(0x02, bytes([gateway.number]))
    while len(gateway.shifts()) < wanted:
        client.ask(search(), answer, PATIENCE)
    time.sleep(0.2)
    return length(gateway), gateway.memory() * 1024


def told(words: str, count: int, before: tuple, after: tuple) -> None:
    """A line: what there is now, and by how much it has grown for each of those that came."""
    each = [(new - old) / count if count else 0 for old, new in zip(before, after)]
    print(f"{words:42} {after[0]:12,} {after[1] / 1024:12,.0f} {each[0]:10,.0f} {each[1]:10,.0f}", flush=True)


def sleepers(gateway: Gateway, count: int) -> list:
    """Names of sensors that have subscribed and sleep."""
    names = [f"sensor-{number:04}".encode() for number in range(count)]
    for name in names:
        with Client(name, gateway) as sensor:
            for octets, answer in ((connect(name, 0, True), CONNECTED), (subscribe(TOPIC), b"\x08\x13"), (leave(FOREVER), GONE)):
                sensor.ask(octets, answer, PATIENCE)
    return names


def publish_all(publisher: Client, field: bytes, count: int, size: int, first: int) -> None:
    for number in range(first, first + count):
        publisher.ask(publish(field, b"m" * size, number, 0x20), published(field, number), PATIENCE)


def live(program: str, folder: str, clients: int, messages: int, steps: int) -> None:
    with Gateway(program, folder, 1, steps=str(steps)) as gateway:
        gateway.start()
        with Client(b"publisher", gateway) as publisher:
            print(f"{'':42} {'journal':>12} {'VmRSS KiB':>12} {'each':>10} {'each, RSS':>10}")
            publisher.ask(connect(b"publisher", 0, True), CONNECTED, PATIENCE)
            field = publisher.ask(register(TOPIC, 1), b"\x07\x0b", PATIENCE)[2:4]
            empty = settle(gateway, publisher)
            told("no sensor", 0, empty, empty)
            sleepers(gateway, clients)
            before = settle(gateway, publisher)
            told(f"{clients} sensors that sleep", clients, empty, before)
            for size, first in ((32, 1000), (4096, 5000)):
                publish_all(publisher, field, messages, size, first)
                after = settle(gateway, publisher)
                told(f"{messages} messages of {size} for each", clients * messages, before, after)
                before = after
        gateway.kill()
        print(f"{seconds_to_open(gateway):.2f} seconds to open that journal, compacted", flush=True)


def seconds_to_open(gateway: Gateway) -> float:
    began = time.monotonic()
    subprocess.run([gateway.program, "--config", gateway.settings, "--shifts", "0"], cwd=gateway.folder, check=True, capture_output=True)
    return time.monotonic() - began


def made_up(program: str, folder: str, count: int) -> None:
    """A journal of so many records, one message in each, for a hundred clients in turn."""
    names = [f"sensor-{number:04}".encode() for number in range(100)]
    records = [record([take(name)]) for name in names]
    records += [record([put(names[number % 100], number // 100 + 1)]) for number in range(count - 100)]
    gateway = Gateway(program, folder, 1)
    gateway.write()
    octets = HEADER + SEAL + b"".join(records)
    for ending, text in ((".0", octets), (".1", b"")):
        with open(gateway.journal + ending, "wb") as file:
            file.write(text)
    taken = seconds_to_open(gateway)
    print(f"{taken:.2f} seconds to open {count:,} records of {len(octets):,} octets, {taken * 10_000 / count:.2f} for 10,000")


def main() -> int:
    parser = argparse.ArgumentParser(usage=__doc__)
    parser.add_argument("program")
    for name, usual in (("--clients", 200), ("--messages", 20), ("--steps", 64), ("--records", 10_000)):
        parser.add_argument(name, type=int, default=usual)
    given = parser.parse_args()
    program = os.path.abspath(given.program)
    Gateway.within, Client.again = PATIENCE, AGAIN
    with tempfile.TemporaryDirectory(prefix="capacity-") as folder:
        live(program, folder, given.clients, given.messages, given.steps)
    with tempfile.TemporaryDirectory(prefix="capacity-") as folder:
        made_up(program, folder, given.records)
    return 0


if __name__ == "__main__":
    sys.exit(main())
