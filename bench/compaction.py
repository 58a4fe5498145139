#!/usr/bin/env python3
"""Times a compaction of the daemon, and what it does to a start: all in one run, on one journal.

Usage: bench/compaction.py PROGRAM [--clients N] [--waiting N] [--past N]

A journal is made up as a gateway would have written it: N clients (1,000) connect; then messages are put for each of them, of which the first N
(300) are acknowledged and the last N (100) wait. The daemon opens it, works a shift, and so compacts it, and opens what that leaves. Printed
are octets, records and seconds before and after, how long no request was answered while the shift turned, and the ratios. A name is one of a
session's change, a message or a range of acknowledgements. Seconds say little on another machine; the ratios do.
"""
import argparse
import os
import subprocess
import sys
import tempfile
import time

sys.dont_write_bytecode = True
sys.path.insert(0, os.path.join(os.path.dirname(os.path.dirname(os.path.abspath(__file__))), "trials"))
from gateway import Client, Gateway, expect, frame, search, until

HEADER = bytes.fromhex("534e4a31 01 0000000000000001")
SEAL = b"\x53"
SESSION = bytes.fromhex("01 00 003c 0001 0000 0000 00 0000 00")
TOPIC, BODY = b"field/7/soil", b"21.5 C, 38 %, 3.61 V"


def sized(octets: bytes, width: int) -> bytes:
    return len(octets).to_bytes(width, "big") + octets


def record(operations: list) -> bytes:
    delta = b"\x01" + len(operations).to_bytes(4, "big") + b"".join(operations)
    return b"\x44" + sized(delta, 4)


def take(client: bytes) -> bytes:
    """The client's session begins: epoch 1 of gateway 1, operation 0."""
    return b"\x01" + sized(client, 1) + bytes.fromhex("0000000000000001 01 00 00") + SESSION


def put(client: bytes, message: int) -> bytes:
    return b"\x02" + sized(client, 1) + b"\x01" + message.to_bytes(8, "big") + sized(TOPIC, 2) + b"\x01" + sized(BODY, 2)


def acknowledged(client: bytes, message: int) -> bytes:
    return b"\x03" + sized(client, 1) + b"\x01" + message.to_bytes(8, "big") * 2


def journal(clients: list, past: int, waiting: int) -> bytes:
    """Each message is put for all clients in one record; those of the past are acknowledged in another."""
    records = [record([take(client) for client in clients])]
    for message in range(1, past + waiting + 1):
        records.append(record([put(client, message) for client in clients]))
        if message <= past:
            records.append(record([acknowledged(client, message) for client in clients]))
    return HEADER + SEAL + b"".join(records)


def seconds_to_open(gateway: Gateway) -> tuple:
    """Seconds from the start to the end of a daemon that opens its journal and ends; and the records that it read."""
    began = time.monotonic()
    ran = subprocess.run([gateway.program, "--config", gateway.settings, "--shifts", "0"], capture_output=True, text=True)
    took = time.monotonic() - began
    expect(ran.returncode == 0, f"the start ended with {ran.returncode}: {ran.stderr.strip()}")
    return took, int(ran.stdout.split()[3])


def turn_a_shift(gateway: Gateway) -> float:
    """Works until a shift was closed that wrote something, and gives the longest time for which a request went without an answer."""
    longest = 0.0
    with Client(b"prober", gateway) as prober:
        prober.connect()
        while not gateway.shifts() or len(gateway.slots()[1]) < 14:
            began = time.monotonic()
            prober.ask(search(), frame(0x02, bytes([gateway.number])), 120, 0.05)
            longest = max(longest, time.monotonic() - began)
    return longest


def measure(program: str, folder: str, clients: int, past: int, waiting: int) -> None:
    gateway = Gateway(program, folder, 1, steps="64")
    gateway.write()
    empty, _ = seconds_to_open(gateway)
    names = sorted(b"sensor-%05d" % client for client in range(clients))
    with open(gateway.journal + ".0", "wb") as slot:
        slot.write(journal(names, past, waiting))
    full = os.path.getsize(gateway.journal + ".0")
    before, records = seconds_to_open(gateway)
    gateway.start(seconds=120)
    gap = turn_a_shift(gateway)
    until(lambda: len(gateway.slots()[1]) > full // 1000, 120, "no base was written")
    gateway.kill()
    written = os.path.getsize(gateway.journal + ".1")
    after, left = seconds_to_open(gateway)
    names_before, names_after = clients * (1 + waiting + 2 * past), clients * (1 + waiting + (past > 0))
    print(f"{clients} clients, each with {waiting} messages that wait and {past} that were acknowledged")
    print(f"before: {full} octets, {records} records; a start takes {before - empty:.2f} s, {names_before / (before - empty):.0f} names/s")
    print(f"compacting: {written} octets written at once; while the shift turned no request was answered for {gap:.2f} s")
    print(f"after: {left} records; a start takes {after - empty:.2f} s, {names_after / (after - empty):.0f} names/s")
    print(f"octets {written / full:.3f} of what they were, a start {(after - empty) / (before - empty):.3f}")


def main() -> int:
    words = argparse.ArgumentParser(usage=__doc__)
    words.add_argument("program")
    for name, number in (("--clients", 1000), ("--waiting", 100), ("--past", 300)):
        words.add_argument(name, type=int, default=number)
    asked = words.parse_args()
    with tempfile.TemporaryDirectory() as folder:
        measure(os.path.abspath(asked.program), folder, asked.clients, asked.past, asked.waiting)
    return 0


if __name__ == "__main__":
    sys.exit(main())
