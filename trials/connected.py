#!/usr/bin/env python3
"""Tries fields that are connected and not linked in every pair: a chain, a ring and a star of five, and what a mesh costs.

Usage: trials/connected.py PROGRAM [PART..] [--seconds N]

The parts, all where none is named:

  chain   1 - 2 - 3 - 4 - 5: what is published at one gateway is in the journal of each other one within N seconds (1) for each hop
  ring    the same, and 5 is linked with 1
  star    each is linked with 1 alone
  killed  in the chain 1 is killed as soon as 2 heard of a message: it comes to 5 all the same. In a mesh of three, over a link that holds back
          what 1 says to 3, 1 is killed as soon as 2 heard: 3 asks 2, and has it within 15 seconds
  away    in the chain 1 - 2 - 3 something is published with Retain at 1 while 3 is away, and 1 is killed before 3 is back: who subscribes at 3 is
          handed it
  mesh    of four that are linked in every pair no gateway gets a delta twice

All goes on at 127.0.0.1, at ports that the system gives, in a folder that is gone afterwards. Status 0 only where nothing failed.
"""
import argparse
import os
import socket
import sys
import tempfile
import threading
import time

sys.dont_write_bytecode = True
from gateway import HOST, RETAIN, Client, Display, Failed, Gateway, at_port, expect, free_ports, publish, published, subscribe, until

SHAPES = {
    "chain": [(1, 2), (2, 3), (3, 4), (4, 5)],
    "ring": [(1, 2), (2, 3), (3, 4), (4, 5), (5, 1)],
    "star": [(2, 1), (3, 1), (4, 1), (5, 1)],
    "mesh": [(1, 2), (1, 3), (1, 4), (2, 3), (2, 4), (3, 4)],
}
PARTS = ("chain", "ring", "star", "killed", "away", "mesh")


class Hold:
    """A way to an address that can be held: from then on nothing goes through it in either direction. Something has gone through it so often."""

    def __init__(self, port: int):
        self.port, self.held, self.carried = port, False, 0
        self.listener = socket.create_server((HOST, 0))
        self.at = self.listener.getsockname()[1]
        threading.Thread(target=self.accept, daemon=True).start()

    def accept(self) -> None:
        while True:
            here, _ = self.listener.accept()
            try:
                there = socket.create_connection((HOST, self.port), 5)
            except OSError:
                here.close()
                continue
            for one, other in ((here, there), (there, here)):
                threading.Thread(target=self.carry, args=(one, other), daemon=True).start()

    def carry(self, one: socket.socket, other: socket.socket) -> None:
        try:
            while octets := one.recv(65536):
                if not self.held:
                    other.sendall(octets)
                    self.carried += 1
        except OSError:
            pass
        for end in (one, other):
            try:
                end.shutdown(socket.SHUT_RDWR)
            except OSError:
                pass


def field(program: str, folder: str, dials: list, held: dict, **more: str) -> list:
    """Gateways of which the first of each pair dials the second, over another port where one is given for the pair."""
    count = max(max(pair) for pair in dials)
    ports = free_ports(2 * count)
    pairs = list(zip(ports[::2], ports[1::2]))
    ways = {pair: Hold(pairs[pair[1] - 1][1]) for pair in held}
    held.update(ways)
    gateways = []
    for number in range(1, count + 1):
        links = [ways[pair].at if pair in ways else pairs[pair[1] - 1][1] for pair in dials if pair[0] == number]
        peers = "[" + ", ".join(at_port(link) for link in links) + "]"
        gateways.append(Gateway(program, folder, number, pairs[number - 1], peers=peers, **more))
    return gateways


def hops(dials: list, start: int) -> dict:
    """How many hops lead from a gateway to each."""
    found, near = {start: 0}, [start]
    while near:
        here = near.pop(0)
        for pair in dials:
            for one, other in (pair, pair[::-1]):
                if one == here and other not in found:
                    found[other] = found[here] + 1
                    near.append(other)
    return found


def owed(gateways: list) -> None:
    """A sleeper at the first gateway to whom all that follows is owed, and all gateways know it."""
    with Client(b"s-owed", gateways[0]) as sleeper:
        sleeper.connect()
        sleeper.ask(subscribe(b"ow", 1, 0x22), b"\x08\x13")
        sleeper.sleep()
    for gateway in gateways:
        gateway.await_octets(b"s-owed", 30)


def say(gateway: Gateway, name: bytes, body: bytes) -> None:
    with Client(name, gateway) as publisher:
        publisher.connect(clean=True)
        publisher.ask(publish(b"ow", body, 1), published(b"ow", 1))


def delivers(gateways: list, dials: list, seconds: float) -> str:
    """What is published at each gateway comes to each other one in time."""
    began = time.monotonic()
    owed(gateways)
    known, slowest = time.monotonic() - began, 0.0
    for gateway in gateways:
        body = b"<said at %d>" % gateway.number
        say(gateway, b"p-%d" % gateway.number, body)
        began, ways = time.monotonic(), hops(dials, gateway.number)
        for other in sorted(gateways, key=lambda it: ways[it.number]):
            if other is not gateway:
                other.await_octets(body, max(0.1, seconds * ways[other.number] - (time.monotonic() - began)))
                slowest = max(slowest, (time.monotonic() - began) / ways[other.number])
    time.sleep(1)
    counts = [gateway.held().count(b"<said at 1>") for gateway in gateways]
    return f"all knew the subscription after {known * 1000:.0f} ms, {slowest * 1000:.0f} ms a hop at most, written {counts} times"


def killed_in_chain(gateways: list) -> str:
    owed(gateways)
    body = b"<last words of 1>"
    say(gateways[0], b"p-last", body)
    gateways[1].await_octets(body, 5)
    gateways[0].kill()
    return f"{gateways[4].await_octets(body, 5) * 1000:.0f} ms"


def killed_in_mesh(gateways: list, way: Hold) -> str:
    until(lambda: way.carried >= 4, 20, "there is no link over the way that is to be held")
    owed(gateways)
    time.sleep(1.5)
    way.held = True
    body = b"<last words of 1>"
    say(gateways[0], b"p-last", body)
    gateways[1].await_octets(body, 5)
    expect(body not in gateways[2].held(), "the message came over a link that was held")
    gateways[0].kill()
    return f"{gateways[2].await_octets(body, 15):.1f} seconds"


def kept_for_one_away(gateways: list) -> str:
    """What is retained comes to a gateway that was away from one that only heard of it."""
    one, two, three = gateways
    body = b"<read while 3 is away>"
    three.kill()
    with Client(b"sensor", one) as sensor:
        sensor.connect(clean=True)
        sensor.ask(publish(b"aw", body, 1, 0x22 | RETAIN), published(b"aw", 1))
    two.await_octets(body, 5)
    one.kill()
    three.start()
    took = three.await_octets(body, 30)
    with Display(b"display", three) as display:
        display.connect(clean=True)
        display.subscribe(b"aw", 0x22)
        got = display.fetches()
    expect(got == [(b"aw", body, 1, True)], f"who subscribed at gateway 3 was handed {got}")
    return f"{took:.1f} seconds after its first answer"


def mesh_costs(gateways: list, messages: int) -> str:
    """No delta comes twice where each pair is linked."""
    owed(gateways)
    time.sleep(1)
    bodies = [b"<mesh %06d>" % message for message in range(messages)]
    with Client(b"p-mesh", gateways[0]) as publisher:
        publisher.connect(clean=True)
        for message, body in enumerate(bodies):
            publisher.ask(publish(b"ow", body, message + 1), published(b"ow", message + 1))
        repeats = publisher.repeats
    for gateway in gateways:
        gateway.await_octets(bodies[-1], 10)
        gateway.settle()
    written = [sum(gateway.held().count(body) for body in bodies) for gateway in gateways]
    expect(all(messages <= count <= messages + repeats for count in written), f"{messages} messages were written {written} times")
    return f"{messages} messages were written {written} times"


def tried(program: str, name: str, held: list, trial, dials: list) -> bool:
    """Starts a field of this shape, and tries something there."""
    ways = {pair: None for pair in held}
    with tempfile.TemporaryDirectory(prefix="connected-") as folder:
        gateways = field(program, folder, dials, ways)
        try:
            for gateway in gateways:
                gateway.start()
            time.sleep(1.5)
            print(f"  ok    {name}: {trial(gateways, ways)}", flush=True)
            return True
        except (Failed, OSError) as why:
            print(f"  FAIL  {name}: {why}", flush=True)
            return False
        finally:
            for gateway in gateways:
                gateway.kill()


def main() -> int:
    reader = argparse.ArgumentParser()
    reader.add_argument("program")
    reader.add_argument("parts", nargs="*", choices=[*PARTS, []])
    reader.add_argument("--seconds", type=float, default=1)
    asked = reader.parse_args()
    program, good = os.path.abspath(asked.program), True
    for part in asked.parts or PARTS:
        if part in ("chain", "ring", "star"):
            dials = SHAPES[part]
            good &= tried(program, f"a {part} of five", [], lambda them, _: delivers(them, dials, asked.seconds), dials)
        if part == "killed":
            good &= tried(program, "the first of a chain of five is killed", [], lambda them, _: killed_in_chain(them), SHAPES["chain"])
            good &= tried(program, "one of a mesh of three is killed", [(1, 3)],
                          lambda them, ways: killed_in_mesh(them, ways[(1, 3)]), [(1, 2), (1, 3), (2, 3)])
        if part == "away":
            good &= tried(program, "something is retained while one of three is away", [], lambda them, _: kept_for_one_away(them), [(1, 2), (2, 3)])
        if part == "mesh":
            good &= tried(program, "a mesh of four", [], lambda them, _: mesh_costs(them, 200), SHAPES["mesh"])
    return 0 if good else 1


if __name__ == "__main__":
    sys.exit(main())
