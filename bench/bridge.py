#!/usr/bin/env python3
"""How many readings a second the bridge brings from a gateway to mosquitto, by one lane and by four, beside plain round trips to both.

Usage: bridge.py PROGRAM SNGW [--many N] [--turns N] [--spool] [--saves]

While the broker is away, so many readings wait for each lane, at most 1,000; then it comes back, and the time from the first to the last one at the
broker's reader counts. A plain round trip is a publication at quality of service 1 and its PUBACK: to the gateway, where a client sleeps that gets it,
and to the broker, whose reader gets it, one after the other. The goals are 0.7 of what both round trips add up to for one lane, and three times as much for
four lanes. Each is measured so many times in turn (5), and the best of each counts, as a disk may be slow for a while.
With --saves mosquitto saves all it has on each change, one message at a time: then it sets the pace, for any number of lanes.
"""
import argparse
import os
import pathlib
import signal
import socket
import sys
import tempfile
import time

sys.path.insert(0, str(pathlib.Path(__file__).resolve().parent.parent / "trials"))
from bridge import Node, Peer, Scene, broker_program, count_of, packet, text  # noqa: E402
from gateway import HOST, Failed, frame, number, until  # noqa: E402


def plain_to_gateway(scene: Scene, many: int) -> float:
    """The seconds of a round trip to the gateway, which keeps each message for one client that sleeps."""
    sleeper, sensor = Node(scene.gateway, b"sleeper"), Node(scene.gateway, b"plain")
    sleeper.connect()
    sleeper.listen(b"t/plain")
    sleeper.ask(frame(0x18, number(6000)), 0x18)
    sensor.connect()
    sensor.id_of(b"t/plain")
    began = time.monotonic()
    for at in range(many):
        sensor.publish(b"t/plain", b"%d" % at)
    return (time.monotonic() - began) / many


def plain_to_broker(scene: Scene, many: int) -> float:
    """The seconds of a round trip to the broker. Its reader gets each message."""
    with socket.create_connection((HOST, scene.broker_port), 5) as line:
        line.setsockopt(socket.IPPROTO_TCP, socket.TCP_NODELAY, 1)
        line.sendall(packet(0x10, text(b"MQTT") + bytes([4, 2]) + number(0) + text(b"plain")))
        octets = line.makefile("rb")
        octets.read(4)
        began = time.monotonic()
        for at in range(many):
            line.sendall(packet(0x32, text(b"field/plain") + number(at + 1) + b"%d" % at))
            octets.read(4)
        return (time.monotonic() - began) / many


def rate(words, folder: str, broker: tuple, lanes: int) -> tuple:
    """Readings a second by so many lanes, and the seconds of the plain round trips."""
    with Scene(words.program, words.sngw, broker, folder, lanes, spools=words.spool, saves=words.saves) as scene:
        reader = Peer(scene.broker_port, b"reader", (b"field/#",))
        scene.ready()
        until(lambda: reader.socket, 10, "the reader did not connect")
        trip = plain_to_gateway(scene, words.many) + plain_to_broker(scene, words.many)
        scene.broker.kill(signal.SIGTERM)
        time.sleep(1)
        sensor = Node(scene.gateway, b"s0")
        sensor.connect()
        names = scene.names[:lanes]
        for at in range(words.many):
            for name in names:
                sensor.publish(name, b"%d" % at)
        scene.broker.start()
        until(lambda: all(len(set(count_of(reader.came, b"field/1/" + name))) >= words.many for name in names), 300, "readings are missing", 0.5)
        moments = [moment for topic, _, moment in reader.came if topic != b"field/plain"]
        return len(names) * words.many / (max(moments) - min(moments)), trip


def main() -> int:
    words = argparse.ArgumentParser(description=__doc__, formatter_class=argparse.RawDescriptionHelpFormatter)
    words.add_argument("program", type=os.path.abspath)
    words.add_argument("sngw", type=os.path.abspath)
    words.add_argument("--many", type=int, default=1000)
    words.add_argument("--turns", type=int, default=5)
    words.add_argument("--spool", action="store_true")
    words.add_argument("--saves", action="store_true")
    words = words.parse_args()
    with tempfile.TemporaryDirectory() as folder:
        broker, why = broker_program(folder)
        if not broker:
            print(f"mosquitto cannot be had: {why}")
            return 0
        try:
            turns = [(rate(words, folder, broker, 1), rate(words, folder, broker, 4)) for _ in range(max(1, words.turns))]
        except Failed as fault:
            print(f"FAILED: {fault}")
            return 1
    one, four = max(one for (one, _), _ in turns), max(four for _, (four, _) in turns)
    trip = min(trip for pair in turns for _, trip in pair)
    print(f"plain    {1 / trip:8.0f} a second, a round trip to the gateway and one to the broker")
    print(f"one lane {one:8.0f} a second, {one * trip:.2f} of that; goal 0.7")
    print(f"four     {four:8.0f} a second, {four / one:.1f} times one; goal 3")
    return 0


if __name__ == "__main__":
    sys.exit(main())
