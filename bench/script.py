#!/usr/bin/env python3
"""Writes a script for gw_sim: a few gateways, and then events.

Usage: bench/script.py [EVENTS] [GATEWAYS] [CLIENTS]      (10000, 8 and 256 where nothing is said)

Of a hundred events one shows a gateway, some forty deliver a delta that was made, and the others are
frames: CONNECT, and DISCONNECT with a duration. Each frame makes a delta. The same numbers give the same
script.
"""

import random
import sys


def connect(client: bytes, duration: int) -> bytes:
    """CONNECT with CleanSession (MQTT-SN 1.2 section 5.4.4)."""
    body = bytes([0x04, 0x04, 0x01]) + duration.to_bytes(2, "big") + client
    return bytes([len(body) + 1]) + body


def asleep(duration: int) -> bytes:
    """DISCONNECT with a duration (section 5.4.21)."""
    return bytes([4, 0x18]) + duration.to_bytes(2, "big")


def main() -> None:
    words = [int(word) for word in sys.argv[1:]]
    events, gateways, clients = (words + [10000, 8, 256][len(words):])[:3]
    chance = random.Random(1)
    lines = [f"gateway {number}" for number in range(1, gateways + 1)]
    bound = {}  # the gateway that has a client's address, as far as no delivery can have taken it away
    deltas = 0
    for now in range(events):
        gateway = chance.randint(1, gateways)
        port = chance.randrange(clients)
        kind = chance.randrange(100)
        if kind == 0:
            lines.append(f"show {gateway}")
        elif kind < 40 and deltas > 0:
            lines.append(f"take {gateway} {chance.randint(1, deltas)}")
            bound.clear()
        elif bound.get(port) == gateway:
            lines.append(f"frame {gateway} {port} {now} {asleep(chance.randrange(1, 1000)).hex()}")
            deltas += 1
        else:
            client = b"sensor-%04d" % port
            lines.append(f"frame {gateway} {port} {now} {connect(client, 60).hex()}")
            bound[port] = gateway
            deltas += 1
    print("\n".join(lines))


main()
