#!/usr/bin/env python3
"""A client falls asleep at one gateway and wakes at another, for many clients: events per second of gw_sim, journals in memory.

Usage: bench/takeover.py PROGRAM [CLIENTS] [FEW]      (100 and 10 where nothing is said)

The story is that of examples/takeover.script. CLIENTS clients that fall asleep at one gateway and wake at another are timed beside
the same number of clients that are FEW to a pair of gateways, in turn, seven times; the best counts. What a run of the gateways
without events takes, which is the start of a process, is taken off; the rate with it is told as well. The goal is that of the first
rate, without the start.
"""
import sys

from sessions import frame, seconds

GOAL = 150_000  # events a second


def story(first: int, second: int, client: int, made: int) -> list:
    """One client at two gateways, when so many deltas were made before; it makes eight."""
    name, topic, port = b"sensor-%04d" % client, b"t/%04d" % client, 2 * client + 2
    lines = [
        f"frame {first} {port} 0 " + frame(0x04, bytes([0x00, 0x01, 0, 60]) + name),
        f"frame {first} {port} 1 " + frame(0x12, bytes([0x20, 0, 2]) + topic),
        f"frame {first} {port} 2 " + frame(0x18, bytes([0x01, 0x2C])),
    ]
    lines += [f"take {second} {made + number}" for number in (1, 2, 3)]
    lines += [
        f"frame {second} {port + 1} 3 " + frame(0x04, bytes([0x04, 0x01, 0, 60]) + b"publisher-%04d" % client),
        f"frame {second} {port + 1} 4 " + frame(0x0A, bytes([0, 0, 0, 1]) + topic),
        f"frame {second} {port + 1} 5 " + frame(0x0C, bytes([0x20, 0, 1, 0, 2]) + b"H"),
        f"frame {second} {port} 6 " + frame(0x16, name),
        f"frame {second} {port} 7 " + frame(0x0D, bytes([0, 1, 0, 1, 0])),
    ]
    return lines + [f"take {first} {made + number}" for number in range(4, 9)]


def script(clients: int, apiece: int) -> str:
    """CLIENTS clients, so many to a pair of gateways; gateways have numbers from 1 on."""
    pairs = clients // apiece
    lines = [f"gateway {number + 1}" for number in range(2 * pairs)]
    for client in range(clients):
        pair = client // apiece
        lines += story(2 * pair + 1, 2 * pair + 2, client, 8 * client)
    return "\n".join(lines) + "\n"


def main() -> None:
    program = sys.argv[1]
    clients, few = ([int(word) for word in sys.argv[2:]] + [100, 10][len(sys.argv) - 2 :])[:2]
    scripts = [script(clients, clients), script(clients, few), "gateway 1\ngateway 2\n"]
    *best, start = [min(times) for times in zip(*([seconds(program, text) for text in scripts] for _ in range(7)))]
    rates = [16 * clients / (time - start) for time in best]
    print(f"{16 * clients} events of {clients} clients that sleep at one gateway and wake at another, journals in memory")
    print(f"  all at two gateways {rates[0]:.0f} events per second, goal {GOAL}: {'met' if rates[0] >= GOAL else 'MISSED'};"
          f" {few} to a pair of gateways {rates[1]:.0f}, {rates[1] / rates[0]:.2f} times as many")
    print(f"  with the start of the process, {1000 * start:.1f} milliseconds, {16 * clients / best[0]:.0f} events per second")


main()
