#!/usr/bin/env python3
"""Many clients at one gateway beside few: events per second of gw_sim, and their ratio.

Usage: bench/sessions.py PROGRAM [CLIENTS] [FEW]      (1000 and 10 where nothing is said)

Each client connects, registers 10 topics and subscribes 10 filters. CLIENTS clients at one gateway are
timed beside the same number of clients that are FEW to a gateway, in turn, three times; the best counts.
Processor time is counted, and not the time that passes.
"""
import resource
import subprocess
import sys
import tempfile


def frame(kind: int, body: bytes) -> str:
    """A message in the short form of Length (MQTT-SN 1.2 section 5.2.1)."""
    return (bytes([len(body) + 2, kind]) + body).hex()


def events_of(gateway: int, client: int, port: int) -> list:
    """CONNECT, REGISTER and SUBSCRIBE (sections 5.4.4, 5.4.10 and 5.4.15)."""
    name = b"sensor-%04d" % client
    frames = [frame(0x04, bytes([0x04, 0x01, 0, 60]) + name)]
    for number in range(10):
        topic = b"field/%04d/%d" % (client, number)
        message = number.to_bytes(2, "big")
        frames.append(frame(0x0A, bytes(2) + message + topic))
    for number in range(10):
        topic = b"field/%04d/%d/#" % (client, number)
        frames.append(frame(0x12, bytes([0x20]) + number.to_bytes(2, "big") + topic))
    return [f"frame {gateway} {port} 0 {octets}" for octets in frames]


def script(clients: int, apiece: int) -> str:
    """CLIENTS clients, so many to a gateway; gateways have numbers from 1 on."""
    lines = [f"gateway {number + 1}" for number in range(clients // apiece)]
    for client in range(clients):
        lines += events_of(client // apiece + 1, client, client)
    return "\n".join(lines) + "\n"


def seconds(program: str, text: str, *words: str) -> float:
    """The processor time of one run, with these words behind the program's name."""
    before = resource.getrusage(resource.RUSAGE_CHILDREN)
    with tempfile.TemporaryFile("w+") as lines:
        lines.write(text)
        lines.seek(0)
        done = subprocess.run([program, *words], stdin=lines, stdout=subprocess.PIPE, text=True, check=True)
    after = resource.getrusage(resource.RUSAGE_CHILDREN)
    assert "refused" not in done.stdout, done.stdout[:200]
    return after.ru_utime + after.ru_stime - before.ru_utime - before.ru_stime


def main() -> None:
    program = sys.argv[1]
    clients, few = ([int(word) for word in sys.argv[2:]] + [1000, 10][len(sys.argv) - 2 :])[:2]
    scripts = [script(clients, clients), script(clients, few)]
    best = [min(times) for times in zip(*([seconds(program, text) for text in scripts] for _ in range(3)))]
    events = 21 * clients
    rates = [events / time for time in best]
    print(f"{events} events of {clients} clients that connect, register 10 topics and subscribe 10 filters")
    print(f"  {clients} to a gateway {rates[0]:.0f} events per second, {few} to a gateway {rates[1]:.0f},"
          f" {rates[1] / rates[0]:.2f} times as many")


if __name__ == "__main__":
    main()
