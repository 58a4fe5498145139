#!/usr/bin/env python3
"""What a gateway keeps of its clients, of messages that wait, of messages that were delivered and of what is retained, in octets of memory.

Usage: bench/memory.py PROGRAM [--clients N] [--messages N] [--past N] [--topics N]
       (gw_sim; 1000, 20000, 100000 and 1000 where nothing is said; something is retained of 1,024 topics at most)

Two scripts are played that have as many lines and make as many deltas of the same size. In one of them a gateway comes to keep something; in
the other a small part of it comes again and again, so that next to nothing more is kept. The text, the events, what is answered, the list
of deltas and the journals, which are in memory here, are as long in both, so what is kept is the difference. Told is that of VmHWM, the
greatest resident size, read when the program prints and waits for what it printed to be taken: by then all was played.

What a gateway keeps shares the octets of ids, topics and messages with the list of deltas, which is in both: so they are not told here, and
a daemon, which has no such list, has them on top. `bench/capacity.py` measures a daemon.
"""
import argparse
import re
import subprocess
import sys
import tempfile

sys.dont_write_bytecode = True
import steps
from sessions import frame

SLEEPERS, TOPIC = 40, b"ab"
TAKERS = tuple(range(10, 42))  # gateways that take what gateway 1 retains; their numbers have two digits each
PIPE = 1 << 16  # octets that a pipe holds: whoever prints more waits until they are taken
PADDING = [steps.at(steps.FIRST, 0, steps.SEARCH)] * 8000  # what these print is more than a pipe holds


def played(program: str, lines: list, others: tuple = (2,)) -> tuple:
    """Octets of VmHWM, and how many deltas were made. Beside gateway 1 there are others."""
    with tempfile.TemporaryFile("w+") as script:
        script.write("\n".join([f"gateway {number}" for number in (1, *others)] + lines + PADDING) + "\n")
        script.seek(0)
        with subprocess.Popen([program], stdin=script, stdout=subprocess.PIPE, bufsize=0) as process:
            first = process.stdout.read(1)
            with open(f"/proc/{process.pid}/status", encoding="ascii") as text:
                found = re.search(r"^VmHWM:\s+(\d+) kB$", text.read(), re.M)
            printed = first + process.stdout.read()
    assert process.returncode == 0 and b"refused" not in printed, printed[:200]
    assert found and len(printed) > PIPE + 1, "the program did not wait"
    return 1024 * int(found[1]), printed.count(b"\ndelta ") + printed.startswith(b"delta ")


def deltas(program: str, lines: list) -> int:
    return played(program, lines)[1]


def apart(program: str, one: list, other: list, others: tuple = (2,)) -> int:
    """By how many octets the first of two scripts needs more."""
    assert len(one) == len(other), (len(one), len(other))
    return played(program, one, others)[0] - played(program, other, others)[0]


def taken(count: int, upto: int, again: int) -> list:
    """Gateway 2 takes so many deltas: the first ones in turn, and then the last few of these again and again."""
    numbers = [number if number <= upto else upto - again + 1 + (number - upto - 1) % again for number in range(1, count + 1)]
    return [f"take 2 {number:07}" for number in numbers]  # as many digits in each, so that the text is as long


def visit(client: int) -> list:
    """A client begins a session, with CleanSession (MQTT-SN 1.2 section 5.4.4), subscribes by a short name, and falls asleep for good."""
    port = 10000 + client
    connect = steps.at(port, 0, frame(0x04, bytes([0x04, 0x01, 0, 0]) + steps.name_of(client)))
    return [connect, steps.subscribe(port, TOPIC, 1), steps.at(port, 0, steps.SLEEP)]


def bench_clients(program: str, count: int) -> None:
    one = [line for client in range(count) for line in visit(client)]
    octets = apart(program, one, visit(0) * count)
    print(f"  a client that connects, subscribes and sleeps, of {count:,}: {octets / (count - 1):,.0f} octets", flush=True)


def bench_messages(program: str, count: int) -> None:
    setup, rounds = steps.sleepers(SLEEPERS), count // SLEEPERS
    lines = setup + steps.to_each(SLEEPERS, rounds)
    before, made = deltas(program, setup), deltas(program, lines)
    assert made - before == rounds * SLEEPERS, (before, made)
    octets = apart(program, lines + taken(made, made, 1), lines + taken(made, before + SLEEPERS, SLEEPERS))
    each = octets / ((rounds - 1) * SLEEPERS)
    print(f"  a message of 16 octets that waits, of {rounds * SLEEPERS:,} for {SLEEPERS} clients: {each:,.0f} octets", flush=True)


def bench_past(program: str, count: int) -> None:
    setup = [steps.connect(0, steps.FIRST), steps.subscribe(steps.FIRST, TOPIC, 1)]
    lines = setup + steps.handed_over(0, count) + [steps.puback(steps.FIRST, TOPIC, count - 1)]
    made, few = deltas(program, lines), deltas(program, setup + steps.handed_over(0, 6))
    octets = apart(program, lines + taken(made, made, 1), lines + taken(made, few, 2))
    print(f"  {count:,} messages of one client that were delivered and acknowledged: {octets:,} octets in all", flush=True)


def bench_topics(program: str, count: int) -> None:
    """Each of the takers takes what gateway 1 retains of all topics, or again and again what it retains of the first ten."""
    few = 10
    made = [steps.publish(steps.STRANGER, steps.own_topic(topic)[0], 3, 0, steps.RETAIN) for topic in range(count)]
    one, other = ([f"take {taker} {topic % most + 1:07}" for topic in range(count) for taker in TAKERS] for most in (count, few))
    assert deltas(program, made) == count, "not each topic has a place"
    octets = apart(program, made + one, made + other, TAKERS)
    print(f"  a topic with a message of 16 octets that is retained, of {count:,}: {octets / (len(TAKERS) * (count - few)):,.0f} octets", flush=True)


def main() -> int:
    words = argparse.ArgumentParser(usage=__doc__)
    words.add_argument("program")
    for name, number in (("--clients", 1000), ("--messages", 20000), ("--past", 100000), ("--topics", 1000)):
        words.add_argument(name, type=int, default=number)
    asked = words.parse_args()
    print("memory of a gateway, beside the octets of ids, topics and messages", flush=True)
    bench_clients(asked.program, asked.clients)
    bench_messages(asked.program, asked.messages)
    bench_past(asked.program, asked.past)
    bench_topics(asked.program, asked.topics)
    return 0


if __name__ == "__main__":
    sys.exit(main())
