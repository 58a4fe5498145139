#!/usr/bin/env python3
"""Publications of gw_sim: messages put per second, to many subscribers beside few, behind many waiting messages beside few, on the
folded replica beside the plain one (`gw_sim --plain`), and beside a gw_sim of an earlier commit, where one is given.

Usage: bench/publications.py PROGRAM [BEFORE]

BEFORE is the gw_sim of the last commit at which fields ran on the plain replica alone, as `bench/before.sh` builds it: the goals, five
times as many messages by publications to 1,000 and ten times as many one by one, were set beside it. The plain replica of today is no
measure of them, since all around it is today's too.

Subscribers are asleep, so that messages wait; publications come without a connection (MQTT-SN 1.2 section 6.8) and by a short
name. Of each script the processor time of its first part, in which clients connect and subscribe, is taken off. Each is run three
times in turn; the best counts.
"""
import sys

from sessions import frame, seconds

GOAL_MANY, GOAL_LONG = 5, 10


def asleep(client: int, topic: bytes) -> list:
    """A client connects, subscribes by a short name and falls asleep for good."""
    name = b"sensor-%04d" % client
    connect = frame(0x04, bytes([0x00, 0x01, 0, 60]) + name)
    subscribe = frame(0x12, bytes([0x22, 0, 1]) + topic)
    disconnect = frame(0x18, bytes([0xFF, 0xFF]))
    return [f"frame 1 {client} 0 {octets}" for octets in (connect, subscribe, disconnect)]


def publish(topic: bytes) -> str:
    """A PUBLISH at quality of service -1 with a message of 16 octets."""
    return "frame 1 9999 1 " + frame(0x0C, bytes([0x62]) + topic + bytes(2) + b"sixteen octets !")


def best(program: str, setup: list, publications: list, *words: str) -> float:
    """Seconds of the publications alone."""
    scripts = ["\n".join(["gateway 1"] + setup) + "\n", "\n".join(["gateway 1"] + setup + publications) + "\n"]
    times = [min(each) for each in zip(*([seconds(program, text, *words) for text in scripts] for _ in range(3)))]
    return times[1] - times[0]


def fan_out(program: str, subscribers: int, publications: int, *words: str) -> float:
    """Messages put per second, by publications to all subscribers."""
    setup = [line for client in range(subscribers) for line in asleep(client, b"ab")]
    return subscribers * publications / best(program, setup, [publish(b"ab")] * publications, *words)


def behind(program: str, apiece: int, *words: str) -> float:
    """Messages put per second, 1,000 of them, so many to one of ten subscribers."""
    topics = [b"a%d" % number for number in range(10)]
    setup = [line for number, topic in enumerate(topics) for line in asleep(number, topic)]
    lines = [publish(topics[number // apiece]) for number in range(1000)]
    return 1000 / best(program, setup, lines, *words)


def beside(what: str, folded: float, other: float, name: str, goal: float) -> None:
    """Messages per second, and how often those of another build or replica."""
    ratio = folded / other
    said = f", goal {goal:g}: {'met' if ratio >= goal else 'MISSED'}" if goal else ""
    print(f"  {what}: {folded:.0f} per second, {name} {other:.0f}, {ratio:.1f} times as many{said}")


def main() -> None:
    program = sys.argv[1]
    many, few = fan_out(program, 1000, 20), fan_out(program, 100, 200)
    print("20,000 messages put by publications to all subscribers")
    print(f"  to 1,000 at a time {many:.0f} per second, to 100 at a time {few:.0f}, {many / few:.2f} times as many")
    long, short = behind(program, 1000), behind(program, 100)
    print("1,000 messages put one by one")
    print(f"  up to 1,000 waiting for one client {long:.0f} per second, up to 100 for each of ten {short:.0f},"
          f" {long / short:.2f} times as many")
    print("beside today's plain replica")
    beside("by publications to 1,000 at a time", many, fan_out(program, 1000, 4, "--plain"), "on the plain replica", 0)
    beside("one by one, up to 1,000 for one client", long, behind(program, 1000, "--plain"), "on the plain replica", 0)
    if len(sys.argv) > 2:
        before = sys.argv[2]
        print("beside the commit before the folded replica")
        beside("by publications to 1,000 at a time", many, fan_out(before, 1000, 20), "there", GOAL_MANY)
        beside("one by one, up to 1,000 for one client", long, behind(before, 1000), "there", GOAL_LONG)


main()
