#!/usr/bin/env python3
"""What a wide field costs, as a mesh, a tree and a ring: by counting, and played in the simulator.

Usage: bench/wide.py [GW_SIM] [--gateways N] [--fan N] [--script SHAPE]

A field of N gateways (50) is linked in every pair, as a tree in which each gateway has at most N below it (8), and as a ring. At gateway 1 a
client connects, subscribes and sleeps; at the last but one a client connects and publishes a message for it. Each delta goes over the links by
the rule of the daemon: whoever made it tells each link; whoever took it as new hands it on, not back, and not to a gateway that is linked with
the one that told it. All that is sent in a round arrives in it. Then a second message is published while the last gateway is away; that one
comes back, and asks each neighbour by a digest.

For each shape it prints the links, and how many a gateway has at most; how often deltas are sent while all are there, with how many octets, how
often to a gateway that has them, and after how many rounds each gateway has all; what is answered to the one that comes back; and how many
octets a quiet gateway says in 30 seconds, when it says its neighbours over each link.

With GW_SIM the same is played as a script, in which each hand-over is a `take` and each digest an `answer`. Each gateway must show the same in
the end, and the answers must be as many as were counted. `--script SHAPE` prints the script instead. Status 0 only where that is so.
"""
import argparse
import subprocess
import sys

HEAD = 5  # octets in front of a message of a link, and in front of the operations of a delta
PUT = 24  # octets of the operation that a message is


def mesh(count: int, _: int) -> list:
    return [(one, other) for one in range(1, count + 1) for other in range(one + 1, count + 1)]


def tree(count: int, fan: int) -> list:
    return [((number - 2) // fan + 1, number) for number in range(2, count + 1)]


def ring(count: int, _: int) -> list:
    return [(number, number % count + 1) for number in range(1, count + 1)]


SHAPES = {"mesh": mesh, "tree": tree, "ring": ring}


def linked(pairs: list, away: int = 0) -> dict:
    found = {}
    for one, other in pairs:
        if away not in (one, other):
            found.setdefault(one, []).append(other)
            found.setdefault(other, []).append(one)
    return found


def handed(links: dict, maker: int) -> tuple:
    """Who takes a delta, in order, repeats too; and in which round each gateway has it."""
    rounds, takes, ways = {maker: 0}, [], [(maker, other) for other in links[maker]]
    while ways:
        giver, here = ways.pop(0)
        takes.append(here)
        if here in rounds:
            continue
        rounds[here] = rounds[giver] + 1
        ways += [(here, other) for other in links[here] if other != giver and giver not in links[other]]
    return takes, rounds


def frame(kind: int, body: bytes) -> str:
    return (bytes([len(body) + 2, kind]) + body).hex()


def deeds(count: int) -> list:
    """What happens: at which gateway, from which port, the datagram, and the octets of the operation that it makes, as in the rows of a link."""
    return [(1, 7, frame(0x04, b"\x00\x01\x00\x3cs1"), 29), (1, 7, frame(0x12, b"\x22\x00\x01ow"), 20), (1, 7, frame(0x18, b"\x01\x2c"), 18),
            (count - 1, 9, frame(0x04, b"\x04\x01\x00\x3cp1"), 29), (count - 1, 9, frame(0x0C, b"\x22ow\x00\x01kept"), PUT)]


def script(pairs: list, count: int) -> str:
    """The deeds, a second message without the last gateway, what neighbours answer to that one, and what each gateway shows."""
    lines, made = [f"gateway {number}" for number in range(1, count + 1)], 0
    second = (count - 1, 9, frame(0x0C, b"\x22ow\x00\x02more"), PUT)
    for gateway, port, octets, _ in [*deeds(count), second]:
        links = linked(pairs, count if made == len(deeds(count)) else 0)
        lines.append(f"frame {gateway} {port} {made} {octets}")
        made += 1
        lines += [f"take {taker} {made}" for taker in handed(links, gateway)[0]]
    neighbours = linked(pairs)[count]
    lines += [f"answer {count} {neighbour}" for neighbour in neighbours]
    lines += [f"take {count} {made + place + 1}" for place in range(len(neighbours))]
    lines += [f"show {number}" for number in range(1, count + 1)]
    return "\n".join(lines) + "\n"


def played(program: str, pairs: list, count: int) -> str:
    """Plays the script. Each gateway must show the same, and each neighbour answer one delta."""
    done = subprocess.run([program], input=script(pairs, count).encode(), capture_output=True, timeout=3600)
    printed = done.stdout.decode()
    if done.returncode != 0 or "refused" in printed:
        sys.exit(f"the script was refused: {printed[-300:]} {done.stderr.decode()[-300:]}")
    made, answered = len(deeds(count)) + 1, len(linked(pairs)[count])
    deltas = sum(line.startswith("delta ") for line in printed.splitlines())
    if deltas != made + answered:
        sys.exit(f"{deltas} deltas were made and answered, and not {made + answered}")
    shown = [part.strip() for part in printed.split("client 7031")[1:]]
    if len(shown) != count or set(shown) != {shown[0]} or "put 2." not in shown[0]:
        sys.exit(f"the gateways show {len(set(shown))} different things, {len(shown)} of them")
    return f"  played: {printed.count(chr(10))} lines, and all {count} show the same"


def counted(pairs: list, count: int) -> list:
    """The lines of figures."""
    links, sent, octets, vain, rounds = linked(pairs), 0, 0, 0, 0
    for gateway, _, _, size in deeds(count):
        takes, times = handed(links, gateway)
        if len(times) != count:
            sys.exit(f"a delta came to {len(times)} gateways alone")
        sent += len(takes)
        octets += len(takes) * (2 * HEAD + size)
        vain += len(takes) - (count - 1)
        rounds = max(rounds, *times.values())
    most, back = max(map(len, links.values())), len(links[count])
    # over each link its number, and then the others that it is linked with
    quiet = most * most * (HEAD + 1)
    return [f"{len(pairs)} links, at most {most} of one gateway",
            f"{len(deeds(count))} deltas are sent {sent} times, {vain} times in vain, {octets} octets, and come within {rounds} rounds",
            f"who comes back says {back} digests, and is answered {back} deltas, {back * (2 * HEAD + PUT)} octets",
            f"in 30 quiet seconds a gateway says {quiet} octets at most"]


def main() -> int:
    reader = argparse.ArgumentParser()
    reader.add_argument("program", nargs="?")
    reader.add_argument("--gateways", type=int, default=50)
    reader.add_argument("--fan", type=int, default=8)
    reader.add_argument("--script", choices=[*SHAPES])
    asked = reader.parse_args()
    for name, shape in SHAPES.items():
        pairs = shape(asked.gateways, asked.fan)
        if asked.script:
            if asked.script == name:
                print(script(pairs, asked.gateways), end="")
            continue
        print(f"{name} of {asked.gateways}", *counted(pairs, asked.gateways), sep="\n  ")
        if asked.program:
            print(played(asked.program, pairs, asked.gateways))
    return 0


if __name__ == "__main__":
    sys.exit(main())
