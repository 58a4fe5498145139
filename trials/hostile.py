#!/usr/bin/env python3
"""Throws hostile datagrams and link streams at a daemon, and looks at what it answers, at its memory, and at how it opens again.

Usage: trials/hostile.py PROGRAM TOOL [--datagrams N] [--streams N] [--fill N] [--growth MIB] [--seed N]

TOOL is trials/hostile.c, built. Datagrams and streams come in two halves each. What the gateway may rightly hold is bounded: 16 client names,
each with at most 1,024 messages of at most 64 octets; of the streams, one message or session more for each delta that is well-formed. So
VmRSS may grow in the first half, and by at most MIB (64) in the second.

Then another gateway is filled by N (60,000; 0 for none) datagrams of any names and lengths, killed, and opened again. Status 0 only where
nothing failed.
"""
import argparse
import os
import random
import subprocess
import sys
import tempfile
import time

sys.dont_write_bytecode = True
from daemon import link_answers, throw_datagrams
from gateway import GONE, PONG, Client, Failed, Gateway, expect, frame, ping, publish, published, search, subscribe

WAITING = [b"kept-%02d" % place for place in range(20)]


def figures(line: str) -> dict:
    words = line.split()
    return dict(zip(words[::2], words[1::2]))


def throw(tool: str, *words) -> dict:
    done = subprocess.run([tool, *map(str, words)], capture_output=True, text=True, check=False)
    expect(done.returncode == 0, done.stderr.strip() or f"{tool} ended with status {done.returncode}")
    return figures(done.stdout)


def keep_some(gateway: Gateway) -> None:
    """Messages wait for a sleeper: a hostile datagram takes none of them."""
    with Client(b"sleeper", gateway) as sleeper, Client(b"publisher", gateway) as publisher:
        sleeper.connect()
        sleeper.ask(subscribe(b"Zz", 1, 0x22), b"\x08\x13")
        sleeper.sleep()
        publisher.connect(clean=True)
        for place, body in enumerate(WAITING):
            publisher.ask(publish(b"Zz", body, place + 1), published(b"Zz", place + 1))


def fetch(gateway: Gateway) -> int:
    with Client(b"sleeper", gateway) as sleeper:
        got = sleeper.wake(120)
    expect(set(WAITING) <= set(got), f"the sleeper got {len(set(WAITING) & set(got))} messages of {len(WAITING)}")
    return len(WAITING)


def answers(gateway: Gateway, probe: Client) -> None:
    """It is there: SEARCHGW and, of a client that it knows and of one that it does not, PINGREQ."""
    gateway.alive()
    probe.ask(search(), frame(0x02, bytes([gateway.number])), 60)
    probe.flush()
    probe.ask(ping(probe.name), PONG, 60)
    probe.flush()
    probe.ask(ping(b"nobody at all"), GONE, 60)


def halves(gateway: Gateway, tool: str, words: list, count: int, seed: int, probe: Client, more: list, say) -> list:
    """Both halves; VmRSS before, in the middle and behind."""
    memory = [gateway.memory()]
    for half in (0, 1):
        said = throw(tool, *words, count // 2, seed + half, *more)
        memory.append(gateway.memory())
        say(said, memory)
        answers(gateway, probe)
    return memory


def say_datagrams(said: dict, memory: list) -> None:
    print(f"  {said['sent']} datagrams, {int(float(said['octets'])):,} octets, {float(said['rate']):.0f} per second; {said['answered']} answers,"
          f" of these {said['refused']} refusals;\n    the slowest answer to SEARCHGW {float(said['slowest']) / 1000:.0f} ms;"
          f" VmRSS {memory[-2]} KiB, then {memory[-1]}", flush=True)


def say_streams(said: dict, memory: list) -> None:
    print(f"  {said['thrown']} streams, {float(said['rate']):.0f} per second; {said['greeted']} were taken, {said['closed']} of these closed"
          f" by the gateway;\n    {said['away']} times eight were open already; VmRSS {memory[-2]} KiB, then {memory[-1]}", flush=True)


def steady(memory: list, most: int) -> None:
    growth = (memory[2] - memory[1]) / 1024
    expect(growth <= most, f"VmRSS grew by {growth:.1f} MiB in the second half, and {most} are allowed")


def opens(gateway: Gateway, seconds: float) -> None:
    size, memory = len(gateway.held()), gateway.memory()
    gateway.kill()
    began = time.monotonic()
    records, clients = gateway.start(seconds=seconds)
    print(f"  killed with VmRSS {memory} KiB and a journal of {size:,} octets; it opens again in {time.monotonic() - began:.1f} seconds: "
          f"{records} records, {clients} clients, VmRSS {gateway.memory()} KiB", flush=True)


def bounded(program: str, tool: str, folder: str, options) -> None:
    with Gateway(program, folder, 1, steps="256", predefined='[{ id = 7, topic = "p/seven" }]') as gateway:
        gateway.start()
        keep_some(gateway)
        with Client(b"probe", gateway) as probe:
            probe.connect()
            answers(gateway, probe)
            print(f"datagrams of 16 client names, seed {options.seed}", flush=True)
            thrown = halves(gateway, tool, ["datagrams", gateway.port], options.datagrams, options.seed, probe, [16], say_datagrams)
            steady(thrown, options.growth)
            print(f"  {fetch(gateway)} messages that waited came all the same", flush=True)
            opens(gateway, 300)
            print("streams", flush=True)
            keep_some(gateway)
            thrown = halves(gateway, tool, ["streams", gateway.link], options.streams, options.seed, probe, [], say_streams)
            steady(thrown, options.growth)
            print(f"  a link is answered after {link_answers(gateway)}", flush=True)
            opens(gateway, 300)


def filled(program: str, folder: str, options) -> None:
    with Gateway(program, folder, 2, steps="256", predefined='[{ id = 7, topic = "p/seven" }]') as gateway:
        gateway.start()
        print(f"{options.fill} datagrams of any names and lengths", flush=True)
        began = time.monotonic()
        said = throw_datagrams(gateway, options.fill, random.Random(options.seed))
        print(f"  {said}; {time.monotonic() - began:.0f} seconds", flush=True)
        opens(gateway, 900)


def options_of() -> argparse.Namespace:
    reader = argparse.ArgumentParser(description=__doc__, formatter_class=argparse.RawDescriptionHelpFormatter)
    reader.add_argument("program")
    reader.add_argument("tool")
    for name, usual in (("datagrams", 10_000_000), ("streams", 100_000), ("fill", 60_000), ("growth", 64), ("seed", 1)):
        reader.add_argument(f"--{name}", type=int, default=usual)
    return reader.parse_args()


def main() -> int:
    options = options_of()
    Gateway.within = 600.0
    program, tool = os.path.abspath(options.program), os.path.abspath(options.tool)
    with tempfile.TemporaryDirectory(prefix="hostile-", dir=os.environ.get("TMPDIR", "/var/tmp")) as folder:
        try:
            bounded(program, tool, folder, options)
            if options.fill:
                filled(program, folder, options)
        except (Failed, OSError) as why:
            print(f"FAILED: {why}")
            return 1
    print("the daemon stood all of it")
    return 0


if __name__ == "__main__":
    sys.exit(main())
