#!/usr/bin/env python3
"""What a client that wakes is sent at once, over a slow wire: does all that waits at quality of service 0 come?

Usage: trials/burst.py PROGRAM [--messages N] [--octets N] [--rate RATE]

At quality of service 0 a gateway sends all that waits for a client in one step, and nothing is sent again (MQTT-SN 1.2 section 6.14). The wire
takes RATE (10mbit), so the system has no room for most of that at first. A gateway runs in one network namespace and its clients in another, with a
wire between them; both go away in the end. It needs root, and the commands `ip` and `tc`.

N messages (300) of N octets (1,000) are published at quality of service 1 and acknowledged while their subscriber sleeps; then that wakes. Status 0
where all came, and PINGRESP behind them.
"""
import argparse
import os
import socket
import subprocess
import sys
import tempfile

sys.dont_write_bytecode = True
from gateway import CONNECTED, PONG, Failed, connect, expect, frame, leave, number, opened, ping, publish, subscribe, until

HERE, THERE = "10.77.0.1", "10.77.0.2"
PORT = 18841
SPACES = "nimhazel-burst-g", "nimhazel-burst-c"


def ip(*words: str) -> None:
    subprocess.run(["ip", *words], check=True)


def lay(rate: str) -> None:
    """Two namespaces with a wire between them, slow from the gateway to its clients."""
    for space in SPACES:
        ip("netns", "add", space)
    ip("link", "add", "wire0", "netns", SPACES[0], "type", "veth", "peer", "name", "wire1", "netns", SPACES[1])
    for space, name, address in ((SPACES[0], "wire0", HERE), (SPACES[1], "wire1", THERE)):
        ip("-n", space, "addr", "add", f"{address}/24", "dev", name)
        ip("-n", space, "link", "set", name, "up")
        ip("-n", space, "link", "set", "lo", "up")
    slow = ["tc", "qdisc", "add", "dev", "wire0", "root", "tbf", "rate", rate, "burst", "10kb", "limit", "100mb"]
    subprocess.run(["ip", "netns", "exec", SPACES[0], *slow], check=True)


def take_away() -> None:
    for space in SPACES:
        subprocess.run(["ip", "netns", "del", space], stderr=subprocess.DEVNULL, check=False)


def client(port: int) -> socket.socket:
    found = socket.socket(socket.AF_INET, socket.SOCK_DGRAM)
    found.setsockopt(socket.SOL_SOCKET, socket.SO_RCVBUF, 1 << 24)
    found.bind((THERE, port))
    found.connect((HERE, PORT))
    found.settimeout(2)
    return found


def ask(by: socket.socket, octets: bytes, kind: int) -> bytes:
    """The body of the answer of this kind."""
    by.send(octets)
    while True:
        found, body = opened(by.recv(65535))
        if found == kind:
            return body


def wake(messages: int, octets: int) -> str:
    """What a client is told that slept while so many messages came. Runs in the namespace of the clients."""
    sleeper, publisher = client(7001), client(7002)
    expect(ask(sleeper, connect(b"s1", 60, True), 0x05) == CONNECTED[2:], "s1 was refused")
    ask(sleeper, subscribe(b"ab", 1, 0x02), 0x13)
    ask(sleeper, leave(600), 0x18)
    expect(ask(publisher, connect(b"p1", 60, True), 0x05) == CONNECTED[2:], "p1 was refused")
    for each in range(messages):
        ask(publisher, publish(b"ab", number(each) + bytes(octets - 2), each + 1, 0x22), 0x0D)
    sleeper.send(ping(b"s1"))
    came = []
    try:
        while True:
            got = sleeper.recv(65535)
            if got == PONG:
                break
            kind, body = opened(got)
            if kind == 0x0C:
                came.append(int.from_bytes(body[5:7], "big"))
    except TimeoutError:
        raise Failed(f"{len(came)} of {messages} messages came, and no PINGRESP") from None
    expect(came == list(range(messages)), f"{len(came)} of {messages} messages came")
    return f"{messages} messages of {octets} octets came in their order, and PINGRESP"


def in_space(at: int, *words: str) -> list:
    return ["ip", "netns", "exec", SPACES[at], *words]


def tried(given) -> int:
    with tempfile.TemporaryDirectory() as folder:
        settings, out = os.path.join(folder, "gateway.toml"), os.path.join(folder, "out")
        with open(settings, "w", encoding="utf-8") as text:
            text.write(f'gateway = 1\nlisten = "{HERE}:{PORT}"\nlink = "{HERE}:18851"\njournal = "{folder}/journal"\n')
        with open(out, "wb") as printed:
            words = in_space(0, os.path.abspath(given.program), "--config", settings, "--shifts", "1000000")
            daemon = subprocess.Popen(words, stdin=subprocess.DEVNULL, stdout=printed, stderr=subprocess.STDOUT)
        try:
            until(lambda: os.path.getsize(out) > 0, 30, "the gateway printed no line")
            words = [sys.executable, os.path.abspath(__file__), given.program, "--wake"]
            words += ["--messages", str(given.messages), "--octets", str(given.octets)]
            return subprocess.run(in_space(1, *words), check=False).returncode
        finally:
            daemon.kill()
            daemon.wait()


def main() -> int:
    reader = argparse.ArgumentParser(usage="trials/burst.py PROGRAM [--messages N] [--octets N] [--rate RATE]")
    reader.add_argument("program")
    reader.add_argument("--messages", type=int, default=300)
    reader.add_argument("--octets", type=int, default=1000)
    reader.add_argument("--rate", default="10mbit")
    reader.add_argument("--wake", action="store_true", help=argparse.SUPPRESS)
    given = reader.parse_args()
    if given.wake:
        try:
            print(wake(given.messages, given.octets))
            return 0
        except (Failed, OSError) as why:
            print(f"FAIL {why}")
            return 1
    take_away()
    try:
        lay(given.rate)
        return tried(given)
    finally:
        take_away()


if __name__ == "__main__":
    sys.exit(main())
