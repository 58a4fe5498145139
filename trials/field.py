#!/usr/bin/env python3
"""Plays a take-over at three linked gateways, line by line: one is killed, and no message is lost.

Usage: trials/field.py PROGRAM [FOLDER]
       trials/field.py --check       only looks whether ports and disk are free

The settings are those of examples/field; their ports must be free. The journals are in FOLDER,
which is made and must not be there before. Without FOLDER they are in a folder that is gone
afterwards. The status is 0 only if each message came, within a minute.
"""
import contextlib
import os
import shutil
import signal
import socket
import sys
import tempfile
import time

try:
    import tomllib
except ModuleNotFoundError:
    sys.exit("the story needs python3 in version 3.11 or newer, which reads TOML")

sys.dont_write_bytecode = True
from gateway import HOST, Client, Failed, Gateway, expect, publish, published, register, subscribe

TOP = os.path.dirname(os.path.dirname(os.path.abspath(__file__)))
MINUTE = 60
ROOM = 4 << 20  # octets that the journals and what the gateways print may need
TOPIC = b"field/door"
NAMES = ("one", "two", "three")
began = time.monotonic()


def tell(words: str) -> None:
    print(f"{time.monotonic() - began:6.2f} s  {words}", flush=True)


def gateway_of(program: str, folder: str, name: str) -> Gateway:
    """A gateway by its settings file; its journal lies in the folder in which it runs."""
    path = os.path.join(TOP, "examples", "field", f"{name}.toml")
    with open(path, "rb") as file:
        values = tomllib.load(file)
    ports = tuple(int(values[key].rsplit(":", 1)[1]) for key in ("listen", "link"))
    made = Gateway(program, folder, values["gateway"], ports)
    made.settings, made.journal = path, os.path.join(folder, values["journal"])
    return made


def taken(kind: int, port: int) -> bool:
    """Whether another socket of this machine has the port."""
    with socket.socket(socket.AF_INET, kind) as tried:
        if kind == socket.SOCK_STREAM:
            tried.setsockopt(socket.SOL_SOCKET, socket.SO_REUSEADDR, 1)
        try:
            tried.bind((HOST, port))
            if kind == socket.SOCK_STREAM:
                tried.listen()
        except OSError:
            return True
    return False


def expect_free_ports(gateways: list) -> None:
    """Looks for each port of the settings, before a gateway wants it."""
    ports = [(name, kind, port) for it in gateways
             for name, kind, port in (("UDP", socket.SOCK_DGRAM, it.port), ("TCP", socket.SOCK_STREAM, it.link))]
    held = [f"{name} port {port}" for name, kind, port in ports if taken(kind, port)]
    expect(not held, f"another program has {', '.join(held)} of {HOST}, which the gateways of examples/field need")


def expect_room(folder: str) -> None:
    """Looks for room for the journals."""
    free = shutil.disk_usage(folder).free
    expect(free >= ROOM, f"{folder} has {free >> 10} KiB free, and the journals need {ROOM >> 10} KiB")


def put(publisher: Client, body: bytes) -> None:
    """A publication at quality of service 1, acknowledged."""
    publisher.connect(clean=True)
    field = publisher.ask(register(TOPIC, 1), b"\x07\x0b")[2:4]
    publisher.ask(publish(field, body, 2, 0x20), published(field, 2))


def story(one: Gateway, two: Gateway, three: Gateway) -> None:
    for gateway in (one, two, three):
        gateway.start()
        tell(f"gateway {gateway.number} starts, with nothing in its journal")
    with Client(b"s1", one) as sensor, Client(b"p1", two) as publisher, Client(b"p2", three) as other:
        sensor.connect()
        sensor.ask(subscribe(TOPIC), b"\x08\x13")
        sensor.sleep()
        tell("the sensor s1 connects at gateway 1, subscribes to field/door, and falls asleep")
        tell(f"gateway 2 has heard of that {two.await_octets(TOPIC) * 1000:.0f} ms later")
        put(publisher, b"the door is open")
        tell("p1 publishes 'the door is open' at gateway 2, which acknowledges it")
        tell(f"gateway 3 has the message {three.await_octets(b'the door is open') * 1000:.0f} ms later")
        three.settle()
        two.kill()
        tell("gateway 2 is killed")
        sensor.gateway = three
        got = publisher.sends_once(sensor.wake())
        expect(got == [b"the door is open"], f"s1 woke at gateway 3 and got {got}")
        tell("s1 wakes at gateway 3 and gets 'the door is open'; it falls asleep again")
        put(other, b"the door is shut")
        tell("p2 publishes 'the door is shut' at gateway 3, while gateway 2 is away")
        records, clients = two.start()
        tell(f"gateway 2 starts again: {records} records and {clients} clients were in its journal")
        tell(f"it has what it lacks {two.await_octets(b'the door is shut') * 1000:.0f} ms after its first answer")
        two.settle()
        sensor.gateway = two
        got = other.sends_once(sensor.wake())
        expect(got == [b"the door is shut"], f"s1 woke at gateway 2 and got {got}")
        tell("s1 wakes at gateway 2 and gets 'the door is shut', and nothing twice")


def late(*_) -> None:
    raise Failed(f"it took more than {MINUTE} seconds")


def stop(*_) -> None:
    sys.exit("stopped")


@contextlib.contextmanager
def folder_of(named: list):
    """The folder that is named, made and left as it is then, or one that is gone afterwards."""
    if named:
        os.mkdir(named[0])
        yield os.path.abspath(named[0])
    else:
        with tempfile.TemporaryDirectory(prefix="field-") as folder:
            yield folder


def play(program: str, named: list) -> None:
    with folder_of(named) as folder:
        gateways = [gateway_of(program, folder, name) for name in NAMES]
        try:
            story(*gateways)
        finally:
            for gateway in gateways:
                gateway.kill()


def main() -> int:
    words = sys.argv[1:]
    is_check = words == ["--check"]
    if not is_check and (len(words) not in (1, 2) or not os.access(words[0], os.X_OK) or any(map(os.path.exists, words[1:]))):
        print(__doc__, file=sys.stderr)
        return 1
    for number in (signal.SIGHUP, signal.SIGINT, signal.SIGTERM):
        signal.signal(number, stop)
    signal.signal(signal.SIGALRM, late)
    signal.alarm(MINUTE)
    Client.again = 5.0
    try:
        expect_free_ports([gateway_of("", "", name) for name in NAMES])
        expect_room(os.path.dirname(os.path.abspath(words[1])) if words[1:] else tempfile.gettempdir())
        if is_check:
            return 0
        play(os.path.abspath(words[0]), words[1:])
    except (Failed, OSError) as why:
        tell(f"FAILED: {why}")
        return 1
    tell("every message came")
    return 0


if __name__ == "__main__":
    sys.exit(main())
