#!/usr/bin/env python3
"""The bridge with a real mosquitto and a real gateway: readings and commands both ways, and kills in turn.

Usage: bridge.py PROGRAM SNGW [PART ..] [--kills N] [--seed N]

The parts are settings, names, through, retained, predefined, away, spool, full, refused, odd, silent, strange, kills and spooled-kills; all of them if none is named. mosquitto is the one on PATH, or Debian's package,
unpacked into the trial's folder; no service of the machine is started. If it cannot be had, a line says so, and only the parts without a broker run.

Each message has a number. What a sensor was told PUBACK 0 for has to come to the reader at the broker, and what the publisher at the broker was told
PUBACK for has to come to the actor in the field, or into the file of refused commands. What comes twice is counted. mosquitto may lose, at a kill,
what it acknowledged within the last seconds: that is counted apart. Where programs are killed, a relay between bridge and mosquitto notes what each of
them sent and acknowledged, and when. If a part fails, the folder of the trial stays.
"""
import argparse
import os
import random
import re
import resource
import shutil
import signal
import socket
import subprocess
import sys
import tempfile
import threading
import time

from gateway import HOST, Failed, Gateway, connect, expect, frame, free_ports, number, opened, published, register, subscribe, until, with_the_starter

SAVED = 3.0  # seconds after which mosquitto has surely saved what it acknowledged
NOTED = 0.1  # seconds after which a PUBACK that has come is surely noted; a broker that was started has not said one by then
SUBACK = b"\x90\x03\x00\x01\x01"  # the answer to the only filter of a scene
ENDLESS = 1 << 40  # octets of a file; who passes such a limit is told, and not killed
AHEAD = 100  # messages of a name that may be on their way while programs are killed
UP, COMMAND, LAMP = b"field/1/", b"cmd/1/act/lamp", b"act/lamp"  # what stands in front of a reading at the broker; a command there, and in the field


def spawn(faults: list, work, *words) -> threading.Thread:
    """Starts a thread. An exception that ends it lands in a list."""

    def run() -> None:
        try:
            work(*words)
        except Exception as fault:
            faults.append(f"{work.__name__}: {fault!r}")

    thread = threading.Thread(target=run, daemon=True)
    thread.start()
    return thread


# ---- MQTT 3.1.1


def remaining(size: int) -> bytes:
    octets = b""
    while True:
        size, low = divmod(size, 128)
        octets += bytes([low | 128 if size else low])
        if not size:
            return octets


def packet(first: int, body: bytes) -> bytes:
    return bytes([first]) + remaining(len(body)) + body


def text(octets: bytes) -> bytes:
    return number(len(octets)) + octets


class Peer:
    """A client of the broker, with a session that is kept. What comes is in `came`, in its order."""

    def __init__(self, port: int, name: bytes, filters: tuple = ()):
        self.port, self.name, self.filters = port, name, filters
        self.came, self.acked, self.id, self.faults = [], {}, 0, []
        self.socket, self.lock, self.is_over = None, threading.Lock(), False
        spawn(self.faults, self.run)

    def run(self) -> None:
        while not self.is_over:
            try:
                self.converse()
            except OSError:
                pass
            self.socket = None
            time.sleep(0.1)

    def converse(self) -> None:
        with socket.create_connection((HOST, self.port), 5) as line:
            line.setsockopt(socket.IPPROTO_TCP, socket.TCP_NODELAY, 1)
            line.sendall(packet(0x10, text(b"MQTT") + bytes([4, 0]) + number(0) + text(self.name)))
            line.settimeout(None)
            with line.makefile("rb") as octets:
                self.hear(line, octets)

    def hear(self, line, octets) -> None:
        while first := octets.read(1):
            size, shift = 0, 0
            while True:
                low = octets.read(1)
                if not low:
                    return
                size |= (low[0] & 127) << shift
                shift += 7
                if low[0] < 128:
                    break
            self.take(line, first[0], octets.read(size))

    def take(self, line, first: int, body: bytes) -> None:
        kind = first >> 4
        if kind == 2:
            for at, asked in enumerate(self.filters):
                line.sendall(packet(0x82, number(60000 + at) + text(asked) + b"\x01"))
            self.socket = line
        elif kind == 3:
            size = int.from_bytes(body[:2], "big")
            topic, rest = body[2:2 + size], body[2 + size:]
            message, rest = (rest[:2], rest[2:]) if first & 6 else (b"", rest)
            self.came.append((topic, rest, time.monotonic()))
            if message:
                line.sendall(packet(0x40, message))
        elif kind == 5:
            line.sendall(packet(0x62, body))
        elif kind in (4, 7):
            self.acked[int.from_bytes(body, "big")] = time.monotonic()

    def publish(self, topic: bytes, body: bytes, qos: int = 1, seconds: float = 60.0, retain: bool = False) -> float:
        """Publishes, again and again until PUBACK or PUBCOMP at quality of service 1 or 2, and gives the moment of that."""
        with self.lock:
            self.id = self.id % 50000 + 1
            self.acked.pop(self.id, None)
            end, dup, sent = time.monotonic() + seconds, 0, 0.0
            while True:
                line = self.socket
                if line and time.monotonic() - sent > 1.0:
                    head = 0x30 | qos << 1 | dup | int(retain)
                    try:
                        line.sendall(packet(head, text(topic) + (number(self.id) if qos else b"") + body))
                        dup, sent = 8 if qos else 0, time.monotonic()
                    except OSError:
                        pass
                if sent and (not qos or self.id in self.acked):
                    return self.acked.get(self.id, sent)
                if time.monotonic() > end:
                    raise Failed(f"the broker did not acknowledge {body!r}")
                time.sleep(0.001)

    def close(self) -> None:
        self.is_over = True
        if self.socket:
            self.socket.shutdown(socket.SHUT_RDWR)


class Way:
    """A direction of a connection: its publications in `published`, those that were acknowledged in `done`, both in their order; and in `acked`, by topic
    and message, the moments of the PUBACKs."""

    def __init__(self, published: list, acked: dict):
        self.open, self.published, self.done, self.acked = {}, published, [], acked

    def publish(self, body: bytes) -> None:
        size = int.from_bytes(body[:2], "big")
        message = body[2:2 + size], body[4 + size:]
        self.published.append(message)
        self.open[body[2 + size:4 + size]] = message

    def acknowledge(self, name: bytes) -> None:
        message = self.open.pop(name, None)
        if message:
            self.done.append(message)
            self.acked.setdefault(message, []).append(time.monotonic())


class Relay:
    """Stands between the bridge and the broker, and hands on each octet. Before it does, it notes in `up` what the bridge published, in `acked` what the
    broker acknowledged of it, in `answered` what the bridge acknowledged, and in `downs` the way down of each connection."""

    def __init__(self, port: int):
        self.port, self.server = port, socket.create_server((HOST, 0))
        self.up, self.acked, self.answered, self.downs, self.faults = [], {}, {}, [], []
        spawn(self.faults, self.run)

    def run(self) -> None:
        while True:
            try:
                bridge, _ = self.server.accept()
            except OSError:
                return
            try:
                broker = socket.create_connection((HOST, self.port), 5)
            except OSError:
                bridge.close()
                continue
            up, down = Way(self.up, self.acked), Way([], self.answered)
            self.downs.append(down)
            for line in (bridge, broker):
                line.settimeout(None)
                line.setsockopt(socket.IPPROTO_TCP, socket.TCP_NODELAY, 1)
            spawn(self.faults, self.hand_on, bridge, broker, up, down)
            spawn(self.faults, self.hand_on, broker, bridge, down, up)

    def hand_on(self, source, target, own: Way, other: Way) -> None:
        octets = b""
        try:
            while came := source.recv(65535):
                octets = self.note(octets + came, own, other)
                target.sendall(came)
        except OSError:
            pass
        for line in (source, target):
            try:
                line.shutdown(socket.SHUT_RDWR)
            except OSError:
                pass

    def note(self, octets: bytes, own: Way, other: Way) -> bytes:
        """Notes whole packets; what is left is the begin of one."""
        while len(octets) > 1:
            size, at = 0, 1
            while at < len(octets):
                size |= (octets[at] & 127) << 7 * (at - 1)
                at += 1
                if octets[at - 1] < 128:
                    break
            else:
                return octets
            if len(octets) < at + size:
                return octets
            self.note_one(octets[0], octets[at:at + size], own, other)
            octets = octets[at + size:]
        return octets

    def note_one(self, first: int, body: bytes, own: Way, other: Way) -> None:
        """A publication is of its own direction, and a PUBACK of a publication of the other one."""
        if first >> 4 == 3 and first & 6:
            own.publish(body)
        elif first >> 4 == 4:
            other.acknowledge(body)

    def close(self) -> None:
        self.server.close()


# ---- MQTT-SN 1.2


class Node:
    """A client of the field: it asks again until it is answered, and takes what comes."""

    def __init__(self, gateway: Gateway, name: bytes, patience: float = 0.5):
        self.gateway, self.name, self.message, self.patience = gateway, name, 0, patience
        self.socket = socket.socket(socket.AF_INET, socket.SOCK_DGRAM)
        self.socket.bind((HOST, 0))
        self.ids, self.names, self.came = {}, {}, []

    def next(self) -> int:
        self.message = self.message % 65535 + 1
        return self.message

    def receive(self, seconds: float):
        self.socket.settimeout(seconds)
        try:
            octets, _ = self.socket.recvfrom(65535)
        except (socket.timeout, ConnectionError):
            return None
        kind, body = opened(octets)
        if kind == 0x0C:
            name = self.names.get(body[1:3])
            if name:
                self.came.append((name, body[5:], time.monotonic()))
            if body[0] & 0x60:
                self.say(published(body[1:3], int.from_bytes(body[3:5], "big"), 0 if name else 2))
        elif kind == 0x0A:
            self.names[body[:2]] = body[4:]
            self.say(frame(0x0B, body[:4] + b"\0"))
        return kind, body

    def say(self, octets: bytes) -> None:
        self.socket.sendto(octets, self.gateway.address)

    def ask(self, octets: bytes, kind: int, is_it=lambda body: True, seconds: float = 60.0) -> bytes:
        end = time.monotonic() + seconds
        while time.monotonic() < end:
            self.say(octets)
            again = time.monotonic() + self.patience
            while (left := again - time.monotonic()) > 0:
                found = self.receive(left)
                if found and found[0] == kind and is_it(found[1]):
                    return found[1]
                if found and found[0] == 0x18:
                    raise ConnectionError
        raise Failed(f"{self.name!r} was not answered")

    def connect(self, clean: bool = True) -> None:
        self.ids, end = {}, time.monotonic() + 60
        while True:
            try:
                self.ask(connect(self.name, 600, clean), 0x05, lambda body: body == b"\0")
                return
            except ConnectionError:  # the answer to what was sent before
                if time.monotonic() > end:
                    raise

    def listen(self, name: bytes) -> None:
        message = self.next()
        body = self.ask(subscribe(name, message), 0x13, lambda body: body[3:5] == number(message))
        self.names[body[1:3]] = name

    def id_of(self, name: bytes) -> bytes:
        if name not in self.ids:
            message = self.next()
            self.ids[name] = self.ask(register(name, message), 0x0B, lambda body: body[2:4] == number(message) and body[4] == 0)[:2]
        return self.ids[name]

    def publish(self, name: bytes, octets: bytes, qos: int = 1) -> None:
        """Publishes; at quality of service 1 and 2 until PUBACK 0 or PUBCOMP, connecting again if the gateway does not know the client."""
        while True:
            try:
                topic, message = self.id_of(name), self.next()
                sent = frame(0x0C, bytes([qos << 5]) + topic + number(message if qos else 0) + octets)
                if not qos:
                    return self.say(sent)
                if qos == 2:
                    self.ask(sent, 0x0F, lambda body: body == number(message))
                    self.ask(frame(0x10, number(message)), 0x0E, lambda body: body == number(message))
                    return None
                code = self.ask(sent, 0x0D, lambda body: body[2:4] == number(message))[4]
                if code == 0:
                    return None
                time.sleep(0.2)
                if code == 2:
                    self.ids = {}
            except ConnectionError:
                self.connect(False)

    def run(self, is_over) -> None:
        """Takes what comes until it is over; connects again now and then, as a client does that hears nothing."""
        heard = time.monotonic()
        while not is_over():
            found = self.receive(0.2)
            if found and found[0] != 0x18:
                heard = time.monotonic()
            elif found or time.monotonic() - heard > 5:
                try:
                    self.connect(False)
                    for name in list(self.names.values()):
                        self.listen(name)
                except (Failed, ConnectionError):
                    pass
                heard = time.monotonic()


# ---- mosquitto and the bridge


def unpacked(folder: str) -> tuple:
    """Debian's package of mosquitto and the libraries that it needs, in a folder: the program and its environment; or why it cannot be had."""
    here = os.path.join(folder, "debian")
    os.makedirs(here, exist_ok=True)
    names, seen = ["mosquitto"], set()
    environment = dict(os.environ)
    program = os.path.join(here, "usr/sbin/mosquitto")
    while names:
        name = names.pop()
        seen.add(name)
        got = subprocess.run(["apt-get", "download", name], cwd=here, capture_output=True, text=True, check=False)
        if got.returncode:
            return None, f"apt-get download {name}: {got.stderr.strip().splitlines()[-1:] or 'it failed'}"
        for file in os.listdir(here):
            if file.endswith(".deb"):
                subprocess.run(["dpkg", "-x", file, "."], cwd=here, check=True)
                os.remove(os.path.join(here, file))
        libraries = [os.path.join(here, "usr/lib", it) for it in os.listdir(os.path.join(here, "usr/lib"))] if os.path.isdir(os.path.join(here, "usr/lib")) else []
        environment["LD_LIBRARY_PATH"] = ":".join(libraries)
        lacks = subprocess.run(["ldd", program], env=environment, capture_output=True, text=True, check=False).stdout
        wanted = subprocess.run(["apt-cache", "depends", "--important", "mosquitto"], capture_output=True, text=True, check=False).stdout
        if "not found" in lacks and len(seen) == 1:
            names = [it for it in re.findall(r"Depends: ([a-z0-9.+-]+)", wanted) if it.startswith("lib") and it not in ("libc6", "libgcc-s1", *seen)]
    if "not found" in lacks:
        return None, "these libraries are wanting: " + " ".join(re.findall(r"(\S+) => not found", lacks))
    return (program, environment), ""


def broker_program(folder: str) -> tuple:
    for program in (shutil.which("mosquitto"), "/usr/sbin/mosquitto"):
        if program and os.path.exists(program):
            return (program, dict(os.environ)), ""
    if not shutil.which("apt-get"):
        return None, "there is no apt-get"
    return unpacked(folder)


class Process:
    """A program that can be killed and started again."""

    def __init__(self, words: list, folder: str, name: str, environment=None):
        self.words, self.folder, self.name, self.environment = words, folder, name, environment
        self.process = None
        self.err = os.path.join(folder, f"{name}.err")

    def start(self) -> None:
        with open(self.err, "ab") as err:
            self.process = subprocess.Popen(self.words, cwd=self.folder, stdin=subprocess.DEVNULL, stdout=err, stderr=err, env=self.environment,
                                            preexec_fn=with_the_starter(0, ENDLESS))

    def kill(self, how: int = signal.SIGKILL) -> None:
        if self.process and self.process.poll() is None:
            self.process.send_signal(how)
        if self.process:
            self.process.wait(30)

    def told(self) -> str:
        with open(self.err, encoding="utf-8", errors="replace") as it:
            return it.read()

    def alive(self) -> None:
        expect(self.process is not None and self.process.poll() is None, f"{self.name} ended: {self.told()[-300:]}")


class Scene:
    """A gateway, a broker and a bridge in a folder of their own."""

    names = [b"t/heat", b"t/cold", b"t/wind", b"t/rain"]

    def __init__(self, bridge: str, sngw: str, broker: tuple, folder: str, lanes: int = 2, names: tuple = (), spools: bool = False, relays: bool = False,
                 saves: bool = True, **more: str):
        self.folder, self.spools = tempfile.mkdtemp(dir=folder), spools
        self.broker_port = free_ports(1)[0]
        self.relay = Relay(self.broker_port) if relays else None
        self.gateway = Gateway(sngw, self.folder, 1, **more)
        self.names = list(names) or Scene.names
        self.settings = os.path.join(self.folder, "b1.toml")
        self.refused = os.path.join(self.folder, "b1.refused")
        with open(self.settings, "w", encoding="utf-8") as it:
            it.write(self.text(lanes))
        self.bridge = Process([bridge, "--config", self.settings], self.folder, "bridge")
        self.broker = None
        if broker:
            config = os.path.join(self.folder, "mosquitto.conf")
            with open(config, "w", encoding="utf-8") as it:
                it.write(f"listener {self.broker_port} {HOST}\nset_tcp_nodelay true\nallow_anonymous true\nmax_queued_messages 0\npersistence true\n"
                         f"persistence_location {self.folder}/\n" + ("autosave_on_changes true\nautosave_interval 1\n" if saves else ""))
                if os.geteuid() == 0:
                    it.write("user root\n")
            self.broker = Process([broker[0], "-c", config], self.folder, "mosquitto", broker[1])

    def port_of_bridge(self) -> int:
        """Where the bridge finds the broker."""
        return self.relay.server.getsockname()[1] if self.relay else self.broker_port

    def text(self, lanes: int) -> str:
        names = ", ".join(f'"{it.decode()}"' for it in self.names)
        return (f'name = "b1"\ngateways = ["{HOST}:{self.gateway.port}"]\nbroker = "{HOST}:{self.port_of_bridge()}"\nclient = "nimhazel-b1"\n'
                f'lanes = {lanes}\nrefused = "{self.refused}"\n' + (f'spool = "{self.folder}/spool"\n' if self.spools else "") + f'[[up]]\ntopics = [{names}]\nshort = ["qa"]\nto = "field/1/"\n'
                f'[[down]]\nfilter = "cmd/1/act/#"\nstrip = "cmd/1/"\n')

    def __enter__(self):
        self.gateway.start()
        if self.broker:
            self.broker.start()
            until(lambda: socket.socket().connect_ex((HOST, self.broker_port)) == 0, 10, "mosquitto did not listen", 0.1)
        self.bridge.start()
        return self

    def ready(self) -> None:
        until(lambda: re.search(r"(\d+) of \1 lanes listen\n", self.bridge.told()), 60, f"no lane listens: {self.bridge.told()[-300:]}", 0.1)

    def __exit__(self, *_) -> None:
        self.bridge.kill()
        if self.broker:
            self.broker.kill()
        if self.relay:
            self.relay.close()
        self.gateway.kill()


def count_of(came: list, topic: bytes) -> list:
    """The numbers that came under a topic, in their order."""
    return [int(body) for name, body, _ in came if name == topic]


def first_of(numbers: list) -> list:
    """Each number once, where it came first."""
    return list(dict.fromkeys(numbers))


def is_rising(numbers: list) -> bool:
    return numbers == sorted(set(numbers))


def silence(came: list) -> float:
    """For how many seconds nothing has come."""
    return time.monotonic() - (came[-1][2] if came else 0.0)


def latest(came: list, topic: bytes) -> int:
    """The last number that came under a topic; -1 if none did."""
    return next((int(body) for name, body, _ in reversed(came) if name == topic), -1)


# ---- parts


def settings(bridge: str, sngw: str, _broker: tuple, folder: str, _words) -> str:
    """The first bad key is named."""
    scene = Scene(bridge, sngw, None, folder)
    good = scene.text(2)
    bad = [("name", 'name = "b1"', 'name = "B1"'), ("gateways", f'["{HOST}:{scene.gateway.port}"]', "[]"),
           ("gateways", f'"{HOST}:{scene.gateway.port}"', f'"{HOST}:{scene.gateway.port}", "[::1]:1881"'), ("broker", f'"{HOST}:{scene.broker_port}"', '"here"'),
           ("client", 'client = "nimhazel-b1"', f'client = "{24 * "c"}"'), ("lanes", "lanes = 2", "lanes = 17"), ("lanes", "lanes = 2", 'lanes = "2"'),
           ("spool", "lanes = 2", "lanes = 2\nspool = 1"), ("room", "lanes = 2", "lanes = 2\nroom = 2000"), ("room", "lanes = 2", 'lanes = 2\nspool = "s"\nroom = 5'),
           ("status", "lanes = 2", 'lanes = 2\nstatus = "here"'), ("up.topics", '"t/heat"', '"t/+"'), ("up.topics", '"t/heat"', '"t/cold"'), ("up.short", '"qa"', '"qaa"'),
           ("up.to", '"field/1/"', '"field/#"'), ("up.to", "[[up]]", '[[up]]\ntopics = ["1/t/heat"]\nto = "field/"\n[[up]]'),
           ("up.to", 'lanes = 2', f'lanes = 2\nspool = "s"\n[[up]]\ntopics = ["t/long"]\nto = "{250 * "n"}/"\n[[down]]\nfilter = "t/#/t"'), ("up.filter", "[[up]]", '[[up]]\nfilter = "t/#"'),
           ("up.retain", 'to = "field/1/"', 'to = "field/1/"\nretain = ["t/heat", "t/#/x"]'), ("down.filter", '"cmd/1/act/#"', '"cmd/#/1"'),
           ("down.filter", '"cmd/1/act/#"', '"field/#"'), ("refused", f'refused = "{scene.refused}"\n', "")]
    for key, old, new in bad:
        expect(old in good, f"no {old} in the settings")
        with open(scene.settings, "w", encoding="utf-8") as it:
            it.write(good.replace(old, new, 1))
        run = subprocess.run([bridge, "--config", scene.settings], capture_output=True, text=True, timeout=30, check=False)
        expect(run.stderr.splitlines()[-1:] == [f"sn_bridge: settings {key}"] and run.returncode == 1, f"{new}: {run.returncode} {run.stderr!r}, not {key}")
    with open(scene.settings, "w", encoding="utf-8") as it:
        it.write(good.replace('to = "field/1/"', 'to = "field/1/"\nretian = ["t/heat"]', 1).replace("lanes = 2", "lanes = 17\nwindows = 3", 1))
    run = subprocess.run([bridge, "--config", scene.settings], capture_output=True, text=True, timeout=30, check=False)
    expect(all(f"{scene.settings}: {key} is no key, and is ignored" in run.stderr for key in ("retian", "windows")), f"an unknown key is not told: {run.stderr!r}")
    return f"{len(bad)} bad settings, each key named; 2 unknown keys told"


def names(bridge: str, sngw: str, broker: tuple, folder: str, words) -> str:
    """Three lanes subscribe to as many names as they may have; with one more the settings are refused."""
    many = words.names
    with Scene(bridge, sngw, broker, folder, 3, tuple(b"n/%d" % at for at in range(many))) as scene:
        reader, sensor = Peer(scene.broker_port, b"reader", (b"field/#",)), Node(scene.gateway, b"s0")
        until(lambda: "3 of 3 lanes listen" in scene.bridge.told(), 600, f"not all lanes listen: {scene.bridge.told()[-300:]}", 0.1)
        until(lambda: reader.socket, 10, "the reader did not connect")
        sensor.connect()
        for at in (0, 1, 2, many - 1):
            sensor.publish(b"n/%d" % at, b"1")
        until(lambda: len(reader.came) >= 4, 30, f"{len(reader.came)} of 4 readings came")
        with open(scene.settings, "w", encoding="utf-8") as it:
            scene.names = [b"n/%d" % at for at in range(750)]
            it.write(scene.text(3))
        run = subprocess.run([bridge, "--config", scene.settings], capture_output=True, text=True, timeout=30, check=False)
        expect(run.stderr.endswith("sn_bridge: settings lanes\n") and run.returncode == 1, f"751 names: {run.returncode} {run.stderr[-200:]!r}")
        return f"{many} long names in 3 lanes, and 751 names are refused"


def through(bridge: str, sngw: str, broker: tuple, folder: str, words) -> str:
    """Readings and commands at each quality of service, in order, none twice."""
    many = words.messages
    with Scene(bridge, sngw, broker, folder, 4) as scene:
        reader, writer = Peer(scene.broker_port, b"reader", (b"field/#",)), Peer(scene.broker_port, b"writer")
        actor = Node(scene.gateway, b"actor")
        actor.connect()
        actor.listen(b"act/lamp")
        is_over = []
        threading.Thread(target=actor.run, args=(lambda: bool(is_over),), daemon=True).start()
        scene.ready()
        until(lambda: reader.socket and writer.socket, 10, "the peers did not connect")
        # what a sensor sends again is another message for the gateway, so these wait
        sensors = [Node(scene.gateway, b"s%d" % at, 20.0) for at in range(len(scene.names))]

        def read(sensor: Node, name: bytes) -> None:
            sensor.connect()
            for at in range(many):
                sensor.publish(name, b"%d" % at)

        began = time.monotonic()
        threads = [threading.Thread(target=read, args=it) for it in zip(sensors, scene.names)]
        for it in threads:
            it.start()
        for at in range(many):
            writer.publish(b"cmd/1/act/lamp", b"%d" % at)
        for it in threads:
            it.join()
        for name in scene.names:
            until(lambda topic=b"field/1/" + name: len(count_of(reader.came, topic)) >= many, 60, f"readings of {name!r} are missing")
            expect(count_of(reader.came, b"field/1/" + name) == list(range(many)), f"readings of {name!r} are not in order, or come twice")
        until(lambda: len(count_of(actor.came, b"act/lamp")) >= many, 60, "commands are missing")
        expect(count_of(actor.came, b"act/lamp") == list(range(many)), "commands are not in order, or come twice")
        seconds = time.monotonic() - began
        sensors[0].publish(scene.names[0], b"900001", 0)
        until(lambda: 900001 in count_of(reader.came, b"field/1/" + scene.names[0]), 10, "a reading of quality of service 0 did not come")
        writer.publish(b"cmd/1/act/lamp", b"900002", 0)
        until(lambda: 900002 in count_of(actor.came, b"act/lamp"), 10, "a command of quality of service 0 did not come")
        sensors[0].publish(scene.names[0], b"900003", 2)
        until(lambda: 900003 in count_of(reader.came, b"field/1/" + scene.names[0]), 10, "a reading of quality of service 2 did not come")
        writer.publish(b"cmd/1/act/lamp", b"900004", 2)
        until(lambda: 900004 in count_of(actor.came, b"act/lamp"), 10, "a command of quality of service 2 did not come")
        is_over.append(True)
        scene.bridge.alive()
        return f"{many * 4} readings and {many} commands, in order, none twice, in {seconds:.1f} seconds"


def retained(bridge: str, sngw: str, broker: tuple, folder: str, _words) -> str:
    """What the field retains comes to a bridge that begins, and again each time its lanes connect."""
    scene = Scene(bridge, sngw, broker, folder)
    scene.gateway.start()
    sensor = Node(scene.gateway, b"s0")
    sensor.connect()
    topic, message = sensor.id_of(b"t/heat"), sensor.next()
    sensor.ask(frame(0x0C, b"\x30" + topic + number(message) + b"21"), 0x0D, lambda body: body[2:] == number(message) + b"\0")
    scene.gateway.kill()
    with scene:
        reader = Peer(scene.broker_port, b"reader", (b"field/#",))
        scene.ready()
        until(lambda: count_of(reader.came, b"field/1/t/heat") == [21], 30, f"what is retained did not come, but {reader.came}")
        scene.broker.kill(signal.SIGTERM)
        scene.broker.start()
        until(lambda: count_of(reader.came, b"field/1/t/heat") == [21, 21], 60, f"it did not come again, but {reader.came}")
        return "a retained reading came, and again as the lanes connected"


def predefined(bridge: str, sngw: str, broker: tuple, folder: str, _words) -> str:
    """The gateway has a predefined id for a name of a lane: what waited while the lane slept comes all the same."""
    with Scene(bridge, sngw, broker, folder, predefined='[{ id = 7, topic = "t/heat" }]') as scene:
        reader, sensor = Peer(scene.broker_port, b"reader", (b"field/#",)), Node(scene.gateway, b"s0")
        sensor.connect()
        scene.ready()
        until(lambda: reader.socket, 10, "the reader did not connect")
        scene.broker.kill(signal.SIGTERM)
        until(lambda: "the broker is away" in scene.bridge.told(), 30, "the bridge does not say that the broker is away")
        time.sleep(1)
        for at in range(5):
            sensor.publish(b"t/heat", b"%d" % at)
        scene.broker.start()
        until(lambda: set(count_of(reader.came, b"field/1/t/heat")) == set(range(5)), 60, f"readings are missing: {count_of(reader.came, b'field/1/t/heat')} came")
        return f"5 readings of a predefined topic waited, and {len(reader.came)} came"


def away(bridge: str, sngw: str, broker: tuple, folder: str, _words) -> str:
    """The broker is away: readings wait in the field, and all come."""
    with Scene(bridge, sngw, broker, folder) as scene:
        reader, sensor = Peer(scene.broker_port, b"reader", (b"field/#",)), Node(scene.gateway, b"s0")
        sensor.connect()
        scene.ready()
        until(lambda: reader.socket, 10, "the reader did not connect")
        sensor.publish(b"t/heat", b"0")
        until(lambda: count_of(reader.came, b"field/1/t/heat") == [0], 20, "the first reading did not come")
        scene.broker.kill(signal.SIGTERM)
        for at in range(1, 501):
            sensor.publish(b"t/heat", b"%d" % at)
        scene.broker.start()
        until(lambda: len(set(count_of(reader.came, b"field/1/t/heat"))) == 501, 120, f"readings are missing: {len(reader.came)} of 501 came")
        came = count_of(reader.came, b"field/1/t/heat")
        expect(first_of(came) == list(range(501)), "readings are not in order")
        return f"500 readings while the broker was away, all came, {len(came) - 501} twice"


def spool(bridge: str, sngw: str, broker: tuple, folder: str, words) -> str:
    """The broker is away for as long as thousands of readings, and the bridge is killed meanwhile: the spool has them, and all come."""
    many = words.waiting // 4
    with Scene(bridge, sngw, broker, folder, 4, spools=True) as scene:
        reader, sensors, faults = Peer(scene.broker_port, b"reader", (b"field/#",)), [Node(scene.gateway, b"s%d" % at) for at in range(4)], []
        scene.ready()
        until(lambda: reader.socket, 10, "the reader did not connect")
        for sensor, name in zip(sensors, scene.names):
            sensor.connect()
            sensor.publish(name, b"0")
        until(lambda: len({topic for topic, _, _ in reader.came}) == 4, 20, "the first readings did not come")
        scene.broker.kill(signal.SIGTERM)

        def read(sensor: Node, name: bytes) -> None:
            try:
                for at in range(1, many + 1):
                    sensor.publish(name, b"%d" % at)
                    time.sleep(0.01)  # a gateway keeps 1,024 readings for a lane whose bridge is killed
            except Failed as fault:
                faults.append(str(fault))

        threads = [threading.Thread(target=read, args=it) for it in zip(sensors, scene.names)]
        for it in threads:
            it.start()
        kills = 0
        while any(it.is_alive() for it in threads):
            time.sleep(5)
            scene.bridge.kill()
            scene.bridge.start()
            kills += 1
        for it in threads:
            it.join()
        expect(not faults, f"{faults}")
        scene.ready()
        scene.broker.start()
        for name in scene.names:
            topic = b"field/1/" + name
            until(lambda topic=topic: len(set(count_of(reader.came, topic))) > many, 300, f"readings of {name!r} are missing: {len(set(count_of(reader.came, topic)))} of {many + 1} came")
            expect(first_of(count_of(reader.came, topic)) == list(range(many + 1)), f"readings of {name!r} are not in order")
        twice = len(reader.came) - 4 * (many + 1)
        told = re.findall(r"the spool has (\d+) readings", scene.bridge.told())
        return f"{4 * many} readings while the broker was away, {kills} kills, the spool had up to {max(map(int, told))}, all came, {twice} twice"


def full(bridge: str, sngw: str, broker: tuple, folder: str, _words) -> str:
    """The disk of the spool is full while the broker is away: nothing is acknowledged that is not in it, and all comes once there is room."""
    with Scene(bridge, sngw, broker, folder, spools=True) as scene:
        reader, sensor = Peer(scene.broker_port, b"reader", (b"field/#",)), Node(scene.gateway, b"s0")
        sensor.connect()
        scene.ready()
        until(lambda: reader.socket, 10, "the reader did not connect")
        scene.broker.kill(signal.SIGTERM)
        until(lambda: "the broker is away" in scene.bridge.told(), 30, "the bridge does not say that the broker is away")
        process = scene.bridge.process.pid
        resource.prlimit(process, resource.RLIMIT_FSIZE, (20_000, resource.RLIM_INFINITY))
        for at in range(300):
            sensor.publish(b"t/heat", b"%0200d" % at)
        until(lambda: "the spool refuses readings" in scene.bridge.told(), 60, f"the spool does not fill up: {scene.bridge.told()[-300:]}", 0.1)
        scene.bridge.alive()
        scene.bridge.kill()
        scene.bridge.start()
        scene.broker.start()
        until(lambda: set(count_of(reader.came, b"field/1/t/heat")) == set(range(300)), 120, f"readings are missing: {len(set(count_of(reader.came, b'field/1/t/heat')))} of 300 came")
        return "300 readings for a spool of 20,000 octets, all came"


def refused(bridge: str, sngw: str, broker: tuple, folder: str, _words) -> str:
    """What no side will have is in the file, behind half a line that a crash left, and the next command comes."""
    scene = Scene(bridge, sngw, broker, folder)
    with open(scene.refused, "w", encoding="ascii") as it:
        it.write("1790000000 1 si")
    with scene:
        writer, actor = Peer(scene.broker_port, b"writer"), Node(scene.gateway, b"actor")
        actor.connect()
        actor.listen(b"act/lamp")
        is_over = []
        threading.Thread(target=actor.run, args=(lambda: bool(is_over),), daemon=True).start()
        scene.ready()
        until(lambda: writer.socket, 10, "the writer did not connect")
        for topic, body in ((b"cmd/1/act/lamp", 4097 * b"x"), (b"cmd/1/act/" + 300 * b"n", b"1"), (b"cmd/1/act/lamp", 300_000 * b"y")):
            writer.publish(topic, body)
        writer.publish(b"cmd/1/act/lamp", b"7")
        until(lambda: 7 in [int(body) for _, body, _ in actor.came if body.isdigit()], 30, "the command after those did not come")
        with open(scene.refused, encoding="ascii") as it:
            half, *lines = [line.split() for line in it]
        expect(half == ["1790000000", "1", "si"], f"the first line is {half}")
        expect([line[2] for line in lines] == ["size", "topic", "size"], f"the lines are {[line[2] for line in lines]}")
        expect(bytes.fromhex(lines[1][3]) == b"cmd/1/act/" + 300 * b"n", "the second line has another topic")
        is_over.append(True)
        return f"{len(lines)} commands in the file, and the next one came"


def odd(bridge: str, sngw: str, _broker: tuple, folder: str, words) -> str:
    """A broker that closes, says nothing, says what is no packet, or refuses: the bridge goes on."""
    with Scene(bridge, sngw, None, folder) as scene:
        dice, count = random.Random(words.seed), 0
        with socket.create_server((HOST, scene.broker_port)) as server:
            server.settimeout(40)
            said = [b"", b"\x20\x02\x00\x05", b"\x20\x02\x00\x00\x40\x02\x00\x09\x40\x02\x00\x09", b"\xff\xff\xff\xff\xff", b"\x90\x03\x00\x01\x00",
                    b"\x20\x02\x00\x00" + b"\x32\xff\xff\xff\x7f" + 100_000 * b"z"] + [dice.randbytes(dice.randrange(1, 400)) for _ in range(4)]
            for octets in said:
                if octets.startswith(b"\x20\x02\x00\x05"):
                    continue
                line, _ = server.accept()
                with line:
                    try:
                        line.sendall(octets)
                    except OSError:
                        pass
                    time.sleep(0.2)
                count += 1
                scene.bridge.alive()
        return f"{count} brokers that are none, and the bridge went on"


def silent(bridge: str, sngw: str, _broker: tuple, folder: str, _words) -> str:
    """A broker that accepts and says nothing is hung up and dialled again; so is one that says nothing any longer. One that refuses is told of."""
    with Scene(bridge, sngw, None, folder) as scene:
        with socket.create_server((HOST, scene.broker_port)) as server:
            server.settimeout(40)
            for said in (b"", b"\x20\x02\x01\x00" + SUBACK):
                line, _ = server.accept()
                with line:
                    line.sendall(said)
                    line.settimeout(60)
                    began = time.monotonic()
                    while line.recv(65535):
                        pass
                    took = time.monotonic() - began
                    expect(5 < took < 45, f"it was hung up after {took:.0f} seconds")
            line, _ = server.accept()
            with line:
                line.sendall(b"\x20\x02\x00\x05")
                until(lambda: "the broker refuses the client, code 5" in scene.bridge.told(), 10, "that the broker refuses is not told")
        return "a silent broker is hung up and dialled again, and a refusal is told"


def strange(bridge: str, sngw: str, _broker: tuple, folder: str, words) -> str:
    """A gateway of random octets, and of frames that nobody asked for: the bridge goes on."""
    with Scene(bridge, sngw, None, folder) as scene:
        scene.gateway.kill()
        dice, count = random.Random(words.seed), 0
        with socket.create_server((HOST, scene.broker_port)) as server, socket.socket(socket.AF_INET, socket.SOCK_DGRAM) as field:
            field.bind(scene.gateway.address)
            field.settimeout(15)
            server.settimeout(15)
            line, _ = server.accept()
            line.sendall(b"\x20\x02\x01\x00" + SUBACK)
            kinds = [0x05, 0x0A, 0x0B, 0x0C, 0x0D, 0x13, 0x17, 0x18]
            with line:
                line.setblocking(False)
                end = time.monotonic() + words.seconds
                while time.monotonic() < end:
                    _, lane = field.recvfrom(65535)
                    for _ in range(20):
                        body = dice.randbytes(dice.randrange(0, 12))
                        field.sendto(frame(dice.choice(kinds), body) if dice.random() < 0.8 else dice.randbytes(dice.randrange(0, 300)), lane)
                        count += 1
                    field.sendto(frame(0x05, b"\0"), lane)
                    if scene.bridge.told().count("away") > 50:
                        break
            scene.bridge.alive()
        return f"{count} datagrams of nobody's, and the bridge went on"


def spooled_kills(bridge: str, sngw: str, broker: tuple, folder: str, words) -> str:
    """The same with a spool."""
    return kills(bridge, sngw, broker, folder, words, True)


def kills(bridge: str, sngw: str, broker: tuple, folder: str, words, spools: bool = False) -> str:
    """The bridge, the broker and the gateway are killed in turn: nothing that was acknowledged is lost, and the bridge keeps the order."""
    dice = random.Random(words.seed)
    with Scene(bridge, sngw, broker, folder, spools=spools, relays=True) as scene:
        traffic = Traffic(scene)
        try:
            traffic.begin()
            for which in turns(dice, words.kills):
                traffic.wait_for_flow()
                time.sleep(dice.uniform(0.0, 2.0))
                traffic.kill(which, dice)
            traffic.end()
            traffic.check()
        except Failed as fault:
            traffic.write_story()
            raise Failed(f"{fault}; see {scene.folder}/story") from fault
        return (f"{words.kills} kills, {traffic.flowing} of the bridge within a second after a reading came, {len(traffic.sent)} messages, none lost but "
                f"{len(traffic.lost()[1])} that mosquitto acknowledged within {SAVED:.0f} seconds of its kill, {traffic.twice()} twice, {traffic.order()}")


def turns(dice: random.Random, many: int) -> list:
    """What is killed, one after the other: all three in turn, each time in another order."""
    found = []
    while len(found) < many:
        found += dice.sample(["bridge", "broker", "gateway"], 3)
    return found[:many]


class Traffic:
    """Sensors, a reader, a writer and an actor, whose messages are numbers. `sent` has what was acknowledged to who sent it, and when; `killed` has what
    was killed, and when that began and ended."""

    def __init__(self, scene: Scene):
        self.scene, self.sent, self.killed, self.faults = scene, {}, [], []
        self.flowing, self.senders, self.is_over, self.is_done = 0, [], False, False
        self.reader, self.writer = Peer(scene.broker_port, b"reader", (b"field/#",)), Peer(scene.broker_port, b"writer")
        self.actor = Node(scene.gateway, b"actor")

    def begin(self) -> None:
        """Begins once all sessions are on the disk of the broker."""
        self.actor.connect()
        self.actor.listen(LAMP)
        spawn(self.faults, self.actor.run, lambda: self.is_done)
        self.scene.ready()
        until(lambda: self.reader.socket and self.writer.socket, 10, "the peers did not connect")
        time.sleep(SAVED)
        self.senders = [spawn(self.faults, self.read, name) for name in self.scene.names] + [spawn(self.faults, self.command)]

    def look(self) -> None:
        """No thread has ended by a fault."""
        faults = self.faults + self.reader.faults + self.writer.faults + self.scene.relay.faults
        expect(not faults, f"{faults}")

    def pause(self, topic: bytes, at: int, came: list) -> None:
        """Waits while too many messages are on their way: a gateway keeps 1,024 for a lane. What mosquitto has lost is not waited for once a later one
        has come."""
        end = time.monotonic() + 10
        while not self.is_over and at - latest(came, topic) > AHEAD and time.monotonic() < end:
            time.sleep(0.05)

    def read(self, name: bytes) -> None:
        """A sensor publishes readings until it is over."""
        sensor, at = Node(self.scene.gateway, b"s" + name[-2:]), 0
        sensor.connect()
        while not self.is_over:
            self.pause(UP + name, at, self.reader.came)
            sensor.publish(name, b"%d" % at)
            self.sent[name, at] = time.monotonic()
            at += 1
            time.sleep(0.02)

    def command(self) -> None:
        """The writer publishes commands until it is over."""
        at = 0
        while not self.is_over:
            self.pause(LAMP, at, self.actor.came)
            self.sent[LAMP, at] = self.writer.publish(COMMAND, b"%d" % at)
            at += 1
            time.sleep(0.05)

    def wait_for_flow(self) -> None:
        """Waits until a reading has just come, but not for ever. After a kill of the gateway its lanes notice nothing for 20 seconds."""
        end = time.monotonic() + 30
        while silence(self.reader.came) > 0.5 and time.monotonic() < end:
            time.sleep(0.02)

    def kill(self, which: str, dice: random.Random) -> None:
        """Kills one of the three, which must not have ended by itself, and starts it again."""
        program = {"bridge": self.scene.bridge, "broker": self.scene.broker, "gateway": self.scene.gateway}[which]
        self.look()
        program.alive()
        self.flowing += which == "bridge" and silence(self.reader.came) < 1.0
        began = time.monotonic()
        program.kill()
        if which == "broker":
            time.sleep(dice.uniform(0.0, 0.5))
        self.killed.append((which, began, time.monotonic()))
        program.start()

    def end(self) -> None:
        """Waits until all has come, or nothing comes any more but what mosquitto may have lost."""
        self.stop_senders()
        self.look()
        end = time.monotonic() + 180
        while time.monotonic() < end:
            faults, losses = self.lost()
            if not faults and (not losses or min(silence(self.reader.came), silence(self.actor.came)) > 30):
                break
            time.sleep(1)
        self.is_done = True

    def stop_senders(self) -> None:
        self.is_over = True
        for it in self.senders:
            it.join()

    def lost(self) -> tuple:
        """What was acknowledged and did not come: what is a fault, and what mosquitto may have lost."""
        came = {(topic.removeprefix(UP), int(body)) for topic, body, _ in self.reader.came + self.actor.came} | self.refused()
        lost = {it for it in self.sent if it not in came}
        losses = {it for it in lost if self.may_lose(self.moments(*it))}
        return lost - losses, losses

    def refused(self) -> set:
        """The commands in the file of what nobody will have."""
        if not os.path.exists(self.scene.refused):
            return set()
        with open(self.scene.refused, encoding="ascii") as it:
            return {(LAMP, int(bytes.fromhex(line.split()[4]))) for line in it if line.endswith("\n")}

    def moments(self, name: bytes, at: int) -> list:
        """When mosquitto answered for a message: for a reading to the bridge, for a command to the writer, unless the bridge has answered for it since."""
        body = b"%d" % at
        if name == LAMP:
            return [] if (COMMAND, body) in self.scene.relay.answered else [self.sent[name, at]]
        return self.scene.relay.acked.get((UP + name, body), [])

    def may_lose(self, moments: list) -> bool:
        """Whether mosquitto may have lost what it acknowledged at these moments: each time it was killed before it had saved that."""
        spans = [(began - SAVED, ended + NOTED) for which, began, ended in self.killed if which == "broker"]
        return bool(moments) and all(any(began < moment < ended for began, ended in spans) for moment in moments)

    def twice(self) -> int:
        came = [(topic, body) for topic, body, _ in self.reader.came + self.actor.came]
        return len(came) - len(set(came))

    def has_sorted_commands(self) -> bool:
        """Whether mosquitto sent commands to the bridge in their order over each connection."""
        return all(is_rising([int(body) for _, body in way.published]) for way in self.scene.relay.downs)

    def order(self) -> str:
        return "all in order" if self.has_sorted_commands() else "readings in order; mosquitto broke that of commands"

    def check(self) -> None:
        """Nothing is lost. The bridge publishes readings in their order, repeats apart, and answers for commands as they came over a connection."""
        self.look()
        self.scene.bridge.alive()
        faults = sorted(self.lost()[0])
        expect(not faults, f"{len(faults)} acknowledged messages are lost, among them {faults[:5]}")
        for name in self.scene.names:
            numbers = first_of([int(body) for topic, body in self.scene.relay.up if topic == UP + name])
            expect(is_rising(numbers), f"the bridge publishes readings of {name!r} out of order")
        for way in self.scene.relay.downs:
            expect(way.done == way.published[:len(way.done)], "the bridge answers for commands out of order")
        expect(is_rising(first_of(count_of(self.actor.came, LAMP))) or not self.has_sorted_commands(), "commands come to the actor out of order")

    def write_story(self) -> None:
        """What is known of each message, for who looks for one that is lost."""
        self.stop_senders()
        relay, (faults, losses) = self.scene.relay, self.lost()
        lines = [(began, f"the {which} is killed") for which, began, _ in self.killed] + [(ended, f"the {which} is started") for which, _, ended in self.killed]
        lines += [(moment, f"{name.decode()} {at} acknowledged") for (name, at), moment in self.sent.items()]
        lines += [(moment, f"{name.decode()} {body.decode()} came") for name, body, moment in self.reader.came + self.actor.came]
        for who, found in (("mosquitto", relay.acked), ("the bridge", relay.answered)):
            lines += [(moment, f"{name.decode()} {body.decode()} acknowledged by {who}") for (name, body), moments in list(found.items()) for moment in moments]
        with open(os.path.join(self.scene.folder, "story"), "w", encoding="utf-8") as it:
            it.write(f"lost {sorted(faults)}\nlost by mosquitto {sorted(losses)}\n")
            it.writelines(f"{moment:.3f} {line}\n" for moment, line in sorted(lines))
            it.write("published by the bridge, in this order:\n")
            it.writelines(f"{name.decode()} {body.decode()}\n" for name, body in relay.up)


PARTS = {"settings": settings, "names": names, "through": through, "retained": retained, "predefined": predefined, "away": away, "spool": spool, "full": full,
         "refused": refused, "odd": odd, "silent": silent, "strange": strange, "kills": kills, "spooled-kills": spooled_kills}
WITHOUT_BROKER = ("settings", "odd", "silent", "strange")


def main() -> int:
    words = argparse.ArgumentParser(description=__doc__, formatter_class=argparse.RawDescriptionHelpFormatter)
    words.add_argument("program")
    words.add_argument("sngw")
    words.add_argument("parts", nargs="*", choices=[*PARTS, []])
    words.add_argument("--kills", type=int, default=100)
    words.add_argument("--messages", type=int, default=500)
    words.add_argument("--waiting", type=int, default=10_000)
    words.add_argument("--names", type=int, default=600)
    words.add_argument("--seconds", type=float, default=30)
    words.add_argument("--seed", type=int, default=1)
    words = words.parse_args()
    bridge, sngw = os.path.abspath(words.program), os.path.abspath(words.sngw)
    status, folder = 0, tempfile.mkdtemp()
    broker, why = broker_program(folder)
    if not broker:
        print(f"mosquitto cannot be had: {why}; only {' and '.join(WITHOUT_BROKER)} are tried")
    for name in words.parts or PARTS:
        if not broker and name not in WITHOUT_BROKER:
            continue
        try:
            print(f"{name:13} {PARTS[name](bridge, sngw, broker, folder, words)}", flush=True)
        except Failed as fault:
            print(f"{name:13} FAILED: {fault}", flush=True)
            status = 1
    if status:
        print(f"what the programs left is in {folder}")
    else:
        shutil.rmtree(folder, ignore_errors=True)
    return status


if __name__ == "__main__":
    sys.exit(main())
