"""The daemon as a process, datagrams of MQTT-SN 1.2, clients that repeat themselves and displays: what daemon.py and others share.

All goes on at 127.0.0.1. Each wait has an end. A daemon that was started ends with the thread that started it.
"""
import ctypes
import os
import re
import resource
import signal
import socket
import subprocess
import threading
import time

HOST = "127.0.0.1"
AGAIN = 0.5  # seconds after which a client repeats what was not answered
FOREVER = 65535  # the longest duration of a sleep, in seconds
RETAIN = 0x10  # the flag of a PUBLISH that is retained, or that hands over what is
# What is told where a journal is begun, on a line of its own.
BEGUN = re.compile(r"^(?:<3>)?(.*)\.0, \1\.1: no journal is there, one is begun\n", re.M)


class Failed(Exception):
    """What was expected, and what came."""


def expect(holds: bool, words: str) -> None:
    if not holds:
        raise Failed(words)


def until(holds, seconds: float, words: str, every: float = 0.02):
    """Looks again and again until something holds, and gives that."""
    end = time.monotonic() + seconds
    while True:
        found = holds()
        if found:
            return found
        if time.monotonic() > end:
            raise Failed(f"{words}: not within {seconds:.0f} seconds")
        time.sleep(every)


def free_ports(count: int) -> list:
    """Ports that neither a UDP nor a TCP socket has now; the system gives them."""
    held, ports = [], []
    while len(ports) < count:
        stream = socket.socket(socket.AF_INET, socket.SOCK_STREAM)
        datagrams = socket.socket(socket.AF_INET, socket.SOCK_DGRAM)
        held += [stream, datagrams]
        stream.bind((HOST, 0))
        port = stream.getsockname()[1]
        try:
            datagrams.bind((HOST, port))
        except OSError:
            continue
        ports.append(port)
    for each in held:
        each.close()
    return ports


# ---- datagrams


def number(value: int) -> bytes:
    return value.to_bytes(2, "big")


def frame(kind: int, body: bytes = b"") -> bytes:
    """A message; the short form of Length where it fits (section 5.2.1)."""
    if len(body) + 2 <= 255:
        return bytes([len(body) + 2, kind]) + body
    return b"\x01" + number(len(body) + 4) + bytes([kind]) + body


def search() -> bytes:
    return frame(0x01, b"\x00")


def connect(name: bytes, duration: int = 0, clean: bool = False) -> bytes:
    return frame(0x04, bytes([0x04 if clean else 0x00, 0x01]) + number(duration) + name)


def register(name: bytes, message: int) -> bytes:
    return frame(0x0A, number(0) + number(message) + name)


def publish(field: bytes, body: bytes, message: int = 0, flags: int = 0x22) -> bytes:
    """Flags: 20 is quality of service 1, 40 is 2, 60 is -1; 10 is Retain; 01 a predefined id, 02 a short name."""
    return frame(0x0C, bytes([flags]) + field + number(message) + body)


def published(field: bytes, message: int, code: int = 0) -> bytes:
    """PUBACK."""
    return frame(0x0D, field + number(message) + bytes([code]))


def subscribe(topic: bytes, message: int = 1, flags: int = 0x20) -> bytes:
    return frame(0x12, bytes([flags]) + number(message) + topic)


def ping(name: bytes = b"") -> bytes:
    return frame(0x16, name)


def leave(duration: int = 0) -> bytes:
    return frame(0x18, number(duration) if duration else b"")


CONNECTED = bytes.fromhex("030500")
PONG = bytes.fromhex("0217")
GONE = bytes.fromhex("0218")


def opened(octets: bytes) -> tuple:
    """The kind and the body of a message that a gateway sent."""
    if octets[:1] == b"\x01":
        return octets[3], octets[4:]
    return octets[1], octets[2:]


# ---- the daemon


def settings_text(values: dict) -> str:
    """A settings file; values are written as TOML writes them."""
    return "".join(f"{key} = {value}\n" for key, value in values.items() if value is not None)


def at_port(port: int) -> str:
    return f'"{HOST}:{port}"'


def with_the_starter(limit: int = 0, room: int = 0):
    """What the process does before it is the daemon: it ends with its starter, has so much memory at most, and so much room in a file:
    a write beyond that fails, as on a disk that is full."""
    library = ctypes.CDLL(None)

    def begin() -> None:
        library.prctl(1, signal.SIGKILL)
        if limit:
            resource.setrlimit(resource.RLIMIT_AS, (limit, limit))
        if room:
            signal.signal(signal.SIGXFSZ, signal.SIG_IGN)
            resource.setrlimit(resource.RLIMIT_FSIZE, (room, resource.RLIM_INFINITY))

    return begin


def fill(sink: int) -> int:
    """Fills a pipe, and gives how many octets that took."""
    os.set_blocking(sink, False)
    count = 0
    try:
        while True:
            count += os.write(sink, b"\n" * 4096)
    except BlockingIOError:
        os.set_blocking(sink, True)
    return count


def copy_after(source: int, file, filler: int, event) -> None:
    """Copies a pipe to a file, from an event on, without so many octets at its beginning."""
    if event:
        event.wait()
    with open(source, "rb", buffering=0) as pipe, file:
        while octets := pipe.read(65536):
            file.write(octets[filler:])
            filler = max(0, filler - len(octets))


class Gateway:
    """A daemon with its settings, its journal and what it printed. All files lie in the folder."""

    within = 30.0  # seconds that a start may take

    def __init__(self, program: str, folder: str, gateway: int, ports: tuple = (), **more: str):
        self.program, self.folder, self.number = program, folder, gateway
        self.port, self.link = ports or free_ports(2)
        self.journal = os.path.join(folder, f"journal-{gateway}")
        self.settings = os.path.join(folder, f"gateway-{gateway}.toml")
        self.values = {"gateway": str(gateway), "listen": at_port(self.port), "link": at_port(self.link), "journal": f'"{self.journal}"'}
        self.values.update(more)
        self.process, self.starts, self.out, self.err, self.room = None, 0, "", "", 0
        self.copies, self.printing = [], None

    @property
    def address(self) -> tuple:
        return HOST, self.port

    def write(self) -> None:
        with open(self.settings, "w", encoding="utf-8") as text:
            text.write(settings_text(self.values))

    def begin(self, shifts: int = 1_000_000) -> None:
        """Starts the process and waits for nothing. If its files may have so much room at most, it prints into pipes: a file would be full too.
        With an event as `printing` its first line waits for that, and the process with it."""
        self.starts += 1
        self.out = os.path.join(self.folder, f"gateway-{self.number}.{self.starts}.out")
        self.err = os.path.join(self.folder, f"gateway-{self.number}.{self.starts}.err")
        self.copies = []
        with self.sink(self.out, self.room or self.printing, self.printing) as out, self.sink(self.err, self.room) as err:
            self.process = subprocess.Popen(
                [self.program, "--config", self.settings, "--shifts", str(shifts)],
                stdin=subprocess.DEVNULL, stdout=out, stderr=err, cwd=self.folder, preexec_fn=with_the_starter(0, self.room))

    def sink(self, path: str, is_piped, event=None):
        """Where the process prints: the file, or a pipe that is copied to it, from an event on; until then the pipe is full."""
        file = open(path, "wb", buffering=0)
        if not is_piped:
            return file
        source, sink = os.pipe()
        filler = fill(sink) if event else 0
        self.copies.append(threading.Thread(target=copy_after, args=(source, file, filler, event), daemon=True))
        self.copies[-1].start()
        return open(sink, "wb", buffering=0)

    def drain(self) -> None:
        """Waits for what a process that is over has printed."""
        if self.process and self.process.poll() is not None:
            for copy in self.copies:
                copy.join(5)

    def start(self, shifts: int = 1_000_000, seconds: float = 0) -> tuple:
        """Starts the process, waits for its first line and for an answer, and gives the records and clients that it read. It is not asked often: what
        is asked while it listens to its peers waits in its socket."""
        seconds = seconds or Gateway.within
        if not os.path.exists(self.settings):
            self.write()
        self.begin(shifts)
        found = until(self.opening, seconds, f"gateway {self.number} printed no line 'gateway G records K clients C'")
        expect(int(found[1]) == self.number, f"gateway {self.number} called itself {found[1]}")
        with Client(b"starter", self) as starter:
            starter.ask(search(), frame(0x02, bytes([self.number])), seconds, 0.3)
        return int(found[2]), int(found[3])

    def opening(self):
        if self.process.poll() is not None:
            raise Failed(f"gateway {self.number} ended with status {self.process.returncode}: {self.told().strip() or 'nothing told'}")
        return re.match(r"gateway (\d+) records (\d+) clients (\d+)\n", self.printed())

    def printed(self) -> str:
        self.drain()
        with open(self.out, encoding="utf-8", errors="replace") as text:
            return text.read()

    def told(self) -> str:
        """What it told on standard error, but for the line that tells that its journal is begun."""
        self.drain()
        with open(self.err, encoding="utf-8", errors="replace") as text:
            return BEGUN.sub("", text.read())

    def shifts(self) -> list:
        """The shifts that were closed, with their calls."""
        return [(int(shift), int(steps)) for shift, steps in re.findall(r"^shift (\d+) steps (\d+)$", self.printed(), re.M)]

    def alive(self) -> None:
        expect(self.process is not None, f"gateway {self.number} was not started")
        expect(self.process.poll() is None, f"gateway {self.number} ended with status {self.process.returncode}: {self.told().strip()}")

    def kill(self) -> None:
        """Ends the process at once, as a want of power would."""
        if self.process and self.process.poll() is None:
            self.process.send_signal(signal.SIGKILL)
        if self.process:
            self.process.wait(30)

    def limit_room(self, room: int) -> None:
        """The disk of the process that runs is full: a file of its has so much room at most. It must have been started with a limit."""
        resource.prlimit(self.process.pid, resource.RLIMIT_FSIZE, (room, resource.RLIM_INFINITY))
        self.room = room

    def limit_memory(self, more: int) -> None:
        """The system gives the process that runs so many octets more at most."""
        with open(f"/proc/{self.process.pid}/statm", encoding="ascii") as text:
            pages = int(text.read().split()[0])
        resource.prlimit(self.process.pid, resource.RLIMIT_AS, (pages * resource.getpagesize() + more, resource.RLIM_INFINITY))

    def free_memory(self) -> None:
        """The system gives the process what it asks for."""
        resource.prlimit(self.process.pid, resource.RLIMIT_AS, (resource.RLIM_INFINITY, resource.RLIM_INFINITY))

    def make_room(self) -> None:
        """The disk is not full any more."""
        resource.prlimit(self.process.pid, resource.RLIMIT_FSIZE, (resource.RLIM_INFINITY, resource.RLIM_INFINITY))
        self.room = 0

    def openings(self) -> list:
        """The records and clients that were read whenever the journal was opened, also in place."""
        found = re.findall(r"^gateway \d+ records (\d+) clients (\d+)$", self.printed(), re.M)
        return [(int(records), int(clients)) for records, clients in found]

    def slots(self) -> list:
        """The octets of the two files of the journal."""
        octets = []
        for ending in (".0", ".1"):
            if os.path.exists(self.journal + ending):
                with open(self.journal + ending, "rb") as file:
                    octets.append(file.read())
        return octets

    def held(self) -> bytes:
        """The octets of the journal."""
        return b"".join(self.slots())

    def await_octets(self, octets: bytes, seconds: float = 20) -> float:
        """Waits until the octets stand in the journal, and gives the seconds that it took."""
        began = time.monotonic()
        until(lambda: octets in self.held(), seconds, f"{octets!r} did not come to the journal of gateway {self.number}")
        return time.monotonic() - began

    def settle(self, seconds: float = 20) -> None:
        """Waits until the journal has not grown for half a second: deltas come in any order."""
        end = time.monotonic() + seconds
        length, since = len(self.held()), time.monotonic()
        while time.monotonic() - since < 0.5:
            expect(time.monotonic() < end, f"the journal of gateway {self.number} goes on growing")
            time.sleep(0.05)
            if len(self.held()) != length:
                length, since = len(self.held()), time.monotonic()

    def memory(self) -> int:
        """VmRSS in KiB."""
        self.alive()
        with open(f"/proc/{self.process.pid}/status", encoding="ascii") as text:
            found = re.search(r"^VmRSS:\s+(\d+) kB$", text.read(), re.M)
        expect(found is not None, "the system does not tell VmRSS")
        return int(found[1])

    def __enter__(self):
        return self

    def __exit__(self, *_):
        self.kill()


# ---- clients


class Client:
    """A client at an address of its own. What is not answered is repeated. A repeated frame that is late counts anew when it comes: a CONNECT
    that was answered and comes again behind a DISCONNECT wakes a client that sleeps. On a machine that is slow `again` must be long."""

    again = AGAIN
    host = HOST

    def __init__(self, name: bytes, gateway: Gateway):
        self.name, self.gateway, self.repeats = name, gateway, 0
        self.socket = socket.socket(socket.AF_INET, socket.SOCK_DGRAM)
        self.socket.bind((self.host, 0))

    def send(self, octets: bytes) -> None:
        self.socket.sendto(octets, self.gateway.address)

    def receive(self, seconds: float):
        """The next datagram of the gateway, or nothing."""
        end = time.monotonic() + seconds
        while True:
            left = end - time.monotonic()
            if left <= 0:
                return None
            self.socket.settimeout(left)
            try:
                octets, sender = self.socket.recvfrom(65536)
            except TimeoutError:
                return None
            if sender == self.gateway.address:
                return octets

    def flush(self) -> None:
        self.socket.setblocking(False)
        try:
            while True:
                self.socket.recvfrom(65536)
        except BlockingIOError:
            pass

    def ask(self, octets: bytes, wanted: bytes, seconds: float = 15, every: float = 0) -> bytes:
        """Sends until the answer comes that begins so; other datagrams are passed over, and told where none comes."""
        end, others = time.monotonic() + seconds, []
        while time.monotonic() < end:
            self.send(octets)
            again = time.monotonic() + (every or self.again)
            while time.monotonic() < again:
                answer = self.receive(again - time.monotonic())
                if answer is not None and answer.startswith(wanted):
                    return answer
                if answer is not None:
                    others.append(answer.hex())
            self.repeats += 1
        raise Failed(f"{self.name.decode()} sent {octets.hex()} to gateway {self.gateway.number}, wanted {wanted.hex()} and got "
                     f"{' '.join(others[:5]) or 'nothing'} within {seconds:.0f} seconds")

    def connect(self, duration: int = 0, clean: bool = False) -> None:
        self.ask(connect(self.name, duration, clean), CONNECTED)

    def sleep(self, duration: int = FOREVER) -> None:
        self.ask(leave(duration), GONE)

    def wake(self, seconds: float = 30) -> list:
        """The messages that waited: PINGREQ, each message acknowledged, up to PINGRESP. One that is sent again counts once."""
        self.flush()
        end, seen, messages = time.monotonic() + seconds, set(), []
        self.send(ping(self.name))
        while time.monotonic() < end:
            octets = self.receive(self.again)
            if octets is None:
                self.send(ping(self.name))
                self.repeats += 1
                continue
            if octets == PONG:
                return messages
            expect(octets != GONE, f"{self.name.decode()} wanted to wake at gateway {self.gateway.number} and was turned away")
            self.take(octets, seen, messages)
        raise Failed(f"{self.name.decode()} woke at gateway {self.gateway.number}, got {len(messages)} messages and no PINGRESP "
                     f"within {seconds:.0f} seconds")

    def take(self, octets: bytes, seen: set, messages: list) -> None:
        """A message, a topic or a PUBREL that the gateway sends."""
        kind, body = opened(octets)
        if kind == 0x0A:
            self.send(frame(0x0B, body[:4] + b"\x00"))
        if kind == 0x10:
            self.send(frame(0x0E, body[:2]))
        if kind != 0x0C:
            return
        flags, field, message = body[0], body[1:3], int.from_bytes(body[3:5], "big")
        if flags & 0x60 == 0x20:
            self.send(published(field, message))
        if flags & 0x60 == 0x40:
            self.send(frame(0x0F, number(message)))
        if flags & 0x60 == 0 or message not in seen:
            messages.append(body[5:])
        seen.add(message)

    def sends_once(self, messages: list) -> list:
        """What came of this client's publications. One that it repeated may have come twice, and counts once."""
        return list(dict.fromkeys(messages)) if self.repeats else messages

    def hear(self, seconds: float) -> list:
        """The messages that come to a client that is there, up to the first, acknowledged."""
        end, seen, messages = time.monotonic() + seconds, set(), []
        while time.monotonic() < end and not messages:
            octets = self.receive(end - time.monotonic())
            if octets is not None:
                self.take(octets, seen, messages)
        return messages

    def close(self) -> None:
        self.socket.close()

    def __enter__(self):
        return self

    def __exit__(self, *_):
        self.close()


class Display(Client):
    """A subscriber that notes each message that it is sent, whatever it waits for meanwhile: its topic, what it says, its quality of service,
    and whether Retain is set. One at quality of service 1 or 2 that is sent again counts once. Predefined topics are given as pairs."""

    def __init__(self, name: bytes, gateway: Gateway, predefined: tuple = ()):
        super().__init__(name, gateway)
        self.topics = {(0x01, number(place)): topic for place, topic in predefined}
        self.seen, self.got = set(), []

    def connect(self, duration: int = 0, clean: bool = False) -> None:
        """With a clean session message ids begin anew."""
        if clean:
            self.seen.clear()
        super().connect(duration, clean)

    def receive(self, seconds: float):
        octets = super().receive(seconds)
        if octets is not None:
            self.note(octets)
        return octets

    def note(self, octets: bytes) -> None:
        kind, body = opened(octets)
        if kind == 0x0A:
            self.topics[0x00, body[:2]] = body[4:]
        bodies = []
        super().take(octets, self.seen, bodies)
        for said in bodies:
            self.got.append((self.topic(body[0] & 0x03, body[1:3]), said, body[0] >> 5 & 0x03, body[0] & RETAIN != 0))

    def topic(self, kind: int, field: bytes) -> bytes:
        """The topic of a PUBLISH: a short name, or one that an id stands for."""
        return field if kind == 0x02 else self.topics.get((kind, field), b"no topic of id " + field)

    def take(self, octets: bytes, seen: set, messages: list) -> None:
        """It was noted when it came."""

    def flush(self) -> None:
        while self.receive(0.001) is not None:
            pass

    def subscribe(self, topic: bytes, flags: int) -> None:
        """Asks once, if an answer comes within ten seconds: who subscribes again is handed all again."""
        answer = self.ask(subscribe(topic, 1, flags), b"\x08\x13", 30, 10)
        expect(answer[-1] == 0, f"{self.name.decode()} subscribed and was answered {answer.hex()}")
        if flags & 0x03 == 0x00:
            self.topics[0x00, answer[3:5]] = topic

    def so_far(self) -> list:
        """What it noted since it was asked last. Where it repeated something, it may have been handed all again, and what is equal counts once."""
        got, self.got = self.got, []
        return list(dict.fromkeys(got)) if self.repeats else got

    def hears(self, count: int, seconds: float = 30) -> list:
        """Asks whether the gateway is there until so many messages came. What comes half a second after another one is told, too."""
        end = time.monotonic() + seconds
        self.ask(ping(), PONG)
        while len(self.got) < count and time.monotonic() < end:
            if self.receive(AGAIN) is None:
                self.ask(ping(), PONG)
        while self.receive(0.5) is not None and time.monotonic() < end:
            pass
        return self.so_far()

    def fetches(self, seconds: float = 30) -> list:
        """Falls asleep and wakes: what it was sent up to PINGRESP, behind which nothing waits."""
        self.sleep()
        self.wake(seconds)
        return self.so_far()
