#!/usr/bin/env python3
"""Tries a field of linked daemons for a long time: random clients, links that are cut, gateways that are killed, disks that are full.

Usage: trials/soak.py PROGRAM MINUTES [--seed N] [--gateways N] [--look PROGRAM] [--steps N] [--patience N] [--keep FOLDER] [--older] [--chain]

Each pair of gateways has a link, by way of a proxy that can be cut; with --chain each gateway is linked with the next alone. In rounds of 20 to 100 seconds clients connect, sleep, wake at other
gateways and publish at every quality of service, while links are cut, gateways are killed by `kill -9` and started again on their
journals, processes stand still, and there is no room for a journal. Of the datagrams of clients some are lost and some come twice. Behind
each round all is mended, the subscribers fetch what waits for them, and it is looked at what came. A line is printed each minute. Status 0
only where nothing was lost, nothing came that must not, and all gateways show the same.

What must have come. A publication counts for a subscriber where a gateway that knew of the subscription said that it has the message. That
is known from outside for two kinds of subscribers:

  Walkers subscribe once, before the first round, and never again; each gateway is asked before that round whether it knows. A session
  under any later stamp is taken over from one with these subscriptions, so whichever is in force anywhere has them. So every publication
  counts that any gateway acknowledged: by PUBACK with code 0 at quality of service 1, by PUBREC at 2.
  Homers stay at one gateway, and subscribe and unsubscribe all the time. The session in force there is always the one that this gateway
  made, and what it answered for outlives a kill. So a publication counts that was sent to that gateway alone, first after the SUBACK
  came, and acknowledged before an UNSUBSCRIBE was sent. Others may come or not.

What must be retained. Some publications have Retain set, and some of these are empty, which ends what was retained. Behind each round somebody
new subscribes to all topics at each gateway: all hand over the same, with Retain set, each topic once. That of a topic is one of the round that
had Retain set; where none of these was acknowledged it may also be that from before the round. For then all gateways had that, so each that
retains something of the topic in the round lets it win. To some topics something is published at the end of the round, when each gateway has what
the others made: that is what they hand over. Homers are handed what is retained when they subscribe; nobody is owed that. Walkers subscribed
before anything was retained: to them nothing comes with Retain set.

These hold because of what the clients leave undone:

  - Fewer than 1,024 messages may wait for a client at a gateway. Nothing waits anywhere when a round begins, and of the frames that are
    sent in a round at most 900 are publications; each counts twice, for it may be sent twice. A homer sends at most 100 SUBSCRIBE in a round,
    of which each may hand it a message more.
  - PUBREC is also said of a message id that was received before and not released: publishers never use an id again under one name.
  - CleanSession drops what waits: nobody to whom something is owed uses it.
  - Nobody takes along what was not acknowledged to the next round, and no will is published.
  - Two gateways that have not heard of each other may give a message id of one client to two messages. An acknowledgement that still lies
    in a socket when the client comes back could then be taken for the other message: each visit of a client has an address of its own.
  - Quality of service 0 and -1 are counted and may be lost, and so is what was refused or not answered.

With --older a killed gateway goes on from files that it had at an earlier start, as nobody may do: so it is seen that losses are found.
"""
import argparse
import collections
import json
import os
import random
import shutil
import signal
import socket
import struct
import subprocess
import sys
import tempfile
import threading
import time

sys.dont_write_bytecode = True
from gateway import (CONNECTED, FOREVER, GONE, HOST, PONG, RETAIN, Client, Display, Failed, Gateway, at_port, connect, expect, frame, free_ports,
                     leave, number, opened, ping, publish, register, subscribe, until)

ROOMY = 1 << 40  # a room that no journal needs
MOST = 900  # frames of a round that may be messages for one subscriber
HANDED = 100  # SUBSCRIBE of one subscriber in a round that may each hand it a message that is retained
LOSS = 0.02  # of the datagrams of clients so many are lost, and so many come twice
KEPT = 0.3  # of the publications so many are sent with Retain
ENDED = 0.15  # and of these so many with an empty message, which ends what was retained
SEVEN = 7  # the predefined topic
LOCAL = (b"ka", b"kb", b"kc")  # topics of homers
NAMED = (b"r/one", b"r/two")  # topics that are registered

# the topics of walkers, and what each of them subscribes to: flags of the type, topic, quality of service
COMMON = {b"qa": (0x02, b"qa"), b"p/seven": (0x01, number(SEVEN)), b"r/one": (0x00, b"r/one"), b"r/two": (0x00, b"r/two")}
WALKS = [
    [(b"qa", 0x02, b"qa", 0x20), (b"r/one r/two", 0x00, b"r/+", 0x40)],
    [(b"p/seven", 0x01, number(SEVEN), 0x40), (b"qa", 0x02, b"qa", 0x20)],
    [(b"qa p/seven r/one r/two ka kb kc", 0x00, b"#", 0x40)],
]


class Publication:
    """A message, to whom it was sent and when, and who acknowledged it. An empty one has Retain set, and nobody is owed it."""

    def __init__(self, topic: bytes, quality: int, body: bytes, is_kept: bool = False):
        self.topic, self.quality, self.body, self.is_kept = topic, quality, body, is_kept
        self.sends, self.acknowledged = [], None

    def flags(self) -> int:
        return (self.quality & 3) << 5 | (RETAIN if self.is_kept else 0)

    def told(self) -> str:
        sends = " ".join(f"{gateway}@{moment:.3f}" for gateway, moment in self.sends)
        return f"{self.body.decode() or 'an end'} quality {self.quality} sent {sends} acknowledged by {self.acknowledged}"


class Book:
    """What was sent, acknowledged and handed over."""

    def __init__(self):
        self.lock = threading.Lock()
        self.counts = collections.Counter()
        self.faults = []
        self.all = {}
        self.last = {}  # what was retained of each topic before the round
        self.clear()

    def clear(self) -> None:
        """Nothing of the last round is asked for any more; what came is known by its body all the same."""
        with self.lock:
            self.round, self.kept, self.frames = [], collections.defaultdict(list), 0

    def count(self, what: str, more: int = 1) -> None:
        with self.lock:
            self.counts[what] += more

    def fault(self, words: str) -> None:
        with self.lock:
            self.faults.append(words)
        print(f"  FAULT {words}", flush=True)

    def may_send(self) -> bool:
        """Whether a frame more may be a message for each subscriber in this round."""
        with self.lock:
            self.frames += 2
            return self.frames <= MOST

    def open(self, publication: Publication) -> None:
        with self.lock:
            self.counts[f"publications at {publication.quality}"] += 1
            if publication.body:
                self.all[publication.body] = publication
                self.round.append(publication)
            if publication.is_kept:
                self.kept[publication.topic].append(publication)
                self.counts["with Retain" if publication.body else "with Retain and empty"] += 1

    def sends(self, publication: Publication, gateway: int) -> None:
        with self.lock:
            publication.sends.append((gateway, time.monotonic()))

    def acknowledge(self, publication: Publication, gateway: int) -> None:
        with self.lock:
            if publication.acknowledged is None:
                publication.acknowledged = (gateway, time.monotonic())
                self.counts[f"acknowledged at {publication.quality}"] += 1


class Walker(Client):
    """A client for one visit at a gateway, some of whose datagrams are lost or come twice."""

    patience = 1.0  # on a slow machine all wait longer

    def __init__(self, name: bytes, gateway: Gateway, chance: random.Random):
        super().__init__(name, gateway)
        self.chance, self.trace = chance, None

    def send(self, octets: bytes) -> None:
        times = (self.chance.random() >= LOSS) + (self.chance.random() < LOSS)
        self.note(f"sends {times} times", octets)
        for _ in range(times):
            super().send(octets)

    def receive(self, seconds: float):
        octets = super().receive(seconds)
        if octets is None:
            return None
        lost = self.chance.random() < LOSS
        self.note("loses" if lost else "gets", octets)
        return None if lost else octets

    def note(self, what: str, octets: bytes) -> None:
        """Keeps what a subscriber did, for whoever looks for the cause of a loss."""
        if self.trace is not None:
            port = self.socket.getsockname()[1]
            self.trace.append(f"{time.monotonic():.3f} gateway {self.gateway.number} port {port} {what} {octets.hex()} {octets!r}")

    def first_of(self, octets: bytes, wanted, seconds: float, every: float = 0.5, taken=None):
        """Sends again and again, until a frame comes that is wanted; others are given to `taken`."""
        seconds, every = seconds * Walker.patience, every * Walker.patience
        end = time.monotonic() + seconds
        while time.monotonic() < end:
            self.send(octets)
            again = min(end, time.monotonic() + every)
            while (left := again - time.monotonic()) > 0:
                answer = self.receive(left)
                if answer is None:
                    continue
                if wanted(answer):
                    return answer
                if taken is not None:
                    taken(answer)
        return None


def is_answer(*wanted: bytes):
    """One of these answers, or DISCONNECT."""
    return lambda octets: octets == GONE or octets.startswith(wanted)


class Actor:
    """Somebody who acts until the round is over, in a thread."""

    def __init__(self, book: Book, gateways: list, name: bytes, seed: str):
        self.book, self.gateways, self.who = book, gateways, name
        self.chance = random.Random(f"{seed} {name.decode()}")
        self.over, self.thread = threading.Event(), None

    def begin_round(self) -> None:
        self.over.clear()
        self.thread = threading.Thread(target=self.run, daemon=True)
        self.thread.start()

    def end_round(self) -> None:
        self.thread.join(120)
        expect(not self.thread.is_alive(), f"{self.who.decode()} did not come to an end")

    def visit(self, gateway: Gateway) -> Walker:
        return Walker(self.who, gateway, self.chance)

    def run(self) -> None:
        while not self.over.is_set():
            try:
                self.act()
            except (OSError, Failed) as why:
                self.book.fault(f"{self.who.decode()}: {why}")
            self.over.wait(self.chance.random() * 0.5)

    def act(self) -> None:
        raise NotImplementedError


class Publisher(Actor):
    """Publishes at any gateway. What is not answered it may take along to the next."""

    def __init__(self, *given):
        super().__init__(*given)
        self.base, self.life, self.next_id, self.number, self.left = self.who, 0, 0, 0, []

    def message(self) -> int:
        """A message id that was never used under this name."""
        self.next_id += 1
        if self.next_id > 60000:
            self.life, self.next_id, self.left = self.life + 1, 1, []
            self.who = self.base + b"-%d" % self.life
        return self.next_id

    def begin_round(self) -> None:
        self.left = []
        super().begin_round()

    def act(self) -> None:
        with self.visit(self.chance.choice(self.gateways)) as here:
            asked = connect(self.who, self.chance.choice([0, 5, 60]), self.chance.random() < 0.5)
            if here.first_of(asked, is_answer(CONNECTED), 2) != CONNECTED:
                return self.without_connection(here)
            ids = {}
            for _ in range(self.chance.randrange(1, 12)):
                if self.over.is_set() or not self.one(here, ids):
                    break
                self.over.wait(self.chance.random() * 0.3)
            if self.chance.random() < 0.5:
                here.first_of(leave(self.chance.choice([0, 30])), is_answer(), 1)

    def without_connection(self, here: Walker) -> None:
        """A publication at quality of service -1."""
        topic = self.chance.choice([b"qa", b"p/seven"])
        if self.book.may_send():
            publication = self.drawn(topic, -1)
            flags, field = COMMON[topic]
            self.book.sends(publication, here.gateway.number)
            here.send(publish(field, publication.body, 0, flags | publication.flags()))

    def drawn(self, topic: bytes, quality: int) -> Publication:
        """A publication, of which some are with Retain, and some of these empty."""
        is_kept = self.chance.random() < KEPT
        return self.made(topic, quality, is_kept, is_kept and self.chance.random() < ENDED)

    def made(self, topic: bytes, quality: int, is_kept: bool = False, is_end: bool = False) -> Publication:
        self.number += 1
        made = Publication(topic, quality, b"" if is_end else b"%s|%s|%d" % (topic, self.base, self.number), is_kept)
        self.book.open(made)
        return made

    def mark(self, topics: set, is_kept: bool = False) -> dict:
        """One message for each of these topics, with Retain or without; what it says."""
        made = {}
        with self.visit(self.gateways[0]) as here:
            if here.first_of(connect(self.who, 0, True), is_answer(CONNECTED), 5) != CONNECTED:
                return made
            for topic in sorted(topics):
                publication = self.made(topic, 1, is_kept)
                field = self.field(here, topic, {})
                if field is not None and self.put(here, publication, self.message(), *field):
                    made[topic] = publication.body
        return made

    def one(self, here: Walker, ids: dict) -> bool:
        """One publication; whether this visit goes on."""
        if self.left and self.chance.random() < 0.7:
            publication, message = self.left.pop()
        else:
            topic = self.chance.choice([*COMMON, *LOCAL])
            publication, message = self.drawn(topic, self.chance.choice([0, 1, 1, 1, 2, 2])), self.message()
        field = self.field(here, publication.topic, ids)
        if field is None:
            return False
        said = self.put(here, publication, message, *field)
        if not said and publication.quality > 0 and self.chance.random() < 0.5:
            self.left.append((publication, message))
        return said

    def field(self, here: Walker, topic: bytes, ids: dict):
        """The flags and the field of a topic; a name in full is registered first."""
        if topic in LOCAL:
            return 0x02, topic
        flags, field = COMMON[topic]
        if topic not in NAMED:
            return flags, field
        if topic not in ids:
            message = self.message()
            answer = here.first_of(register(topic, message), lambda got: got == GONE or (got[1:2], got[4:6]) == (b"\x0b", number(message)), 2)
            if answer is None or answer == GONE or answer[6] != 0:
                return None
            ids[topic] = answer[2:4]
        return flags, ids[topic]

    def put(self, here: Walker, publication: Publication, message: int, flags: int, field: bytes) -> bool:
        """Sends it until it is acknowledged, refused, or four seconds are over."""
        octets = publish(field, publication.body, message if publication.quality else 0, flags | publication.flags())
        wanted = is_answer(b"\x07\x0d" + field + number(message), frame(0x0F, number(message)))
        for turn in range(4 if publication.quality else 1):
            if not self.book.may_send():
                return False
            self.book.sends(publication, here.gateway.number)
            answer = here.first_of(octets, wanted, 1 if publication.quality else 0.1, 2)
            octets = octets[:2] + bytes([octets[2] | 0x80]) + octets[3:]
            if publication.quality == 0:
                return answer != GONE
            if answer == GONE:
                return False
            if answer is not None and answer[1] == 0x0D and answer[6] != 0:
                self.book.count("refused")
            elif answer is not None:
                self.book.acknowledge(publication, here.gateway.number)
                return answer[1] == 0x0D or here.first_of(frame(0x10, number(message)), is_answer(frame(0x0E, number(message))), 1) != GONE
        return False


class Subscriber(Actor):
    """Somebody for whom messages wait."""

    is_handed_kept = False  # whether it subscribes when something is retained

    def __init__(self, *given):
        super().__init__(*given)
        self.handed, self.came = collections.Counter(), 0
        self.topics = set()
        self.trace = collections.deque(maxlen=100_000)

    def visit(self, gateway: Gateway) -> Walker:
        made = super().visit(gateway)
        made.trace = self.trace
        return made

    def hand(self, here: Walker, octets: bytes) -> None:
        """A frame of the gateway: messages are noted first, and then acknowledged."""
        kind, body = opened(octets)
        if kind == 0x0C:
            self.came += 1
            self.book.count("deliveries")
            self.note(body[5:], body[0] & RETAIN != 0)
        here.take(octets, set(), [])

    def note(self, message: bytes, is_kept: bool) -> None:
        """What comes with Retain was retained: nobody is owed that, and it is no repeat. An empty message may be anybody's."""
        if is_kept:
            self.book.count("deliveries with Retain")
        elif not message:
            return
        else:
            self.handed[message] += 1
            if self.handed[message] > 1:
                self.book.count("repeats")
        wrong = self.wrong(message, is_kept)
        if wrong:
            self.book.fault(f"{self.who.decode()} was handed {message!r} {wrong}")

    def wrong(self, message: bytes, is_kept: bool) -> str:
        """What is wrong with a message that came, if anything is."""
        sent = self.book.all.get(message)
        if sent is None:
            return "which nobody sent"
        if sent.topic not in self.topics:
            return "and has not subscribed to it"
        if is_kept and not sent.is_kept:
            return "with Retain, and it was published without"
        if is_kept and not self.is_handed_kept:
            return "with Retain, and subscribed before anything was retained"
        return ""

    def hear_for(self, here: Walker, seconds: float) -> bool:
        """Takes what comes; whether the gateway has not turned it away."""
        end = time.monotonic() + seconds
        while (left := end - time.monotonic()) > 0:
            octets = here.receive(left)
            if octets == GONE:
                return False
            if octets is not None:
                self.hand(here, octets)
        return True

    def connected(self, here: Walker, seconds: float = 2, durations: tuple = (0, 3, 60)) -> bool:
        return self.asks(here, connect(self.who, self.chance.choice(durations)), CONNECTED, seconds=seconds) == CONNECTED

    def asks(self, here: Walker, octets: bytes, *wanted: bytes, seconds: float = 2):
        return here.first_of(octets, is_answer(*wanted), seconds, 0.5, lambda got: self.hand(here, got))

    def fetch(self, gateway: Gateway, seconds: float = 4):
        """Wakes by PINGREQ, or connects; how many messages came up to PINGRESP, or nothing where none came. It falls asleep again."""
        with self.visit(gateway) as here:
            before, end = self.came, time.monotonic() + seconds * Walker.patience
            while time.monotonic() < end:
                answer = self.asks(here, ping(self.who), PONG, seconds=min(3, seconds))
                if answer == GONE:
                    if not self.connected(here):
                        return None
                    self.hear_for(here, 0.1)
                    self.asks(here, leave(FOREVER), GONE)
                elif answer == PONG:
                    if not self.hear_for(here, 0.05):
                        return None
                    if self.came == before:
                        return 0 if self.asks(here, leave(FOREVER), GONE) == GONE else None
                    return self.came - before
            return None


class Roamer(Subscriber):
    """Subscribes once, and then walks."""

    def __init__(self, place: int, *given):
        super().__init__(*given)
        self.walk = WALKS[place % len(WALKS)]
        self.topics = {topic for topics, _, _, _ in self.walk for topic in topics.split()}

    def settle_in(self, gateway: Gateway) -> None:
        with self.visit(gateway) as here:
            expect(self.connected(here, 30, (0,)), f"{self.who.decode()} could not connect")
            for place, (_, kind, topic, quality) in enumerate(self.walk):
                answer = self.asks(here, subscribe(topic, place + 1, kind | quality), b"\x08\x13", seconds=30)
                expect(answer is not None and answer[-1] == 0, f"{self.who.decode()} could not subscribe")
            expect(self.asks(here, leave(FOREVER), GONE, seconds=30) == GONE, f"{self.who.decode()} could not fall asleep")

    def must(self, publication: Publication) -> bool:
        return publication.acknowledged is not None and publication.topic in self.topics

    def act(self) -> None:
        gateway = self.chance.choice(self.gateways)
        if self.chance.random() < 0.5:
            self.fetch(gateway, self.chance.choice([0.3, 1, 3]))
            self.book.count("wakes")
            return
        with self.visit(gateway) as here:
            self.book.count("connections")
            if not self.connected(here) or not self.hear_for(here, self.chance.random() * 3):
                return
            end = self.chance.random()
            if end < 0.4:
                self.asks(here, leave(self.chance.choice([2, 30, FOREVER])), GONE, seconds=1)
            elif end < 0.6:
                self.asks(here, leave(), GONE, seconds=1)
        self.over.wait(self.chance.random() * 2)


class Homer(Subscriber):
    """Stays at one gateway; it subscribes and unsubscribes there."""

    is_handed_kept = True

    def __init__(self, gateway: Gateway, *given):
        super().__init__(*given)
        self.home, self.asked = gateway, 0
        self.topics = set(LOCAL)
        self.spans = {topic: [] for topic in LOCAL}  # from SUBACK to UNSUBSCRIBE
        self.message = 0

    def must(self, publication: Publication) -> bool:
        if publication.acknowledged is None or any(gateway != self.home.number for gateway, _ in publication.sends):
            return False
        first, last = publication.sends[0][1], publication.acknowledged[1]
        return any(begin < first and last < end for begin, end in self.spans.get(publication.topic, []))

    def begin_round(self) -> None:
        self.asked = 0
        super().begin_round()

    def may_ask(self) -> bool:
        """Whether one SUBSCRIBE more may be sent in this round: five times, and each may come twice."""
        self.asked += 10
        return self.asked <= HANDED

    def settle_in(self, _) -> None:
        with self.visit(self.home) as here:
            expect(self.connected(here, 30, (0,)), f"{self.who.decode()} could not connect")
            for topic in LOCAL[:2]:
                expect(self.turn(here, topic, 30), f"{self.who.decode()} could not subscribe")
            expect(self.asks(here, leave(FOREVER), GONE, seconds=30) == GONE, f"{self.who.decode()} could not fall asleep")

    def turn(self, here: Walker, topic: bytes, seconds: float = 2) -> bool:
        """Subscribes, or gives the subscription up."""
        self.message = self.message % 65535 + 1
        spans = self.spans[topic]
        if spans and spans[-1][1] == float("inf"):
            spans[-1] = (spans[-1][0], time.monotonic())
            self.book.count("unsubscribed")
            asked, wanted = frame(0x14, b"\x02" + number(self.message) + topic), frame(0x15, number(self.message))
            return self.asks(here, asked, wanted, seconds=seconds) is not None
        if not self.may_ask():
            return False
        wanted = frame(0x13, b"\x20\x00\x00" + number(self.message) + b"\x00")
        answer = self.asks(here, subscribe(topic, self.message, 0x22), wanted, seconds=seconds)
        if answer is not None and answer != GONE:
            spans.append((time.monotonic(), float("inf")))
            self.book.count("subscribed")
            return True
        return False

    def act(self) -> None:
        if self.chance.random() < 0.5:
            self.fetch(self.home, self.chance.choice([0.3, 1, 3]))
            return
        with self.visit(self.home) as here:
            if not self.connected(here):
                return
            if self.chance.random() < 0.3:
                self.turn(here, self.chance.choice(LOCAL))
            self.hear_for(here, self.chance.random() * 3)
            if self.chance.random() < 0.6:
                self.asks(here, leave(self.chance.choice([0, 2, 30, FOREVER])), GONE, seconds=1)
        self.over.wait(self.chance.random())


class Way:
    """A link's way: what dials its port is put through to another, unless it is cut. It may stand still, too."""

    def __init__(self, port: int, chance: random.Random):
        self.to, self.chance, self.lock = port, chance, threading.Lock()
        self.is_open, self.flows, self.pairs = True, threading.Event(), []
        self.flows.set()
        self.door = socket.socket(socket.AF_INET, socket.SOCK_STREAM)
        self.door.setsockopt(socket.SOL_SOCKET, socket.SO_REUSEADDR, 1)
        self.door.bind((HOST, 0))
        self.door.listen(16)
        self.port = self.door.getsockname()[1]
        threading.Thread(target=self.accept, daemon=True).start()

    def accept(self) -> None:
        while True:
            one, _ = self.door.accept()
            other = socket.socket(socket.AF_INET, socket.SOCK_STREAM)
            try:
                expect(self.is_open, "cut")
                other.connect((HOST, self.to))
            except (OSError, Failed):
                one.close()
                other.close()
                continue
            with self.lock:
                self.pairs.append((one, other))
            threading.Thread(target=self.carry, args=(one, other), daemon=True).start()

    def carry(self, one: socket.socket, other: socket.socket) -> None:
        """Passes octets both ways, until either end is closed."""
        back = threading.Thread(target=self.pump, args=(other, one), daemon=True)
        back.start()
        self.pump(one, other)
        back.join()
        with self.lock:
            self.pairs.remove((one, other))
            one.close()
            other.close()

    def pump(self, one: socket.socket, other: socket.socket) -> None:
        """Passes octets on, now and then in pieces."""
        try:
            while octets := one.recv(65536):
                self.flows.wait()
                cut = self.chance.randrange(len(octets)) if self.chance.random() < 0.2 else 0
                other.sendall(octets[:cut])
                if cut:
                    time.sleep(0.002)
                other.sendall(octets[cut:])
        except OSError:
            pass
        for each in (one, other):
            try:
                each.shutdown(socket.SHUT_RDWR)
            except OSError:
                pass

    def cut(self) -> None:
        """Every connection breaks off; what was under way may be gone, from the middle of a message on."""
        self.is_open = False
        with self.lock:
            for pair in self.pairs:
                for each in pair:
                    try:
                        each.setsockopt(socket.SOL_SOCKET, socket.SO_LINGER, struct.pack("ii", 1, 0))
                        each.shutdown(socket.SHUT_RDWR)
                    except OSError:
                        pass
        self.flows.set()


class Field:
    """The gateways and their ways, and what befalls them. The main thread alone starts and ends daemons."""

    def __init__(self, program: str, folder: str, options):
        self.chance, self.book = random.Random(f"{options.seed} field"), Book()
        ports = free_ports(2 * options.gateways)
        self.ways, self.gateways, self.due, self.away, self.full, self.still = {}, [], [], set(), {}, set()
        self.older, self.met = options.older, 0
        for place in range(options.gateways):
            for other in range(place + 1, place + 2 if options.chain and place + 1 < options.gateways else options.gateways):
                # a ring: the last one dials the first
                turned = (place, other) == (0, options.gateways - 1) and not options.chain
                dialler, dialled = (other, place) if turned else (place, other)
                self.ways[dialler, dialled] = Way(ports[2 * dialled + 1], self.chance)
        for place in range(options.gateways):
            peers = ", ".join(at_port(way.port) for (dialler, _), way in self.ways.items() if dialler == place)
            self.gateways.append(Gateway(program, folder, place + 1, (ports[2 * place], ports[2 * place + 1]), peers=f"[{peers}]",
                                         steps=str(options.steps), predefined=f'[{{ id = {SEVEN}, topic = "p/seven" }}]'))
        self.closers = [Publisher(self.book, [gateway], b"closer-%d" % gateway.number, str(options.seed)) for gateway in self.gateways]

    def begin(self, gateway: Gateway) -> None:
        gateway.room = self.full.get(gateway.number, ROOMY)
        if not os.path.exists(gateway.settings):
            gateway.write()
        if self.older:
            self.go_back(gateway)
        gateway.begin()
        self.away.discard(gateway.number)

    def go_back(self, gateway: Gateway) -> None:
        """The files of the last start take the place of those of now, which are kept for the next one."""
        for ending in (".0", ".1"):
            now, before = gateway.journal + ending, gateway.journal + ending + ".before"
            if os.path.exists(now):
                shutil.copyfile(now, now + ".now")
            if os.path.exists(before):
                shutil.copyfile(before, now)
            if os.path.exists(now + ".now"):
                os.replace(now + ".now", before)

    def watch(self) -> None:
        """No daemon ends by itself."""
        for gateway in self.gateways:
            if gateway.number not in self.away and gateway.process.poll() is not None:
                told = gateway.told().strip()[-2000:] or "nothing told"
                self.book.fault(f"gateway {gateway.number} ended with status {gateway.process.returncode}: {told}")
                self.begin(gateway)

    def later(self, seconds: float, what) -> None:
        self.due.append((time.monotonic() + seconds, what))

    def run_due(self) -> None:
        ready = [what for moment, what in self.due if moment <= time.monotonic()]
        self.due = [(moment, what) for moment, what in self.due if moment > time.monotonic()]
        for what in ready:
            what()

    def befall(self) -> None:
        """One thing goes wrong, for a while."""
        gateway, what = self.chance.choice(self.gateways), self.chance.random()
        if what < 0.40:
            self.cut_one()
        elif what < 0.65:
            self.kill(gateway)
        elif what < 0.85:
            self.fill(gateway)
        else:
            self.stop(gateway)

    def cut_one(self) -> None:
        way = self.chance.choice(list(self.ways.values()))
        if self.chance.random() < 0.2:
            way.flows.clear()
            self.book.count("links that stood still")
            self.later(self.chance.random() * 2, way.flows.set)
        elif way.is_open:
            way.cut()
            self.book.count("cuts")
            self.later(self.chance.choice([0.1, 1, 5, 15]), lambda: setattr(way, "is_open", True))

    def kill(self, gateway: Gateway) -> None:
        if gateway.number in self.away:
            return
        self.end(gateway)
        self.still.discard(gateway.number)
        self.away.add(gateway.number)
        self.book.count("kills")
        self.later(self.chance.choice([0, 0.5, 3, 8]), lambda: self.begin(gateway))

    def end(self, gateway: Gateway) -> None:
        """Ends the process at once, and counts what it printed."""
        gateway.kill()
        self.book.count("openings in place", max(0, len(gateway.openings()) - 1))
        self.book.count("shifts", len(gateway.shifts()))

    def fill(self, gateway: Gateway) -> None:
        """There is room for a little more, or for none."""
        if gateway.number in self.away or gateway.number in self.full:
            return
        room = max([*map(len, gateway.slots()), 14]) + self.chance.choice([0, 50, 500, 3000])
        gateway.limit_room(room)
        self.full[gateway.number] = room
        self.book.count("full disks")
        self.later(self.chance.choice([1, 3, 6]), lambda: self.empty(gateway))

    def empty(self, gateway: Gateway) -> None:
        self.full.pop(gateway.number, None)
        if gateway.number not in self.away:
            gateway.make_room()

    def stop(self, gateway: Gateway) -> None:
        if gateway.number not in self.away and gateway.number not in self.still:
            gateway.process.send_signal(signal.SIGSTOP)
            self.still.add(gateway.number)
            self.book.count("standstills")
            self.later(self.chance.choice([0.2, 1, 3]), lambda: self.go_on(gateway))

    def go_on(self, gateway: Gateway) -> None:
        if gateway.number in self.still:
            self.still.discard(gateway.number)
            gateway.process.send_signal(signal.SIGCONT)

    def mend(self) -> None:
        """All that is under way ends at once."""
        due, self.due = self.due, []
        for _, what in due:
            what()
        for gateway in self.gateways:
            until(gateway.opening, 180, f"gateway {gateway.number} did not open")


def views(look: str, gateway: Gateway):
    """What a gateway's journal shows of each client and each topic. Nothing where a record is just being written."""
    done = subprocess.run([look, "--json", gateway.journal], capture_output=True, check=False, timeout=120)
    try:
        shown = json.loads(done.stdout) if done.returncode == 0 else None
        return shown and shown["clients"] + shown["topics"]
    except (ValueError, KeyError):
        return None


def alike(field: Field, look: str) -> bool:
    """Whether all gateways show the same."""
    shown = [views(look, gateway) for gateway in field.gateways]
    return shown[0] is not None and all(each == shown[0] for each in shown)


def differences(field: Field, look: str) -> str:
    """The first client or topic that is not the same everywhere, and how the gateways show it."""
    shown = [{next(iter(each.items())): each for each in views(look, gateway) or []} for gateway in field.gateways]
    for kind, name in sorted(set().union(*shown)):
        found = [json.dumps(each.get((kind, name))) for each in shown]
        if len(set(found)) > 1:
            return f"{kind} {bytes.fromhex(name).decode(errors='replace')}: " + " // ".join(text[:600] for text in found)
    return "they are the same now"


def rehearse(field: Field, roamers: list) -> None:
    """Each gateway knows of each subscription of a walker: it hands over what is published there."""
    for gateway in field.gateways:
        marker = Publisher(field.book, [gateway], b"marker-%d" % gateway.number, "marker")
        unknown, end = {(roamer, topic) for roamer in roamers for topic in roamer.topics}, time.monotonic() + 240
        while unknown:
            expect(time.monotonic() < end, f"gateway {gateway.number} does not know of each subscription: {len(unknown)} are missing")
            field.book.clear()
            made = marker.mark({topic for _, topic in unknown})
            for roamer in {roamer for roamer, _ in unknown}:
                roamer.fetch(gateway, 10)
            unknown = {(roamer, topic) for roamer, topic in unknown if made.get(topic) not in roamer.handed}


def round_over(field: Field, actors: list) -> None:
    for actor in actors:
        actor.over.set()
    field.mend()
    for actor in actors:
        actor.end_round()


def drained(field: Field, subscribers: list) -> None:
    """Each subscriber fetches what waits, at every gateway, until nothing does."""
    end = time.monotonic() + 240
    for subscriber in subscribers:
        places = [subscriber.home] if isinstance(subscriber, Homer) else field.gateways
        calm = 0
        while calm < 2 * len(places):
            field.watch()
            if time.monotonic() > end:
                field.book.fault(f"{subscriber.who.decode()} did not come to an end of what waits for it within 240 seconds")
                return
            found = subscriber.fetch(places[calm % len(places)], 30)
            calm = calm + 1 if found == 0 else 0
            if found is None:
                time.sleep(0.2)


def waits_at(field: Field, look: str, publication: Publication) -> list:
    """The gateways at which the message still waits for somebody."""
    if not look:
        return []
    return [gateway.number for gateway in field.gateways if publication.body.hex() in json.dumps(views(look, gateway))]


def look_at_round(field: Field, subscribers: list, look: str) -> None:
    """What must have come, has. It is waited for, since deltas may be under way."""
    def missing() -> list:
        return [(subscriber, publication) for subscriber in subscribers for publication in field.book.round
                if subscriber.must(publication) and publication.body not in subscriber.handed]

    drained(field, subscribers)
    end = time.monotonic() + 120 * Walker.patience
    while missing() and time.monotonic() < end and not field.book.faults:
        field.book.count("times it was looked again")
        time.sleep(1)
        drained(field, subscribers)
    lost = missing()
    field.book.count("lost", len(lost))
    field.book.count("owed", sum(subscriber.must(publication) for subscriber in subscribers for publication in field.book.round))
    for subscriber, publication in lost[:20]:
        spans = getattr(subscriber, "spans", {}).get(publication.topic, [])
        field.book.fault(f"LOST for {subscriber.who.decode()}: {publication.told()}; subscribed {spans[-5:]}; "
                         f"waits at {waits_at(field, look, publication)}")


def somebody_new(gateway: Gateway) -> Display:
    """A client with an empty session."""
    display = Display(b"fresh-%d" % gateway.number, gateway, ((SEVEN, b"p/seven"),))
    display.again = 2 * Walker.patience
    display.connect(clean=True)
    return display


def meet(field: Field) -> None:
    """Waits until each gateway has what each other one has made so far: a topic that somebody registers just now, and what comes with it."""
    field.met += 1
    for gateway in field.gateways:
        topic = b"met/%d/%d." % (gateway.number, field.met)
        with somebody_new(gateway) as display:
            display.ask(register(topic, 1), b"\x07\x0b")
        for other in field.gateways:
            other.await_octets(topic, 120 * Walker.patience)
    for gateway in field.gateways:
        gateway.settle(60 * Walker.patience)


def say_last(field: Field) -> dict:
    """Once all have met, one publication more with Retain to some topics, each at any gateway. What was acknowledged is the last of its topic."""
    meet(field)
    tried, said = set(), {}
    for closer in field.closers:
        topics = {topic for topic in (*COMMON, *LOCAL) if topic not in tried and field.chance.random() < 0.3}
        tried |= topics
        said.update(closer.mark(topics, True))
    field.book.count("last publications with Retain", len(said))
    return said


def kept_at(gateway: Gateway) -> dict:
    """What the gateway hands over of each topic to somebody new, who leaves nothing behind."""
    with somebody_new(gateway) as display:
        display.subscribe(b"#", 0x40)
        got = [(topic, body) for topic, body, _, is_kept in display.fetches(60 * Walker.patience) if is_kept]
        display.connect(clean=True)
        display.ask(leave(), GONE)
    kept = dict(got)
    expect(got == sorted(kept.items()), f"gateway {gateway.number} handed over {got}, and not each topic once in their order")
    expect(all(kept.values()), f"gateway {gateway.number} handed over what was ended: {got}")
    return kept


def kept_at_all(field: Field) -> dict:
    """The same, once all gateways have met and hand over the same."""
    meet(field)
    end = time.monotonic() + 120 * Walker.patience
    while True:
        told = [kept_at(gateway) for gateway in field.gateways]
        if all(each == told[0] for each in told):
            return told[0]
        expect(time.monotonic() < end, f"gateways do not hand over the same: {told}")
        field.watch()
        time.sleep(1)


def may_be_kept(book: Book, topic: bytes, said: dict) -> set:
    """What may be retained of a topic: what was said last; else something of the round, or what was before where nothing was acknowledged."""
    if topic in said:
        return {said[topic]}
    sent = [publication for publication in book.kept[topic] if publication.sends]
    found = {publication.body for publication in sent}
    if not any(publication.acknowledged for publication in sent):
        found.add(book.last.get(topic, b""))
    return found


def look_at_kept(field: Field, said: dict) -> None:
    book, told = field.book, kept_at_all(field)
    for topic in sorted({*COMMON, *LOCAL, *told}):
        book.count("looks at what is retained of a topic")
        if told.get(topic, b"") not in may_be_kept(book, topic, said):
            sent = "; ".join(publication.told() for publication in book.kept[topic][-20:])
            book.fault(f"RETAINED of {topic.decode()} is {told.get(topic)!r}, was {book.last.get(topic)!r} before the round and said last "
                       f"{said.get(topic)!r}; with Retain there were: {sent or 'none'}")
    book.last = told


def one_round(field: Field, actors: list, subscribers: list, seconds: float, look: str, tell) -> None:
    book = field.book
    book.clear()
    end = time.monotonic() + seconds
    for actor in actors:
        actor.begin_round()
    while time.monotonic() < end:
        field.run_due()
        field.watch()
        if field.chance.random() < 0.08:
            field.befall()
        tell()
        time.sleep(0.1)
    round_over(field, actors)
    said = say_last(field)
    look_at_round(field, subscribers, look)
    look_at_kept(field, said)
    if look:
        try:
            until(lambda: alike(field, look), 120, "gateways do not show the same", 1)
            book.count("times all gateways showed the same")
        except Failed as why:
            book.fault(f"{why}: {differences(field, look)}")
    book.count("rounds")


def summary(book: Book) -> str:
    with book.lock:
        return ", ".join(f"{what} {count}" for what, count in sorted(book.counts.items()))


class Play:
    """The whole of it."""

    def __init__(self, field: Field, options):
        self.field, self.options = field, options
        self.began = self.told = 0.0
        field_of = (field.book, field.gateways)
        self.roamers = [Roamer(place, *field_of, b"walker-%d" % place, str(options.seed)) for place in range(3)]
        self.homers = [Homer(gateway, *field_of, b"homer-%d" % gateway.number, str(options.seed)) for gateway in field.gateways]
        self.publishers = [Publisher(*field_of, b"publisher-%d" % place, str(options.seed)) for place in range(3)]

    def tell(self) -> None:
        if time.monotonic() - self.told >= 60:
            self.told = time.monotonic()
            print(f"{(self.told - self.began) / 60:5.1f} min  {summary(self.field.book)}", flush=True)

    def run(self) -> None:
        field, subscribers = self.field, self.roamers + self.homers
        for gateway in field.gateways:
            field.begin(gateway)
        field.mend()
        for subscriber in subscribers:
            subscriber.settle_in(field.gateways[0])
        rehearse(field, self.roamers)
        drained(field, subscribers)
        print(f"each of {len(field.gateways)} gateways knows of each subscription", flush=True)
        self.began = self.told = time.monotonic()
        end = self.began + 60 * self.options.minutes
        while time.monotonic() < end and not field.book.faults:
            seconds = min(field.chance.choice([20, 45, 70, 100]), max(10.0, end - time.monotonic()))
            one_round(field, subscribers + self.publishers, subscribers, seconds, self.options.look, self.tell)
            self.tell()


def options_of() -> argparse.Namespace:
    reader = argparse.ArgumentParser(description=__doc__, formatter_class=argparse.RawDescriptionHelpFormatter)
    reader.add_argument("program")
    reader.add_argument("minutes", type=float)
    reader.add_argument("--seed", type=int, default=1)
    reader.add_argument("--gateways", type=int, default=3)
    reader.add_argument("--steps", type=int, default=256)
    reader.add_argument("--patience", type=float, default=1)
    reader.add_argument("--look", default="")
    reader.add_argument("--older", action="store_true")
    reader.add_argument("--chain", action="store_true")
    reader.add_argument("--keep", default="")
    return reader.parse_args()


def stop(*_) -> None:
    sys.exit("stopped")


def main() -> int:
    options = options_of()
    program = os.path.abspath(options.program)
    if not os.access(program, os.X_OK) or options.look and not os.access(options.look, os.X_OK):
        sys.exit(f"{options.program} {options.look}: no program")
    signal.signal(signal.SIGTERM, stop)
    Walker.patience = options.patience
    with tempfile.TemporaryDirectory(prefix="soak-", dir=os.environ.get("TMPDIR", "/var/tmp")) as folder:
        field = Field(program, folder, options)
        play = Play(field, options)
        try:
            play.run()
        except Failed as why:
            field.book.fault(str(why))
        finally:
            for gateway in field.gateways:
                field.end(gateway)
        for subscriber in play.roamers + play.homers if options.keep else []:
            with open(os.path.join(folder, f"trace-{subscriber.who.decode()}"), "w", encoding="utf-8") as text:
                text.write("\n".join(subscriber.trace))
        if field.book.faults and options.keep:
            shutil.copytree(folder, options.keep, dirs_exist_ok=True)
    counts = field.book.counts
    for what in sorted(counts):
        print(f"{counts[what]:8d} {what}")
    print(f"seed {options.seed}: {counts['owed']} messages were owed, {counts['lost']} of them are lost, {len(field.book.faults)} faults")
    return 1 if field.book.faults else 0


if __name__ == "__main__":
    sys.exit(main())
