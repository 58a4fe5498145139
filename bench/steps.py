#!/usr/bin/env python3
"""What single steps of a gateway cost: ratios, each measured in one run of this program, with the goal beside it.

Usage: bench/steps.py PROGRAM [--clients N] [--waiting N] [--past N] [--sleepers N] [--records N] [--topics N] [--seconds S] [--only WORD]
                      [--instructions]
       (gw_sim; 1024, 1024, 100000, 1000, 100000, 1024 and 0.3 where nothing is said; WORD is one of idle, waits, past, tick, lifetimes,
       spread, retained, opening; something is retained of 1,024 topics at most)

A script that builds up is played without and with the events that are measured, in turn, five times, or seven or nine where building up takes far longer than
what is measured; the best times count, and what building up takes is taken off. As many events are played as take S seconds, and as long as building up takes, where they change nothing
that they depend on: else a figure would be a small part of the difference of two long runs. Processor time is counted, and not the
time that passes. A figure has the reading of its line and the printing of its answer in it: what these
take is about what a SEARCHGW takes, which is told first.

With --instructions each script is played once under valgrind, and instructions are counted in the place of time: they are the same
each time, whatever else the machine does, but say nothing of memory that is far away. It takes some minutes with --past 4000 and
--records 4000, and far longer with what stands where nothing is said.
"""
import argparse
import re
import resource
import subprocess
import sys
import tempfile

sys.dont_write_bytecode = True
from sessions import frame

# the ports of who publishes, of who publishes without a connection, of who first registers topics, and of the first client; how often an event
# is repeated at most
PUBLISHER, STRANGER, KEEPER, FIRST = 60000, 59999, 50000, 1
MOST = 1000000
RETAIN = 0x10


def at(port: int, now: int, octets: str) -> str:
    return f"frame 1 {port} {now} {octets}"


def name_of(client: int) -> bytes:
    return b"sensor-%05d" % client


def connect(client: int, port: int) -> str:
    """CONNECT without a duration, so that nothing is due (MQTT-SN 1.2 section 5.4.4)."""
    return at(port, 0, frame(0x04, bytes([0x00, 0x01, 0, 0]) + name_of(client)))


def subscribe(port: int, topic: bytes, qos: int) -> str:
    """SUBSCRIBE by a short name (section 5.4.15)."""
    return at(port, 0, frame(0x12, bytes([qos << 5 | 2, 0, 1]) + topic))


def publish(port: int, topic: bytes, qos: int, message: int, more: int = 0, now: int = 1) -> str:
    """PUBLISH by a short name, with a message of 16 octets and more flags (section 5.4.12)."""
    return at(port, now, frame(0x0C, bytes([qos << 5 | 2 | more]) + topic + (message % 65535 + 1).to_bytes(2, "big") + b"sixteen octets !"))


def puback(port: int, topic: bytes, message: int) -> str:
    return at(port, 1, frame(0x0D, topic + (message % 65535 + 1).to_bytes(2, "big") + bytes(1)))


SLEEP = frame(0x18, bytes([0xFF, 0xFF]))
PING = frame(0x16, b"")
SEARCH = frame(0x01, bytes(1))


def idle(clients: int) -> list:
    return [connect(client, FIRST + client) for client in range(clients)]


def own_topic(client: int) -> tuple:
    """A short topic name of the client's own, and the flags of a SUBSCRIBE by it."""
    return bytes([65 + client // 32 % 32, 65 + client % 32]), 0x22


def own_level(client: int) -> tuple:
    """A filter that ends in a wildcard, and the flags of a SUBSCRIBE by it."""
    return own_topic(client)[0] + b"/#", 0x20


def listening(clients: int, filter_of) -> list:
    """Clients that subscribe at quality of service 1, each to a filter of its own."""
    lines = idle(clients)
    for client in range(clients):
        words, flags = filter_of(client)
        lines.append(at(FIRST + client, 0, frame(0x12, bytes([flags, 0, 1]) + words)))
    return lines


def sleeper(client: int, topic: bytes) -> list:
    """A client that subscribes at quality of service 1 and falls asleep for good."""
    port = FIRST + client
    return [connect(client, port), subscribe(port, topic, 1), at(port, 0, SLEEP)]


def topic_of(number: int) -> bytes:
    return b"%02d" % number


def publisher(client: int) -> list:
    return [connect(client, PUBLISHER)]


def text(*parts: list) -> str:
    return "\n".join(["gateway 1"] + [line for part in parts for line in part]) + "\n"


def played(words: list, script: str) -> subprocess.CompletedProcess:
    with tempfile.TemporaryFile("w+") as lines:
        lines.write(script)
        lines.seek(0)
        done = subprocess.run(words, stdin=lines, capture_output=True, text=True, check=True)
    assert "refused" not in done.stdout, done.stdout[:200]
    return done


def last_of(done: subprocess.CompletedProcess) -> str:
    return done.stdout.rstrip("\n").rsplit("\n", 1)[-1]


def seconds(program: str, script: str) -> tuple:
    """The processor time of one run, and the last line that was printed."""
    before = resource.getrusage(resource.RUSAGE_CHILDREN)
    done = played([program], script)
    after = resource.getrusage(resource.RUSAGE_CHILDREN)
    return after.ru_utime + after.ru_stime - before.ru_utime - before.ru_stime, last_of(done)


def instructions(program: str, script: str) -> tuple:
    """The instructions of one run, and the last line that was printed."""
    done = played(["valgrind", "--tool=cachegrind", "--cache-sim=no", "--cachegrind-out-file=/dev/null", program], script)
    count = re.search(r"I +refs: +([\d,]+)", done.stderr)
    return int(count.group(1).replace(",", "")), last_of(done)


class Case:
    """What builds up, the events behind it, and how the last line begins that they print."""

    def __init__(self, setup: list, events: list, last: str) -> None:
        self.setup, self.events, self.last = setup, events, last

    def uses(self, run, program: str) -> tuple:
        """What a run takes without the events and with them."""
        without, _ = run(program, text(self.setup))
        used, last = run(program, text(self.setup, self.events))
        assert last.startswith(self.last), f"{self.events[-1]}: {last} and not {self.last}"
        return without, used


def in_turn(events: list, count: int) -> list:
    """So many of these, and behind the last the first again."""
    return (events * (count // len(events) + 1))[:count]


class Bench:
    """By time. A figure is microseconds of an event."""

    unit, places, times = "us", 2, 5

    def __init__(self, program: str, least: float) -> None:
        self.program, self.least = program, least

    def fixed(self, cases: list, times: int = 0) -> list:
        """The figure of an event of each case: the best of so many runs, in turn."""
        rounds = [[case.uses(seconds, self.program) for case in cases] for _ in range(times or self.times)]
        best = [[min(each) for each in zip(*times)] for times in zip(*rounds)]
        return [1e6 * (used - without) / len(case.events) for (without, used), case in zip(best, cases)]

    def many(self, setup: list, events: list, last: str) -> Case:
        """The events in turn, as often as takes long enough."""
        count = 1
        while True:
            case = Case(setup, in_turn(events, count), last)
            without, used = case.uses(seconds, self.program)
            took, least = used - without, max(self.least, without)
            if took >= least or count >= MOST:
                return case
            growth = least / took * 1.2 if took > least / 20 else 16
            count = min(int(count * growth) + 1, MOST)

    def repeated(self, setups: list, event: str, last: str) -> list:
        """The same of one event that may be repeated, behind each of these."""
        return self.turned(setups, [event], last)

    def turned(self, setups: list, events: list, last: str) -> list:
        """The same of events that may be repeated in turn."""
        return self.fixed([self.many(setup, events, last) for setup in setups])


class Counted(Bench):
    """By instructions. A figure is instructions of an event."""

    unit, places = "instructions", 0

    def fixed(self, cases: list, times: int = 0) -> list:
        both = [case.uses(instructions, self.program) for case in cases]
        return [(used - without) / len(case.events) for (without, used), case in zip(both, cases)]

    def many(self, setup: list, events: list, last: str) -> Case:
        return Case(setup, in_turn(events, 2 if events[0].startswith("restart") else max(200, len(setup))), last)


LOST = "lost in what else the machine does"


def rate(bench: Bench, what: str, figure: float, count: int, unit: str) -> None:
    """What one of so many takes, where there is no goal; by time also how many a second."""
    if figure <= 0:
        print(f"  {what}: {LOST}", flush=True)
    elif bench.unit == "us":
        print(f"  {what}: {figure / 1000:.2f} ms, {count / figure * 1e6:,.0f} {unit} per second (no goal)", flush=True)
    else:
        print(f"  {what}: {figure / count:,.0f} {bench.unit} for each of the {unit} (no goal)", flush=True)


def alone(bench: Bench, what: str, figure: float) -> None:
    """What one takes, where there is nothing beside it and no goal."""
    print(f"  {what}: " + (f"{figure:,.{bench.places}f} {bench.unit} (no goal)" if figure > 0 else LOST), flush=True)


def told(bench: Bench, what: str, few: str, many: str, figures: list, goal: float, free: float = 0.0) -> None:
    """A ratio and its goal, if there is one; what takes fewer microseconds than `free` meets it, too."""
    free = free if bench.unit == "us" else 0
    one, other = (f"{figure:,.{bench.places}f} {bench.unit}" for figure in figures)
    words = f"  {what}: {few} {one}, {many} {other}"
    wanted = (f"goal {goal}" if goal else "no goal") + (f" or under {free:g} us" if free else "")
    if min(figures) <= 0:
        print(f"{words}, {wanted}: {LOST}", flush=True)
        return
    ratio = figures[1] / figures[0]
    judged = "" if not goal else ": met" if ratio <= goal or figures[1] < free else ": MISSED"
    print(f"{words}, ratio {ratio:.2f}, {wanted}{judged}", flush=True)


def sleepers(count: int) -> list:
    """So many clients that sleep, each with a topic of its own, and who publishes."""
    return [line for client in range(count) for line in sleeper(client, topic_of(client))] + publisher(count)


def to_each(count: int, apiece: int, more: int = 0) -> list:
    """So many messages to each sleeper, one by one, with more flags."""
    return [publish(PUBLISHER, topic_of(client), 1, message, more) for message in range(apiece) for client in range(count)]


def others(setup: list, taken: int, clients: int) -> list:
    """Idle clients behind these, so that there are so many in all."""
    return setup + [connect(client, FIRST + client) for client in range(taken, clients)]


def ponged(port: int) -> str:
    return f"to {port} 0217"


NOBODY = b"zz"


def accepted(port: int) -> str:
    """PUBACK with code 0 (section 5.4.13), of the first message to the topic that nobody subscribes to."""
    return f"to {port} " + frame(0x0D, NOBODY + bytes([0, 1, 0]))


def bench_idle(bench: Bench, asked: argparse.Namespace) -> None:
    few, many = "at 10 clients", f"at {asked.clients:,}"
    both = [idle(10), idle(asked.clients)]
    told(bench, "PINGREQ", few, many, bench.repeated(both, at(FIRST, 1, PING), ponged(FIRST)), 1.5)
    told(bench, "PUBLISH at 1 that nobody subscribes to", few, many, bench.repeated(both, publish(FIRST, NOBODY, 1, 0), accepted(FIRST)), 1.5)
    cases = [Case(others(sleepers(9), 10, clients), to_each(9, 800), "delta ") for clients in (10, asked.clients)]
    told(bench, "PUBLISH at 1 to one sleeper", few, many, bench.fixed(cases, 9), 1.5)
    nobody = publish(FIRST, NOBODY, 1, 0)
    both = [listening(10, own_topic), listening(asked.clients, own_topic)]
    told(bench, "PUBLISH at 1 that nobody subscribes to, each with a topic of its own", few, many, bench.repeated(both, nobody, accepted(FIRST)), 0)
    both = [listening(10, own_level), listening(asked.clients, own_level)]
    told(bench, "the same, each with a filter that has a wildcard", few, many, bench.repeated(both, nobody, accepted(FIRST)), 0)
    both = [idle(10), idle(asked.clients)]
    again = [connect(0, FIRST) for _ in range(2000)]
    told(bench, "CONNECT of a client that is connected", few, many, bench.fixed([Case(setup, again, "delta ") for setup in both]), 0)


def bench_waits(bench: Bench, asked: argparse.Namespace) -> None:
    few, many = "with none waiting", f"with {asked.waiting:,}"
    one = sleepers(1)
    both = [one, one + to_each(1, asked.waiting)]
    told(bench, "PINGREQ of another client", few, many, bench.repeated(both, at(PUBLISHER, 2, PING), ponged(PUBLISHER)), 2)
    nobody = publish(PUBLISHER, NOBODY, 1, 0)
    told(bench, "PUBLISH of another client that nobody subscribes to", few, many, bench.repeated(both, nobody, accepted(PUBLISHER)), 2)
    changes = [subscribe(FIRST, NOBODY, number % 2) for number in range(400)]
    told(bench, "SUBSCRIBE of the client itself", few, many, bench.fixed([Case(setup, changes, "delta ") for setup in both]), 2)
    forty, more = sleepers(40), 100
    behind = [forty, forty + to_each(40, max(asked.waiting - more, 0))]
    told(bench, "PUBLISH to the client, up to that many", few, many, bench.fixed([Case(setup, to_each(40, more), "delta ") for setup in behind], 7), 2)
    ten = 10
    acks = [puback(FIRST + client, topic_of(client), message) for message in range(more) for client in range(ten)]
    cases = [Case(awake(ten, count), acks, "delta ") for count in (more + 1, asked.waiting)]
    told(bench, "PUBACK, and the next message is sent", f"up to {more + 1}", many, bench.fixed(cases, 9), 2)


def awake(clients: int, waiting: int) -> list:
    """So many clients that stay connected, each with so many messages of another; the first of them is sent when it is heard of again."""
    each = [line for client in range(clients) for line in (connect(client, FIRST + client), subscribe(FIRST + client, topic_of(client), 1))]
    return each + publisher(clients) + to_each(clients, waiting) + [at(FIRST + client, 1, PING) for client in range(clients)]


def handed_over(first: int, count: int) -> list:
    """Messages of a client to itself, each acknowledged. The second brings the first, and each PUBACK the next."""
    lines = []
    for message in range(first, first + count):
        lines += [publish(FIRST, b"ab", 1, message)]
        lines += [puback(FIRST, b"ab", message - 1)] if message else []
    return lines


def bench_past(bench: Bench, asked: argparse.Namespace) -> None:
    few, many = "behind none", f"behind {asked.past:,}"
    begun = [connect(0, FIRST), subscribe(FIRST, b"ab", 1)]
    both = [begun, begun + handed_over(0, asked.past) + [puback(FIRST, b"ab", asked.past - 1)]]
    told(bench, "PINGREQ", few, many, bench.repeated(both, at(FIRST, 1, PING), ponged(FIRST)), 1.1)
    told(bench, "PUBLISH at 1 that nobody subscribes to", few, many, bench.repeated(both, publish(FIRST, NOBODY, 1, 0), accepted(FIRST)), 1.1)
    count = max(asked.past, 1)
    cases = [Case(begun + handed_over(0, first), handed_over(first, count), "delta ") for first in (2, asked.past)]
    told(bench, "PUBLISH at 1 to oneself, and PUBACK", few, many, bench.fixed(cases, 9), 1.1)


def bench_tick(bench: Bench, asked: argparse.Namespace) -> None:
    both = [idle(10), idle(asked.clients)]
    told(bench, "a tick with nothing due", "at 10 clients", f"at {asked.clients:,}", bench.repeated(both, "tick 1 1", "quiet"), 1.5, 1.0)
    print("  (`tick 1 1` again and again: the first looks ten seconds ahead, at each client; the others are what is remembered of it)", flush=True)
    turns, pairs = 500, []
    for setup in both:
        without = bench.fixed([Case(setup, [at(FIRST, 1, PING)] * turns, ponged(FIRST))])[0]
        pairs.append(bench.fixed([Case(setup, [at(FIRST, 1, PING), "tick 1 1"] * turns, "quiet")])[0] * 2 - without)
    told(bench, "a tick behind each PINGREQ, which forgets what was remembered", "at 10 clients", f"at {asked.clients:,}", pairs, 0)


# how many seconds lie between two messages of which the first has expired
APART = 4


def lasting(bench: Bench, setup: list, now: int) -> float:
    """What a tick takes at this second with which nothing is due, after a PINGREQ, which forgets what was remembered."""
    turns = 20000
    without = bench.fixed([Case(setup, [at(PUBLISHER, now, PING)] * turns, ponged(PUBLISHER))], 3)[0]
    return bench.fixed([Case(setup, [at(PUBLISHER, now, PING), f"tick 1 {now}"] * turns, "quiet")], 3)[0] * 2 - without


def bench_lifetimes(bench: Bench, asked: argparse.Namespace) -> None:
    count, waiting = min(asked.clients, 1023), min(asked.waiting, 1000)
    crowd = [line for client in range(count) for line in sleeper(client, b"ab")] + publisher(count)
    wait = crowd + [publish(PUBLISHER, b"ab", 1, message) for message in range(waiting)]
    apart = [publish(PUBLISHER, b"ab", 1, message, 0, APART * message) for message in range(waiting + 1)]
    life = APART * (waiting + 1)
    expired = [f"lifetime 1 {life}"] + crowd + apart + [f"tick 1 {life}"] * count
    plain = lasting(bench, wait, 2)
    what = f"a tick after each PINGREQ, while {waiting:,} messages wait for each of {count:,} clients"
    told(bench, what, "without a lifetime", "with one", [plain, lasting(bench, ["lifetime 1 4294967295"] + wait, 2)], 1.1)
    told(bench, what, "without", "after one more of each has expired", [plain, lasting(bench, expired, life + 1)], 1.1)


def bench_spread(bench: Bench, asked: argparse.Namespace) -> None:
    count = asked.sleepers
    setup = [line for client in range(count) for line in sleeper(client, b"ab")] + publisher(count)
    figure = bench.fixed([Case(setup, [publish(PUBLISHER, b"ab", 1, message) for message in range(16)], "delta ")])[0]
    rate(bench, f"a PUBLISH at 1 to {count:,} sleepers", figure, count, "messages")


APIECE = 64  # topics that one client registers


def hall(number: int) -> bytes:
    """A topic with levels; ten of them differ in the last one alone."""
    return b"hall/%03d/%d" % (number // 10, number % 10)


def keeper(first: int, stop: int, more: int) -> list:
    """A client that registers some topics and publishes at 1 to each, with more flags."""
    port = KEEPER + first // APIECE
    lines = [connect(port, port)]
    lines += [at(port, 0, frame(0x0A, bytes(2) + (number + 1).to_bytes(2, "big") + hall(number))) for number in range(first, stop)]
    for number in range(first, stop):
        topic_id, message = (number - first + 1).to_bytes(2, "big"), (number + 1).to_bytes(2, "big")
        lines.append(at(port, 0, frame(0x0C, bytes([0x20 | more]) + topic_id + message + b"sixteen octets !")))
    return lines


def keepers(count: int, more: int = RETAIN) -> list:
    """So many topics of which something is retained, or was published alone."""
    return [line for first in range(0, count, APIECE) for line in keeper(first, min(first + APIECE, count), more)]


def kept_for(count: int) -> list:
    """Something is retained of the topic of each of so many sleepers; who published it has no connection."""
    return [publish(STRANGER, topic_of(client), 3, 0, RETAIN) for client in range(count)]


def subscribe_in_full(port: int, words: bytes, qos: int) -> str:
    return at(port, 0, frame(0x12, bytes([qos << 5, 0, 1]) + words))


def bench_retained(bench: Bench, asked: argparse.Namespace) -> None:
    topics, clients, few = asked.topics, min(asked.clients, 1000), 9
    both = [keepers(topics, more) + [connect(0, FIRST)] for more in (0, RETAIN)]
    changes = [subscribe_in_full(FIRST, b"hall/none/0", qos) for qos in (0, 1)]
    told(bench, "SUBSCRIBE to a name, of which nothing is retained", "beside none", f"beside {topics:,}", bench.turned(both, changes, "delta "), 1.2)
    asks = [subscribe_in_full(FIRST + client, b"hall/%03d/+" % (topics // 20), 1) for client in range(clients)]
    figure = bench.fixed([Case(others(keepers(topics), 0, clients), asks, "delta ")], 9)[0]
    alone(bench, f"SUBSCRIBE by a wildcard that is handed what is retained of 10 of {topics:,} topics", figure)
    asks = [subscribe_in_full(FIRST + client, b"#", 1) for client in range(16)]
    figure = bench.fixed([Case(others(keepers(topics), 0, 16), asks, "delta ")], 9)[0]
    rate(bench, f"SUBSCRIBE that is handed what is retained of {topics:,} topics", figure, topics, "messages")
    for count in (few, topics):
        setup = keepers(count - few) + kept_for(few) + sleepers(few)
        cases = [Case(setup, to_each(few, 800, more), "delta ") for more in (0, RETAIN)]
        told(bench, f"PUBLISH at 1 to one sleeper, beside {count:,} topics of which something is retained", "without Retain", "with Retain",
             bench.fixed(cases, 9), 1.5)


def opened(bench: Bench, what: str, setup: list) -> None:
    figure = bench.repeated([setup], "restart 1 all", f"records {len(setup)}")[0]
    rate(bench, f"a journal of {len(setup):,} records, {what}", figure, len(setup), "records")


def bench_opening(bench: Bench, asked: argparse.Namespace) -> None:
    clients, most = 100, 160
    opened(bench, f"CONNECT of {clients} clients", [connect(turn % clients, FIRST + turn % clients) for turn in range(asked.records)])
    apiece = min(max(asked.records // clients - 3, 1), most)
    opened(bench, f"{apiece} messages that wait for each of {clients} clients", sleepers(clients) + to_each(clients, apiece))
    past = [connect(0, FIRST), subscribe(FIRST, b"ab", 1)] + handed_over(0, asked.records // 2)
    opened(bench, "messages of a client that were acknowledged", past)
    kept = [publish(STRANGER, own_topic(turn % asked.topics)[0], 3, 0, RETAIN) for turn in range(min(asked.records, 20000))]
    opened(bench, f"PUBLISH with Retain to {asked.topics:,} topics in turn", kept)


PARTS = [
    ("idle", "a client's step at a gateway with many idle clients", bench_idle),
    ("waits", "a step with many messages that wait for a client", bench_waits),
    ("past", "a step behind messages that a client was handed and acknowledged", bench_past),
    ("tick", "time goes by", bench_tick),
    ("lifetimes", "time goes by, and messages have a moment", bench_lifetimes),
    ("spread", "a publication to many", bench_spread),
    ("retained", "what is retained of topics", bench_retained),
    ("opening", "a gateway is opened again", bench_opening),
]


def main() -> int:
    words = argparse.ArgumentParser(usage=__doc__)
    words.add_argument("program")
    for name, number in (("--clients", 1024), ("--waiting", 1024), ("--past", 100000), ("--sleepers", 1000), ("--records", 100000),
                         ("--topics", 1024)):
        words.add_argument(name, type=int, default=number)
    words.add_argument("--seconds", type=float, default=0.3)
    words.add_argument("--only", choices=[word for word, _, _ in PARTS])
    words.add_argument("--instructions", action="store_true")
    asked = words.parse_args()
    bench = (Counted if asked.instructions else Bench)(asked.program, asked.seconds)
    figure = bench.repeated([idle(10)], at(FIRST, 1, SEARCH), f"to {FIRST} 030201")[0]
    print(f"single steps of a gateway; a SEARCHGW takes {figure:,.{bench.places}f} {bench.unit} with its line and its answer", flush=True)
    for word, what, part in PARTS:
        if asked.only in (None, word):
            print(what, flush=True)
            part(bench, asked)
    return 0


if __name__ == "__main__":
    sys.exit(main())
