#!/usr/bin/env python3
"""The rows that are long because a limit is far away. `join_rows.py` asks for them; `join_rows.py --show NAME` prints one.

Each is counted out here line by line, without a model of the gateway: a row is a list of pairs of a line and what it prints.
"""


class Row:
    """A row in the making: pairs of a line and what it prints, and how many deltas were made."""

    def __init__(self, *gateways):
        self.lines = [("gateway %d" % gateway, []) for gateway in gateways]
        self.deltas = 0

    def line(self, line, *printed):
        self.lines.append((line, printed or ["quiet"]))

    def made(self, line, *printed):
        """A line by which a delta is made as well."""
        self.deltas += 1
        self.line(line, *printed, "delta %d" % self.deltas)

    def together(self, gateway, *calls):
        """Calls that come to a gateway together: pairs of a line and what it prints, "delta" for the next delta."""
        self.lines.append(("together %d %d" % (gateway, len(calls)), []))
        all_printed = []
        for line, printed in calls:
            self.lines.append((line, []))
            for one in printed:
                self.deltas += one == "delta"
                all_printed.append("delta %d" % self.deltas if one == "delta" else one)
        self.lines[-1] = (calls[-1][0], all_printed)


def connect(client, flags):
    """CONNECT without a duration."""
    return "%02x04%02x010000%s" % (6 + len(client), flags, client.encode().hex())


def large(flags, topic, number, size, octet="61"):
    """PUBLISH of a message of so many octets, which are all the same; it has more than 255."""
    return "01%04x0c%s%s%04x%s" % (9 + size, flags, topic, number, octet * size)


def clients():
    """1,023 clients; one is asked for its will and another for its message; one more comes; then no new one is taken."""
    row = Row(1)
    row.line("frame 1 5000 0 " + connect("w1", 12), "to 5000 0206")
    for number in range(1, 1024):
        row.made("frame 1 %d 0 %s" % (number, connect("c%04d" % number, 4)), "to %d 030500" % number)
    row.line("frame 1 5001 0 " + connect("w2", 12), "to 5001 0206")
    row.line("frame 1 5001 0 060700772f74", "to 5001 0208")
    row.line("frame 1 5002 0 " + connect("v1", 12), "to 5002 0206")
    row.made("frame 1 6000 0 " + connect("x1", 4), "to 6000 030500")
    row.line("frame 1 6001 1 " + connect("x2", 4), "to 6001 030501")
    row.line("frame 1 6001 1 " + connect("x2", 12), "to 6001 030501")
    row.line("frame 1 6001 1 " + connect("x2", 12).replace("0c01", "0c02"), "to 6001 030503")
    row.line("frame 1 5000 1 0207", "to 5000 030501")
    row.line("frame 1 5000 1 0207", "to 5000 0218")
    row.line("frame 1 5001 1 03096d", "to 5001 030501")
    row.line("frame 1 5001 1 03096d", "to 5001 0218")
    row.line("frame 1 5002 1 060700772f74", "to 5002 0208")
    row.line("frame 1 5002 1 03096d", "to 5002 030501")
    row.line("frame 1 6002 1 " + connect("x1", 12), "to 6002 0206")
    row.made("frame 1 6002 1 0207", "to 6002 030500")
    row.made("frame 1 9 2 " + connect("x1", 4), "to 9 030500")
    row.line("frame 1 8 2 " + connect("x3", 4), "to 8 030501")
    row.line("frame 1 8 2 0216", "to 8 0217")
    return row.lines


def will_dialogs():
    """1,024 addresses are asked for a will; no other is, until one of them is done, and until a minute has gone by."""
    row = Row(1)
    will = connect("s1", 12)
    for address in range(1, 1025):
        row.line("frame 1 %d 0 %s" % (address, will), "to %d 0206" % address)
    row.line("frame 1 2000 1 " + will, "to 2000 030501")
    row.line("frame 1 2000 1 0216", "to 2000 0218")
    row.line("frame 1 7 1 " + will, "to 7 0206")
    row.made("frame 1 2000 1 " + connect("s1", 4), "to 2000 030500")
    row.line("frame 1 2000 2 " + will, "to 2000 030501")
    row.made("frame 1 9 2 0207", "to 9 030500")
    row.line("frame 1 2000 2 " + will, "to 2000 0206")
    row.line("frame 1 2001 3 " + connect("s2", 12), "to 2001 030501")
    row.line("tick 1 59")
    row.line("frame 1 2001 59 " + connect("s2", 12), "to 2001 030501")
    row.line("tick 1 60")
    row.line("frame 1 2001 60 " + connect("s2", 12), "to 2001 0206")
    row.line("show 1", "client 7331 stamp 2.1 prefix 1 active clean 0 next 1")
    return row.lines


def parked_operations():
    """A client refuses a topic id and takes it again, three operations of its session each time.

    The other gateway takes none of the deltas in which a Take stands: all that it takes of the session waits behind gaps,
    4,096 operations, and no others are taken.
    """
    row = Row(1, 2)
    row.made("frame 1 7 0 " + connect("s1", 4), "to 7 030500")
    row.made("frame 1 7 0 0812200001742f2b", "to 7 0813200000000100")
    row.made("frame 1 9 0 " + connect("p1", 4), "to 9 030500")
    row.made("frame 1 9 0 090a00000001742f61", "to 9 070b0001000100")
    row.made("frame 1 9 0 080c200001000178", "to 9 070d0001000100")
    row.made("tick 1 0", "to 7 090a00010001742f61")
    counter, number, without = 4, 1, []
    while len(without) < 1366:
        if number % 2 == 1:
            row.made("frame 1 7 1 070b0001%04x00" % number, "to 7 080c200001%04x78" % (number + 1))
        else:
            row.made("frame 1 7 1 070d0001%04x02" % number, "to 7 090a0001%04x742f61" % (number + 1))
        number += 1
        if counter == 256:
            counter = 4
        else:
            without.append(row.deltas)
            counter += 3
    row.line("take 2 2")
    for delta in without[:1365]:
        row.line("take 2 %d" % delta)
    row.line("show 2", "client 7331 stamp none")
    row.line("take 2 %d" % without[1365], "refused N5")
    row.line("take 2 %d" % without[0])
    row.line("take 2 1")
    row.line("take 2 %d" % without[1365], "refused N5")
    row.line("take 2 6")
    row.line("take 2 %d" % without[1365])
    row.line(
        "show 2",
        "client 7331 stamp 1.1 prefix 256 active clean 0 next 86",
        "  topic 1 742f61 new",
        "  sub 742f2b 1",
        "  outbound 1.1 85 registering",
    )
    return row.lines


def subscribed(row, gateway, first, last):
    """Clients of one gateway that subscribe to the topic "ab" at quality of service 1."""
    for number in range(first, last + 1):
        row.made("frame %d %d 0 %s" % (gateway, number, connect("%04d" % number, 4)), "to %d 030500" % number)
        row.made("frame %d %d 0 07122200016162" % (gateway, number), "to %d 0813200000000100" % number)


def size_of_a_delta():
    """A message of 4,096 octets for 2,038 clients, half of them another gateway's, passes 8 MiB; for 2,037 it does not.

    If it is retained as well, it passes 8 MiB for 2,032 clients, and not for 2,031.
    """
    # Put: kind 1, client 1 + 4, origin 1, sequence 8, topic 2 + 2, quality of service 1, message 2 + 4,096.
    put = 1 + 5 + 1 + 8 + 4 + 1 + 2 + 4096
    most = (8 * 1024 * 1024 - 5) // put
    row = Row(1, 2)
    subscribed(row, 1, 1, 1020)
    there = row.deltas
    subscribed(row, 2, 1021, most + 1)
    for delta in range(there + 1, row.deltas + 1):
        row.line("take 1 %d" % delta)
    publish = "frame 1 9999 1 " + large("62", "6162", 0, 4096)
    row.line(publish, "refused N5")
    row.line(publish, "refused N5")
    row.made("frame 1 1 2 07140200026162", "to 1 04150002")
    row.made(publish)
    row.made("frame 1 2 3 0216", "to 2 0217", "to 2 " + large("02", "6162", 0, 4096))
    # Retain: kind 1, topic 2 + 2, clock 8, gateway 1, quality of service 1, message 2 + 4,096. With it each put has a flag and 8 octets more.
    retain = 1 + 4 + 8 + 1 + 1 + 2 + 4096
    last = 2 + most - (8 * 1024 * 1024 - 5 - retain) // (put + 9)
    publish = "frame 1 9999 4 " + large("72", "6162", 0, 4096)
    for number in range(3, last + 1):
        row.made("frame 1 %d 4 07140200036162" % number, "to %d 04150003" % number, "to %d %s" % (number, large("02", "6162", 0, 4096)))
        if number == last - 1:
            row.line(publish, "refused N5")
    row.made(publish)
    row.made("frame 1 1 5 07120200046162", "to 1 0813000000000400")
    row.made("frame 1 1 6 0216", "to 1 0217", "to 1 " + large("12", "6162", 0, 4096))
    return row.lines


def topics_retained():
    """1,024 topics have a place, one of them for an empty message. Another gets none, by no kind of publication, and goes to who asks for it."""
    row = Row(1)
    topics = ["%02x%02x" % (0x41 + number // 32, 0x41 + number % 32) for number in range(1024)]
    row.made("frame 1 7 0 " + connect("s1", 4), "to 7 030500")
    for topic in topics[:-1]:
        row.made("frame 1 99 0 080c72%s000078" % topic)
    row.made("frame 1 99 0 070c72%s0000" % topics[-1])
    row.line("frame 1 99 1 080c727a7a000078")
    row.made("frame 1 7 1 07120200027a7a", "to 7 0813000000000200")
    row.made("frame 1 99 1 080c727a7a000079")
    row.made("tick 1 2", "to 7 080c027a7a000079")
    row.line("frame 1 9 2 08040c01003c7031", "to 9 0206")
    row.line("frame 1 9 2 0507107a79", "to 9 0208")
    row.made("frame 1 9 2 03096d", "to 9 030500")
    row.made("frame 1 9 2 080c327a7a00017a", "to 9 070d7a7a000100")
    row.made("frame 1 9 2 080c527a7900027a", "to 9 040f0002")
    row.line("frame 1 9 2 080c127a7800007a")
    row.made("tick 1 92")
    row.made("tick 1 92", "to 7 080c027a7a00007a")
    row.made("frame 1 99 93 080c72%s000079" % topics[0])
    row.made("frame 1 99 93 080c72%s00007a" % topics[-1])
    row.made("frame 1 7 94 061200000323", "to 7 0813000000000300")
    octets = ["79"] + ["78"] * 1022 + ["7a"]
    row.made("tick 1 95", *("to 7 080c12%s0000%s" % pair for pair in zip(topics, octets)))
    row.line(
        "show 1",
        "client 7031 stamp 1.1 prefix 3 lost clean 60 next 1",
        "  will 0 7a79 6d",
        "  received 2",
        "client 7331 stamp 1.1 prefix 3 active clean 0 next 1",
        "  sub 23 0",
        "  sub 7a7a 0",
        "retain 2.1 0 %s 79" % topics[0],
        *("retain 1.1 0 %s 78" % topic for topic in topics[1:-1]),
        "retain 2.1 0 %s 7a" % topics[-1],
    )
    return row.lines


def handed():
    """Of six topics four are handed to a sleeper for which 1,020 messages wait, then none, and one once a message is acknowledged."""
    row = Row(1)
    row.made("frame 1 9 0 " + connect("p1", 4), "to 9 030500")
    row.made("frame 1 7 0 " + connect("s1", 0), "to 7 030500")
    row.made("frame 1 7 0 07122200017a7a", "to 7 0813200000000100")
    row.made("frame 1 7 0 0418012c", "to 7 0218")
    for topic in ("6162", "6161", "6163", "6164", "6165", "6166"):
        row.made("frame 1 99 0 080c72%s000078" % topic)
    for number in range(1, 1021):
        row.made("frame 1 9 0 080c227a7a%04x61" % number, "to 9 070d7a7a%04x00" % number)
    row.made("frame 1 7 1 061220000223", "to 7 0813200000000200")
    row.line("frame 1 7 1 061220000323", "to 7 0813200000000300")
    row.made("frame 1 7 1 061200000423", "to 7 0813000000000400")
    row.made("frame 1 7 1 07120200056162", "to 7 0813000000000500")
    row.made("frame 1 7 2 04167331", "to 7 080c227a7a000161")
    row.made("frame 1 7 2 070d7a7a000100", "to 7 080c227a7a000261")
    row.made("frame 1 7 2 061200000623", "to 7 0813000000000600")
    row.line("frame 1 7 2 061200000723", "to 7 0813000000000700")
    row.line(
        "show 1",
        "client 7031 stamp 1.1 prefix 1 active clean 0 next 1",
        "client 7331 stamp 1.1 prefix 10 awake kept 300 next 3",
        "  sub 23 0",
        "  sub 6162 0",
        "  sub 7a7a 1",
        "  outbound 1.2 2 published",
        *("  put %d.1 1 7a7a 61" % number for number in range(2, 1021)),
        *("  put %d.1 0 %s 78" % pair for pair in zip(range(1021, 1026), ("6161", "6162", "6163", "6164", "6161"))),
        *("retain 1.1 0 616%d 78" % number for number in range(1, 7)),
    )
    return row.lines


def ids_received():
    """256 message ids are received: neither another one nor one of them retains anything."""
    row = Row(1)
    row.made("frame 1 5 0 " + connect("p1", 4), "to 5 030500")
    for number in range(1, 257):
        row.made("frame 1 5 0 080c526162%04x78" % number, "to 5 040f%04x" % number)
    row.line("frame 1 5 1 080c526162010179", "to 5 070d6162010101")
    row.line("frame 1 5 1 080cd26162010079", "to 5 040f0100")
    row.line(
        "show 1",
        "client 7031 stamp 2.1 prefix 2 active clean 0 next 1",
        *("  received %d" % number for number in range(1, 257)),
        "retain 256.1 2 6162 78",
    )
    return row.lines


def bodies():
    """A message of 4,096 octets is retained and handed; one of 4,097 is not retained, at any quality of service."""
    row = Row(1)
    row.made("frame 1 7 0 " + connect("s1", 4), "to 7 030500")
    row.made("frame 1 9 0 " + connect("p1", 4), "to 9 030500")
    row.line("frame 1 99 0 " + large("72", "6162", 0, 4097))
    for flags, number in (("12", 0), ("32", 1), ("52", 2)):
        row.line("frame 1 9 0 " + large(flags, "6162", number, 4097), "to 9 070d6162%04x03" % number)
    row.made("frame 1 9 0 " + large("32", "6162", 3, 4096), "to 9 070d6162000300")
    row.made("frame 1 99 0 " + large("72", "6163", 0, 4096, "62"))
    row.made("frame 1 7 1 061240000123", "to 7 0813400000000100")
    row.made("tick 1 1", "to 7 " + large("32", "6162", 1, 4096))
    row.made("frame 1 7 1 070d6162000100", "to 7 " + large("12", "6163", 0, 4096, "62"))
    row.line(
        "show 1",
        "client 7031 stamp 1.1 prefix 1 active clean 0 next 1",
        "client 7331 stamp 1.1 prefix 4 active clean 0 next 2",
        "  sub 23 2",
        "retain 1.1 1 6162 " + "61" * 4096,
        "retain 1.1 0 6163 " + "62" * 4096,
    )
    return row.lines


def stamps():
    """The 256th SUBSCRIBE begins a stamp and is handed a message; the 257th is refused and is not; the last is, by a filter that is there."""
    row = Row(1)
    row.made("frame 1 7 0 " + connect("s1", 4), "to 7 030500")
    row.made("frame 1 99 0 080c726162000078")
    filters = [("%04d/+" % number).encode().hex() for number in range(1, 256)]
    for number, asked in enumerate(filters, 1):
        row.made("frame 1 7 0 0b1200%04x%s" % (number, asked), "to 7 0813000000%04x00" % number)
    row.made("frame 1 7 1 07120201006162", "to 7 0813000000010000")
    row.made("frame 1 7 2 061200010123", "to 7 0813000000010101", "to 7 080c126162000078")
    row.line("tick 1 3")
    row.made("frame 1 7 4 07120201026162", "to 7 0813000000010200")
    row.line(
        "show 1",
        "client 7331 stamp 2.1 prefix 2 active clean 0 next 1",
        *("  sub %s 0" % asked for asked in filters),
        "  sub 6162 0",
        "  put 2.1 0 6162 78",
        "retain 1.1 0 6162 78",
    )
    return row.lines


def stretched():
    """All but the first of 1,024 messages expire while that is under way. The next one does not: it is 1,024 numbers later. Both do once the client is lost."""
    row = Row(1)
    row.lines.append(("lifetime 1 100", []))
    row.made("frame 1 7 0 " + connect("s1", 4), "to 7 030500")
    row.made("frame 1 7 0 07122200016162", "to 7 0813200000000100")
    row.made("frame 1 9 0 " + connect("p1", 4), "to 9 030500")
    row.made("frame 1 9 0 080c226162000178", "to 9 070d6162000100")
    row.made("tick 1 0", "to 7 080c226162000178")
    for _ in range(2, 1025):
        row.made("frame 1 99 0 080c626162000079")
    row.made("tick 1 100")
    row.line("tick 1 100", "to 7 080ca26162000178")
    row.made("frame 1 99 100 080c626162000079")
    row.line("tick 1 200", "to 7 080ca26162000178")
    row.line("tick 1 200")
    row.line(
        "show 1",
        "client 7031 stamp 1.1 prefix 1 active clean 0 next 1",
        "client 7331 stamp 1.1 prefix 3 active clean 0 next 2",
        "  sub 6162 1",
        "  outbound 1.1 1 published",
        "  put 1.1 1 6162 78 expires 100",
        "  put 1025.1 0 6162 79 expires 200",
    )
    for moment in (210, 220):
        row.line("tick 1 %d" % moment, "to 7 080ca26162000178")
    row.made("tick 1 230")
    row.made("tick 1 230")
    row.line(
        "show 1",
        "client 7031 stamp 1.1 prefix 1 active clean 0 next 1",
        "client 7331 stamp 1.1 prefix 4 lost clean 0 next 2",
        "  sub 6162 1",
        "  outbound 1.1 1 published",
    )
    return row.lines


SLEEP = "frame 1 7 1 0418012c"


def begun(sleeps):
    """A client that falls asleep so many times, again and again, all in one row of calls with its CONNECT."""
    row = Row(1)
    first = ("frame 1 7 0 08040401003c7331", ["to 7 030500", "delta"])
    row.together(1, first, *[(SLEEP, ["to 7 0218", "delta"])] * sleeps)
    return row


def asleep(stamp, prefix):
    return "client 7331 stamp %d.1 prefix %d asleep clean 300 next 1" % (stamp, prefix)


def rolled_over():
    """256 operations under a stamp; the next call begins another one. All of it is one row of calls."""
    row = begun(257)
    row.line("show 1", asleep(2, 3))
    row.line("restart 1 0", "records 258")
    row.line("show 1", asleep(2, 3))
    return row.lines


def roll_over_that_fails(row):
    """255 operations under a stamp; a row of three calls, the second of which begins another one, fails."""
    row.line("show 1", asleep(1, 255))
    row.line("fail 1 sync")
    row.together(1, (SLEEP, ["refused N3"]), (SLEEP, ["refused N2"]), (SLEEP, ["refused N2"]))
    row.line("show 1", asleep(1, 255))


def roll_over_fails():
    """Nothing of it survives, and the same calls come again."""
    row = begun(254)
    roll_over_that_fails(row)
    row.line("restart 1 0", "records 255")
    row.line("show 1", asleep(1, 255))
    row.line("frame 1 7 2 04167331", "to 7 0217")
    row.together(1, *[(SLEEP, ["to 7 0218", "delta"])] * 3)
    row.line("show 1", asleep(2, 3))
    row.line("restart 1 0", "records 258")
    return row.lines


def roll_over_survives():
    """All of it survives."""
    row = begun(254)
    roll_over_that_fails(row)
    row.line("restart 1 all", "records 258")
    row.line("show 1", asleep(2, 3))
    return row.lines


def many_operations():
    """A message for 70 clients, first in a row of calls that fails, and behind another call in one that fails and survives."""
    row = Row(1)
    calls = []
    for number in range(1, 71):
        calls.append(("frame 1 %d 0 %s" % (number, connect("%04d" % number, 4)), ["to %d 030500" % number, "delta"]))
        calls.append(("frame 1 %d 0 07122200016162" % number, ["to %d 0813200000000100" % number, "delta"]))
    row.together(1, *calls)
    publish, other = "frame 1 99 0 080c626162000078", "frame 1 99 0 080c626162000079"
    arrival = "frame 1 9 0 " + connect("p1", 4)
    row.line("fail 1 sync")
    row.together(1, (publish, ["refused N3"]), (arrival, ["refused N2"]), (other, ["refused N2"]))
    row.line("restart 1 0", "records 140")
    row.line("fail 1 sync")
    row.together(1, (arrival, ["to 9 030501", "refused N3"]), (publish, ["refused N2"]), (other, ["refused N2"]))
    row.line("restart 1 all", "records 143")
    shown = []
    for number in range(1, 71):
        shown.append("client %s stamp 1.1 prefix 2 active clean 0 next 1" % ("%04d" % number).encode().hex())
        shown += ["  sub 6162 1", "  put 1.1 0 6162 78", "  put 2.1 0 6162 79"]
    row.line("show 1", *shown, "client 7031 stamp 1.1 prefix 1 active clean 0 next 1")
    return row.lines


ROWS = {
    "handed-as-a-stamp-ends": stamps,
    "limit-of-a-delta": size_of_a_delta,
    "limit-of-clients": clients,
    "limit-of-parked-operations": parked_operations,
    "limit-of-topics-that-have-a-place": topics_retained,
    "limit-of-what-is-handed": handed,
    "limit-of-will-dialogs": will_dialogs,
    "nothing-expires-far-after-one-that-stays": stretched,
    "retained-behind-256-ids": ids_received,
    "retained-bodies": bodies,
    "together-roll-over": rolled_over,
    "together-roll-over-fails": roll_over_fails,
    "together-roll-over-survives": roll_over_survives,
    "together-with-more-than-64-operations": many_operations,
}
