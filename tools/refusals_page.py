#!/usr/bin/env python3
"""Writes docs/REFUSALS.md: the faults of each call of call_rows, and the clauses about them.

    python3 tools/refusals_page.py            writes the page
    python3 tools/refusals_page.py --check    compares it; exits 1 and says what differs

FAULTS has what only a reader knows: the order of faults, and which clauses speak of them. The rest is read from the sources: that the
rows are the same, that each fault is one of the call's type and that none is left out, and that each clause is one of the call.
"""
import pathlib
import re
import sys
import textwrap

import refusals

TOP = pathlib.Path(__file__).resolve().parent.parent
PAGE = TOP / "docs" / "REFUSALS.md"
HEAD = """# What a call answers if it refuses

You call one of these functions on a small machine, and need to know what stands after a refusal.
Each call has a line: its faults in the order in which it looks for them; the clauses that say when
each comes; those that say what stands after it. Most that can only lack memory are at the end.

- *reads*: the call changes nothing; what it is given it reads, or takes and drops.
- *type*: its type has no other fault. *ensures*: a clause without a name. *none*: no clause.
- `Memory` may come instead of any fault after it, and of any before it that no clause fixes. No
  clause says that it comes only if memory was refused.
- A decoder reports the first fault from the left.
- A refused opening may have synced its slots, cut a torn record away, or begun a journal.

`tools/refusals.py` refuses each growth of memory in the row of a call, in both builds of
`call_rows`. With ample memory no row answers `Memory`. With one growth refused the call says so in
its own type, or its disk fails and says that it was starved. What the row looks at is then as
before, and the same call succeeds at once.
"""

# Faults | clauses that say when | clauses that say what stands.
COPY = "Memory | err | reads"
ROW = "Memory | type | reads"
NAME = "Empty, TooLong, Wildcard, Memory | empty, too_long, wildcard, memory | reads"
READING = "Limit, Version, Truncated, Kind, Order, Trailing, Memory"
PLAN = "Exhausted, Memory | ensures | reads"
FAULTS = {
    "sn_frame::decode": "Empty, Encapsulated, Length, UnknownType, Body, Memory | fault, only, light | reads",
    "sn_frame::encode": "Body, TooLong, Memory | body, too_long, refused | err",
    "sn_topic::TopicName::new": NAME,
    "sn_topic::TopicName::copy": COPY,
    "sn_topic::Filter::new": NAME,
    "sn_topic::Filter::copy": COPY,
    "sn_topic::Predefined::new": "Id | refused, no_other | reads",
    "sn_topic::Predefined::copy": COPY,
    "sn_session::Session::apply": "Full, Memory | full, light | err",
    "sn_session::Session::copy": COPY,
    "rep_op::ClientId::new": "Kind, Memory | kind, err | reads",
    "rep_op::ClientId::copy": COPY,
    "rep_ops::Delta::from_ops": "Kind, Twice, Limit, Memory | kind, twice, fault | reads",
    "rep_ops::Delta::encode": "Memory | memory | err",
    "rep_ops::Delta::decode": f"{READING} | limit, exact, only | reads",
    "rep_ops::Delta::decode_one": f"{READING} | limit, exact, only | reads",
    "rep_ops::Delta::copy": COPY,
    "rep_model::ClientView::copy": COPY,
    "rep_plain::empty": COPY,
    "rep_plain::prepare": "Conflict, Full, Memory | fault | unchanged",
    "rep_plain::clients": COPY,
    "rep_plain::held": COPY,
    "rep_plain::retained_matching": COPY,
    "rep_plain::aside": COPY,
    "rep_plain::save": "Memory | err | can, back",
    "rep_state::empty": COPY,
    "rep_state::prepare": "Conflict, Full, Memory | fault | unchanged",
    "rep_state::clients": COPY,
    "rep_state::held": COPY,
    "rep_state::retained_matching": COPY,
    "rep_state::aside": COPY,
    "rep_state::save": "Memory | err | can, back",
    "rep_digest::digest_of": "Limit, Memory | fault | reads",
    "rep_digest::Digest::encode": "Memory | memory | err",
    "rep_digest::Digest::decode": f"{READING} | exact, only | reads",
    "rep_answer::answer": COPY,
    "sn_local::Config::copy": COPY,
    "sn_local::Dialogs::prepare": "Memory | type | unchanged",
    "sn_local::Dialogs::copied": ROW,
    **dict.fromkeys([f"sn_flow::{it}" for it in ("connect", "disconnect", "will_topic", "will_msg", "will_topic_update", "will_msg_update")], ROW),
    **dict.fromkeys([f"sn_subscribe::{it}" for it in ("register", "subscribe", "unsubscribe")], ROW),
    "sn_plan::other": ROW,
    **dict.fromkeys([f"sn_deliver::{it}" for it in ("publish_in", "pubrel_in", "ack_in", "wake")], ROW),
    "sn_deliver::step": PLAN,
    "sn_exchange::deliver_next": PLAN,
    "sn_exchange::visited": ROW,
    "sn_tick::tick": PLAN,
    "jr_journal::Journal::open": "Disk, Foreign, BadRecord, Memory | cause, fault, found | kept, leaves",
    "jr_journal::Journal::append": "Halted, Memory, Disk | halted, faults, cause | stays, refused, halts, torn",
    "jr_journal::Records::push": "Memory | type | err",
    "jr_journal::Journal::append_all": "Halted, Disk | halted, faults, cause | stays, halts, torn",
    "jr_journal::Journal::compact": "Halted, Foreign, Memory, Disk | halted, last, faults, cause | refused, halts, torn",
    "jr_journal::Journal::reopen": "Disk, Foreign, BadRecord, Memory | cause, fault, found | wanting, halts, kept, leaves",
    "gw_node::Node::open": "Disk, Journal, Conflict, Full, Memory | may, cause, fault | slots, leaves",
    "gw_node::Node::frame": "Halted, Frame, Exhausted, Conflict, Full, Disk, Memory | call | call, event",
    "gw_node::Node::take": "Halted, Conflict, Full, Disk, Memory | call | call, event",
    "gw_node::Node::tick": "Halted, Exhausted, Conflict, Full, Disk, Memory | call | call, event",
    "gw_node::Node::view": "Memory | call | reads",
    "gw_node::Node::digest": "Full, Memory | call | reads",
    "gw_node::Node::answer": "Memory | call | reads",
    "gw_node::Node::compact": "Halted, Journal, Disk, Memory | call | call, event",
    "gw_node::Node::reopen": "Disk, Journal, Conflict, Full, Memory | call | call, event",
    "gw_node::Node::step": "Halted, Frame, Exhausted, Conflict, Full, Disk, Journal, Memory | call | call, event",
    "gw_node::Node::step_all": "Halted, Frame, Exhausted, Conflict, Full, Disk, Journal, Memory | events | events",
    "gw_node::Node::held": ROW,
    "gw_node::Node::clients": ROW,
    "gw_node::Node::retained": ROW,
    "gw_node::Node::glance": ROW,
    "gw_world::run": "NoGateway, NoDelta, Memory | err | reads",
    "gw_play::play": "1 | status, ended | printed",
    "gw_shift::Shift::open": "Memory | err | err",
    "gw_shift::Shift::call": "ShiftFull, Behind, Memory, Node | err | err",
    "gw_shift::Shift::call_all": "ShiftFull, Behind, Memory | err | err",
    "gw_shift::Shift::after": "Behind, Memory | err | reads",
    "gw_shift::Shift::glance": ROW,
    "gw_shift::Shift::messages_known": ROW,
    "gw_shift::tally": "Memory | type | reads",
    "gw_net::LinkIn::feed": "Failed, Memory | failed, err | unchanged",
    "gw_net::link_out": "Memory, Write | fault | fault",
    "gw_page::page": "Memory | type | reads",
    "gw_page::entry": "Memory | type | reads",
    "gw_main::settings": "Text, Key, Memory | err | reads",
    "gw_main::begin": "2 | status | reads",
    "file_disk::FileDisk::at": "Files, InUse, Lost, Memory | none | none",
    "gw_serve::serve": "Wire, Memory, Behind | wire | back",
    "mq_packet::decode": "UnknownType, QosTwo, Flags, Short, TooLong, Length, Body, Memory | fault, only | reads",
    "mq_packet::encode": "Body, TooLong, Memory | body, too_long, refused | err",
    "mq_stream::PacketIn::feed": "Memory | type | waiting, over",
    "br_map::apart_below": ROW,
    "br_map::Prefix::new": "TooLong, Text, Wildcard, Dollar, Memory | err | reads",
    "br_map::Prefix::topic_of": ROW,
    "br_core::Queue::push": "Memory | type | none",
    "br_core::Item::copied": ROW,
    "br_core::Command::copied": ROW,
    "br_core::begun": ROW,
    "br_core::step": "Memory | type | none",
    "br_spool::held_in": ROW,
    "br_spool::delta_of": "Reading, Delta, Memory | none | reads",
}


class Differs(Exception):
    """What the page says and the sources do not."""


def sources(crate):
    """The texts of a crate's sources."""
    return [it.read_text(encoding="utf-8") for it in sorted((TOP / "crates" / crate / "src").rglob("*.rt"))]


def contract(name):
    """The signature of a call and the names of its clauses."""
    crate, _, call = name.partition("::")
    kind, _, function = call.rpartition("::")
    if crate in ("rep_plain", "rep_state"):
        crate, kind = "rep_model", "Replica"
    found = []
    for text in sources(crate):
        for it in re.finditer(rf"^( *)(?:pub )?fn {function}\b(?:[^{{;]|\n)*?\)(?: -> [^{{;]*?)?(?=\n *(?:ensures|requires|where|//)|\s*[{{;])", text, re.M):
            heads = re.findall(r"^(?:pub )?(?:impl|trait)(?:<.*?>)? (\w+)", text[:it.start()], re.M) if it[1] else [""]
            is_open = "pub fn" in it[0] or kind == "Replica"
            if not is_open or heads[-1:] != [kind]:
                continue
            end = re.compile(rf"^{it[1]}\{{$|;$", re.M).search(text, it.end())
            clauses = re.findall(r"ensures(?: (\w+))? \{", text[it.end():end.start()])
            found.append((" ".join(it[0].split()), {clause or "ensures" for clause in clauses}))
    if not found:
        raise Differs(f"{name}: no such call")
    return found


def variants(signature):
    """The faults of the type of faults in a signature."""
    given = signature.rpartition("->")[2]
    kind = re.search(r"(\w+Fault)\b", given)
    if kind:
        name = kind[1]
    elif "Answer" in given or "Reply" in given:
        name = "NodeFault"
    elif "NoMemory" in signature or "AllocError" in signature:
        return {"Memory"}
    else:
        return None
    for crate in sorted(it.name for it in (TOP / "crates").iterdir()):
        for text in sources(crate):
            body = re.search(rf"^pub enum {name} \{{\n(.*?)^\}}", text, re.M | re.S)
            if body:
                return set(re.findall(r"^    (\w+)[ ,({]", body[1], re.M))
    raise Differs(f"there is no type {name}")


def causes(signature):
    """The causes of a fault that is a struct."""
    return {"Wire", "Memory", "Behind"} if "ServeFault" in signature else None


def line_of(name, said):
    """A line of the page, checked against the source."""
    faults, when, stands = ([word for word in part.strip().split(", ")] for part in said.split("|"))
    for signature, clauses in contract(name):
        known = causes(signature) or variants(signature)
        wrong = [it for it in faults if known is not None and it not in known]
        wrong += [it for it in (*when, *stands) if it not in clauses and it not in ("type", "reads", "none")]
        if not wrong:
            break
    else:
        raise Differs(f"{name}: {', '.join(wrong)} is not in the source")
    if stands == ["reads"] and "&mut self" in signature:
        raise Differs(f"{name} may change what it is called on")
    return [name, ", ".join(faults), ", ".join(when), ", ".join(stands)]


def page():
    """The page."""
    rows = refusals.read_rows()
    if list(rows) != list(FAULTS):
        raise Differs(f"not in both lists: {' '.join(sorted({*rows} ^ {*FAULTS})) or 'the order'}")
    lines, alike = [HEAD, "```"], {f"Memory: {it}; reads": [] for it in ("err", "type")}
    for name, said in FAULTS.items():
        call, faults, when, stands = line_of(name, said)
        text = f"{faults}: {when}; {stands}"
        if text in alike:
            alike[text].append(call)
            continue
        line = f"{call}  {text}"
        at = line.find(" ", 60 if len(line) > 100 else 1000)
        lines += [line] if len(line) <= 100 else [line[:at], f"    {line[at + 1:]}"]
    for text, calls in alike.items():
        lines += [text, *textwrap.wrap(" ".join(calls), 96, initial_indent="    ", subsequent_indent="    ")]
    return "\n".join([*lines, "```", ""])


def main(given):
    if [it for it in given if it != "--check"]:
        print(__doc__)
        return 2
    try:
        text = page()
    except Differs as fault:
        print(f"tools/refusals_page.py: {fault}")
        return 1
    if "--check" not in given:
        PAGE.write_text(text, encoding="utf-8")
    elif not PAGE.exists() or PAGE.read_text(encoding="utf-8") != text:
        print("docs/REFUSALS.md differs from what tools/refusals_page.py writes: run it")
        return 1
    print(f"docs/REFUSALS.md has {len(FAULTS)} calls")
    return 0


if __name__ == "__main__":
    sys.exit(main(sys.argv[1:]))
