"""Writes the long form of docs/TRUST.md into out/trust/: six files, with every definition that the contracts of a part stand on.

A part begins with the contracts of its list and follows their words to the end (`sources.py`). A definition is in the first part that
needs it, unless a later part is about it; the same goes for types.
"""
import re

from printing import code, comment_mark, prose, size, slug, wrapped
from sources import TOP, cone

OUT = TOP / "out" / "trust"

# Each part: its name, what it says, what it does not, its functions (CRATE::NAME, or CRATE::TYPE for all of a type or trait),
# and the definitions that it keeps for itself: earlier parts name them and do not enter them.
PARTS = [
    ("A message leaves only by its acknowledgement",
     "What waits for a client in a set waits in every larger set, until that set has the acknowledgement. A step of a gateway takes a "
     "message away only by an acknowledgement that the step itself writes, and it writes none without a cause. The client begins a "
     "clean session or answers for the message; or the message is sent at quality of service 0; or no topic id is left for it. If a "
     "gateway accepts a message, the same step makes one for each recipient, and these wait. A replica shows what waits.",
     "Nothing here says that a message ever reaches a client. That needs a client that answers, and time.",
     ["rep_model::leaves_only", "rep_model::pending_laws", "rep_model::Replica::kept", "rep_model::Replica::view_of",
      "row_laws::only_acknowledged", "row_laws::messages_wait", "step_laws::every_step", "put_laws::acknowledged_for_cause",
      "put_laws::accepted_is_put"],
     []),
    ("Sets join in any order",
     "Gateways that exchange what they have end with equal sets, in whatever order and however often it comes, as long as the sets "
     "do not contradict one another. Equal sets answer every question alike. What a gateway forgets makes no difference. The answer "
     "to its digest gives a gateway as much as the whole set.",
     "Nothing here says when gateways exchange what they have, or that every delta arrives.",
     ["rep_model::join_laws", "rep_model::keep_laws", "rep_model::order_laws", "rep_model::consistency", "rep_model::Replica",
      "rep_answer::answer_completes", "set_laws::set_order", "set_laws::set_joins", "set_laws::one_element"],
     []),
    ("A field never contradicts itself",
     "A field is a list of gateways, and of the deltas that they made. Events happen to it one after the other, and `run` gives "
     "what they give. Whatever the events are, no name of a session operation or a message ever stands for two things, none of "
     "them is made twice, and gateways that have taken the same show the same. What a gateway accepted waits until a step acknowledges "
     "it for a cause.",
     "In these fields a disk fails only if an event arranges it, in the next write or in the sync after that, and never in an opening. "
     "Gateways may be stopped and opened again between any two events. `run` may always report that memory ran out. What one step "
     "does is in part 4, and what a datagram spells in part 6.",
     ["gw_world::run", "field_laws::nothing_vanishes", "field_laws::steady_field", "field_laws::consistent_field", "field_laws::made_once", "field_laws::settled_field",
      "field_laws::one_run", "field_laws::answered_field", "row_laws::own_names", "row_laws::fresh_names", "field_laws::own_full",
      "field_laws::takes_at_zero", "promise_laws::nothing_accepted_vanishes", "promise_laws::accepted_stays", "promise_laws::asked_is_served",
      "promise_laws::acknowledged_in_a_run", "promise_laws::exchanged_field",
      "promise_laws::received_in_a_run"],
     []),
    ("The step table",
     "What a gateway does with each frame of MQTT-SN 1.2, and when time goes by: what it sends, what it writes and what it notes. "
     "A step is a function of its configuration, what it has taken, what it knows besides, the frame, the sender and the time.",
     "The table says a second time what the programs do. Whether it is what the standard asks for is yours to judge. A function may "
     "always answer that memory ran out.",
     ["sn_deliver::step", "sn_tick::tick", "sn_flow::connect", "sn_flow::disconnect", "sn_flow::will_topic", "sn_flow::will_msg",
      "sn_flow::will_topic_update", "sn_flow::will_msg_update", "sn_subscribe::register", "sn_subscribe::subscribe", "sn_subscribe::unsubscribe",
      "sn_plan::other", "plan_laws::every_plan", "plan_laws::bound_up", "field_laws::bound_clients"],
     ["sn_deliver/Steps/step", "sn_deliver/Steps/row_for", "sn_tick/Ticking/tick", "sn_local/Locals/after_all", "sn_local/Locals/owned"]),
    ("The disk",
     "What a gateway makes or takes is written and synced before it is answered. After every crash its journal gives what counts as "
     "all that was answered for, or that and the one record that was being written. During a compaction it gives the old records, or "
     "all that must be kept. A gateway whose write failed is halted until it is opened again. In a field, what a gateway made is in "
     "its own journal from then on.",
     "All of this is about an honest disk, one that does what the clauses of `Disk` say. That a real one is honest is a premise. The "
     "disk in memory calls itself honest, so the prover holds it to these clauses. `stored` is about every image that stands for the "
     "gateway's set. `run`, in part 3, says that a crash leaves such an image.",
     ["jr_disk::Disk", "jr_disk::MemoryDisk", "jr_disk::memory_disk_is_honest", "jr_journal::Journal::open",
      "jr_journal::Journal::append", "jr_journal::Journal::compact", "jr_journal::Journal::reopen", "rep_model::base_laws",
      "gw_node::Node::open", "gw_node::opening_laws", "gw_node::calls_carry_on", "gw_node::Node::frame", "gw_node::Node::take", "gw_node::Node::tick",
      "gw_node::Node::compact", "gw_node::Node::reopen", "field_laws::stored"],
     ["jr_journal/journal/Journal", "jr_disk/memory/MemoryDisk", "jr_disk/memory/impl Model for MemoryDisk",
      "jr_journal/fault/JournalFault", "gw_node/Standing/Represents", "gw_node/Standing/Lasts", "gw_event/Drives/opened", "gw_event/Drives/new_drive",
      "gw_event/Drives/with_record", "gw_event/Drives/compacted", "gw_event/Drives/left_by", "gw_world/Steps/records_left",
      "gw_node/Taking/RecoversTo", "rep_model/Roomy/IsRoomy"]),
    ("The bytes",
     "Frames, deltas, digests and the messages of a link are each written in one spelling, and no octets are read as two things. A "
     "refusal names the first fault. How a stream is cut into pieces makes no difference.",
     "Most calls may answer that memory ran out instead; the clauses say which may not.",
     ["sn_frame::decode", "sn_frame::encode", "sn_frame::one_meaning", "sn_frame::one_fault", "rep_ops::Delta::decode",
      "rep_ops::Delta::encode", "rep_ops::one_delta", "rep_ops::one_reading", "rep_digest::Digest::decode",
      "rep_digest::Digest::encode", "rep_digest::one_reading", "gw_net::link_out", "gw_net::LinkIn::feed", "gw_net::one_stream"],
     ["sn_frame/Grammar/Spells", "sn_frame/Grammar/spelling", "sn_frame/Faults/IsFirstFault", "rep_ops/Spelling/delta_spelling",
      "rep_ops/Reading/delta_reading", "rep_ops/delta/impl Model for Delta", "rep_digest/Spelling/digest_spelling",
      "rep_digest/Spelling/IsDigestWithinLimit", "rep_digest/Reading/digest_reading", "rep_digest/digest/impl Model for Digest"]),
]


class Part:
    """A part: its file, its sections (a contract, and the definitions that are new with it), and its types."""

    def __init__(self, number, title, says, says_not):
        self.number, self.title, self.says, self.says_not = number, title, says, says_not
        self.file, self.sections, self.types = f"{number}-{slug(title)}.md", [], []

    def contracts(self):
        return [root for root, _ in self.sections if root.kind == "contract"]

    def definitions(self):
        return [item for _, new in self.sections for item in new]


# ---- what is in which part

def in_order(book, items):
    """File by file, each after those that it stands on; within a file in its order."""
    files = {}
    for item in items:
        files.setdefault(item.path, []).append(item)
    stands_on = {path: {found.path for item in group for found in item.cites()[0]} - {path} for path, group in files.items()}
    ordered = []
    while files:
        ready = [path for path in files if not stands_on[path] & files.keys()] or list(files)
        path = min(ready, key=lambda path: (book.crates.index(files[path][0].crate), str(path)))
        ordered += sorted(files.pop(path), key=lambda item: item.line)
    return ordered


def roots_of(book, note):
    """For each part the items that it begins with, and the part that each of them belongs to."""
    named = {f"{item.crate}/{item.path.stem}/{item.name}": item for item in book.definitions + book.types + book.impls}
    roots, part_of = [], {}
    for number, (_, _, _, contracts, own) in enumerate(PARTS):
        found = []
        for name in contracts + own:
            items = book.contracts_of(name) if "::" in name else [named[name]] if name in named else []
            if not items:
                note(f"part {number + 1}: no {name}, left out")
            found += [item for item in items if part_of.setdefault(item, number) == number and item not in found]
        roots.append(found)
    return roots, part_of


def new_with(root, found, number, part_of, done):
    """What this item leads to that no section before has and that belongs to the part."""
    todo, new = [root], []
    while todo:
        item = todo.pop(0)
        if part_of.setdefault(item, number) == number and item not in done and (
                item is root or item.kind != "contract" or item not in found):
            done[item] = number
            new.append(item)
            todo += item.cites()[0]
    return new


def parts_of(book, note):
    """The parts with their sections and types."""
    roots, part_of = roots_of(book, note)
    parts, done = [], {}
    for number, found in enumerate(roots):
        part = Part(number + 1, *PARTS[number][:3])
        for root in found:
            new = new_with(root, found, number, part_of, done)
            part.sections += [(item, []) for item in new if item.kind == "contract" and item is not root]
            definitions = in_order(book, [item for item in new if item.kind == "definition"])
            if definitions or root.kind == "contract":
                part.sections.append((root, definitions))
        types = [item for item in done if item.kind == "type" and done[item] == number]
        part.types = sorted(types, key=lambda item: (book.crates.index(item.crate), str(item.path), item.line))
        parts.append(part)
    return parts


def places_of(parts):
    """For each item the file and the anchor where it is."""
    places = {}
    for part in parts:
        places.update((item, (part.file, f"types-{item.crate}-{item.path.stem}")) for item in part.types)
        for root, new in part.sections:
            name = f"{root.crate}-{slug(root.name)}"
            places.update((item, (part.file, f"{name}-{item.crate}-{item.path.stem}")) for item in new)
            places.setdefault(root, (part.file, name))
    return places


# ---- a file

def source_link(item, line=False):
    target = f"{item.place()}#L{item.line}" if line else item.place()
    return f"[{item.place()}](../../crates/{target})"


def links(title, items, part, places):
    """The names of items, with links to where the long form has them."""
    def target(item):
        file, anchor = places[item]
        return f"{'' if file == part.file else file}#{anchor}"
    return wrapped(title + " " + ", ".join(f"[`{item.name}`]({target(item)})" for item in items) + ".")


def opening_words(path):
    """What a file of specs/ says of itself."""
    found = re.match(r"(?:--.*\n)*", path.read_text(encoding="utf-8")) if path.suffix == ".antt" else None
    return [line[2:].strip() for line in found[0].splitlines()] if found else []


def definition(item):
    """The lines of a definition or a type, with the number of its line in front of its comment."""
    comment = ": ".join([str(item.line)] + ([" ".join(item.comment)] if item.comment else []))
    return wrapped(comment, comment_mark(item)) + code(item)


def by_file(items, places, opened):
    """Definitions or types, those of one file together. The first time a file says what it is about."""
    lines = []
    for path in dict.fromkeys(item.path for item in items):
        group = [item for item in items if item.path == path]
        lines += [f'<a id="{places[group[0]][1]}"></a>', source_link(group[0]), ""]
        lines += prose([] if path in opened else opening_words(path))
        opened.add(path)
        lines += ["```" + ("agda" if path.suffix == ".antt" else "rust")]
        for item in group:
            lines += definition(item) + [""]
        lines[-1:] = ["```", ""]
    return lines


def section(part, root, new, places, opened):
    """A contract, its words, and the definitions that are new with it."""
    lines = [f"## {root.crate}: {root.name}", ""]
    if root.kind != "contract":
        lines += ["Earlier parts name it.", ""]
    else:
        lines = [f'<a id="{places[root][1]}"></a>'] + lines + [source_link(root, line=True), ""] + prose(root.comment)
        lines += ["```rust"] + code(root) + ["```", ""]
        words = [item for item in root.cites()[0] if item.kind != "contract" and not item.name.startswith("impl ")]
        if words:
            lines += links("Its words:", words, part, places)
            lines += [f"All that it stands on: {len(cone(root))} definitions, {size(cone(root)):,} lines.", ""]
    return lines + by_file(new, places, opened)


def toolchain_words(part):
    """The words of the toolchain that the part uses, module by module."""
    words = {}
    for item in part.contracts() + part.definitions():
        for word in item.cites()[1]:
            words.setdefault(word.split(": ")[0], set()).add(word.split(": ")[1])
    lines = ["## Words of the toolchain", ""]
    for module in sorted(words):
        lines += wrapped(f"`{module}`: " + ", ".join(f"`{word}`" for word in sorted(words[module]))) + [""]
    return lines


def text_of(part, places):
    contracts, definitions, opened = part.contracts(), part.definitions(), set()
    lines = [f"# {part.number}. {part.title}", ""] + prose([part.says, "", part.says_not])
    lines += links(f"{size(contracts) + size(definitions):,} lines of clauses and definitions. Contracts:", contracts, part, places)
    lines += [""]
    for root, new in part.sections:
        lines += section(part, root, new, places, opened)
    lines += ["## Types", ""] + by_file(part.types, places, opened) + toolchain_words(part)
    return "\n".join(lines).rstrip() + "\n"


def write(book, note):
    """Writes the six files, and drops those of earlier lists of parts."""
    parts = parts_of(book, note)
    places = places_of(parts)
    OUT.mkdir(parents=True, exist_ok=True)
    for path in OUT.glob("[0-9]-*.md"):
        path.unlink()
    for part in parts:
        (OUT / part.file).write_text(text_of(part, places), encoding="utf-8")
