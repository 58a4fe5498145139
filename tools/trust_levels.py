"""What docs/TRUST.md says in words, which clauses each level shows, and which words it names and does not enter."""

# How the page begins: the title, then prose.
HEAD = (["# What has to be believed", ""], [
    "You doubt that a proof says what its project claims. This page is for you, and for one evening. It begins with the promise in "
    "five sentences, and each names the clauses that say it exactly. Then come these clauses, and the definitions that they are "
    "written in. The prover shows that the programs meet the clauses. Whether the clauses say what you need is yours to judge.", "",
    "Read from the top, and stop after any level. Each level uses words of the levels after it. At the end of a level is a list of its "
    "words, with links to where they are."])

# What comes between level 1 and the code.
READING = (["## How to read the code", ""], [
    "A law is a function that does nothing. Each of its `ensures` clauses is a type, and the proof of the clause is a value of that "
    "type. Read `(x : A) → B` as *for all*, `(x : A) × B` as *there is*, `A → B` as *if*, `×` as *and*, `⊎` as *or*, `⊥` as *never*, "
    "`Unit {0}` as *always*, `≡` as *equals*. `x ∷ list` is a list with `x` in front, `++` joins two lists, `λ x. e` is the function "
    "that takes `x` to `e`, and `p.0` and `p.1` are the parts of a pair. `AllByRecursion P list` says `P` of each element of a list, "
    "`slice_get list i ≡ Some x` that it has `x` in place `i`. `IfOk` and `IfSome` speak of a result only if there is one. `find` gives "
    "the first entry of a name. In clauses of a program `x.now` is a value that is only read, and `x.old` and `x.new` are one that "
    "changes. In their heads `Delta` is a list of operations, `MemoryDisk` a disk in memory, `World` what `run` gives, and `WorldFault` "
    "why it gives nothing; `Ghosts` are the members of the trait `Disk`. Any other word of code is the toolchain's; "
    "[GLOSSARY](GLOSSARY.md) has the words of the prose.", "",
    "What the clauses assume is in [PROVED](PROVED.md), and what you trust beside them in [README](../README.md#trust-and-licence). "
    "`make trust` writes this page from the sources, and `make test` compares it with them. It also writes the long form into "
    "`out/trust/`: six files that follow every word to its end, with the step table, the bytes and the disk."], [
    "Clauses see values of these types as plain lists and numbers:"])

# Level 1: for each sentence its title, what it says, the clauses that say so, its words, and what it does not say.
SENTENCES = [
    ("Nothing that a gateway accepted vanishes.",
     "A gateway answers a PUBLISH at quality of service 1 with PUBACK, code 0. Then each recipient has a message of its own, new with "
     "this step, and it waits there. However the run goes on, it waits for its client, at this gateway and at each that has the delta "
     "with it, until a step after this answer acknowledges it, for a cause. The same is so of PUBREC at quality of service 2, if its id "
     "was not received before, and of the records on the disk of each of these gateways. A client is a recipient if a filter of its "
     "session matches, and fewer than 1,024 messages wait for it.",
     ["promise_laws::nothing_accepted_vanishes.puback", "promise_laws::nothing_accepted_vanishes.pubrec",
      "promise_laws::nothing_accepted_vanishes.only", "promise_laws::asked_is_served.recipients"],
     "A *delta* is a list of operations, here those of one step. `IsAccepted` and `WaitsUntilAnswered` are in [level 4], as are the "
     "causes; so is `AsksFor`, who a recipient is. A gateway *has* a delta if it made it, or if that would add nothing that counts "
     "to its set: `HasCome`. By `promise_laws::exchanged_field` it has what it took, and what a peer had whose answer it took.",
     "That a PUBLISH is answered. Recipients are those that this gateway's set shows: a subscription made at another gateway counts once "
     "its operations have come. If a client is neither Active, Asleep nor Awake, it is a recipient only at quality of service 1 and 2. "
     "At 2 an id that is used again soon counts as received: see `promise_laws::received_in_a_run`."),
    ("Sets only grow.",
     "Take any run of a field, and two moments of it. What a gateway has made and taken by the first moment, it has at the second, "
     "whatever came and whatever failed in between.",
     ["field_laws::nothing_vanishes.grows"],
     "A *field* is a list of gateways, and of the *deltas* (lists of operations) that they made or answered. A *run* is a list of "
     "events, with the answer to each and the field after them: `Run`, [level 3]. Events are datagrams, ticks, deltas that come to a "
     "gateway, digests (what a gateway has, in short) that go to a peer, writes that fail, compactions (a journal is written again) "
     "and restarts. `taken` is the set of a gateway, and `Within` compares two sets: [level 2]. A gateway is meant by its place in the "
     "field's list.",
     "Anything about programs. `After`, [level 3], only ever adds to `taken`, at a restart too; that programs do as `After` says is "
     "sentence 5. (Each place keeps its gateway, with its number: clause `places` of the same law.) A program holds of `taken` at least what `keep` leaves, and may forget the rest. Nothing says that two gateways ever "
     "exchange what they have. If memory runs out, a run ends there, and nothing is said of what follows. No event alters a delta on "
     "its way, and none takes a gateway's disk away."),
    ("What waits in a set waits in every larger set, or is acknowledged there.",
     "A message that waits for a client in a set waits for it in each set that contains this one, unless the larger set has its "
     "acknowledgement. So a message that waits at a gateway waits there at every later moment of the run, or that gateway's set has "
     "its acknowledgement.",
     ["rep_model::pending_laws.leaves", "field_laws::nothing_vanishes.stays"],
     "`view c S` is what the set says about a client. Its `pending` are the messages that wait: those of the set that the set does not "
     "acknowledge. Both are in [level 2].",
     "That the message ever reaches the client: that needs a client that answers, and time."),
    ("A gateway acknowledges only for a cause.",
     "Each acknowledgement that is anywhere in a field was written by a step of the run. A step for a frame acknowledges only messages "
     "that wait for the client that the frame is from, and each for one of four causes. The client begins a clean session and is accepted. It accepts or refuses, by message id, "
     "the message that is being handed over to it. The step sends the message at quality of service 0. No topic id is left for the "
     "message. A tick acknowledges only for the last two, or a message whose moment is there, if the client is not in the middle of it.",
     ["promise_laws::acknowledged_in_a_run.written"],
     "A *step* is what the step table plans for a frame: a `Plan`, [level 3]. `IsForCause` and `IsTimely` list the causes, and "
     "`IsWrittenBy` is the step in its run: [level 4].",
     "That the client was sent what the step sends. If the write of a step's operations fails, an excuse goes out instead of its "
     "datagrams (`EndsWith`), but the operations may be on the disk, and a restart reads them back (`reopened`, [level 3]). So a message "
     "at quality of service 0 may leave although it was never sent. A message that a clean CONNECT ends may leave although that CONNECT "
     "was refused. In two places the law allows more than the step table does: `IsRefusalCode` and `IsSpent`. An answer counts by its "
     "message id alone, so a late one can count for another message. Whoever sends from a client's address, or names the client in "
     "CONNECT or PINGREQ, counts as that client."),
    ("A crash keeps the set.",
     "After any run that the program `run` plays to its end, whatever a crash leaves of a gateway's disk is a journal that opens, and "
     "its records count as the gateway's set. If the gateway's last write failed, they may instead count as that set with the whole of "
     "the delta that was being written.",
     ["gw_world::run.ok", "jr_disk::memory_disk_is_honest"],
     "A *journal* holds the deltas that a gateway made or took, one record each. `run` plays events with the gateway's own code, "
     "restarts included, and `IsWorld` is its result. `Lasts` says what a crash leaves of one gateway's disk. All are in [level 3]. To "
     "*count as* a set is to keep what must be kept of it: `CountsAs`, and `keep` in [level 2].",
     "Anything about your disk. The disks of `run` are in memory. They are honest, as the trait `Disk` has it: calls do what they say, "
     "and a crash keeps the synced bytes and a front part of the rest. The daemon's disk, `FileDisk`, is honest if its two files are; "
     "the system's files declare that they are not (`honest` is `⊥`), so clauses with that premise say nothing about them. What they "
     "say is true of the same code on any honest disk: see the clauses `event`, [level 3], for one call each. In a run only appends "
     "fail, and the syncs after them, and never an "
     "opening."),
]

# Levels 2 to 4: title, introduction, and the clauses, function by function. An empty list means the one without a name.
LEVELS = [
    ("a set", [
        "A set is a list of operations: changes of a session, messages, acknowledgements, and what topics retain. Two sets are compared "
        "by what four readers find: `operation_at`, `put_at`, `is_acknowledged`, `retain_at`. So order and repeats do not matter, if "
        "no name has two contents.", "",
        "`leaves` says that a join drops a message only if it has its acknowledgement. The clauses of `join_laws` say that order, groups "
        "and repeats of joins make no difference. Those of `keep_laws` say that what `keep` forgets makes none either, now or after "
        "later joins. What a change makes of a session is named and not entered: `applied`."], [
        ("rep_model::pending_laws", "leaves"),
        ("rep_model::join_laws", "idempotent commutative associative equal"),
        ("rep_model::keep_laws", "joined seen")]),
    ("a field", [
        "A field is a list of gateways, and of the deltas that they made or answered. `After` says what one event may do to it: "
        "`OwnStep` a datagram or a tick, `TakeStep` a delta that comes, `restarted` a stop and a new start. `run` plays events with the "
        "gateway's own code on disks in memory, and `run.ok` ties this whole level to that code. The clauses `event` do so for single "
        "calls, on any disk; `CanBeSaid` has the exceptions, which on the daemon's own disk are all compactions and reopenings. (These "
        "calls have one more clause, `call`: see part 5 of the long form.) The step table and the "
        "bytes of frames, deltas and journals are named and not entered.", "",
        "`consistent` and `never` say that no name has two contents in the whole field, and that no event is answered by Conflict. "
        "`alike` and `shown` say that two gateways that have taken the same operations have equal sets and show the same. "
        "`promise_laws::exchanged_field` says of two that took each other's answers, and nothing since that the other lacks, that they show "
        "the same. `retained` says that what is retained of a topic leaves only by something later.", "",
        "Not said: that `run` ever succeeds. It may always report that memory ran out; tests show that it does not. An event that names "
        "no gateway or no delta also stops it."], [
        ("field_laws::nothing_vanishes", "grows stays retained"),
        ("field_laws::consistent_field", "consistent never"),
        ("field_laws::settled_field", "alike shown"),
        ("gw_world::run", "ok"),
        ("jr_disk::memory_disk_is_honest", ""),
        ("gw_node::Node::frame", "event"),
        ("gw_node::Node::take", "event"),
        ("gw_node::Node::tick", "event"),
        ("gw_node::Node::compact", "event"),
        ("gw_node::Node::reopen", "event")]),
    ("what a gateway accepts, and why it acknowledges", [
        "`asked_is_served` is about one view, the others are about runs. A cause is one of a step, whose plan `IsPlan` of [level 3] gives to "
        "the gateway: `seen` is what the step table reads of the set, `local` what else the gateway knows, and `a` the address that the "
        "frame is from.", "",
        "`made` says of each message of a delta that an answer reports what `puback` says of those of a PUBLISH: of wills too, and at "
        "quality of service 0 and -1. `promise_laws::accepted_stays` says which these are. So it is of what a SUBSCRIBE is handed, since "
        "it was retained. `only` says that nothing in the field "
        "acknowledges it without such a cause. "
        "`recipients` and `only` say, in words that the step table does not use, who is one (`qos_for`)."], [
        ("promise_laws::nothing_accepted_vanishes", "puback pubrec made only"),
        ("promise_laws::asked_is_served", "recipients only"),
        ("promise_laws::acknowledged_in_a_run", "written")]),
]

# Words that are named and not entered: CRATE/FILE/NAME. Faults and members of traits need no entry: none is entered.
NAMED = set("""
    sn_frame/Bodies/IsValue sn_frame/Grammar/Spells sn_frame/Grammar/spelling sn_frame/flags/Flags sn_frame/flags/Qos
    sn_frame/FlagBits/qos_of sn_frame/frame/Frame sn_topic/Matching/Matches sn_tables/Received/is_received
    sn_tables/subscriptions/Subscription sn_session/Session/applied sn_session/Session/empty_session
    sn_session/change/SessionOp sn_session/outbound/Outbound sn_session/outbound/Phase sn_session/presence/Presence
    sn_session/session/Session rep_ops/Making/HaveOwnNames rep_ops/Making/IsDeltaOf rep_model/Fresh/next_clock
    rep_model/Fresh/next_epoch rep_model/Fresh/next_seq rep_model/Topics/topic_in rep_model/Limits/first_passed
    rep_model/Roomy/IsRoomy rep_model/Views/is_named rep_model/Views/named jr_disk/disk/Failure jr_disk/disk/Slot
    jr_journal/Faults/fault_of jr_journal/Faults/is_fresh jr_journal/Parts/disk_under jr_journal/Parts/gateway_of
    jr_journal/Parts/slot_of jr_journal/Records/records jr_journal/journal/Journal sn_local/Locals/after_all
    sn_local/Locals/owned sn_local/config/Addr sn_local/config/Config sn_local/local/Binding sn_local/local/LocalChange
    sn_local/local/Timer sn_local/local/WillDialog gw_answer/Answers/only_sends gw_answer/Answers/said gw_answer/out/Out
    gw_answer/refusal/Refusal gw_answer/step/Step sn_plan/Drafts/session_after sn_exchange/Delivery/id_to_tell
    sn_exchange/Exchanges/open_exchange sn_exchange/Following/peer_at sn_exchange/Forms/form_of
    sn_exchange/Forms/publication sn_exchange/form/Form sn_exchange/peer/Peer sn_publish/Publishing/publication_meant
    sn_publish/Recipients/qos_for sn_publish/meaning/Meant sn_deliver/Steps/row_for sn_deliver/Steps/step
    sn_tick/Expiry/is_under_way sn_tick/Expiry/under_way sn_tick/Ticking/tick put_laws/Causes/gives_message
    put_laws/Causes/gives_topic gw_event/Drives/more_records gw_event/Drives/left_by gw_event/Drives/opened
    gw_event/Drives/torn gw_event/Drives/with_record gw_event/Event/CompactStep gw_event/Event/DigestStep
    gw_event/Event/HasNoDelta gw_event/Event/IsWritable gw_event/Event/ReplyStep gw_event/Event/ViewStep
    gw_event/Excuses/IsExcuse gw_event/Occasions/IsNoFrame gw_node/Parts/is_halted gw_node/Parts/state_of
    gw_node/Standing/CallAgrees gw_node/Standing/IsForeseen gw_world/Places/place_of gw_world/Steps/AnswerStep
    sn_local/Bindings/address_of sn_local/Bindings/client_at sn_local/Bindings/is_owned sn_local/WillDialogs/dialog_at
    sn_flow/Connection/has_bit sn_exchange/Exchanges/is_served gw_event/Event/IsRefused gw_event/Event/IsTooMuch
    promise_laws/Stepping/IsAmong gw_world/Field/TogetherAt gw_world/event/Call gw_event/Event/IsDropped
    gw_node/Standing/CanBeSaid
""".split())

# What comes before the words that are named.
ENDING = (["## Words that are named", ""], [
    "The levels use these words and do not enter them. Each has its comment here, and a link to its file."])
