#!/usr/bin/env python3
"""Replays schedules over the definitions of the world, and compares with their transcripts.

Run at the top of the repository: python3 tools/replay_definitions.py FOLDER_OR_SCHEDULE.. For each NAME.schedule it runs
the definitions of crates/world_model as they stand, and compares what they show and send with NAME.transcript (or, where a
file NAME.full is there, with that), byte by byte; with neither it prints the transcript. After each step it tries besides
what the whole is for: the plain machine allows each of its steps; and at the end its map is the map at the cut of what is
durable, and each page that was answered for a stamp has the rows at the cut of that stamp. It exits 1 where any of these
fails. Nothing here is proved: it tries the definitions that the theorems speak of.
"""

import glob
import os
import sys

from definitions import NONE, Data, Definitions, Function, Record, force, numbered, order_of, some, strict, with_room

FILES = """
tm_lists/Words tm_lists/Keys tm_lists/Kept tm_data/Vectors tm_data/Sizes tm_data/Records tm_base/Sizes
tm_base/GroupSizes key_fences/Fences page_model/Effects page_model/Versions page_model/Tree page_model/Splits
page_model/Pool page_model/Tiling vs_clock/State log_writer/Acks log_writer/Log lease_desk/Desk lock_model/State
lock_model/Step lock_model/Runs store_model/LogState store_model/LogStep store_model/LogStarts store_model/PageState
store_model/PageStep store_model/PageWhole store_model/PageReads replica_model/Order replica_model/State
replica_model/Step replica_model/Reads lock_table/Tags master_model/State master_model/Fates master_model/Paths
master_model/Logging master_model/Reads master_model/Writes master_model/Ends master_model/Leases master_model/Acks
master_model/Recovery master_model/Step key_index/Touched key_model/State key_model/Steps key_model/After key_model/Events
key_model/Causes key_model/Cuts history_model/History world_model/Disk world_model/World world_model/Past
world_model/Nodes world_model/Step
""".split()


# ---- values as bytes


def u(width):
    return lambda number: number.to_bytes(width, "big")


u8, u16, u32, u64 = u(1), u(2), u(4), u(8)
KINDS = """Register Registered Append Ack Gap Sealed Stable Fetch Groups Seal SealedAt Close Closed Takeover Taken Undone
Recovered Request RequestFresh Recall Grant FreshIs Release Released ReadPage PageIs Missing Ask Fate Roster Want""".split()
NODES = {"Master": "m", "LogStore": "l", "PageStore": "p", "LockManager": "g", "Replica": "r"}
STATES = ["Live", "Closed", "Recovered"]


def number_of(value):
    return value.get("0")


def w32(value):
    return u32(number_of(value))


def w64(value):
    return u64(number_of(value))


def optional(value, none, of):
    return none if value == NONE else of(value.args[0])


def counted(width, items, of):
    return width(len(items)) + b"".join(of(item) for item in items)


def flag(value):
    return u8(1 if value else 0)


def key_bytes(key):
    return u8(len(key)) + bytes(key)


def fence_bytes(fence):
    return optional(fence, b"\0", key_bytes)


def value_bytes(value):
    return optional(value, b"\xff\xff", lambda v: u16(len(v)) + bytes(v))


def before_bytes(before):
    return b"\xff\xfe" if before.name == "Same" else value_bytes(before.args[0])


def txn_bytes(txn):
    return w32(txn.get("writer")) + u32(txn.get("number"))


def vector_bytes(vector):
    return counted(u16, vector, lambda e: w32(e.get("writer")) + w64(e.get("stamp")))


def row_bytes(row):
    return key_bytes(row.get("key")) + txn_bytes(row.get("txn")) + value_bytes(row.get("now")) + before_bytes(row.get("before"))


def body_bytes(body):
    """The kind, and the rest."""
    if body.name == "Blank":
        return b"\0", b""
    if body.name == "Leaf":
        table, low, high, rows = body.args
        return b"\1", u16(table) + u8(0) + fence_bytes(low) + fence_bytes(high) + counted(u16, rows, row_bytes)
    table, level, low, high, first, entries = body.args
    child = lambda c: key_bytes(c.get("key")) + w32(c.get("page"))
    fences = fence_bytes(low) + fence_bytes(high)
    return b"\2", u16(table) + u8(level) + fences + u16(len(entries)) + w32(first) + b"".join(child(c) for c in entries)


def image_bytes(image):
    kind, rest = body_bytes(image.get("body"))
    return kind + w32(image.get("page")) + w64(image.get("stamp")) + rest


def record_bytes(record):
    args = record.args
    if record.name == "End":
        return b"\5" + txn_bytes(args[0]) + flag(args[1])
    if record.name == "Beat":
        return b"\6"
    place = w32(args[0]) + w64(args[1])
    if record.name == "RowSet":
        return b"\1" + place + u16(args[2]) + row_bytes(args[3])
    if record.name == "Cut":
        return b"\2" + place + key_bytes(args[2])
    if record.name == "Format":
        return b"\3" + place + b"".join(body_bytes(args[2]))
    return b"\4" + place + key_bytes(args[2]) + w32(args[3])


def group_bytes(group):
    head = w32(group.get("writer")) + u32(group.get("seq")) + w64(group.get("stamp"))
    return head + vector_bytes(group.get("learnt")) + counted(u16, group.get("records"), record_bytes)


def tag_bytes(tag):
    return key_bytes(tag.get("key")) + txn_bytes(tag.get("txn"))


def page_stamp_bytes(entry):
    return w32(entry.get("page")) + w64(entry.get("stamp"))


def roster_bytes(entry):
    state = u8(STATES.index(entry.get("state").name))
    return w32(entry.get("writer")) + u8(entry.get("master")) + state + u32(entry.get("length")) + w64(entry.get("start"))


def lease_bytes(writer, page, epoch, stamp, tags, vector):
    return w32(writer) + w32(page) + u32(epoch) + w64(stamp) + counted(u32, tags, tag_bytes) + vector_bytes(vector)


def pair_bytes(writer, number):
    return w32(writer) + u32(number)


def close_bytes(writer, length, store):
    return w32(writer) + u32(length) + u8(store)


def recall_bytes(writer, page, epoch):
    return w32(writer) + w32(page) + u32(epoch)


BODIES = {
    "Register": u32,
    "Registered": lambda boot, writer: u32(boot) + w32(writer),
    "Append": group_bytes,
    "Groups": lambda writer, groups: w32(writer) + counted(u32, groups, group_bytes),
    "Seal": w32,
    "Close": close_bytes,
    "Closed": close_bytes,
    "Takeover": lambda writer, part, rest, pages, vector: w32(writer)
    + u32(part)
    + flag(rest)
    + counted(u32, pages, page_stamp_bytes)
    + vector_bytes(vector),
    "Undone": lambda writer, recoverer, vector: w32(writer) + w32(recoverer) + vector_bytes(vector),
    "Recovered": lambda writer, vector: w32(writer) + vector_bytes(vector),
    "Request": lambda writer, page: w32(writer) + w32(page),
    "Recall": recall_bytes,
    "Released": recall_bytes,
    "Grant": lease_bytes,
    "Release": lease_bytes,
    "FreshIs": lambda writer, nth, page: w32(writer) + u32(nth) + optional(page, u32(0), w32),
    "ReadPage": w32,
    "PageIs": image_bytes,
    "Missing": lambda page, stamp: w32(page) + w64(stamp),
    "Ask": lambda txn, master: txn_bytes(txn) + u8(master),
    "Fate": lambda txn, ended, vector: txn_bytes(txn) + flag(ended) + vector_bytes(vector),
    "Roster": lambda entries: counted(u16, entries, roster_bytes),
    "Want": lambda writer: optional(writer, u32(0), w32),
}


def node_bytes(node):
    return u8(list(NODES).index(node.name) + 1) + u8(node.args[0] if node.args else 1)


def message_bytes(message):
    note = message.get("note")
    head = node_bytes(message.get("from")) + node_bytes(message.get("to")) + w64(message.get("stamp"))
    return head + u8(KINDS.index(note.name) + 1) + BODIES.get(note.name, pair_bytes)(*note.args)


# ---- values as text


def node_text(node):
    return NODES[node.name] + "".join(str(n) for n in node.args)


def node_named(text):
    name = next(n for n, letter in NODES.items() if letter == text[0])
    return Data(name, (int(text[1:]),) if text[1:] else ())


def hexadecimal(value):
    return bytes(value).hex() or "-"


def value_text(value):
    return optional(value, "none", hexadecimal)


def txn_text(txn):
    return f"{number_of(txn.get('writer'))}.{txn.get('number')}"


def vector_words(vector):
    return "".join(f" {number_of(e.get('writer'))}:{number_of(e.get('stamp'))}" for e in vector)


REPLIES = {
    "AlreadyOpen": lambda t: f"AlreadyOpen {txn_text(t)}",
    "Ending": lambda t: f"Ending {txn_text(t)}",
    "NoTable": lambda t: f"NoTable {t}",
    "TooLongKey": lambda n: f"TooLong key {n}",
    "TooLongValue": lambda n: f"TooLong value {n}",
    "AgainPage": lambda p: f"Again page {number_of(p)}",
    "AgainFate": lambda t: f"Again fate {txn_text(t)}",
    "LockedRow": lambda t, key: f"Locked {txn_text(t)} {hexadecimal(key)} row",
    "LockedSplit": lambda t, key: f"Locked {txn_text(t)} {hexadecimal(key)} split",
    "AgainFresh": lambda n: f"Again fresh {n}",
    "AgainRows": lambda n: f"Again rows {n}",
    "AgainStore": lambda store, seq: f"Again store {store} {seq}",
    "NoWriter": lambda w: f"NoWriter {number_of(w)}",
    "OtherRecovery": lambda w: f"OtherRecovery {number_of(w)}",
    "FullTags": lambda: "Full tags 4096",
    "FullHeight": lambda: "Full height 6",
    "FullGroups": lambda: "Full groups",
    "FullTransactions": lambda: "Full transactions",
    "Begun": lambda t: f"Begun {txn_text(t)}",
    "Value": lambda v: f"Value {value_text(v)}",
    "Committed": lambda t: f"Committed {txn_text(t)}",
    "Aborted": lambda t: f"Aborted {txn_text(t)}",
    "Recovered": lambda w: f"Recovered {number_of(w)}",
    "Recovering": lambda wait: f"Recovering {wait.name.lower()}",
}


def reply_text(reply):
    return REPLIES.get(reply.name, lambda: reply.name)(*reply.args)


def pair_words(pairs):
    return "".join(f" {hexadecimal(p.get('key'))}={hexadecimal(p.get('value'))}" for p in pairs)


OUTCOMES = {
    "Fine": lambda: "ok",
    "Reply": lambda master, session, reply: f"m{master} {session} {reply_text(reply)}",
    "Lost": lambda node: f"{node_text(node)} lost",
    "Up": lambda node: f"{node_text(node)} up",
    "Down": lambda node: f"{node_text(node)} down",
    "Stopped": lambda node: f"{node_text(node)} Stopped",
    "Page": lambda store, image: f"p{store} Page {image_bytes(image).hex()}",
    "NotHere": lambda store: f"p{store} NotHere",
    "RosterBehind": lambda store, upto: f"p{store} RosterBehind {number_of(upto)}",
    "Behind": lambda store, writer, upto: f"p{store} Behind {number_of(writer)} {number_of(upto)}",
    "Missing": lambda store, stamp: f"p{store} Missing {number_of(stamp)}",
    "Unfit": lambda node, stamp: f"{node_text(node)} Unfit {number_of(stamp)}",
    "Point": lambda replica, point, vector: f"r{replica} Point {point}{vector_words(vector)}",
    "Waits": lambda replica, writer, stamp: f"r{replica} Waits {number_of(writer)} {number_of(stamp)}",
    "FullPoints": lambda replica: f"r{replica} Full points",
    "Level": lambda replica: f"r{replica} Level",
    "Value": lambda replica, value: f"r{replica} Value {value_text(value)}",
    "NoPoint": lambda replica, point: f"r{replica} NoPoint {point}",
    "NoTable": lambda replica, table: f"r{replica} NoTable {table}",
    "TooLongKey": lambda replica, length: f"r{replica} TooLong key {length}",
    "Rows": lambda replica, pairs: f"r{replica} Rows {len(pairs)}{pair_words(pairs)}",
}


def value_of(text):
    return () if text == "-" else tuple(bytes.fromhex(text))


def command_of(words):
    name, args = words[0], words[1:]
    if name in ("get", "del"):
        return Data(name.capitalize(), (int(args[0]), value_of(args[1])))
    if name == "put":
        return Data("Put", (int(args[0]), value_of(args[1]), value_of(args[2])))
    if name == "recover":
        return Data("Recover", (numbered(int(args[0])),))
    return Data(name.capitalize())


def entry_of(text):
    writer, stamp = text.split(":")
    return Record(("writer", "stamp"), (numbered(int(writer)), numbered(int(stamp))))


def step_of(line):
    words = line.split(" ")
    name, args = words[0].capitalize(), words[1:]
    if name == "Do":
        return Data("Do", (int(args[0][1:]), int(args[1]), command_of(args[2:])))
    if name in ("Deliver", "Lose"):
        return Data(name, (int(args[0]),))
    if name in ("Tick", "Start", "Stop", "Fail"):
        return Data(name, (node_named(args[0]),) + tuple(int(a) for a in args[1:]))
    node = int(args[0][1:])
    if name in ("Page", "Version"):
        return Data(name, (node, numbered(int(args[1])), numbered(int(args[2]))))
    if name == "Publish":
        return Data("Publish", (node, tuple(entry_of(a) for a in args[1:])))
    if name == "Lag":
        return Data("Lag", (node,))
    if name == "Get":
        return Data("Get", (node, int(args[1]), int(args[2]), value_of(args[3])))
    start = NONE if args[3] == "-" else some(value_of(args[3]))
    return Data("Scan", (node, int(args[1]), int(args[2]), start, int(args[4])))


# ---- a run


class Run:
    def __init__(self, definitions):
        self.definitions = definitions
        self.world, self.lines, self.sent, self.delivered, self.lost = None, [], 0, set(), set()

    def call(self, name, *args):
        return self.definitions.call("world_model", "Step", name, *args)

    def show(self, text, messages):
        self.lines.append(text)
        for message in messages:
            self.sent += 1
            way = f"{node_text(message.get('from'))}>{node_text(message.get('to'))}"
            self.lines.append(f"#{self.sent} {way} {message.get('note').name} {message_bytes(message).hex()}")

    def step(self, line):
        words = line.split(" ")
        if words[0] in ("deliver", "lose"):
            {"deliver": self.delivered, "lose": self.lost}[words[0]].add(int(words[1]))
        effect = self.call("world_step", self.world, step_of(line))
        self.check_machine(effect.get("world").get("past"))
        self.world = effect.get("world")
        outcome = effect.get("outcome")
        text = OUTCOMES[outcome.name](*outcome.args)
        self.show(text, effect.get("messages"))
        return text

    def check_machine(self, past):
        """The plain machine allows each step that it took."""
        old = self.world.get("past")
        machine = old.get("machine")
        for step in past.get("steps")[len(old.get("steps")) :]:
            machine, allowed = self.definitions.call("key_model", "After", "stepped", machine, step)
            if not allowed:
                raise AssertionError(f"the plain machine does not allow {step!r}")

    def waiting(self):
        return [n for n in range(1, self.sent + 1) if n not in self.delivered and n not in self.lost]

    def drain(self, most):
        next_one, done = 1, 0
        while next_one <= self.sent and done < most:
            if next_one not in self.delivered and next_one not in self.lost:
                self.step(f"deliver {next_one}")
                done += 1
            next_one += 1

    def tick_all(self):
        counts = [self.world.get(part) for part in ("masters", "page_stores", "replicas")]
        names = ["g", "l1", "l2", "l3"]
        for letter, count in zip("mpr", counts):
            names += [f"{letter}{n}" for n in range(1, count + 1)]
        for name in names:
            if self.call("runs", self.world, node_named(name)):
                self.step(f"tick {name}")

    def attempt(self, attempts, words):
        for left in reversed(range(attempts)):
            reply = self.step("do " + " ".join(words)).split(" ", 2)[-1]
            if not reply.startswith(("Again", "Recovering")) or left == 0:
                return
            self.drain(10000)
            self.tick_all()
            self.drain(10000)

    def line(self, line):
        words = line.split(" ")
        if words[0] == "world":
            self.world = self.call("begin", *(int(w) for w in words[1:]))
            self.show("ok", self.world.get("sent"))
        elif words[0] == "drain":
            self.drain(int(words[1]))
        elif line == "lose all":
            for number in self.waiting():
                self.step(f"lose {number}")
        elif line == "tick all":
            self.tick_all()
        elif words[0] == "try":
            self.attempt(int(words[1]), words[2:])
        else:
            self.step(line)

    # ---- what the whole is for

    def keys(self):
        events = [e.get("kind") for e in self.world.get("past").get("events")]
        return sorted({(k.args[1], k.args[2]) for k in events if k.name != "End"})

    def at_cut(self, name, test, table, key):
        cut = Function(1, lambda mark: test(force(mark)))
        row = Record(("table", "key"), (table, key))
        return self.definitions.call("key_model", "Cuts", name, self.world.get("past").get("events"), cut, row)

    def check_map(self):
        """The machine's map is the map at the cut of what is durable."""
        past = self.world.get("past")
        hard, held = past.get("hard").items, past.get("machine").get("map").items
        durable = lambda mark: mark.get("seq") <= hard.get(mark.get("writer"), 0)
        for table, key in set(self.keys()) | {(k.get("table"), k.get("key")) for k in held}:
            value = held.get(Record(("table", "key"), (table, key)))
            if self.at_cut("value_at", durable, table, key) != (NONE if value is None else some(value)):
                raise AssertionError(f"the map at key {bytes(key).hex()} of table {table}")

    def check_answers(self):
        """Each page that was answered for a stamp has the rows at the cut of that stamp."""
        for answer in self.world.get("past").get("answers"):
            body, stamp = answer.get("image").get("body"), answer.get("stamp")
            if body.name != "Leaf":
                continue
            table, low, high, rows = body.args
            held = {row.get("key"): some(row) for row in rows}
            keys = {key for of, key in self.keys() if of == table}
            for key in keys | set(held):
                if self.definitions.call("key_fences", "Fences", "is_within", low, high, key):
                    row = self.at_cut("row_at", lambda mark: mark.get("stamp") <= stamp, table, key)
                    if row != held.get(key, NONE):
                        raise AssertionError(f"the page answered for {stamp} at key {bytes(key).hex()}")


def first_difference(run, wanted, at):
    for number in range(at, len(run.lines)):
        if number >= len(wanted) or run.lines[number] != wanted[number]:
            return number
    return None


def replay(definitions, path):
    """True where the transcript is the same, and what the whole is for holds."""
    base = path[: -len(".schedule")]
    transcript = next((base + end for end in (".full", ".transcript") if os.path.exists(base + end)), None)
    wanted = open(transcript, encoding="utf-8").read().splitlines() if transcript else None
    run = Run(definitions)
    with open(path, encoding="utf-8") as file:
        lines = file.read().splitlines()
    for number, line in enumerate(lines, 1):
        before = len(run.lines)
        try:
            run.line(line)
            if number == len(lines):
                run.check_map()
                run.check_answers()
        except AssertionError as fault:
            print(f"{path}:{number}: {fault}")
            return False
        at = first_difference(run, wanted, before) if wanted is not None else None
        if at is not None:
            there = wanted[at] if at < len(wanted) else "nothing"
            print(f"{path}:{number}: line {at + 1} of the transcript is\n  {run.lines[at]}\nand not\n  {there}")
            return False
    if wanted is None:
        print("\n".join(run.lines))
    elif len(wanted) != len(run.lines):
        print(f"{path}: {len(run.lines)} lines, and not {len(wanted)}")
        return False
    return True


def main(arguments):
    paths = []
    for argument in arguments:
        paths += sorted(glob.glob(os.path.join(argument, "*.schedule"))) if os.path.isdir(argument) else [argument]
    spelled = {
        "message_bytes": strict(1, lambda m: tuple(message_bytes(m))),
        "group_bytes": strict(1, lambda g: tuple(group_bytes(g))),
        "image_bytes": strict(1, lambda i: tuple(image_bytes(i))),
    }
    definitions = Definitions("crates", FILES, spelled)
    same = [replay(definitions, path) for path in paths]
    print(f"{sum(same)} of {len(same)} schedules have their transcripts over the definitions")
    return 0 if all(same) else 1


if __name__ == "__main__":
    sys.exit(with_room(lambda: main(sys.argv[1:])))
