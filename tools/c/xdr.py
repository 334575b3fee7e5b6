"""Reads and writes the library's buffers with Python's xdrlib, which is someone else's XDR.

    xdr.py [--seed N] CALLER..      (CALLER.. are the words that start caller.c)

What the entries wrote is decoded, and encoded again to the same bytes. What xdrlib encoded is accepted by the entries, and
means the same: their answers on it are those that documents 01 and 02 give.
"""
import argparse
import os
import random
import subprocess
import sys
import xdrlib
from collections import Counter, namedtuple

EOF = 9_223_372_036_854_775_807
PR, NBW, BW, PW = 1, 2, 3, 4
WAITING, GRANTED, ASKED, CANCELING = 0, 1, 2, 3
GRANT, REVOCATION = 1, 2
TABLE, EVENTS, LIST_EVENTS, MAP, LOG = 11_336, 11_268, 22_532, 24_580, 49_156
OLD_MAP, OLD_LOG = 20_484, 40_964  # until there were passes
HIGHEST = 4_294_967_295

Shown = namedtuple("Shown", "handle client stripe mode state number first last")
Record = namedtuple("Record", "shown mark")
Event = namedtuple("Event", "kind shown")
Item = namedtuple("Item", "client stripe mode first last refusal handle events")
Run = namedtuple("Run", "first last number pass_")
OldRun = namedtuple("OldRun", "first last number")
Table = namedtuple("Table", "issued lasts records")


# The layouts, as the documents have them: each structure is its fields in order, each field a uint, a uhyper or a structure.
LAYOUTS = {Shown: "uuuuuuhh", Record: (Shown, "u"), Event: ("u", Shown), Run: "hhuu", OldRun: "hhu"}


def record(*shown, mark=0):
    return Record(Shown(*shown), mark)


def pack(packer, item):
    for kind, value in zip(LAYOUTS[type(item)], item):
        {"u": packer.pack_uint, "h": packer.pack_uhyper}.get(kind, lambda inner: pack(packer, inner))(value)


def unpack(unpacker, kind):
    of = {"u": unpacker.unpack_uint, "h": unpacker.unpack_uhyper}
    return kind(*(of[field]() if field in of else unpack(unpacker, field) for field in LAYOUTS[kind]))


def encode(items):
    packer = xdrlib.Packer()
    packer.pack_array(items, lambda item: pack(packer, item))
    return packer.get_buffer()


def decode(kind, data):
    """The array at the front, and where it ends."""
    unpacker = xdrlib.Unpacker(data)
    items = unpacker.unpack_array(lambda: unpack(unpacker, kind))
    return items, unpacker.get_position()


def encode_table(table):
    packer = xdrlib.Packer()
    packer.pack_uint(table.issued)
    packer.pack_farray(16, table.lasts, packer.pack_uint)
    packer.pack_array(table.records, lambda record: pack(packer, record))
    return packer.get_buffer().ljust(TABLE, b"\0")


def decode_table(data):
    unpacker = xdrlib.Unpacker(data)
    issued = unpacker.unpack_uint()
    lasts = unpacker.unpack_farray(16, unpacker.unpack_uint)
    return Table(issued, lasts, unpacker.unpack_array(lambda: unpack(unpacker, Record)))


def encode_map(runs):
    return encode(runs).ljust(MAP, b"\0")


def encode_log(entries):
    return encode(entries).ljust(LOG, b"\0")


class Caller:
    def __init__(self, words):
        self.process = subprocess.Popen(words, stdin=subprocess.PIPE, stdout=subprocess.PIPE, text=True)

    def line(self, *words):
        print(*words, file=self.process.stdin, flush=True)
        return self.process.stdout.readline().strip()

    def __call__(self, *words):
        """A call's answer: a number, the three of a message, or those of a list and its items."""
        answer = [int(word) for word in self.line(*words).split()]
        return answer[0] if len(answer) == 1 else tuple(answer)

    def put(self, name, data):
        assert self.line("put", name, data.hex()) == "0"

    def get(self, name):
        return bytes.fromhex(self.line("get", name))


def same(what, left, right):
    if left != right:
        sys.exit(f"xdr: {what}:\n  {left}\n  {right}")


class Messages:
    """Messages on a table. After each one, table and events go through xdrlib and back."""

    def __init__(self, caller, table=Table(0, [0] * 16, [])):
        self.caller = caller
        caller.put("table", encode_table(table))

    @staticmethod
    def encoded(caller, table):
        """The refusal of a message on a table that need not be sound."""
        caller.put("table", encode_table(table))
        caller.put("events", bytes(EVENTS))
        return caller("release 0 1")[0]

    def send(self, *words):
        refusal, handle, events, _ = self.call(EVENTS, *words)
        return refusal, handle, events

    def call(self, room, *words):
        before = (bytes(range(1, 253)) * 90)[:room]  # what the event buffer held
        self.caller.put("events", before)
        refusal, handle, count, *rest = self.caller(*words)
        data = self.caller.get("table")
        self.table = decode_table(data)
        same("the table encoded again", encode_table(self.table), data)
        for shown, mark in self.table.records:
            same("the mark of a held record", mark, mark if shown.state == WAITING else 0)
        data = self.caller.get("events")
        if refusal != 0:
            same("the event buffer of a refused call", data, before)
            return refusal, handle, [], rest
        events, end = decode(Event, data)
        same("the count of events", len(events), count)
        same("the events encoded again", encode(events), data[:end])
        same("the bytes after the events", data[end:], before[end:])
        records = {shown.handle: shown for shown, _ in self.table.records}
        for shown in {event.shown.handle: event.shown for event in events}.values():
            same("the last event of a record beside it", shown, records[shown.handle])
        return refusal, handle, events, rest

    def list(self, *asked):
        """Requests a list: its refusal, the answered items, and the events of each."""
        for place, numbers in enumerate(asked):
            same("the count of items", self.caller("item", *numbers), place + 1)
        refusal, handle, events, rest = self.call(LIST_EVENTS, "list")
        items = [Item(*rest[place : place + 8]) for place in range(0, len(rest), 8)]
        same("what the items asked", [tuple(item[:5]) for item in items], [tuple(numbers) for numbers in asked])
        same("the handle of a list", handle, 0)
        if refusal != 0:
            same("the answers in a refused list", {item[5:] for item in items} - {(2**64 - 1,) * 3}, set())
            return refusal, items, []
        own = []
        for item in items:
            own.append(events[: item.events])
            events = events[item.events :]
        same("the events of no item", events, [])
        return refusal, items, own


NAMES = {"R": "request", "A": "acknowledge", "D": "downgrade", "F": "release"}


def event_of(line):
    """An event as the line program writes it."""
    kind, *numbers = line.split(",")
    return Event({"G": GRANT, "V": REVOCATION}[kind], Shown(*(int(number) for number in numbers)))


def examples(caller):
    """Document 01's examples P1 to P4, from tables that xdrlib encoded."""
    p1 = Messages(caller)
    for call in open(os.path.join(os.path.dirname(__file__), "../../examples/p1.txt")):
        message, answer, *events = call.replace("EOF", str(EOF)).split()
        words = [NAMES[message[0]], *message.split(",")[1:]]
        refusal, handle = (int(number) for number in answer.split(",")[1:])
        same("P1", p1.send(*words), (refusal, handle, [event_of(line) for line in events]))
    same("P1's table", p1.table, Table(3, [2] + [0] * 15, [record(3, 2, 0, PR, GRANTED, 0, 0, 9)]))

    held = record(1, 0, 0, NBW, ASKED, 1, 0, EOF)
    waiting = [record(handle, handle - 1, 0, NBW, WAITING, 0, 0, 9) for handle in (2, 3, 4)]
    p2 = Messages(caller, Table(4, [1] + [0] * 15, [held] + waiting))
    granted = [event_of("G,2,1,0,2,3,2,0,9"), event_of("G,3,2,0,2,3,3,0,9"), event_of(f"G,4,3,0,2,1,4,0,{EOF}")]
    same("P2", p2.send("acknowledge 0 1"), (0, 1, granted))

    p3 = Messages(caller, Table(2, [1] + [0] * 15, [held, record(2, 1, 0, PR, WAITING, 0, 0, 9)]))
    same("P3", p3.send("acknowledge 0 1"), (0, 1, []))

    blocking = record(1, 0, 0, BW, CANCELING, 1, 0, 9)
    p4 = Messages(caller, Table(2, [1] + [0] * 15, [blocking, record(2, 1, 0, NBW, WAITING, 0, 0, 9)]))
    same("P4", p4.send("downgrade 0 1"), (0, 1, [event_of(f"G,2,1,0,2,1,2,0,{EOF}")]))
    same("P4 again", p4.send("downgrade 0 1"), (11, 0, []))

    full = [record(handle, handle % 64, handle % 16, PR, GRANTED, 0, handle, EOF) for handle in range(1, 257)]
    same("a full table", Messages(caller, Table(4_294_967_294, [0] * 16, full)).send("request 0 0 1 0 0"), (8, 0, []))
    twice = Table(2, [0] * 16, full[:1] + full[:1])
    same("a handle twice", Messages(caller, twice).send("release 1 1"), (2, 0, []))
    highest = Messages(caller, Table(4_294_967_294, [0] * 16, []))
    same("the highest handle", highest.send("request 63 15 4 0 0")[1], 4_294_967_295)


def lists(caller):
    """Marked requests of a list, from tables that xdrlib encoded."""
    held = record(1, 0, 0, NBW, ASKED, 1, 0, EOF)
    start = Table(1, [1] + [0] * 15, [held])
    messages = Messages(caller, start)
    asked = [(1, 0, NBW, 0, 9), (2, 16, NBW, 0, 9), (2, 0, BW, 20, 29), (3, 1, PW, 5, 5)]
    refusal, items, own = messages.list(*asked)
    same("the answers of a list", [item[5:] for item in items], [(0, 2, 0), (4, 0, 0), (0, 3, 0), (0, 4, 1)])
    same("the events of a list", own, [[], [], [], [event_of("G,4,3,1,4,1,1,5,5")]])
    waiting = [record(2, 1, 0, NBW, WAITING, 0, 0, 9, mark=1), record(3, 2, 0, BW, WAITING, 0, 20, 29, mark=1)]
    last = record(4, 3, 1, PW, GRANTED, 1, 5, 5)
    same("a table with marks", messages.table, Table(4, [1, 1] + [0] * 14, [held] + waiting + [last]))
    grants = [event_of("G,2,1,0,2,1,2,0,9"), event_of("G,3,2,0,3,1,3,20,29")]
    same("grants that end where they asked", messages.send("release 0 1"), (0, 1, grants))
    same("no mark after a grant", [mark for _, mark in messages.table.records], [0, 0, 0])

    # The same table, and marks that xdrlib encoded: a marked request ends where it asked, and another is widened.
    for mark, end in ((0, 19), (1, 9)):
        marked = Table(3, [1] + [0] * 15, [held, record(2, 1, 0, NBW, WAITING, 0, 0, 9, mark=mark), waiting[1]])
        grants = [event_of(f"G,2,1,0,2,1,2,0,{end}"), event_of("G,3,2,0,3,1,3,20,29")]
        same(f"a mark of {mark}", Messages(caller, marked).send("release 0 1"), (0, 1, grants))
    for wrong in (held._replace(mark=1), waiting[0]._replace(mark=2), waiting[0]._replace(mark=4_294_967_295)):
        unsound = Table(2, [1] + [0] * 15, [wrong])
        same("a wrong mark", Messages.encoded(caller, unsound), 2)
    same("more than 64 items", Messages(caller, start).list(*asked[:1] * 65)[0], 19)
    same("64 items", [item.handle for item in Messages(caller, start).list(*asked[3:] * 64)[1]], list(range(2, 66)))
    same("no items", Messages(caller, start).list(), (0, [], []))


def session(caller, chance, length):
    """A random session: what the entries wrote is the next call's table as xdrlib encodes it."""
    messages = Messages(caller)
    table, accepted = Table(0, [0] * 16, []), 0
    for _ in range(length):
        caller.put("table", encode_table(table))
        name = chance.choice(("request", "request", "list", "acknowledge", "downgrade", "release"))
        if name == "list":
            accepted += listed(messages, chance)
            table = messages.table
            continue
        if name == "request" or not table.records:
            first = chance.randrange(40)
            last = chance.choice((first, first + chance.randrange(20), EOF))
            words = ("request", chance.randrange(64), chance.randrange(2), chance.randint(1, 4), first, last)
        else:
            shown = chance.choice(table.records).shown
            words = (name, shown.client, shown.handle)
        refusal, handle, _ = messages.send(*words)
        table, accepted = messages.table, accepted + (refusal == 0)
        if refusal == 0 and words[0] == "request":
            same("the new handle", handle, table.issued)
            same("the newest record", table.records[-1].shown[:4], (handle, *words[1:4]))
    return accepted


def listed(messages, chance):
    """A random list on the caller's table: how many of its items were accepted."""
    asked = []
    for _ in range(chance.choice((0, 1, 2, 5))):
        first = chance.randrange(40)
        last = chance.choice((first, first + chance.randrange(20), EOF, first - 1 if first else 0))
        asked.append((chance.randrange(66), chance.randrange(2), chance.randint(1, 4), first, last))
    refusal, items, own = messages.list(*asked)
    same("a list", refusal, 0)
    taken = [item for item in items if item.refusal == 0]
    same("the new handles", [item.handle for item in taken], [messages.table.issued - n for n in reversed(range(len(taken)))])
    records = {shown.handle: (shown, mark) for shown, mark in messages.table.records}
    for item in taken:
        shown, mark = records[item.handle]
        same("the range of a marked request", shown[1:4] + shown[6:], item[:3] + item[3:5])
        same("its mark", mark, int(shown.state == WAITING))
    for item, events in zip(items, own):
        if item.refusal != 0:
            same("a refused item", (item.refusal in (3, 6, 8), item.handle, events), (True, 0, []))
    return len(taken)


def pair(run):
    """Pairs are compared by number first, and by pass second."""
    return run.number, run.pass_


def drawn(entries, length):
    """The runs of the log's map: the greatest pair over each byte, and touching runs of different pairs."""
    pairs = [max((pair(e) for e in entries if e.first <= byte <= e.last), default=None) for byte in range(length)]
    runs = []
    for byte, greatest in enumerate(pairs):
        if runs and pair(runs[-1]) == greatest and runs[-1].last == byte - 1:
            runs[-1] = runs[-1]._replace(last=byte)
        elif greatest is not None:
            runs.append(Run(byte, byte, *greatest))
    return runs


def any_pair(chance):
    """Few numbers and few passes, so that each comes often; or any."""
    few, all_ = (1, 5), (1, HIGHEST)
    return chance.randint(*chance.choice((few, few, all_))), chance.randint(*chance.choice((few, few, all_)))


def compacted(caller, log, runs, before):
    """The caller's log, which is this one, is compacted to these runs; before is what the second buffer held."""
    caller.put("new_log", before)
    same("a compaction", caller("compact"), 0)
    same("the log after a compaction", caller.get("log"), log)
    same("the new log", caller.get("new_log"), encode_log(runs))


def stripe(caller, chance):
    """Notes, compactions, a restart and writes on one stripe, with map and log through xdrlib and back."""
    length = chance.randint(1, 80)
    image = bytes(chance.randrange(256) for _ in range(length))
    tail = bytes(chance.randrange(256) for _ in range(LOG))  # bytes after the last entry may be anything
    entries = []
    caller.put("image", image)
    caller.put("map", encode_map([]))
    caller.put("log", encode([]) + tail[4:])
    for _ in range(chance.randrange(30)):
        first = chance.randrange(length)
        last = chance.randint(first, length - 1)
        number, pass_ = any_pair(chance)
        same("a note", caller("note", first, last - first + 1, number, pass_), 0)
        entries.append(Run(first, last, number, pass_))
    data = caller.get("log")
    same("the log's entries", decode(Run, data)[0], entries)
    same("the log encoded again", encode(entries) + tail[len(encode(entries)) :], data)
    same("the map", caller.get("map"), encode_map(drawn(entries, length)))
    compacted(caller, data, drawn(entries, length), tail)

    # The other way round: a log in another order and with an entry more, and the map that a restart makes of it.
    entries.append(Run(chance.randrange(length), EOF, *any_pair(chance)))
    chance.shuffle(entries)
    data = (encode(entries) + tail)[:LOG]
    caller.put("log", data)
    caller.put("map", tail[:MAP])
    same("a restart", caller("restart"), 0)
    same("the log after a restart", caller.get("log"), data)
    runs = decode(Run, caller.get("map"))[0]
    same("the map encoded again", encode_map(runs), caller.get("map"))
    owners = drawn(entries, length + 1)
    owners[-1] = owners[-1]._replace(last=EOF)  # that last byte is the new entry's, as all after it are
    same("the map of a log", runs, owners)

    # A turn to the new log: a restart makes the same map of it, and it is compacted already.
    compacted(caller, data, owners, tail)
    caller.put("log", encode_log(owners))
    caller.put("map", tail[:MAP])
    same("a restart after a turn", caller("restart"), 0)
    same("the map after a turn", caller.get("map"), encode_map(owners))
    compacted(caller, encode_log(owners), owners, tail)

    # A map that xdrlib encoded tells a write where to store. The piece lies inside of a run, or anywhere.
    caller.put("map", encode_map(runs))
    run = chance.choice([run for run in runs if run.first < length])
    places = chance.choice((range(length), range(run.first, min(run.last + 1, length))))
    first, last = sorted(chance.choices(places, k=2))
    written = chance.choice((pair(run), (run.number, chance.randint(1, 5)), any_pair(chance)))
    pairs = [max((pair(r) for r in runs if r.first <= byte <= r.last), default=(0, 0)) for byte in range(first, last + 1)]
    refusal = 18 if min(pairs) < written else 0
    caller.put("piece", bytes(255 - byte for byte in image[first : last + 1]))
    same("a write", caller("write", first, *written), refusal)
    stored = [refusal == 0 and under == written for under in pairs]
    stretch = bytes(255 - byte if here else byte for byte, here in zip(image[first:], stored))
    same("the image after a write", caller.get("image"), image[:first] + stretch + image[last + 1 :])
    beaten = [under for under in pairs if refusal == 0 and under > written]
    by_pass = any(number == written[0] for number, _ in beaten)
    by_number = any(number > written[0] for number, _ in beaten)
    return Counter(refused=int(refusal > 0), stored=int(any(stored)), by_pass=int(by_pass), by_number=int(by_number))


def picture(caller):
    """P8 to P10 of document 01, from a log that xdrlib encoded."""
    a, b, c = Run(0, 5, 2, 1), Run(4, 7, 1, 1), Run(5, 7, 3, 1)
    caller.put("image", b"..........")
    caller.put("log", encode_log([a, b, c]))
    caller.put("map", bytes(MAP))
    same("P8: restart", caller("restart"), 0)
    same("P8: map", caller.get("map"), encode_map([Run(0, 4, 2, 1), Run(5, 7, 3, 1)]))
    for first, bytes_, number in ((5, b"CCC", 3), (0, b"AAAAAA", 2), (4, b"BBBB", 1)):
        caller.put("piece", bytes_)
        same("P8: write", caller("write", first, number, 1), 0)
    same("P8: image", caller.get("image"), b"AAAAACCC..")
    same("P9: note", caller("note", 8, 2, 3, 1), 0)
    same("P9: map", caller.get("map"), encode_map([Run(0, 4, 2, 1), Run(5, 9, 3, 1)]))
    log = encode_log([a, b, c, Run(8, 9, 3, 1)])
    same("P9: log", caller.get("log"), log)
    compacted(caller, log, [Run(0, 4, 2, 1), Run(5, 9, 3, 1)], bytes(LOG))
    caller.put("piece", b"DD")
    same("P10", caller("write", 8, 4, 1), 18)

    # #103: A's holder flushes again, as pass 2 of number 2; then the first flush is noted and written again, and comes last.
    again = Run(2, 5, 2, 2)
    caller.put("piece", b"aaaa")
    same("a second pass without its note", caller("write", 2, 2, 2), 18)
    same("a second pass: note", caller("note", 2, 4, 2, 2), 0)
    same("a second pass: write", caller("write", 2, 2, 2), 0)
    same("a second pass: image", caller.get("image"), b"AAaaaCCC..")
    runs = [Run(0, 1, 2, 1), Run(2, 4, 2, 2), Run(5, 9, 3, 1)]
    same("the first pass again: note", caller("note", 0, 6, 2, 1), 0)
    same("the first pass again: map", caller.get("map"), encode_map(runs))
    log = encode_log([a, b, c, Run(8, 9, 3, 1), again, a])
    same("the first pass again: log", caller.get("log"), log)
    caller.put("piece", b"AAAAAA")
    same("the first pass again: write", caller("write", 0, 2, 1), 0)
    same("the first pass again: image", caller.get("image"), b"AAaaaCCC..")
    compacted(caller, log, runs, bytes(LOG))


def maps(caller):
    """Maps and logs that xdrlib encoded, sound or not, of the present lengths and of those without passes."""
    caller.put("image", bytes(10))
    caller.put("piece", b"x")
    left = Run(0, 3, 7, 3)
    cases = [
        ("touching runs of equal pairs", [left, Run(4, 9, 7, 3)], 12),
        ("touching runs of one number", [left, Run(4, 9, 7, 4)], 0),
        ("touching runs of one number, the pass falling", [left, Run(4, 9, 7, 2)], 0),
        ("touching runs of one pass", [left, Run(4, 9, 6, 3)], 0),
        ("equal pairs apart", [left, Run(5, 9, 7, 3)], 0),
        ("a common byte", [left, Run(3, 9, 7, 4)], 12),
        ("falling runs", [Run(4, 9, 7, 4), left], 12),
        ("pass 0", [left, Run(5, 9, 7, 0)], 12),
        ("pass 0 in the first run", [left._replace(pass_=0), Run(5, 9, 7, 1)], 12),
        ("number 0", [left, Run(5, 9, 0, 7)], 12),
        ("the highest pass", [left, Run(4, 9, 7, HIGHEST)], 0),
    ]
    for what, runs, refusal in cases:
        caller.put("map", encode_map(runs))
        same(f"a write on a map with {what}", caller("write", 0, 1, 1), refusal)
        caller.put("log", encode_log([]))
        same(f"a note on a map with {what}", caller("note", 0, 1, 1, 1), refusal)
    good, bad = (1, HIGHEST), (0, HIGHEST + 1, 2**32 + 1, 2**64 - 1)
    for number, pass_ in [(n, p) for n in good + bad for p in good + bad]:
        refusal = 15 if number in bad or pass_ in bad else 0
        caller.put("map", encode_map([]))
        caller.put("log", encode_log([]))
        same(f"a note of number {number} and pass {pass_}", caller("note", 0, 1, number, pass_), refusal)
        noted = [Run(0, 0, number, pass_)] if refusal == 0 else []
        same(f"the log after number {number} and pass {pass_}", caller.get("log"), encode_log(noted))
        same(f"the map after number {number} and pass {pass_}", caller.get("map"), encode_map(noted))
        same(f"a write of number {number} and pass {pass_}", caller("write", 0, number, pass_), refusal)
    # The lengths of map, log and second log, and the refusals of four calls.
    lengths = {
        (MAP, LOG, LOG): [0, 0, 0, 0],
        (OLD_MAP, LOG, LOG): [12, 0, 12, 12],
        (MAP, OLD_LOG, LOG): [13, 13, 13, 18],
        (MAP, LOG, OLD_LOG): [0, 13, 0, 0],
    }
    for lent, refusals in lengths.items():
        for name, length in zip(("map", "log", "new_log"), lent):
            caller.put(name, bytes(length))
        calls = ("restart", "compact", "note 0 1 1 1", "write 0 1 1")
        same(f"the lengths {lent}", [caller(call) for call in calls], refusals)


def rooms(caller):
    """Compactions of logs that xdrlib encoded: the most runs, one more, logs that are not sound, and other lengths."""
    apart = [Run(2 * i, 2 * i, 7, 1 + i % 3) for i in range(1025)]
    under = [Run(0, EOF, 1, 1)] * 2  # fills the gaps between newer runs, and what is before and after them
    gaps = [Run(0, 1, 1, 1)] + [Run(2 * i + 1, 2 * i + 1, 1, 1) for i in range(1, 511)] + [Run(1023, EOF, 1, 1)]
    again = [Run(2 * i, 2 * i + 1, 7, 4) for i in range(1, 1024)]  # a later pass, which joins what was apart
    cases = [
        ("no entry", encode([]), LOG, 0, []),
        ("1,024 runs", encode(apart[:0:-1]), LOG, 0, apart[1:]),
        ("1,025 runs", encode(apart), LOG, 16, None),
        ("1,025 runs of 514 entries", encode(apart[1:513] + under), LOG, 16, None),
        ("1,023 runs of 513 entries", encode(apart[1:512] + under), LOG, 0, sorted(apart[1:512] + gaps)),
        ("a later pass over 1,023 runs", encode(again + apart), LOG, 0, [apart[0], Run(2, 2047, 7, 4), apart[1024]]),
        ("2,048 entries", encode([Run(5, 6, HIGHEST, HIGHEST)] * 2048), LOG, 0, [Run(5, 6, HIGHEST, HIGHEST)]),
        ("2,049 entries", encode([Run(5, 6, 1, 1)] * 2049), LOG, 13, None),
        ("number 0", encode([Run(5, 6, 0, 1)]), LOG, 13, None),
        ("pass 0", encode([Run(5, 6, 1, 1), Run(5, 6, 1, 0)]), LOG, 13, None),
        ("first above last", encode([Run(6, 5, 1, 1)]), LOG, 13, None),
        ("past EOF", encode([Run(5, EOF + 1, 1, 1)]), LOG, 13, None),
        ("a second log that is shorter", encode(apart), LOG - 1, 13, None),
        ("a second log that is longer", encode(apart), LOG + 1, 13, None),
    ]
    for what, log, length, refusal, runs in cases:
        caller.put("log", log.ljust(LOG, b"\xee")[:LOG])
        before = bytes(range(1, 252)) * 197
        caller.put("new_log", before[:length])
        same(f"a compaction of {what}", caller("compact"), refusal)
        same(f"the new log of {what}", caller.get("new_log"), before[:length] if runs is None else encode_log(runs))
    for length in (0, OLD_LOG, LOG - 1, LOG + 1):
        caller.put("log", bytes(length))
        caller.put("new_log", bytes(LOG))
        same("a log of another length", caller("compact"), 13)

    # A log without passes goes on as part 3 of the header says: pass 1 after each number, the count as it was, zeros after.
    old = encode([OldRun(0, 5, 2), OldRun(4, 7, 1), OldRun(5, 7, 3)]).ljust(OLD_LOG, b"\xee")
    entries, end = decode(OldRun, old)
    new = old[:4] + b"".join(old[place : place + 20] + bytes([0, 0, 0, 1]) for place in range(4, end, 20))
    new = new.ljust(LOG, b"\0")
    same("a log that got its passes", new, encode_log([Run(*entry, 1) for entry in entries]))
    caller.put("map", bytes(MAP))
    caller.put("log", old)
    same("a restart of a log without passes", caller("restart"), 13)
    caller.put("log", new)
    same("a restart of a log that got its passes", caller("restart"), 0)
    same("its map", caller.get("map"), encode_map([Run(0, 4, 2, 1), Run(5, 7, 3, 1)]))


def main():
    parser = argparse.ArgumentParser()
    parser.add_argument("--seed", type=int, default=int.from_bytes(os.urandom(4), "big"))
    parser.add_argument("caller", nargs=argparse.REMAINDER)
    options = parser.parse_args()
    print(f"xdr: seed {options.seed}", file=sys.stderr)
    chance, caller = random.Random(options.seed), Caller(options.caller)
    examples(caller)
    lists(caller)
    picture(caller)
    maps(caller)
    rooms(caller)
    accepted = sum(session(caller, chance, 150) for _ in range(4))
    writes = sum((stripe(caller, chance) for _ in range(150)), Counter())
    if accepted < 200:
        sys.exit(f"xdr: only {accepted} messages and items were accepted")
    for kind in ("refused", "stored", "by_pass", "by_number"):  # the last two are beaten so on some byte
        if writes[kind] < 5:
            sys.exit(f"xdr: only {writes[kind]} writes are {kind}")
    print(f"xdr: P1 to P4, P8 to P10, lists, passes, {accepted} messages and items, compactions and 150 stripes, both ways the same", file=sys.stderr)


main()
