"""Kills the example daemon with SIGKILL at random places, and checks what it leaves.

    kills.py --compact-at N [--seed N] [--kills N] [--turns N] [--late N] [--seconds N] [--inside | --power]
             [--long-logs] [--only-the-end] DAEMON..
    (DAEMON.. are the words that start the daemon, which is compiled with -DCOMPACT_AT=N)

A run begins with an empty log and an image of its own. Clients note, write and flush pieces in any order and again; the
daemon is killed, looked at, and started again. When its log has so many entries, the next note compacts it first, and
turns to the new log. Under one lock there are pieces of several passes, over the same bytes and with other content. This
file keeps its own account of the stripe, byte by byte, from documents 01 and 02. After each kill

  - the word names the log that was turned to last, at most that of the turn that was cut;
  - this log holds the runs of the map at that turn, rising, then the entries of the pieces noted since, in note order, at
    most with that of the note that was cut, and zeros after its place;
  - the image is as the account has it, but for bytes that the write that was cut would store.

At the end of a run, after all kills, each piece that was noted and had no write accepted, or whose last accepted write was
cut, is written until that is answered. The last that come are older passes, which are flushed again. Then each byte under a
noted piece must be that of the noted piece with the greatest number there, and among those of that number the greatest
pass, and every other byte as it began. --only-the-end leaves out the checks before, those of the answers too; what is left is then
flushed and not only written, so that a daemon is found by its image alone.

A resend is late where a later pass of its lock is written already and owns a byte of it: it must not beat that one. Late
resends come all the time, also after a kill and after a turn that followed the later pass's write. They are counted.

Pieces are small, large and larger, so maps have few runs, and so have the logs that are turned to. With --long-logs all
pieces are small, and a run begins with so many of them that its logs stay nearly as long as one that is compacted. At its
end all noted pieces are written again: where the log has lost an entry, the write of its piece is refused.

Kills come from outside, at any time. With --inside the daemon kills itself, as trap.c has it: inside of a call, or between
two of its stores. With --power it loses power or kills itself, as powercut.c has it. What a kill left may go back by a
loss of power at the next start, before the answer of its restart: then the command that was cut is looked at again. Each
kill is counted by the place that it found, as the files show it (PLACES).

Runs are played until there were so many kills, so many turns, so many late resends, as many after a kill and after a turn,
and a kill in each place; without --inside, where some places are met by luck alone, one at a restart, one in a note, one
in a turn and one in a write. Where so many seconds are not enough for that, it has failed. What is wrong ends it with
status 10.
"""
import argparse
import copy
import os
import random
import re
import signal
import struct
import subprocess
import sys
import tempfile
import time
from collections import Counter

LENGTH = 200_001  # of the image: many pages, and one that is not full
STARTS = 14  # of the daemon in a run; in all but the first it is killed
LINES = 60  # commands that wait for a daemon that is going to be killed
LETTERS = bytes(range(33, 123)) * (LENGTH // 90 + 2)
WRONG = 10
COUNT, ENTRY = struct.Struct(">I"), struct.Struct(">QQII")  # the log is a count, and entries of first, last, number, pass
LOG_BYTES = COUNT.size + 2048 * ENTRY.size
LOGS = ["log", "log2"]  # as the word in the file turn names them, 0 and 1
NUMBERS = [*range(1, 2 * STARTS - 3), 255, 256, 65_536, 4_294_967_295]  # of the locks: two are new at each start
PASSES = 3  # of a lock: 1, and others of these
LATER = [2, 3, 255, 256, 65_536, 4_294_967_295]
LATE = ["late resends", "late resends after a kill", "late resends after a turn"]
PLACES = [
    "at a restart",
    "amid the new log of a turn",
    "between new log and word of a turn",
    "after the word of a turn",
    "before the entry of a note",
    "between entry and count of a note",
    "after the count of a note",
    "before the bytes of a write",
    "amid the bytes of a write",
    "after the bytes of a write",
]


class Wrong(Exception):
    pass


def pairs_of(chance):
    """The pairs of a run, (number, pass), rising: by number first, and by pass second. The rank of a pair is its place from
    1 on, so that a greater pair has a greater rank; 0 is that of a byte in no run."""
    return sorted((number, pass_) for number in NUMBERS for pass_ in [1, *chance.sample(LATER, PASSES - 1)])


class Piece:
    def __init__(self, first, length, rank, pairs):
        self.first, self.end, self.rank = first, first + length, rank
        self.pair = pairs[rank - 1]
        self.number, self.pass_ = self.pair
        # Ranks stay below 90. So pieces of equal pairs agree wherever they overlap, and others differ in every byte.
        self.bytes = LETTERS[rank + first : rank + self.end]
        self.entry = ENTRY.pack(first, self.end - 1, *self.pair)
        self.lines = {
            "note": b"note %d %d %d %d\n" % (first, length, *self.pair),
            "write": b"write %d %d %d %s\n" % (first, *self.pair, self.bytes),
            "flush": b"flush %d %d %d %s\n" % (first, *self.pair, self.bytes),
            "restart": b"restart\n",
        }

    def __str__(self):
        return f"[{self.first},{self.end - 1}] number {self.number} pass {self.pass_}"


def log_of(entries):
    """The bytes of a log up to its last entry."""
    return COUNT.pack(len(entries)) + b"".join(entries)


def whole(log):
    return log.ljust(LOG_BYTES, b"\0")


class Stripe:
    """What documents 01 and 02 say of the stripe after the calls so far."""

    def __init__(self, began, compact_at, pairs):
        self.began, self.compact_at, self.pairs = began, compact_at, pairs
        self.image = bytearray(began)
        self.ranks = bytearray(LENGTH)  # the map: the rank of each byte's pair
        self.noted = []
        self.entries = []  # of the log
        self.word, self.turns = 0, 0  # which log it is, and how often it was turned to another
        self.other = log_of([])  # the log before the last turn

    def full(self):
        """Whether the next note compacts the log first."""
        return len(self.entries) >= self.compact_at

    def runs(self):
        """The runs of the map, as entries: the longest stretches of bytes with one pair, but for those with none."""
        stretches = re.finditer(rb"([^\0])\1*", self.ranks, re.DOTALL)
        return [ENTRY.pack(stretch.start(), stretch.end() - 1, *self.pairs[stretch[1][0] - 1]) for stretch in stretches]

    def turn(self):
        self.other = log_of(self.entries)
        self.entries = self.runs()
        self.word, self.turns = 1 - self.word, self.turns + 1

    def note(self, piece):
        greater = bytes(max(rank, piece.rank) for rank in range(256))
        self.ranks[piece.first : piece.end] = self.ranks[piece.first : piece.end].translate(greater)
        self.noted.append(piece)
        self.entries.append(piece.entry)

    def refuses(self, piece):
        """Whether a write of this piece is refused, with 18."""
        return min(self.ranks[piece.first : piece.end]) < piece.rank

    def after(self, piece, data):
        """The piece's stretch of the image after these bytes are stored where the map's pair is the piece's."""
        equal = self.ranks[piece.first : piece.end].translate(bytes(255 * (rank == piece.rank) for rank in range(256)))
        other = equal.translate(bytes(range(255, -1, -1)))
        masks = ((data, equal), (self.image[piece.first : piece.end], other))
        stored, kept = (int.from_bytes(a, "big") & int.from_bytes(b, "big") for a, b in masks)
        return (stored | kept).to_bytes(len(equal), "big")

    def copy(self):
        other = copy.copy(self)
        other.image, other.ranks = self.image[:], self.ranks[:]
        other.noted, other.entries = self.noted[:], self.entries[:]
        return other

    def write(self, piece, data):
        self.image[piece.first : piece.end] = self.after(piece, data)

    def owed(self):
        """The image that is owed once every noted piece is written: greater numbers lie over smaller ones, and greater
        passes of one number over smaller ones."""
        image = bytearray(self.began)
        for piece in sorted(self.noted, key=lambda piece: (piece.number, piece.pass_)):
            image[piece.first : piece.end] = piece.bytes
        return image


class Run:
    def __init__(self, options, chance, directory, seen):
        self.daemon, self.only_the_end, self.long_logs = options.daemon, options.only_the_end, options.long_logs
        self.inside, self.power = options.inside, options.power
        self.chance, self.directory, self.seen = chance, directory, seen
        began = bytes(chance.randrange(128, 256) for _ in range(1000)) * (LENGTH // 1000 + 1)
        self.stripe = Stripe(began[:LENGTH], options.compact_at, pairs_of(chance))
        self.store("image", self.stripe.began)
        self.written = {}  # pieces whose last accepted write ran to its end, and how many kills and turns there were then
        self.unfinished = []  # pieces whose last accepted write was cut
        self.found = {}  # the logs as the daemon found them
        self.cut = None  # the command that was cut last, and the stripe and the logs before it
        self.seconds = 0  # how long the daemon takes for its commands

    def path(self, name):
        return os.path.join(self.directory, name)

    def store(self, name, content):
        with open(self.path(name), "wb") as file:
            file.write(content)

    def stored(self, name):
        with open(self.path(name), "rb") as file:
            return file.read()

    def serve(self, commands, kill):
        """Starts the daemon on these commands, kills it amid them, and answers how many got their answer."""
        self.store("commands", b"".join(piece.lines[name] for name, piece in commands))
        words = self.daemon + [self.directory, str(LENGTH)]
        cut = dict(os.environ, GIL_CUT=str(self.chance.randrange(1, 2**31) if kill else 0))  # for powercut.c and trap.c
        with open(self.path("commands"), "rb") as lines:
            process = subprocess.Popen(words, stdin=lines, stdout=subprocess.PIPE, env=cut)
        first, wait = b"", 0.05  # about as long as a start takes: the kill may come before the daemon is there
        if self.chance.randrange(8) > 0:
            first, wait = process.stdout.readline(), 0.6 * self.seconds  # a sleep is longer than it is asked to be
        begun = time.perf_counter()
        if kill and not self.inside and not self.power:
            time.sleep(wait * self.chance.random())
            process.send_signal(signal.SIGKILL)
        answers = (first + process.communicate()[0]).splitlines()
        if not kill:
            self.seconds = time.perf_counter() - begun
        if process.returncode not in ((0, -signal.SIGKILL) if kill else (0,)):
            raise Wrong(f"the daemon ended with status {process.returncode} and {answers[-1:]}")
        killed = process.returncode != 0
        answers = [int(answer.split()[0]) for answer in answers]
        for (name, piece), answer in zip(commands, answers[1:]):
            self.account(name, piece, answer)
        self.seen["kills"] += killed
        answered = max(0, len(answers) - 1)
        if process.returncode == 0 and answered < len(commands):
            raise Wrong(f"the daemon left {len(commands) - answered} commands without an answer")
        under_way = commands[answered] if answered < len(commands) else (None, None)
        if killed and not answers:
            self.seen["at a restart"] += 1  # that of the start
            under_way = (None, None)
            if self.power:  # what the command that was cut last had stored may have gone back
                under_way, before, self.found = self.cut
                self.stripe = before.copy()
            self.look(*under_way)
        else:
            self.cut = under_way, self.stripe.copy(), self.found
            self.seen.update(self.look(*under_way))
        return answered

    def account(self, name, piece, answer):
        """A command was answered: it must be the right answer."""
        if name in ("note", "flush"):
            if self.stripe.full():
                self.stripe.turn()
            self.stripe.note(piece)
        right = 18 if name == "write" and self.stripe.refuses(piece) else 0
        if answer != right and not self.only_the_end:
            raise Wrong(f"{name} of {piece} answered {answer}, not {right}")
        if name in ("write", "flush") and right == 0:
            if piece in self.written or piece in self.unfinished:
                times = [self.written[other] for other in self.later(piece)]
                killed, turned = (t[0] < self.seen["kills"] for t in times), (t[1] < self.stripe.turns for t in times)
                self.seen.update(dict(zip(LATE, (bool(times), any(killed), any(turned)))))
            self.stripe.write(piece, piece.bytes)
            self.written[piece] = self.seen["kills"], self.stripe.turns
            self.unfinished = [other for other in self.unfinished if other is not piece]

    def later(self, piece):
        """The pieces of later passes of its lock that are written and own a byte of it."""
        ranks = self.stripe.ranks
        passes = [other for other in self.written if other.number == piece.number and other.pass_ > piece.pass_]
        return [other for other in passes if other.rank in ranks[max(piece.first, other.first) : min(piece.end, other.end)]]

    def look(self, name, piece):
        """The daemon has ended, perhaps amid this command. Word and log say whether its turn or its note was cut. Answers
        the places that this was."""
        image, stripe = self.stored("image"), self.stripe
        logs = {log: self.stored(log) for log in LOGS}
        word = COUNT.unpack(self.stored("turn"))[0]
        if word >= len(LOGS):
            raise Wrong(f"the word is {word}, and names no log")
        log, other = logs[LOGS[word]], LOGS[1 - word]
        noting, place = name in ("note", "flush"), "before the entry of a note"
        if noting and stripe.full() and word == stripe.word:
            if logs[other] == whole(log_of(stripe.runs())):
                place = "between new log and word of a turn"
            elif logs[other] != self.found[other] and not starts(logs[other], stripe.other):
                place = "amid the new log of a turn"
        elif noting and stripe.full():
            stripe.turn()
            place = "after the word of a turn"
        count = min(COUNT.unpack_from(log)[0], 2048)
        end = COUNT.size + ENTRY.size * count
        entry = slice(end, end + ENTRY.size)
        writing, places = name == "write" and not stripe.refuses(piece), []
        if name == "restart":
            places.append("at a restart")
        elif noting and count == len(stripe.entries) + 1:
            stripe.note(piece)
            writing = name == "flush"
            places.append("after the count of a note")
        elif noting and log[entry] == piece.entry and self.found[LOGS[word]][entry] != piece.entry:
            places.append("between entry and count of a note")
        elif noting:
            places.append(place)
        if writing:
            self.unfinished.append(piece)
            self.written.pop(piece, None)
            now, old = image[piece.first : piece.end], bytes(stripe.image[piece.first : piece.end])
            done = stripe.after(piece, piece.bytes)
            if old != done:
                places.append(f"{'before' if now == old else 'after' if now == done else 'amid'} the bytes of a write")
            stripe.write(piece, now)  # any bytes at the places that it would store
        self.found = logs
        if not self.only_the_end:
            if word != stripe.word:
                raise Wrong(f"the word names {LOGS[word]}, not {LOGS[stripe.word]}")
            if not starts(log, log_of(stripe.entries)):
                raise Wrong(f"{LOGS[word]} has not the {len(stripe.entries)} entries that are due, and zeros after them")
            compare("when the daemon had ended", image, stripe.image)
        stripe.image[:] = image
        stripe.word, stripe.entries = word, [log[i : i + ENTRY.size] for i in range(COUNT.size, end, ENTRY.size)]
        return places

    def flushes(self, start, most):
        """Three pieces of a lock, of any of its passes: over the same bytes, or near them. Some locks are older than what
        is noted."""
        chance = self.chance
        lock = chance.randint(max(0, 2 * start - 3), 2 * start + 1)
        about = first = chance.randrange(LENGTH)
        length = chance.randint(1, min(most, LENGTH - first))
        for _ in range(3):
            yield Piece(first, length, PASSES * lock + chance.randint(1, PASSES), self.stripe.pairs)
            if chance.randrange(2):
                first = min(max(0, about + chance.randint(-most // 3, most // 3)), LENGTH - 1)
                length = chance.randint(1, min(most, LENGTH - first))

    def play(self):
        chance, pieces = self.chance, []
        for start in range(STARTS):
            # New pieces, and commands, which are mostly theirs; of old pieces, more often those that are late.
            weights = [5 if self.later(piece) else 1 for piece in pieces]
            fill, full = self.long_logs and start == 0, self.stripe.compact_at
            for i in range(chance.randint(full // 2, full * 2 // 3) if fill else 4):
                pieces += self.flushes(start, 9 if self.long_logs else (9, 5_000, 150_000)[(start + i) % 3])
            weights += [10] * (len(pieces) - len(weights))
            names = chance.choices(("note", "write", "flush", "restart"), (4, 6, 6, 1), k=LINES)
            commands = list(zip(names, chance.choices(pieces, weights, k=LINES)))
            if fill:
                commands = [("flush", piece) for piece in pieces]
            self.serve(commands, kill=start > 0)
        done = set() if self.long_logs else self.written
        rest = list(dict.fromkeys([piece for piece in self.stripe.noted if piece not in done] + self.unfinished))
        chance.shuffle(rest)
        for kill in (True, True, False):
            rest = rest[self.serve([("flush" if self.only_the_end else "write", piece) for piece in rest], kill) :]
        late = [piece for piece in pieces if piece in self.written and self.later(piece)]
        if late:
            commands = [("flush", piece) for piece in chance.choices(late, k=LINES // 2)]
            for kill in (True, False):
                self.serve(commands, kill)
        compare("at the end", self.stored("image"), self.stripe.owed())
        self.seen["turns"] += self.stripe.turns


def starts(log, front):
    """Whether a log has these bytes, and zeros after them, but for the entry of a note that was cut, which may be any."""
    return log[: len(front)] == front and not any(log[len(front) + ENTRY.size :])


def compare(when, image, right):
    if image != right:
        place = next((i for i, (a, b) in enumerate(zip(image, right)) if a != b), min(len(image), len(right)))
        raise Wrong(f"{when}, byte {place} of the image is {image[place:place+1]}, not {bytes(right[place:place+1])}")


def main():
    parser = argparse.ArgumentParser()
    parser.add_argument("--compact-at", type=int, required=True)
    parser.add_argument("--seed", type=int, default=int.from_bytes(os.urandom(4), "big"))
    parser.add_argument("--kills", type=int, default=300)
    parser.add_argument("--turns", type=int, default=50)
    parser.add_argument("--late", type=int, default=200)
    parser.add_argument("--seconds", type=float, default=60)
    parser.add_argument("--inside", action="store_true")
    parser.add_argument("--power", action="store_true")
    parser.add_argument("--long-logs", action="store_true")
    parser.add_argument("--only-the-end", action="store_true")
    parser.add_argument("daemon", nargs=argparse.REMAINDER)
    options = parser.parse_args()
    print(f"kills: seed {options.seed}", file=sys.stderr)
    chance, seen, runs, begun = random.Random(options.seed), Counter(), 0, time.perf_counter()
    needed = PLACES if options.inside else ["at a restart", "of a turn", "of a note", "of a write"]

    def missing():
        """What was asked for and has not come yet."""
        asked = {"kills": options.kills, "turns": options.turns, **dict.fromkeys(LATE, options.late)}
        few = [f"only {seen[what]} {what} of {number}" for what, number in asked.items() if seen[what] < number]
        return few + [f"no kill {end}" for end in needed if not any(seen[place] for place in PLACES if place.endswith(end))]

    try:
        while missing() and time.perf_counter() - begun < options.seconds:
            with tempfile.TemporaryDirectory(prefix="gilboreth-") as directory:
                Run(options, chance, directory, seen).play()
            runs += 1
    except Wrong as wrong:
        print(f"kills: WRONG after {seen['kills']} kills (seed {options.seed}): {wrong}", file=sys.stderr)
        sys.exit(WRONG)
    places = ", ".join(f"{seen[place]} {place}" for place in PLACES)
    spent = f"{time.perf_counter() - begun:.0f} s, {seen['turns']} turns"
    late = ", ".join(f"{seen[what]} {what}" for what in LATE)
    print(f"kills: {seen['kills']} in {runs} runs, {spent}: {places}; {late}; all images right", file=sys.stderr)
    if missing():
        sys.exit(f"kills: FAILED: {', '.join(missing())} in {options.seconds:.0f} s")


main()
