"""blocks.py DELF [ROUNDS] [SEED]: random documents with blocks of threads, each run twice, and every line and entry accounted for.

Run it as `python3 checks/blocks.py crates/delf/out/delf 200`. The journal that a run leaves tells the order that its threads
took. The small model makes the entries in that order: each has to be legal where it stands, each line of a lane has to be the one
that its command gets at the length that the line tells, each call of a lane that stands in the journal has its line, and behind a block no
step is left. What was printed, and every byte of both areas, are then those of the model. Some runs meet a disk fault in their block.
Behind each run a second one reads the store.
"""
import random
import re
import sys

import store
from program import SCHEMA, empty, end, ok, run, wrong

ROUNDS = int(sys.argv[2]) if len(sys.argv) > 2 else 200
SEED = int(sys.argv[3]) if len(sys.argv) > 3 else 1
LOOK = SCHEMA + b"show\njobs\nreport\n"
CALLS = ("create", "update", "link", "unlink", "delete", "restore")
LAST = re.compile(r"par accepted (\d+) refused (\d+) (history|down at) (\d+)")
REPLY = re.compile(r"lane (\d+) ((?:refused \d+ |down )?(?:at )?(\d+).*)")
KINDS = ("user", "photo", "album", "session")
EDGES = (("owns", 0, 1), ("likes", 0, 1), ("holds", 2, 1), ("uses", 0, 3))


class Odd(Exception):
    """What does not fit, and what was wanted in its place."""


def payload_of(dice):
    return dice.choice(["", "", ' ""', ' "a"', ' "\\x00z"', ' "%s"' % ("long " * 30)])


def call_line(dice, quiet):
    """A line of a lane. An id has its type by its number. In a quiet block all payloads are empty, so that the journal tells each call."""
    id = lambda kind=None: dice.choice([one for one in range(1, 17) if kind is None or one % 4 == kind])
    edge, source, target = dice.choice(EDGES)
    one, name = id(), dice.randint(1, 9)
    payload = "" if quiet else payload_of(dice)
    word = dice.choices(["create", "update", "link", "unlink", "delete", "restore", "expiry", "get"], [30, 6, 30, 6, 10, 8, 2, 6])[0]
    return {
        "create": f"create {one} {KINDS[one % 4]}{payload}",
        "update": "update %d%s" % (one, payload or ' ""'),
        "link": f"link {edge} {id(source)} {id(target)}{payload}",
        "unlink": f"unlink {edge} {id(source)} {id(target)} job {name}",
        "delete": f"delete {id(dice.choice([0, 0, 2]))} job {name}",
        "restore": f"restore {name}",
        "expiry": f"restore expiry {id(3)}",
        "get": f"get {one}",
    }[word]


def block_of(dice):
    quiet = dice.random() < 0.3
    lines = ["par %sworkers %d turns %d" % ("quiet " if quiet else "", dice.randint(0, 4), dice.choice([1, 3, 1000]))]
    for _ in range(dice.choice([1, 2, 2, 3, 4, 8, 16])):
        lines += ["lane", *(call_line(dice, quiet) for _ in range(dice.randint(0, 14)))]
    return [*lines, "end"]


def document_of(dice):
    """Some blocks with commands between them; where a disk fault is ordered, in the last one."""
    lines = []
    for _ in range(dice.randint(1, 3)):
        lines += [call_line(dice, False) for _ in range(dice.randint(0, 10))]
        lines += dice.choice([[], ["work 3"], ["work 1000", "tick 61"], ["tick 101", "show"], ["jobs", "report"]])
        lines += block_of(dice)
    fails = dice.random() < 0.3
    if fails:
        lines += ["fail %d" % dice.randint(1, 150), *block_of(dice)]
    return fails, SCHEMA + "\n".join(lines).encode() + b"\n"


def entries_of(journal):
    """The entries of a journal, each with the size of its payload."""
    entries, at = [], 8
    while at < len(journal) and journal[at] == store.OPEN and not store.first_break(journal, at):
        head, _, size, at = store.record_at(journal, at)
        entries.append((store.read_entry(head, size), size))
    return entries


def replies_of(quiet, lanes, lines):
    """For each lane its lines, each with the length that it tells."""
    replies = [[] for _ in lanes]
    if not quiet:
        for line in lines:
            found = REPLY.fullmatch(line)
            if not found or int(found[1]) >= len(lanes) or any(replies[int(found[1]) + 1 :]):
                raise Odd(line, "a line of the next lane")
            replies[int(found[1])].append((int(found[3]), found[2]))
        if [len(lane) for lane in replies] != [len(lane) for lane in lanes]:
            raise Odd([len(lane) for lane in replies], [len(lane) for lane in lanes])
    return replies


class Block:
    """A block that is followed in the order that the journal tells."""

    def __init__(self, meaning, quiet, lanes, lines):
        self.meaning, self.quiet, self.lanes = meaning, quiet, lanes
        self.replies = replies_of(quiet, lanes, lines)
        self.places = [0] * len(lanes)
        self.accepted = 0
        # The number of the first lane's seat: behind the root's, which is behind every one that an entry has.
        self.seat = max(meaning.state.seats, default=0) + 2

    def reads_and_refusals(self):
        """Passes the lines of calls that were refused, and of reads, at this length."""
        meaning = self.meaning
        for lane, replies in enumerate(self.replies):
            while self.places[lane] < len(replies) and replies[self.places[lane]][0] == meaning.state.length:
                command = self.lanes[lane][self.places[lane]]
                call = meaning.call_of(command)
                wanted = meaning.refused(*call[:3]) if call else meaning.read(command[2][0])
                if wanted is None:
                    break
                line = replies[self.places[lane]][1]
                if is_down(line):
                    break
                if line != wanted:
                    raise Odd(f"lane {lane} {line}", wanted)
                self.places[lane] += 1

    def call(self, entry, size):
        """Makes an entry of a call, the next one of its lane."""
        meaning = self.meaning
        lane = entry[2][0] - self.seat
        if not 0 <= lane < len(self.lanes):
            raise Odd(entry, f"a seat from {self.seat} on")
        while True:
            if self.places[lane] == len(self.lanes[lane]):
                raise Odd(entry, f"no further call of lane {lane}")
            call = meaning.call_of(self.lanes[lane][self.places[lane]])
            fits = call is not None and meaning.entry_of(entry[2][0], *call[:2]) == entry and len(call[2]) == size
            if fits or not self.quiet:
                break
            self.places[lane] += 1
        line = f"{meaning.state.length} {call[3](meaning.state)}" if fits and not meaning.refused(*call[:3]) else None
        if line is None or (not self.quiet and self.replies[lane][self.places[lane]][1] != line):
            raise Odd(entry, self.replies[lane][self.places[lane]] if not self.quiet else "a call that is accepted")
        meaning.disk.add(meaning.state, entry, call[2])
        self.places[lane] += 1
        self.accepted += 1

    def step(self, entry, size):
        """Makes an entry of a step."""
        meaning = self.meaning
        if entry[0] != meaning.now() or not meaning.state.is_legal(entry, size):
            raise Odd(entry, "a legal step")
        meaning.disk.add(meaning.state, entry, None)

    def ends(self, accepted, refused, down):
        """Looks at what is left, and at the counts of the last line."""
        state = self.meaning.state
        for lane, replies in enumerate(self.replies):
            for _, line in replies[self.places[lane] :]:
                if not down or not is_down(line):
                    raise Odd(f"lane {lane} {line}", "no such line")
        calls = sum(self.meaning.call_of(command) is not None for lane in self.lanes for command in lane)
        if (accepted, refused) != (self.accepted, calls - self.accepted):
            raise Odd((accepted, refused), (self.accepted, calls - self.accepted))
        if not down and state.first_step(self.meaning.now()) is not None:
            raise Odd("a step is left", state.first_step(self.meaning.now()))


def is_down(line):
    return line.startswith("down at ") or re.fullmatch(r"refused 1 at \d+ down", line) is not None


def follow(meaning, command, lines, entries):
    """Follows a block by the lines that are left of the text. The lines behind it."""
    _, form, lanes = command
    quiet = "quiet" in form
    count = 0 if quiet else sum(len(lane) for lane in lanes)
    last = LAST.fullmatch(lines[count]) if count < len(lines) else None
    if last is None:
        raise Odd(lines[count : count + 1], "the line of the block")
    block = Block(meaning, quiet, lanes, lines[:count])
    length = int(last[4])
    while True:
        block.reads_and_refusals()
        if meaning.state.length == length:
            break
        if meaning.state.length >= len(entries):
            raise Odd(f"{len(entries)} entries", last[0])
        entry, size = entries[meaning.state.length]
        (block.call if entry[1] in CALLS else block.step)(entry, size)
    meaning.down = last[3] == "down at"
    block.ends(int(last[1]), int(last[2]), meaning.down)
    return lines[count + 1 :]


def follows(document, fails, came, areas):
    """Follows a whole run over an empty folder. Its faults."""
    text, status = came
    lines, entries = text.splitlines(), entries_of(areas[0])
    schema, commands = store.read_document(document)
    meaning = store.Run(schema, store.Disk(b"", b""), 0)
    meaning.open()
    for command in commands:
        if command[0] == "par":
            lines = follow(meaning, command, lines, entries)
        elif command[0] != "fail":
            meaning.lines = []
            meaning.make(command)
            count = len(meaning.lines)
            if lines[:count] != meaning.lines:
                raise Odd(lines[:count], meaning.lines)
            lines = lines[count:]
    # The call that was to fail may be one of the last settling.
    if fails and not meaning.down and lines == [f"down at {meaning.state.length}"]:
        meaning.down, lines = True, []
    if lines or status != (6 if meaning.down else 0):
        raise Odd((lines, status), ([], 6 if meaning.down else 0))
    if meaning.down:
        if len(entries) not in (meaning.state.length, meaning.state.length + 1):
            raise Odd(f"{len(entries)} entries", meaning.state.length)
        return "down"
    meaning.disk.settle()
    if areas != tuple(bytes(meaning.disk.data[area]) for area in ("journal", "vault")):
        raise Odd("the areas", "those of the model")
    return "done"


found = {"done": 0, "down": 0}
blocks = entries = 0
for round_ in range(ROUNDS):
    dice = random.Random(SEED * 1_000_003 + round_)
    fails, document = document_of(dice)
    for _ in range(2):
        folder = empty()
        came = run(folder, document)
        areas = store.load(folder)
        try:
            found[follows(document, fails, came, areas)] += 1
        except Odd as odd:
            path = f"/tmp/deviation-{SEED}-{round_}"
            with open(path, "wb") as file:
                file.write(document)
            wrong(f"round {round_}, the document in {path}", *odd.args)
            continue
        blocks += document.count(b"\nend\n")
        entries += len(entries_of(areas[0]))
        wanted = store.expects(LOOK, *areas)
        look = run(folder, LOOK)
        if look != wanted[:2]:
            wrong(f"round {round_}, the store behind it", look, wanted[:2])
ok(f"{found['done']} runs to their end and {found['down']} with a fault of {ROUNDS} documents: {blocks} blocks, {entries} entries")
end()
