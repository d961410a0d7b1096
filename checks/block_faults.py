"""block_faults.py DELF [ROUNDS]: in a block of two lanes and a worker each disk call fails in turn: what was told stands, and the account holds.

Run it as `python3 checks/block_faults.py crates/delf/out/delf`. The lines of each lane come in its order; an accepted call has its entry at the
position that was told, with its lane's seat, and no other entry has that seat; each refusal and each row that was shown is that of the small
model at the length that was told; the block's line has their numbers. Behind the fault the store has the history that was told, or that with one
entry more, and the next run goes on from there.
"""
import re
import sys

import store
from meaning import object_line
from program import SCHEMA, agrees, empty, end, ok, run, wrong

FRONT = b'create 1 user "a"\ncreate 2 photo "b"\nlink owns 1 2\ndelete 1 job 40\nwork 10\nrestore 40\nwork 10\ncreate 3 album "c"\nlink holds 3 2\ndelete 1 job 41\n'
APART = [
    b'create 11 user "d"\ncreate 12 photo "e"\nlink owns 11 12\ndelete 11 job 51\n',
    b'create 21 user "f"\ncreate 22 photo "g"\nlink owns 21 22\ndelete 21 job 61\n',
]
# Both lanes want the same rows and names.
TOGETHER = [
    b'create 11 user "lane 0"\nget 11\nupdate 11 "again 0"\nlink owns 11 2 "x"\nunlink holds 3 2 job 51\nget 2\ndelete 11 job 51\nrestore 40\ncreate 11 user\n',
    b'create 11 user "lane 1"\nlink likes 11 2\nget 11\nunlink likes 11 2 job 52\ndelete 11 job 51\nget 11\nrestore 41\ncreate 2 photo "n"\nget 2\n',
]
LOOK = SCHEMA + b"jobs\nshow\nwork 1000\nrestore 51\nwork 1000\njobs\nshow\n"


def entries_in(schema, areas):
    _, gates = store.read_store(schema, *areas)
    entries = []
    for at in gates["journal"][:-1]:
        head, place, size, _ = store.record_at(areas[0], at)
        entries.append((store.read_entry(head, size), size))
    return entries


def numbers_of(schema, command):
    """Kind, values and payload of a call of a lane, as the model has them."""
    word, form, values = command
    if word == "create":
        return word, [schema.kind(values[1]), values[0]], values[2] if len(values) > 2 else b""
    if word == "link":
        return word, [schema.edge(values[0]), *values[1:3]], values[3] if len(values) > 3 else b""
    if word == "unlink":
        return word, [schema.edge(values[0]), *values[1:]], b""
    if word == "update":
        return word, values[:1], values[1]
    return word, values, b""


class Block:
    """What a block told, against the history that it left."""

    def __init__(self, case, schema, commands, entries, before):
        self.case, self.schema, self.commands, self.entries, self.before = case, schema, commands, entries, before
        self.accepted, self.refused, self.beside, self.seats = 0, 0, [], {}
        self.payloads = {}
        self.down = None

    def wrong(self, came, wanted):
        wrong(self.case, came, wanted)

    def state_at(self, length):
        state = store.State(self.schema)
        for entry, size in self.entries[:length]:
            state.take(entry, size)
        return state

    def lane(self, number, lines):
        last = self.before
        if len(lines) != len(self.commands[number]):
            return self.wrong((number, lines), "a line for each command")
        for command, line in zip(self.commands[number], lines):
            at = self.reply(number, command, line)
            if at is None or at < last:
                return self.wrong((number, command, line), f"a reply at {last} or later")
            last = at + (" refused " not in f" {line}" and line[:1].isdigit())

    def reply(self, number, command, line):
        """The length at which the reply was given, or None where it is another than the model's."""
        kind, values, payload = numbers_of(self.schema, command)
        found = re.match(r"down at (\d+)$", line)
        if found:
            if command[0] != "get":
                self.refused += 1
                self.beside.append((number, kind, values))
            return self.is_down(int(found[1]))
        found = re.match(r"refused 1 at (\d+) down$", line)
        if found:
            self.refused += command[0] != "get"
            return self.is_down(int(found[1]))
        found = re.match(r"refused (\d+) at (\d+) (.*)$", line)
        if found:
            self.refused += 1
            at = int(found[2])
            wanted = self.state_at(at).refuses(0, kind, values if kind != "restore" else [values[0]], len(payload))
            return at if wanted and (str(wanted[0]), wanted[1]) == (found[1], found[3]) else None
        if command[0] == "get":
            found = re.match(r"at (\d+) (.*)$", line)
            return int(found[1]) if found and self.shows(int(found[1]), values[0], found[2]) else None
        found = re.match(r"(\d+) (.*)$", line)
        if not found or int(found[1]) >= len(self.entries):
            return None
        self.accepted += 1
        at = int(found[1])
        entry, size = self.entries[at]
        state = self.state_at(at)
        wanted = values if kind != "restore" else [state.find(values[0])]
        self.seats.setdefault(number, []).append((at, entry[2][0]))
        return at if (entry[1], *entry[3:], size) == (kind, *wanted, len(payload)) else None

    def shows(self, at, id, text):
        state = self.state_at(at)
        if id not in state.objects:
            return text == f"absent {id}"
        return text == object_line(state, id, self.payloads.get(state.objects[id][3]))

    def is_down(self, at):
        if self.down not in (None, at):
            return None
        self.down = at
        return at


def look_at(name, case, front, lanes, n, calm=False):
    """One run with this failing call. Whether the fault was met."""
    document = SCHEMA + front + (b"" if calm else b"fail %d\n" % n) + b"par workers 1 turns 1000\n" + b"".join(b"lane\n" + lane for lane in lanes) + b"end\n"
    folder = empty()
    text, status = run(folder, document)
    areas = store.load(folder)
    try:
        schema, commands = store.read_document(SCHEMA + b"".join(lanes))
        entries = entries_in(schema, areas)
    except store.Bad as bad:
        wrong(f"{case}: the store", bad.args, "a store")
        return True
    wanted = store.expects(SCHEMA + front)
    before = entries_in(schema, wanted[2])
    if not text.startswith(wanted[0]) or entries[: len(before)] != before:
        wrong(f"{case}: the commands before", text, wanted[0])
        return True
    lines = text[len(wanted[0]) :].splitlines()
    settling = re.match(r"down at (\d+)$", lines[-1])
    if settling:
        # The block was made, and the fault met the last settling.
        lines.pop()
        if (int(settling[1]), status) != (len(entries), 6):
            wrong(f"{case}: the settling", (settling[0], status), len(entries))
    counts = [lane.count(b"\n") for lane in lanes]
    block = Block(case, schema, [commands[: counts[0]], commands[counts[0] :]], entries, len(before))
    told = [[line[7:] for line in lines if line.startswith(f"lane {number} ")] for number in (0, 1)]
    gather_payloads(block, (store.read_document(SCHEMA + front)[1], wanted[0].splitlines()), *zip(block.commands, told))
    for number in (0, 1):
        block.lane(number, told[number])
    if [line[:7] for line in lines[:-1]] != ["lane 0 "] * len(told[0]) + ["lane 1 "] * len(told[1]):
        wrong(f"{case}: the order of the lines", lines, "lane after lane")
    # The last of its own entries may stand beside the history that was told.
    length = len(entries)
    if status == 6 and not settling:
        found = re.match(r"par accepted (\d+) refused (\d+) down at (\d+)$", lines[-1])
        if not found or (int(found[1]), int(found[2])) != (block.accepted, block.refused) or block.down not in (None, int(found[3])) or not length - 1 <= int(found[3]) <= length:
            wrong(f"{case}: the block's line", lines[-1:] + lines, (block.accepted, block.refused, length))
            return True
        length = int(found[3])
    elif lines[-1] != f"par accepted {block.accepted} refused {block.refused} history {length}" or status != (6 if settling else 0) or block.down is not None:
        wrong(f"{case}: the block's line", (lines, status), (block.accepted, block.refused, length))
    judge_seats(block, case, len(before), length)
    agrees(f"{case}: the next run", LOOK, *areas)
    return status == 6


def gather_payloads(block, *told):
    """The payload that each position was given, from the commands and their lines."""
    for commands, lines in told:
        for command, line in zip(commands, lines):
            found = re.match(r"(\d+) (created|updated) ", line)
            if found:
                block.payloads[int(found[1])] = numbers_of(block.schema, command)[2]


def judge_seats(block, case, before, length):
    own = {}
    for at, (entry, _) in enumerate(block.entries[:length]):
        if at >= before and entry[1] in ("create", "update", "link", "unlink", "delete", "restore"):
            own.setdefault(entry[2][0], []).append(at)
    told = {}
    for number, rows in block.seats.items():
        seats = {seat for _, seat in rows}
        if len(seats) != 1 or 0 in seats:
            return wrong(f"{case}: the seats of lane {number}", rows, "one seat")
        told[seats.pop()] = [at for at, _ in rows]
    if own != told:
        wrong(f"{case}: the entries of the lanes", own, told)
    for entry, _ in block.entries[length:]:
        # What stands beside is a step, or the call whose line says so.
        if entry[1] in ("create", "update", "link", "unlink", "delete", "restore"):
            if not any(entry[1] == kind for _, kind, _ in block.beside):
                wrong(f"{case}: the entry beside", entry, block.beside)


if run(empty(), SCHEMA + b"par workers 0 turns 1\nlane\nend\n")[1] == 2:
    ok("this program takes no block: left out")
    end()
for name, lanes in (("lanes that are apart", APART), ("lanes over the same rows", TOGETHER)):
    for round_ in range(int(sys.argv[2]) if len(sys.argv) > 2 else 3):
        look_at(name, f"{name}, no fault, round {round_}", FRONT, lanes, 0, calm=True)
        n, met, calm = 0, 0, 0
        while calm < 6 and n < 1000:
            n += 1
            if look_at(name, f"{name}, fail {n}, round {round_}", FRONT, lanes, n):
                met, calm = met + 1, 0
            else:
                calm += 1
        ok(f"{name}: the last of {met} failing calls was number {n - calm}")
end()
