"""refused_memory.py DELF: each allocation of a script is refused in turn, alone and with all behind it: status 5 or the whole text, and the store holds what was told.

Run it as `python3 checks/refused_memory.py crates/delf/out/delf`. It needs `rt`, which builds the program that refuses (`tried.py`) in a minute or
two; DELF looks at the stores that it leaves. The scripts are a restore over an id that was taken again, all kinds of entry, and a block of two
lanes with two workers. The text has to be that of the commands that were made, and the store that of the small model behind them, payloads
included, or behind a part of the next one.
"""
import os
import sys

import program
import store
from meaning import Fault
from program import EVERY_KIND, FOLDER, SCHEMA, agrees, empty, end, ok, run, wrong
from tried import Tried, build

REFUSING = os.path.join(FOLDER, "refusing")
if len(sys.argv) > 2:
    # One that was built before, for whoever changes this script.
    with open(sys.argv[2], "rb") as file, open(REFUSING, "wb") as copy:
        copy.write(file.read())
    os.chmod(REFUSING, 0o700)
    refusing = Tried(REFUSING)
else:
    refusing = build(REFUSING)

FOUR = b"""create 1 user "a"
create 2 photo "b"
link owns 1 2
delete 1 job 40
work 10
create 2 photo "n"
restore 40
work 10
job 40
show
"""
LOOK = SCHEMA + b"jobs\nshow\nwork 1000\njobs\nshow\n"


def refused(document, number, and_all_behind, words=("run", "--at", "0")):
    """Text, status and areas of a run in which this allocation is refused."""
    refusing.refuse(number, and_all_behind)
    folder = empty()
    usual, program.DELF = program.DELF, REFUSING
    try:
        text, status = run(folder, document, words, seconds=120)
    finally:
        program.DELF = usual
    return text, status, store.load(folder)


class Meaning:
    """What a serial script prints up to each command, and the store at each length of the history, by the small model."""

    def __init__(self, document):
        schema, commands = store.read_document(document)
        made = store.Run(schema, store.Disk(b"", b""), 0)
        made.open()
        self.schema, self.worlds, self.ends, self.lengths = schema, {}, [0], [0]
        self.keep(made)
        for command in commands:
            # A step at a time, so that the store behind each of them is kept.
            if command[0] == "work":
                for _ in range(command[2][0]):
                    lines = len(made.lines)
                    made.work(1)
                    done = made.lines[lines:] != ["work 1"]
                    del made.lines[lines:]
                    self.keep(made)
                    if done:
                        break
                made.lines.append(f"work {made.state.length - self.lengths[-1]}" + (" idle" if done else ""))
            else:
                made.make(command)
            self.keep(made)
            self.ends.append(sum(len(line) + 1 for line in made.lines))
            self.lengths.append(made.state.length)
        self.text = "".join(line + "\n" for line in made.lines)
        made.disk.settle()
        self.settled = tuple(map(bytes, made.disk.data.values()))

    def keep(self, made):
        if made.state.length not in self.worlds:
            self.worlds[made.state.length] = tuple(map(bytes, made.disk.data.values()))
            self.last = made.state.length

    def agrees(self, case, text, status, areas):
        if status == 0:
            if (text, areas) != (self.text, self.settled):
                wrong(case, text[-200:], self.text[-200:])
            return
        if status != 5 or not self.text.startswith(text) or len(text) not in self.ends:
            return wrong(case, (status, text[-200:]), (5, "the lines of some first commands"))
        made = [at for at, place in enumerate(self.ends) if place == len(text)]
        least, most = self.lengths[made[0]], self.lengths[min(made[-1] + 1, len(self.lengths) - 1)]
        try:
            state, _ = store.read_store(self.schema, *areas)
        except store.Bad as bad:
            return wrong(f"{case}: the store", bad.args, "a store")
        if not least <= state.length <= most:
            return wrong(f"{case}: the store", state.length, f"{least} to {most} entries")
        folder = empty()
        store.save(folder, *areas)
        came, wanted = run(folder, LOOK), store.expects(LOOK, *self.worlds[state.length])
        if came != wanted[:2] or store.load(folder) != wanted[2]:
            wrong(f"{case}: the next run", came, wanted[:2])


def each_refused(name, document, judge, words=("run", "--at", "0")):
    """Refuses each allocation until nothing bites any more, first with all behind it, which tells how many there are."""
    count = 0
    statuses = {}
    again = 0
    while again < 5:
        count += 1
        text, status, areas = refused(document, count, True, words)
        judge(f"{name}, each allocation from {count} on", text, status, areas)
        statuses[status] = statuses.get(status, 0) + 1
        again = again + 1 if status == 0 else 0
        if count > 20_000:
            wrong(name, count, "an end")
            break
    alone = {}
    for number in range(1, count + 1):
        text, status, areas = refused(document, number, False, words)
        judge(f"{name}, allocation {number}", text, status, areas)
        alone[status] = alone.get(status, 0) + 1
    ok(f"{name}: {count - 5} allocations; statuses {dict(sorted(statuses.items()))} with all behind, {dict(sorted(alone.items()))} alone")


text, status, _ = refused(SCHEMA + FOUR, 1, False)
if (text, status) != ("", 5):
    wrong("the first allocation", (text, status), ("", 5))
for name, script in (("an impostor", FOUR), ("all kinds of entry", EVERY_KIND + b"show\n")):
    document = SCHEMA + script
    meaning = Meaning(document)
    if meaning.text != store.expects(document)[0]:
        wrong(f"{name}: the model, a step at a time", meaning.text, store.expects(document)[0])
    each_refused(name, document, meaning.agrees)

# A block. Its lanes and workers come in any order, so a store is compared with what each order has in common.
BEFORE = b'create 1 user "a"\ncreate 2 photo "b"\nlink owns 1 2\ndelete 1 job 40\nwork 10\nrestore 40\nwork 10\nshow\n'
LANES = [
    b'create 11 user "c"\ncreate 12 photo "d"\nlink owns 11 12\ndelete 11 job 51\n',
    b'create 21 user "e"\ncreate 22 photo "f"\nlink owns 21 22\ndelete 21 job 61\n',
]
BLOCK = b"par quiet workers 2 turns 1000\n" + b"".join(b"lane\n" + lane for lane in LANES) + b"end\n"
BEHIND = b"show\njob 40\n"
before, shown = Meaning(SCHEMA + BEFORE), Meaning(SCHEMA + BEFORE + BEHIND)
WHOLE = before.text + "par accepted 8 refused 0 history 25\n" + shown.text[len(before.text) :]
heads = [store.record_at(shown.settled[0], at)[0] for at in store.read_store(shown.schema, *shown.settled)[1]["journal"][:-1]]
made = [Meaning(SCHEMA + lane) for lane in LANES]
# The entries of a lane as it makes them alone, without moment, seat and number.
calls = [[store.read_entry(store.record_at(one.settled[0], at)[0], 0)[1:] for at in store.read_store(one.schema, *one.settled)[1]["journal"][:-1]] for one in made]


def block_agrees(case, text, status, areas):
    if status == 0 and text != WHOLE or status not in (0, 5) or not WHOLE.startswith(text):
        return wrong(case, (status, text[-200:]), (5, "the lines of some first commands"))
    if len(text) < len(before.text):
        return before.agrees(case, text, status, areas)
    try:
        state, gates = store.read_store(before.schema, *areas)
    except store.Bad as bad:
        return wrong(f"{case}: the store", bad.args, "a store")
    found = [store.record_at(areas[0], at)[0] for at in gates["journal"][:-1]]
    entries = [store.read_entry(head, 0) for head in found[len(heads) :]]
    lanes = {}
    for entry in entries:
        if entry[1] in ("create", "link", "delete"):
            lanes.setdefault(entry[2][0], []).append((entry[1], *entry[3:]))
    fronts = [[(call[0], *call[2:]) for call in lane] for lane in calls]
    stray = [seat for seat, lane in lanes.items() if seat == 0 or not any(lane == front[: len(lane)] for front in fronts)]
    if found[: len(heads)] != heads or stray or len(lanes) > 2 or (len(text) > len(before.text) and len(found) != 25):
        wrong(f"{case}: the store", lanes, "each lane's calls in its order")
    agrees(f"{case}: the next run", LOOK, *areas)
    # What the block did not touch is still there, and what it began is done behind the steps of the next run.
    folder = empty()
    store.save(folder, *areas)
    came = run(folder, SCHEMA + b"work 1000\nget 1\nget 2\nget 11\nget 21\n")[0].splitlines()
    payloads = [line.split(" object ")[-1] for line in came[1:3]]
    if payloads != ['1 user birth 0 "a"', '2 photo birth 1 "b"']:
        wrong(f"{case}: the rows of before", payloads, "as they were")


try:
    wanted = run(empty(), SCHEMA + BEFORE + BLOCK + BEHIND)
except Fault:
    wanted = None
if wanted[1] == 2:
    ok("this program takes no block: left out")
elif wanted != (WHOLE, 0):
    wrong("a block", wanted, (WHOLE, 0))
else:
    each_refused("a block", SCHEMA + BEFORE + BLOCK + BEHIND, block_agrees)
end()
