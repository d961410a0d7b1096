"""strange_bytes.py DELF [ROUNDS]: stores with changed, cut, swapped and invented bytes open, or name the place that the rules name.

Run it as `python3 checks/strange_bytes.py crates/delf/out/delf`. Every byte of both areas of two small stores is changed to four
values, every length is tried, each two records are swapped; each opening is compared with docs/FORMATS.md by the small
reader. A bad store keeps its bytes. ROUNDS more stores have several random changes, over a store with all kinds of entry.
"""
import itertools
import os
import random
import struct
import sys
import time

import store
from program import EVERY_KIND, SCHEMA, agrees, empty, end, ok, run, wrong

ROW = SCHEMA + b'create 1 user "a"\ncreate 2 photo "b"\nlink owns 1 2\ndelete 1 job 40\nwork 10\n'
LOOK = SCHEMA + b"jobs\nshow\nrestore 40\nwork 10\njob 40\nshow\n"
MEMORY = 192 << 20


def opens(case, journal, vault, document=LOOK):
    """The run over these areas is the model's, and leaves the bytes of a bad store."""
    after = agrees(case, document, journal, vault, 0, MEMORY)
    if store.expects(document, journal, vault)[1] == 7:
        for area, before, now in (("journal", journal, after[0]), ("vault", vault, after[1])):
            blank = store.MARKS[area] + b"\0"
            if now != before and not (len(before) <= 9 and now == blank):
                wrong(f"{case}: the {area} of a bad store was changed", now, before)


def is_told(case, journal, vault, line):
    came = store.expects(LOOK, journal, vault)[0].splitlines()[0]
    if came != line:
        wrong(f"{case}: the reader itself", came, line)
    opens(case, journal, vault)


def changed(data, at, *bytes_):
    return data[:at] + bytes(bytes_) + data[at + len(bytes_) :]


folder = empty()
run(folder, ROW)
journal, vault = store.load(folder)
_, gates = store.read_store(store.read_document(ROW)[0], journal, vault)
if gates != {"journal": [8, 42, 76, 117, 153, 190, 218, 246], "vault": [8, 81, 151, 221]}:
    wrong("the gates of the small store", gates, "other places")

# The table of the rules, by hand.
is_told("the journal is cut", journal[:200], vault, "bad store journal at 190")
is_told("a kind that is none", changed(journal, 132, 0x63), vault, "bad store journal at 117")
is_told("an erase of an absent object", changed(journal, 245, 3), vault, "bad store journal at 218")
is_told("no step remains", changed(journal, 153, 0), vault, "bad store vault at 81")
is_told("a gate of the vault is closed", journal, changed(vault, 151, 0), "bad store vault at 151")
is_told("the job of a record", journal, changed(vault, 92, 4), "bad store vault at 81")
is_told("no vault", journal, b"", "bad store vault at 8")
is_told("ten digits", b"0123456789", b"", "bad store journal at 0")
is_told("both files exchanged", vault, journal, "bad store journal at 0")
is_told("a digest", journal, changed(vault, 79, 1), "jobs 1")
ok("the table")

# Every byte, every length: of the small store, and of one that a restore over an id that was taken again left.
def all_changes(name, journal, vault, places):
    for area, data in (("journal", journal), ("vault", vault)):
        areas = lambda new: (new, vault) if area == "journal" else (journal, new)
        for at in range(len(data)):
            for value in {0x00, 0xA5, 0xFF, data[at] ^ 0xFF} - {data[at]}:
                opens(f"{name}, {area} byte {at} is {value:#x}", *areas(changed(data, at, value)))
        ok(f"{name}: each of {len(data)} bytes of the {area}, with four values")
        for size in range(len(data)):
            opens(f"{name}, {area} cut to {size}", *areas(data[:size]))
        ok(f"{name}: each shorter length of the {area}")
        for tail in (b"\0", b"\xa5", b"\xff" * 600, b"\xa5" * 600, data):
            opens(f"{name}, {area} with {len(tail)} bytes behind it", *areas(data + tail))
        for size in (9, 10, 100, len(data), 70_000):
            opens(f"{name}, {area} of {size} zeros", *areas(bytes(size)))
        pieces = [data[:8]] + [data[at:to] for at, to in zip(places[area], places[area][1:] + [len(data)])]
        for first, second in itertools.combinations(range(1, len(pieces) - 1), 2):
            mixed = list(pieces)
            mixed[first], mixed[second] = pieces[second], pieces[first]
            opens(f"{name}, {area} records {first} and {second} swapped", *areas(b"".join(mixed)))
        for first, second in zip(places[area], places[area][1:]):
            opens(f"{name}, {area} record at {first} is missing", *areas(data[:first] + data[second:]))
            opens(f"{name}, {area} record at {first} stands twice", *areas(data[:second] + data[first:]))
            for lengths in ((0, 0), (1, 0), (2, 0), (2, 1), (0xFFFF, 0xFFFD), (0xFFFFFFFF, 0), (0x7FFFFFFF, 26), (29, 27), (29, 28)):
                opens(f"{name}, {area} record at {first} with lengths {lengths}", *areas(changed(data, first + 1, *struct.pack(">IH", *lengths))))
        ok(f"{name}: tails, zeros, each swap of two of {len(pieces) - 2} records, gaps, doubles and lengths of the {area}")
    opens(f"{name}, both files exchanged", vault, journal)


all_changes("a deletion", journal, vault, gates)
folder = empty()
run(folder, ROW + b'create 2 photo "n"\nrestore 40\nwork 10\n')
areas = store.load(folder)
all_changes("an impostor", *areas, store.read_store(store.read_document(ROW)[0], *areas)[1])

# Areas that are large and hold nothing. The files are sparse; the memory is bounded.
def huge(case, fronts, size, wanted, seconds=120):
    folder = empty()
    store.save(folder, *fronts)
    for area, front in zip(store.FILES.values(), fronts):
        if size.get(area):
            os.truncate(os.path.join(folder, area), size[area])
    begun = time.monotonic()
    came = run(folder, LOOK, memory=MEMORY, seconds=seconds)
    if (came[0].splitlines()[:1], came[1]) != wanted:
        return wrong(case, came, wanted)
    ok(f"{case}: {wanted[0][0]}, {time.monotonic() - begun:.1f} s")


FILE_J, FILE_V = store.FILES["journal"], store.FILES["vault"]
blank = tuple(mark + b"\0" for mark in store.MARKS.values())
huge("a journal of 1 GiB of zeros", (b"", b""), {FILE_J: 1 << 30}, (["bad store journal at 0"], 7))
huge("a vault of 1 GiB of zeros", (b"", b""), {FILE_V: 1 << 30}, (["bad store vault at 0"], 7))
huge("1 GiB of zeros behind the journal's closed gate", blank, {FILE_J: 1 << 30}, (["jobs 0"], 0))
body = b"\xa5" + struct.pack(">IH", (1 << 30) - 64, 26)
huge("a body of 1 GiB in the journal", (blank[0][:8] + body, b""), {FILE_J: 1 << 30}, (["bad store journal at 8"], 7))
huge("a body of 1 GiB in the vault, one record too many", (b"", blank[1][:8] + body), {FILE_V: 1 << 30}, (["jobs 0"], 0))
body = b"\xa5" + struct.pack(">IH", 0xFFFFFFF0, 0xFFFF)
huge("a body of 4 GiB in the vault, behind which no gate fits", (b"", blank[1][:8] + body), {FILE_V: (1 << 32) - 3}, (["bad store vault at 8"], 7))

# Several changes at once, over a store that holds all kinds of entry.
document = SCHEMA + EVERY_KIND
folder = empty()
run(folder, document)
journal, vault = store.load(folder)
dice = random.Random(7)
for round_ in range(int(sys.argv[2]) if len(sys.argv) > 2 else 500):
    new = {"journal": journal, "vault": vault}
    for _ in range(dice.randint(1, 3)):
        area = dice.choice(("journal", "vault"))
        data = new[area]
        at = dice.randrange(8, len(data))
        how = dice.randrange(5)
        if how == 0:
            data = changed(data, at, dice.randrange(256))
        elif how == 1:
            data = changed(data, at, data[at] ^ (1 << dice.randrange(8)))
        elif how == 2:
            data = data[:at]
        elif how == 3:
            data = data[:at] + data[at + dice.randint(1, 9) :]
        else:
            data = data[:at] + bytes(dice.randrange(256) for _ in range(dice.randint(1, 9))) + data[at:]
        new[area] = data
    opens(f"random store {round_}", new["journal"], new["vault"], SCHEMA + b"jobs\nshow\nwork 100\njobs\nshow\n")
ok("random changes over a store with all kinds of entry")
end()
