"""Reads and writes both areas of a store by docs/FORMATS.md alone, and says which place of a bad store is told.

An independent reader for the other scripts of this folder. `python3 checks/store.py FOLDER [DOCUMENT]` prints the records of
the store in a folder and, with a document, whether it opens under its schema.
"""
import hashlib
import os
import struct
import sys

from meaning import GREATEST, LIMIT, Run, State, Stop, read_document

MARKS = {"journal": b"DELFJRN1", "vault": b"DELFVLT1"}
FILES = {"journal": "delf.journal", "vault": "delf.vault"}
KINDS = {  # kind: name and form of the rest of a head; g seat and count, t type, e edge type, i id, 4 four bytes
    1: ("create", "gti"), 2: ("update", "gi"), 3: ("link", "geii"), 4: ("unlink", "geii4"), 5: ("delete", "gi4"),
    6: ("restore", "g4"), 7: ("expire", "i"), 8: ("cut", "4eii"), 9: ("erase", "4i"), 10: ("put", "44"), 11: ("purge", "4"),
}
NUMBERS = {name: number for number, (name, _) in KINDS.items()}
ITEMS = {1: ("object", "4it484"), 2: ("edge", "4eii444")}
WIDTH = {"g": 8, "t": 1, "e": 1, "i": 8, "4": 4, "8": 8}
OPEN = 0xA5


class Bad(Exception):
    """An area and the place that is told."""


def read_values(form, data):
    """The values of a form, or None where a bound is broken."""
    if len(data) != sum(WIDTH[part] for part in form):
        return None
    values = []
    for part in form:
        field, data = data[: WIDTH[part]], data[WIDTH[part] :]
        if part == "g":
            values.append(struct.unpack(">II", field))
            continue
        value = int.from_bytes(field, "big")
        if (part == "i" and not 1 <= value <= GREATEST) or (part == "t" and value >= 64):
            return None
        values.append(value)
    return values


def write_values(form, values):
    data = b""
    for part, value in zip(form, values):
        data += struct.pack(">II", *value) if part == "g" else value.to_bytes(WIDTH[part], "big")
    return data


def read_entry(head, size):
    """The entry (moment, kind, ..) of a head, or None."""
    if len(head) < 9 or head[8] not in KINDS:
        return None
    moment = int.from_bytes(head[:8], "big")
    name, form = KINDS[head[8]]
    values = read_values(form, head[9:])
    most = LIMIT if name in ("create", "update", "link", "put") else 0
    if values is None or moment > GREATEST or size > most:
        return None
    return (moment, name, *values)


def write_entry(entry):
    number = NUMBERS[entry[1]]
    return entry[0].to_bytes(8, "big") + bytes([number]) + write_values(KINDS[number][1], entry[2:])


def read_item(head, size):
    """The item of a head with its size, as State has it, and its digest; or None."""
    if not head or head[0] not in ITEMS or size > LIMIT:
        return None
    name, form = ITEMS[head[0]]
    values = read_values(form, head[1:-32])
    return None if values is None else ((name, *values, size), head[-32:])


def write_item(item, payload):
    number = 1 if item[0] == "object" else 2
    return bytes([number]) + write_values(ITEMS[number][1], item[1:-1]) + hashlib.sha256(payload).digest()


def first_break(data, at):
    """Whether the open record at this place has lengths that cannot be."""
    if at + 8 > len(data):
        return True
    body, head = struct.unpack(">IH", data[at + 1 : at + 7])
    return body < 2 or at + 5 + body >= len(data) or head > body - 2


def record_at(data, at):
    """Head, place of the payload, size of the payload, place of the next gate."""
    body, head = struct.unpack(">IH", data[at + 1 : at + 7])
    return bytes(data[at + 7 : at + 7 + head]), at + 7 + head, body - 2 - head, at + 5 + body


def read_store(schema, journal, vault):
    """The state of the two areas, the gates of the journal's records and of the vault's, closed ones last; or Bad."""
    state = State(schema)
    gates = {"journal": [8], "vault": [8]}
    if len(journal) > 9:
        if journal[:8] != MARKS["journal"]:
            raise Bad("journal", 0)
        at = 8
        while journal[at] == OPEN:
            if first_break(journal, at):
                raise Bad("journal", at)
            head, _, size, behind = record_at(journal, at)
            entry = read_entry(head, size)
            if entry is None or not state.is_legal(entry, size):
                raise Bad("journal", at)
            state.take(entry, size)
            at = behind
            gates["journal"].append(at)
    if len(vault) > 9:
        if vault[:8] != MARKS["vault"]:
            raise Bad("vault", 0)
        at = 8
        while vault[at] == OPEN:
            number = len(gates["vault"]) - 1
            if number > len(state.items) or first_break(vault, at):
                raise Bad("vault", at)
            head, _, size, behind = record_at(vault, at)
            if number < len(state.items):
                found = read_item(head, size)
                if found is None or found[0] != state.items[number]:
                    raise Bad("vault", at)
            at = behind
            gates["vault"].append(at)
    if len(gates["vault"]) - 1 < len(state.items):
        raise Bad("vault", gates["vault"][-1])
    return state, gates


class Disk:
    """Both areas in memory, which lose nothing in a crash, with the disk calls of the service and an order to fail."""

    def __init__(self, journal, vault):
        self.data = {"journal": bytearray(journal), "vault": bytearray(vault)}
        self.gates = None
        self.left = None
        self.calls = 0
        self.failed = False

    def fail_after(self, n):
        self.left, self.failed = n, False

    def counts(self):
        """One disk call, which may be the one that fails."""
        self.calls += 1
        if self.left is not None:
            self.left -= 1
            if self.left == 0:
                self.left, self.failed = None, True
                raise Stop

    def write(self, area, at, data):
        self.counts()
        self.data[area][at : at + len(data)] = data

    def append(self, area, head, payload):
        at = self.gates[area][-1]
        body = struct.pack(">H", len(head)) + head + payload
        self.write(area, at + 1, struct.pack(">I", len(body)) + body + b"\0")
        self.counts()
        self.write(area, at, bytes([OPEN]))
        self.counts()
        return at + 5 + len(body)

    def range_of(self, place):
        area, number = place
        _, at, size, _ = record_at(self.data[area], self.gates[area][number])
        return area, at, size

    def read(self, place):
        area, at, size = self.range_of(place)
        if size:
            self.counts()
        return bytes(self.data[area][at : at + size])

    def scrub(self, place):
        area, at, size = self.range_of(place)
        if size:
            self.write(area, at, bytes(size))

    def payload(self, state, position):
        """The bytes that stand at a needed position, without a disk call."""
        area, at, size = self.range_of(state.carriers()[position])
        return bytes(self.data[area][at : at + size])

    def is_damaged(self, item):
        head, at, size, _ = record_at(self.data["vault"], self.gates["vault"][item])
        return head[-32:] != hashlib.sha256(self.data["vault"][at : at + size]).digest()

    def add(self, state, entry, payload):
        """Adds a legal entry to the areas, and then to the state. Stop where a call failed; the state then stays."""
        kind = entry[1]
        places = state.carriers()
        scrubs = []
        gates = {}
        if kind in ("cut", "erase"):
            if kind == "cut":
                birth, size = state.edges[entry[3:6]]
                births = state.objects[entry[4]][1], state.objects[entry[5]][1]
                item = ("edge", *entry[2:], birth, *births, size)
            else:
                item = ("object", entry[2], entry[3], *state.objects[entry[3]])
                birth = item[6]
            live = self.read(places[birth])
            scrubs.append(places[birth])
            gates["vault"] = self.append("vault", write_item(item, live), live)
            payload = b""
        elif kind == "put":
            item = state.items[entry[3]]
            payload = b""
            if state.judge(entry[3]) is None:
                self.counts()
                payload = self.read(("vault", entry[3]))
                scrubs.append(("vault", entry[3]))
        elif kind == "purge":
            payload = b""
            scrubs += [("vault", at) for at in state.items_of(entry[2]) if not state.is_back(at)]
        elif kind == "expire":
            payload = b""
        elif kind == "update":
            scrubs.append(places[state.objects[entry[3]][3]])
        elif kind == "unlink":
            scrubs.append(places[state.edges[tuple(entry[3:6])][0]])
        gates["journal"] = self.append("journal", write_entry(entry), payload)
        for place in scrubs:
            self.scrub(place)
        for area, at in gates.items():
            self.gates[area].append(at)
        state.take(entry, len(payload))

    def open(self, schema):
        """Opens the areas as they are, without disk calls that count: marks, the drop of an extra record, scrubs."""
        state, self.gates = read_store(schema, self.data["journal"], self.data["vault"])
        for area, mark in MARKS.items():
            if len(self.data[area]) <= 9:
                self.data[area][:] = mark + b"\0"
        if len(self.gates["vault"]) - 1 > len(state.items):
            self.gates["vault"].pop()
            self.data["vault"][self.gates["vault"][-1]] = 0
        kept = set(state.carriers().values())
        for area in ("journal", "vault"):
            for number in range(len(self.gates[area]) - 1):
                if (area, number) not in kept:
                    _, at, size = self.range_of((area, number))
                    self.data[area][at : at + size] = bytes(size)
        return state

    def settle(self):
        for area in ("journal", "vault"):
            behind = self.gates[area][-1] + 1
            self.data[area][behind:] = bytes(len(self.data[area]) - behind)


def content(folder, area):
    path = os.path.join(folder, FILES[area])
    if not os.path.exists(path):
        return b""
    with open(path, "rb") as file:
        return file.read()


def load(folder):
    return content(folder, "journal"), content(folder, "vault")


def save(folder, journal, vault):
    os.makedirs(folder, exist_ok=True)
    for area, data in (("journal", journal), ("vault", vault)):
        with open(os.path.join(folder, FILES[area]), "wb") as file:
            file.write(data)


def expects(document, journal=b"", vault=b"", moment=0):
    """What a run has to print over these areas, its status, and the areas that it leaves (None where it is not said)."""
    schema, commands = read_document(document)
    run = Run(schema, Disk(journal, vault), moment)
    try:
        run.open()
        for command in commands:
            run.make(command)
    except Bad as bad:
        return "".join(line + "\n" for line in [*run.lines, "bad store {} at {}".format(*bad.args)]), 7, None
    if run.down:
        return "".join(line + "\n" for line in run.lines), 6, None
    run.disk.settle()
    return "".join(line + "\n" for line in run.lines), 0, (bytes(run.disk.data["journal"]), bytes(run.disk.data["vault"]))


if __name__ == "__main__":
    areas = dict(zip(("journal", "vault"), load(sys.argv[1])))
    for area, data in areas.items():
        at = 8
        while at < len(data) and data[at] == OPEN and not first_break(data, at):
            head, _, size, behind = record_at(data, at)
            print(area, at, read_entry(head, size) if area == "journal" else read_item(head, size))
            at = behind
    if len(sys.argv) > 2:
        with open(sys.argv[2], "rb") as file:
            document = file.read()
        try:
            print("opens with", read_store(read_document(document)[0], *areas.values())[0].length)
        except Bad as bad:
            print("bad store {} at {}".format(*bad.args))
