"""What a document means, by docs/LANGUAGE.md alone: its first fault, the answer of each call, the steps, the lines.

An independent small model for the other scripts of this folder. It is written from the documents and shares nothing with
the program. `python3 checks/meaning.py DOCUMENT [MOMENT]` prints what a run over an empty store has to print.
"""
import json
import sys

GREATEST = 999_999_999_999
LIMIT = 512
ROOM = 500_000


class Fault(Exception):
    """The first fault of a document: a line and a text."""


class Stop(Exception):
    """A disk call that failed."""


# ---- documents

NAME = set(b"abcdefghijklmnopqrstuvwxyz0123456789_")
HEX = {ord(digit): int(digit, 16) for digit in "0123456789abcdefABCDEF"}


def lines_of(document):
    """Each line that has to be read, with its number, and the number of all lines."""
    lines = document.split(b"\n")
    if lines[-1] == b"":
        lines.pop()
        ended = len(lines)
    else:
        ended = len(lines) - 1
    kept = []
    for number, line in enumerate(lines, 1):
        if number <= ended and line.endswith(b"\r"):
            line = line[:-1]
        front = line.lstrip(b" \t")
        if front and not front.startswith(b"#"):
            kept.append((number, line))
    return kept, len(lines)


def payload_at(line, at):
    """The payload whose quote opens at this place, and the place behind its closing quote; None where it has none."""
    value = bytearray()
    at += 1
    while at < len(line):
        byte = line[at]
        if byte == 0x22:
            behind = at + 1
            if behind < len(line) and line[behind] not in b" \t":
                return None
            return bytes(value), behind
        if byte == 0x5C:
            mark = line[at + 1 : at + 2]
            if mark in (b'"', b"\\"):
                value += mark
                at += 2
                continue
            digits = line[at + 2 : at + 4]
            if mark != b"x" or len(digits) < 2 or any(digit not in HEX for digit in digits):
                return None
            value.append(HEX[digits[0]] * 16 + HEX[digits[1]])
            at += 4
            continue
        if byte < 0x20 or byte > 0x7E:
            return None
        value.append(byte)
        at += 1
    return None


def words_of(line):
    """The words of a line: bytes, or a tuple of one payload. None where a payload is at fault."""
    words = []
    at = 0
    while at < len(line):
        if line[at] in b" \t":
            at += 1
        elif line[at] == 0x22:
            found = payload_at(line, at)
            if found is None:
                return None
            words.append((found[0],))
            at = found[1]
        else:
            end = at
            while end < len(line) and line[end] not in b" \t":
                end += 1
            words.append(line[at:end])
            at = end
    return words


def is_number(word):
    return isinstance(word, bytes) and word.isdigit() and (word == b"0" or word[:1] != b"0")


def fits(form, words):
    """The values of the words where they fit the form, else None. N a number, T a name, P a payload."""
    form = form.split()
    if words is None or len(form) != len(words):
        return None
    values = []
    for part, word in zip(form, words):
        if part == "P":
            if not isinstance(word, tuple):
                return None
            values.append(word[0])
        elif not isinstance(word, bytes):
            return None
        elif part == "N":
            if not is_number(word):
                return None
            values.append(int(word) if len(word) < 30 else 10**30)
        elif part == "T":
            if not word or any(byte not in NAME for byte in word):
                return None
            values.append(word.decode())
        elif part.encode() != word:
            return None
    return values


def out_of_range(number, value, least, most):
    if not least <= value <= most:
        raise Fault(number, "out of range")


class Schema:
    def __init__(self):
        self.window = 0
        self.objects = []  # name, rule, seconds, line
        self.edges = []  # name, from, to, rule, line

    def kind(self, name):
        return next((at for at, row in enumerate(self.objects) if row[0] == name), None)

    def edge(self, name):
        return next((at for at, row in enumerate(self.edges) if row[0] == name), None)


def long_names(number, names):
    if any(len(name) > 32 for name in names):
        raise Fault(number, "out of range")


def schema_line(schema, number, words):
    for rule in ("directly", "directly_only", "by_any", "short_ttl N", "not_deleted"):
        values = fits("object T " + rule, words)
        if values is not None:
            long_names(number, values[:1])
            if len(values) > 1:
                out_of_range(number, values[1], 1, 7_776_000)
            if len(schema.objects) == 64:
                raise Fault(number, "out of range")
            schema.objects.append((values[0], rule.split()[0], values[1] if len(values) > 1 else 0, number))
            return
    for rule in ("deep", "shallow", "refcount"):
        values = fits("edge T T T " + rule, words)
        if values is not None:
            long_names(number, values)
            if len(schema.edges) == 256:
                raise Fault(number, "out of range")
            schema.edges.append((*values, rule, number))
            return
    raise Fault(number, "malformed")


def check(schema):
    seen = set()
    for name, _, _, line in schema.objects:
        if name in seen:
            raise Fault(line, f"name {name} declared twice")
        seen.add(name)
    seen = set()
    for name, _, _, _, line in schema.edges:
        if name in seen:
            raise Fault(line, f"name {name} declared twice")
        seen.add(name)
    for _, source, target, _, line in schema.edges:
        for name in (source, target):
            if schema.kind(name) is None:
                raise Fault(line, f"type {name} not declared")
    for name, _, target, rule, line in schema.edges:
        if rule != "shallow" and schema.objects[schema.kind(target)][1] in ("directly_only", "not_deleted"):
            raise Fault(line, f"edge {name} cannot take {target}")
    routed = {row[0] for row in schema.objects if row[1] in ("directly", "directly_only", "short_ttl")}
    while True:
        more = {
            target
            for _, source, target, rule, _ in schema.edges
            if rule == "refcount" or (rule == "deep" and source in routed)
        }
        more = {name for name in more if schema.objects[schema.kind(name)][1] == "by_any"} - routed
        if not more:
            break
        routed |= more
    for name, rule, _, line in schema.objects:
        if rule == "by_any" and name not in routed:
            raise Fault(line, f"type {name} has no route")


def routes(schema):
    """The shortest route of each by_any type, from the type backwards; of several the one whose list of edge numbers is least."""
    best = {row[0]: [] for row in schema.objects if row[1] in ("directly", "directly_only", "short_ttl")}
    wanted = [row[0] for row in schema.objects if row[1] == "by_any"]
    for _ in wanted:
        for number, (_, source, target, rule, _) in enumerate(schema.edges):
            if target not in wanted or rule == "shallow" or (rule == "deep" and source not in best):
                continue
            route = [number] + (best[source] if rule == "deep" else [])
            if target not in best or (len(route), route) < (len(best[target]), best[target]):
                best[target] = route
    return [(name, [schema.edges[number][0] for number in best[name]]) for name in wanted]


COMMANDS = {  # form: for each value its kind
    "create N T": "iK", "create N T P": "iKp", "update N P": "ip",
    "link T N N": "Eii", "link T N N P": "Eiip", "unlink T N N job N": "Eiij", "delete N job N": "ij",
    "restore N": "j", "restore expiry N": "i", "job N": "j", "job expiry N": "i",
    "work N": "m", "fail N": "m", "tick N": "t", "get N": "i", "show": "", "jobs": "", "report": "", "crash N": "c",
}
RANGES = {"i": (1, GREATEST), "j": (0, 2**32 - 1), "m": (1, 1_000_000), "t": (1, GREATEST), "c": (0, 2**64 - 1)}


def command_of(schema, number, words):
    for form, kinds in COMMANDS.items():
        values = fits(form, words)
        if values is None:
            continue
        for value, kind in zip(values, kinds):
            if kind in RANGES:
                out_of_range(number, value, *RANGES[kind])
            elif kind in "KE" and len(value) > 32:
                raise Fault(number, "out of range")
        for value, kind in zip(values, kinds):
            if (kind == "K" and schema.kind(value) is None) or (kind == "E" and schema.edge(value) is None):
                raise Fault(number, f"unknown name {value}")
        return form.split()[0], form, values
    raise Fault(number, "malformed")


LANE_COMMANDS = (b"create", b"update", b"link", b"unlink", b"delete", b"restore", b"get")


def block_form(number, words):
    """The form of this line, where it begins a block."""
    for form in ("par workers N turns N", "par quiet workers N turns N"):
        values = fits(form, words)
        if values is not None:
            out_of_range(number, values[0], 0, 16)
            out_of_range(number, values[1], 1, 1_000_000)
            return form
    return None


def script_of(schema, kept, count):
    """The commands of these lines, with each block as ("par", the form of its first line, lanes)."""
    commands, head, lanes = [], None, []
    for number, line in kept:
        words = words_of(line)
        if head is None:
            head = block_form(number, words)
            if head is None:
                commands.append(command_of(schema, number, words))
        elif words == [b"lane"]:
            if len(lanes) == 16:
                raise Fault(number, "out of range")
            lanes.append([])
        elif lanes and words == [b"end"]:
            commands.append(("par", head, lanes))
            head, lanes = None, []
        elif lanes and words is not None and words[0] in LANE_COMMANDS:
            lanes[-1].append(command_of(schema, number, words))
        else:
            raise Fault(number, "malformed")
    if head is not None:
        raise Fault(count + 1, "malformed")
    return commands


def read_document(document):
    """Schema and commands, or Fault. What a block leads to is not told here."""
    if len(document) > 16_777_216:
        raise Fault(0, "document too long")
    kept, count = lines_of(document)
    schema = Schema()
    place = 0
    for form in ("schema 1", "window N"):
        if place == len(kept):
            raise Fault(count + 1, "malformed")
        number, line = kept[place]
        values = fits(form, words_of(line))
        if values is None:
            raise Fault(number, "malformed")
        if values:
            out_of_range(number, values[0], 0, 31_536_000)
            schema.window = values[0]
        place += 1
    while place < len(kept):
        number, line = kept[place]
        words = words_of(line)
        place += 1
        if words == [b"script"]:
            break
        schema_line(schema, number, words)
    check(schema)
    return schema, script_of(schema, kept[place:], count)


# ---- the state after a history

class State:
    """The state after a list of entries, each a tuple (moment, kind, ..) with the names of docs/FORMATS.md."""

    def __init__(self, schema):
        self.schema = schema
        self.length = 0
        self.moment = 0
        self.objects = {}  # id: (kind, birth, due, at, size)
        self.edges = {}  # (edge, from, to): (birth, size)
        self.owner = {}
        self.items = []  # ("object", job, id, kind, birth, due, at, size), ("edge", job, edge, from, to, birth, from's, to's, size)
        self.jobs = {}  # start: (name, root)
        self.restores = {}  # job: position
        self.handled = {}  # item: (position, cause or None)
        self.purged = set()
        self.last = {}  # job: moment of its last erasure
        self.seats = {}

    # Reading.

    def rule(self, edge):
        return self.schema.edges[edge][3]

    def references(self, id):
        return sum(1 for edge, _, to in self.edges if to == id and self.rule(edge) == "refcount")

    def owned(self, job):
        return sorted(id for id, owner in self.owner.items() if owner == job)

    def items_of(self, job):
        return [at for at, item in enumerate(self.items) if item[1] == job]

    def left(self, job):
        return [at for at in self.items_of(job) if at not in self.handled] if job in self.restores else []

    def find(self, name):
        return max((job for job, row in self.jobs.items() if row[0] == name), default=None)

    def room(self):
        owed = 3 * sum(1 for id in self.objects if id not in self.owner) + len(self.owner) + len(self.edges)
        owed += len(self.jobs) - len(self.purged)
        for job in self.restores:
            owed += sum(4 if self.items[at][0] == "object" else 2 for at in self.left(job))
        return self.length, owed

    def judge(self, at):
        """None where the item would be put back, else its cause."""
        item = self.items[at]
        if item[0] == "object":
            stands = self.objects.get(item[2])
            return ("taken", stands[1]) if stands else None
        _, _, edge, source, target, _, source_birth, target_birth, _ = item
        for id, birth in ((source, source_birth), (target, target_birth)):
            if id not in self.objects or self.objects[id][1] != birth:
                return ("missing", id)
            if id in self.owner:
                return ("condemned", id, self.owner[id])
        stands = self.edges.get((edge, source, target))
        return ("key", stands[0]) if stands else None

    def carriers(self):
        """For each needed position the record that holds it: ("journal" or "vault", number)."""
        last = {}
        needed = {row[3] for row in self.objects.values()} | {row[0] for row in self.edges.values()}
        for at, item in enumerate(self.items):
            position = item[6] if item[0] == "object" else item[5]
            last[position] = at
            if not self.is_back(at) and item[1] not in self.purged:
                needed.add(position)
        place = {}
        for position in needed:
            at = last.get(position)
            if at is None:
                place[position] = ("journal", position)
            else:
                place[position] = ("journal", self.handled[at][0]) if self.is_back(at) else ("vault", at)
        return place

    def is_back(self, at):
        return at in self.handled and self.handled[at][1] is None

    # Calls. A call is (kind, ..); a refusal is (number, text).

    def ends(self, source, target, refusals):
        for number in refusals:
            for id in (source, target):
                if number == 3 and id not in self.objects:
                    return 3, f"absent {id}"
                if number == 4 and id in self.owner:
                    return 4, f"condemned {id} by {self.owner[id]}"
        return None

    def full(self, more_owed):
        used, owed = self.room()
        return (15, f"full {used} {owed}") if used + 1 + owed + more_owed > ROOM else None

    def refuses(self, moment, kind, values, size):
        """The first refusal that holds, or None."""
        if size > LIMIT:
            return 2, f"too long {size}"
        if kind == "create":
            id = values[1]
            if id in self.objects:
                return 6, f"name taken {id} birth {self.objects[id][1]}"
            return self.full(3)
        if kind == "update":
            return self.ends(values[0], values[0], (3, 4)) or self.full(0)
        if kind == "link":
            edge, source, target = values
            found = self.ends(source, target, (3, 4))
            if found:
                return found
            row = self.schema.edges[edge]
            for id, name in ((source, row[1]), (target, row[2])):
                stands = self.schema.objects[self.objects[id][0]][0]
                if stands != name:
                    return 5, f"wrong end {id} {stands}"
            if (edge, source, target) in self.edges:
                return 7, f"edge taken birth {self.edges[(edge, source, target)][0]}"
            return self.full(1)
        if kind == "unlink":
            edge, source, target, name = values
            found = self.ends(source, target, (3, 4))
            if found:
                return found
            if (edge, source, target) not in self.edges:
                return 8, "no edge"
            if self.starts_by_unlink(edge, target) and self.find(name) is not None:
                return 10, f"job taken {name}"
            return None
        if kind == "delete":
            id, name = values
            found = self.ends(id, id, (3, 4))
            if found:
                return found
            rule = self.schema.objects[self.objects[id][0]][1]
            if rule not in ("directly", "directly_only"):
                return 9, f"not direct {rule}"
            return (10, f"job taken {name}") if self.find(name) is not None else None
        return self.refuses_restore(moment, values[0])

    def refuses_restore(self, moment, name):
        job = self.find(name)
        if job is None:
            return 11, "no job"
        if self.owned(job):
            return 12, f"pending {len(self.owned(job))}"
        if job in self.restores:
            return 13, f"restored before {self.restores[job]}"
        if job in self.purged or moment > self.last[job] + self.schema.window:
            return 14, f"window over {self.last[job] + self.schema.window}"
        return self.full(sum(4 if self.items[at][0] == "object" else 2 for at in self.items_of(job)))

    def starts_by_unlink(self, edge, target):
        return self.rule(edge) == "refcount" and self.references(target) == 1

    # Steps.

    def puts(self, at):
        """The item may be put now."""
        item = self.items[at]
        if item[1] not in self.restores or at in self.handled:
            return False
        if item[0] == "object":
            return True
        ends = {(item[3], item[6]), (item[4], item[7])}
        return all(
            other in self.handled
            for other in self.items_of(item[1])
            if self.items[other][0] == "object" and (self.items[other][2], self.items[other][4]) in ends
        )

    def may_purge(self, job, moment):
        return (
            job not in self.purged and not self.owned(job) and not self.left(job)
            and moment > self.last[job] + self.schema.window
        )

    def first_step(self, moment):
        for job, _ in sorted(self.restores.items(), key=lambda row: row[1]):
            left = self.left(job)
            if left:
                return "put", job, max(left)
        for job in sorted(self.jobs):
            owned = self.owned(job)
            if owned:
                id = owned[0]
                out = sorted((edge, to, source) for edge, source, to in self.edges if source == id)
                if out:
                    return "cut", job, out[0][0], id, out[0][1]
                into = sorted((edge, source) for edge, source, to in self.edges if to == id)
                if into:
                    return "cut", job, into[0][0], into[0][1], id
                return "erase", job, id
        due = [id for id, row in self.objects.items() if 0 < row[2] <= moment and id not in self.owner]
        if due:
            return "expire", min(due)
        for job in sorted(self.jobs):
            if self.may_purge(job, moment):
                return "purge", job
        return None

    # Entries: (moment, kind, values.., size of the payload). Calls carry (seat, count) behind the kind.

    def is_legal(self, entry, size):
        moment, kind = entry[0], entry[1]
        if moment < self.moment or moment > GREATEST:
            return False
        if kind in ("create", "update", "link", "unlink", "delete", "restore"):
            seat, count = entry[2]
            values = list(entry[3:])
            if seat > 64 * (self.length + 1) or count != self.seats.get(seat, 0):
                return False
            if kind == "create" and values[0] >= len(self.schema.objects):
                return False
            if kind in ("link", "unlink") and values[0] >= len(self.schema.edges):
                return False
            if kind == "restore":
                job = values[0]
                if job not in self.jobs:
                    return False
                name, root = self.jobs[job]
                if self.find(name) != job:
                    return False
                values = [name]
            return self.refuses(moment, kind, values, size) is None
        if kind == "expire":
            row = self.objects.get(entry[2])
            return row is not None and 0 < row[2] <= moment and entry[2] not in self.owner
        if kind == "cut":
            job, key = entry[2], tuple(entry[3:6])
            return key in self.edges and job in self.jobs and job in (self.owner.get(key[1]), self.owner.get(key[2]))
        if kind == "erase":
            job, id = entry[2], entry[3]
            return id in self.owner and self.owner[id] == job and not any(id in key[1:] for key in self.edges)
        if kind == "put":
            job, at = entry[2], entry[3]
            if at >= len(self.items) or self.items[at][1] != job or not self.puts(at):
                return False
            return size == (self.items[at][-1] if self.judge(at) is None else 0)
        return entry[2] in self.jobs and self.may_purge(entry[2], moment)

    def take(self, entry, size):
        """Takes a legal entry."""
        moment, kind = entry[0], entry[1]
        position = self.length
        values = entry[2:]
        if kind in ("create", "update", "link", "unlink", "delete", "restore"):
            seat = entry[2][0]
            self.seats[seat] = self.seats.get(seat, 0) + 1
            values = entry[3:]
        if kind == "create":
            _, rule, seconds, _ = self.schema.objects[values[0]]
            due = moment + seconds if rule == "short_ttl" else 0
            self.objects[values[1]] = (values[0], position, due, position, size)
        elif kind == "update":
            row = self.objects[values[0]]
            self.objects[values[0]] = (row[0], row[1], row[2], position, size)
        elif kind == "link":
            self.edges[tuple(values)] = (position, size)
        elif kind == "unlink":
            edge, source, target, name = values
            starts = self.starts_by_unlink(edge, target)
            del self.edges[(edge, source, target)]
            if starts:
                self.start(position, name, target)
        elif kind == "delete":
            self.start(position, values[1], values[0])
        elif kind == "restore":
            self.restores[values[0]] = position
        elif kind == "expire":
            self.start(position, ("expiry", values[0]), values[0])
        elif kind == "cut":
            job, edge, source, target = values
            births = self.objects[source][1], self.objects[target][1]
            birth, bytes_ = self.edges.pop((edge, source, target))
            self.items.append(("edge", job, edge, source, target, birth, *births, bytes_))
            self.last[job] = moment
            takes = self.rule(edge) == "deep" or (self.rule(edge) == "refcount" and not self.references(target))
            if takes and source in self.owner and target not in self.owner:
                self.owner[target] = self.owner[source]
        elif kind == "erase":
            job, id = values
            row = self.objects.pop(id)
            del self.owner[id]
            self.items.append(("object", job, id, *row))
            self.last[job] = moment
        elif kind == "put":
            self.put(position, values[1])
        else:
            self.purged.add(values[0])
        self.length += 1
        self.moment = moment

    def start(self, position, name, root):
        self.jobs[position] = (name, root)
        self.owner[root] = position

    def put(self, position, at):
        cause = self.judge(at)
        item = self.items[at]
        if cause is None and item[0] == "object":
            self.objects[item[2]] = item[3:8]
        elif cause is None:
            self.edges[item[2:5]] = (item[5], item[8])
        self.handled[at] = (position, cause)


# ---- lines

def quoted(payload):
    text = ""
    for byte in payload:
        if byte in b'"\\':
            text += "\\" + chr(byte)
        elif 0x20 <= byte <= 0x7E:
            text += chr(byte)
        else:
            text += f"\\x{byte:02x}"
    return f'"{text}"'


def job_name(form, values):
    """The job that a command names, if it names one."""
    return ("expiry", values[0]) if "expiry" in form else values[0] if values else None


def name_of(name):
    return f"expiry {name[1]}" if isinstance(name, tuple) else str(name)


def job_line(state, job):
    name, root = state.jobs[job]
    items = state.items_of(job)
    owned, left = state.owned(job), state.left(job)
    if job in state.purged:
        text = "purged"
    elif owned:
        text = f"pending {len(owned)}"
    elif left:
        text = f"restoring {len(left)}"
    elif job in state.restores:
        listed = sum(1 for at in items if state.handled[at][1] is not None)
        text = f"restored put {len(items) - listed} listed {listed}"
    else:
        erased = sum(1 for at in items if state.items[at][0] == "object")
        text = f"done erased {erased} cut {len(items) - erased}"
    return f"job {name_of(name)} start {job} root {root} {text}"


def listed_lines(state, job):
    lines = []
    for at in sorted(state.items_of(job), reverse=True):
        cause = state.handled.get(at, (0, None))[1]
        if cause is None:
            continue
        item = state.items[at]
        what = f"object {item[2]}" if item[0] == "object" else f"edge {state.schema.edges[item[2]][0]} {item[3]} {item[4]}"
        text = {
            "taken": "taken birth {}", "missing": "missing {}", "condemned": "condemned {} by {}", "key": "key taken birth {}",
        }[cause[0]].format(*cause[1:])
        lines.append(f"listed {at} {what} {text}")
    return lines


def report_line(state):
    jobs = []
    for job in sorted(state.jobs):
        name, root = state.jobs[job]
        items = state.items_of(job)
        erased = sum(1 for at in items if state.items[at][0] == "object")
        word = job_line(state, job).split(f" root {root} ")[1].split()[0]
        jobs.append(
            {"cut": len(items) - erased, "erased": erased, "name": name_of(name), "root": root, "start": job, "state": word}
        )
    whole = {"edges": len(state.edges), "history": state.length, "jobs": jobs, "objects": len(state.objects)}
    return json.dumps(whole, separators=(",", ":"))


def object_line(state, id, payload):
    kind, birth = state.objects[id][:2]
    line = f"object {id} {state.schema.objects[kind][0]} birth {birth} {quoted(payload)}"
    return line + (f" owner {state.owner[id]}" if id in state.owner else "")


# ---- a serial run over two files that lose nothing

class Run:
    """Makes commands on a store (an object with the disk calls of store.Disk) and keeps the lines."""

    def __init__(self, schema, disk, moment):
        self.schema, self.disk, self.moment = schema, disk, moment
        self.lines = []
        self.down = False
        self.state = None
        self.bad = None

    def open(self):
        self.state = self.disk.open(self.schema)

    def now(self):
        return max(self.state.moment, min(self.moment, GREATEST))

    def say(self, line):
        self.lines.append(line)

    def read(self, id):
        """The line of a question."""
        state = self.state
        if id not in state.objects:
            return f"at {state.length} absent {id}"
        return f"at {state.length} {object_line(state, id, self.disk.payload(state, state.objects[id][3]))}"

    def refused(self, kind, values, payload):
        """The line of a call that is refused now, or None."""
        refusal = self.state.refuses(self.now(), kind, values, len(payload))
        return f"refused {refusal[0]} at {self.state.length} {refusal[1]}" if refusal else None

    def entry_of(self, seat, kind, values):
        """The entry of a call that is accepted now."""
        state = self.state
        entry_values = [state.find(values[0])] if kind == "restore" else values
        return (self.now(), kind, (seat, state.seats.get(seat, 0)), *entry_values)

    def call(self, kind, values, payload, line):
        state = self.state
        if self.down:
            return self.say(f"refused 1 at {state.length} down")
        refused = self.refused(kind, values, payload)
        if refused:
            return self.say(refused)
        entry = self.entry_of(0, kind, values)
        text = line(state)
        position = state.length
        try:
            self.disk.add(state, entry, payload)
        except Stop:
            self.down = True
            return self.say(f"down at {position}")
        self.say(f"{position} {text}")

    def work(self, most):
        if self.down:
            return self.say(f"refused 1 at {self.state.length} down")
        for made in range(most):
            state = self.state
            step = state.first_step(self.now())
            if step is None:
                return self.say(f"work {made} idle")
            at = state.length
            if step[0] == "put" and state.judge(step[2]) is None and self.disk.is_damaged(step[2]):
                return self.say(f"work {made} damaged {step[2]}")
            try:
                self.disk.add(state, (self.now(), *step), None)
            except Stop:
                self.down = True
                return self.say(f"work {made} down at {at}")
        return self.say(f"work {most}")

    def call_of(self, command):
        """What `call` takes of a command, where it is a call."""
        word, form, values = command
        if word == "create":
            payload = values[2] if len(values) > 2 else b""
            return word, [self.schema.kind(values[1]), values[0]], payload, lambda s: f"created {values[0]}"
        if word == "update":
            return word, values[:1], values[1], lambda s: f"updated {values[0]}"
        if word == "link":
            payload = values[3] if len(values) > 3 else b""
            numbers = [self.schema.edge(values[0]), *values[1:3]]
            return word, numbers, payload, lambda s: "linked {} {} {}".format(*values[:3])
        if word == "unlink":
            numbers = [self.schema.edge(values[0]), *values[1:]]

            def unlinked(before):
                text = "unlinked {} {} {}".format(*values[:3])
                return text + (f" deleting {values[2]} job {values[3]}" if before.starts_by_unlink(numbers[0], numbers[2]) else "")

            return word, numbers, b"", unlinked
        if word == "delete":
            return word, values, b"", lambda s: "deleting {} job {}".format(*values)
        if word == "restore":
            name = job_name(form, values)
            return word, [name], b"", lambda s: f"restoring {name_of(name)} items {len(s.items_of(s.find(name)))}"
        return None

    def make(self, command):
        word, form, values = command
        if word == "par":
            raise NotImplementedError("what a block leads to depends on its threads")
        call = self.call_of(command)
        if call is not None:
            return self.call(*call)
        state = self.state
        name = job_name(form, values)
        if word == "work":
            return self.work(values[0])
        if word == "tick":
            self.moment = min(GREATEST, self.moment + values[0])
        elif word == "fail":
            self.disk.fail_after(values[0])
        elif word == "crash":
            self.disk.fail_after(None)
            self.down = False
            self.open()
            self.say(f"opened {self.state.length}")
        elif word == "job":
            job = state.find(name)
            self.lines += [f"no job {name_of(name)}"] if job is None else [job_line(state, job), *listed_lines(state, job)]
        elif word == "jobs":
            self.lines += [f"jobs {len(state.jobs)}", *(job_line(state, job) for job in sorted(state.jobs))]
        elif self.down:
            self.say(f"refused 1 at {state.length} down")
        elif word == "get":
            self.say(self.read(values[0]))
        elif word == "show":
            self.say(f"graph {len(state.objects)} {len(state.edges)}")
            for id in sorted(state.objects):
                self.say(object_line(state, id, self.disk.payload(state, state.objects[id][3])))
            for edge, source, target in sorted(state.edges):
                birth = state.edges[(edge, source, target)][0]
                payload = quoted(self.disk.payload(state, birth))
                self.say(f"edge {self.schema.edges[edge][0]} {source} {target} birth {birth} {payload}")
        elif word == "report":
            self.disk.settle()
            self.say(report_line(state))


if __name__ == "__main__":
    import store

    with open(sys.argv[1], "rb") as file:
        document = file.read()
    try:
        schema, commands = read_document(document)
    except Fault as fault:
        print("line {}: {}".format(*fault.args))
        sys.exit(2)
    run = Run(schema, store.Disk(b"", b""), int(sys.argv[2]) if len(sys.argv) > 2 else 0)
    run.open()
    for command in commands:
        run.make(command)
    print("\n".join(run.lines))
