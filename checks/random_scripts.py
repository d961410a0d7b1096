"""random_scripts.py DELF [ROUNDS] [SEED]: random scripts in several runs over one store, with faults, crashes and clocks that jump, against the small model.

Run it as `python3 checks/random_scripts.py crates/delf/out/delf 300`. Each round has a random schema and some runs; text, status and,
after status 0, every byte of both areas are compared, and after status 6 every byte too.
"""
import random
import sys

import store
from meaning import GREATEST, Fault
from program import empty, end, ok, run, wrong

ROUNDS = int(sys.argv[2]) if len(sys.argv) > 2 else 200
SEED = int(sys.argv[3]) if len(sys.argv) > 3 else 1


def schema_of(dice):
    """A checked schema: some types, and edges between any two of them."""
    while True:
        rules = [dice.choice(["directly", "directly_only", "by_any", "by_any", "short_ttl %d" % dice.randint(1, 30),
                              "not_deleted", "directly"]) for _ in range(64 if dice.random() < 0.05 else dice.randint(1, 5))]
        lines = ["object t%d %s" % row for row in enumerate(rules)]
        for edge in range(256 if dice.random() < 0.1 else dice.randint(1, 8)):
            lines.append("edge e%d t%d t%d %s" % (edge, dice.randrange(len(rules)), dice.randrange(len(rules)),
                                                   dice.choice(["deep", "deep", "shallow", "refcount", "refcount"])))
        text = "schema 1\nwindow %d\n%s\nscript\n" % (dice.choice([0, 5, 40, 1000]), "\n".join(lines))
        try:
            schema, _ = store.read_document(text.encode())
        except Fault:
            continue
        return text, schema


def changed_in(dice, text):
    """The same schema with a line more or less, or two lines swapped, where that is a checked one."""
    lines = text.splitlines()
    for _ in range(50):
        new = list(lines)
        at, other = (dice.randrange(2, len(lines) - 1) for _ in range(2))
        how = dice.randrange(3)
        if how == 0:
            del new[at]
        elif how == 1:
            new.insert(at, "object n%d directly" % dice.randrange(99))
        else:
            new[at], new[other] = new[other], new[at]
        try:
            schema, _ = store.read_document(("\n".join(new) + "\n").encode())
        except Fault:
            continue
        if schema.objects and schema.edges:
            return "\n".join(new) + "\n", schema
    return text, store.read_document(text.encode())[0]


def payload_of(dice):
    if dice.random() < 0.5:
        return ""
    size = dice.choice([0, 1, 3, 20, 512, 513])
    return ' "%s"' % "".join(dice.choice(["a", "\\x00", "\\xfF", '\\"', "\\\\", "z", " "]) for _ in range(size))


def script_of(dice, schema, length, names):
    """Some commands. The names of jobs are mostly new ones, and mostly those that a job may have are restored."""
    types, edges = len(schema.objects), len(schema.edges)
    ids = 700 if dice.random() < 0.02 else dice.choice([4, 8, 12])
    scale = dice.choice([1, 1, 1, 64, 257, GREATEST // ids])
    lines = []
    roots = [one for one in range(1, ids + 1) if schema.objects[one % types][1].startswith("directly")] or [1]

    def new_name():
        if not names or dice.random() < 0.85:
            names.append(len(names) + 1)
        return dice.choice(names[-2:])

    # A large graph begins with its objects, in no order.
    if ids > 12:
        for one in dice.sample(range(1, ids + 1), ids):
            lines.append("create %d %s" % (one * scale, schema.objects[one % types][0]))
        length *= 5

    for _ in range(length):
        id = lambda: dice.randint(1, ids)
        job = lambda: dice.choice(names[-4:] or [1])
        edge = dice.randrange(edges)
        # Mostly ends of the right types: an id has its type by its number.
        ends = [id(), id()]
        if dice.random() < 0.8:
            kinds = [schema.kind(schema.edges[edge][side]) for side in (1, 2)]
            ends = [dice.choice([one for one in range(1, ids + 1) if one % types == kind] or [id()]) for kind in kinds]
        kind = dice.choices(
            ["create", "update", "link", "unlink", "delete", "restore", "expiry", "work", "tick", "get", "show", "job", "jobs", "fail", "crash", "report"],
            [20, 4, 20, 4, 6, 6, 2, 12, 2, 1, 1, 3, 1, 0.5, 0.5, 0.5],
        )[0]
        one = id()
        lines.append({
            "create": "create %d %s%s" % (one * scale, schema.objects[one % types if dice.random() < 0.9 else dice.randrange(types)][0], payload_of(dice)),
            "update": "update %d%s" % (one * scale, payload_of(dice) or ' ""'),
            "link": "link %s %d %d%s" % (schema.edges[edge][0], *(end * scale for end in ends), payload_of(dice)),
            "unlink": "unlink %s %d %d job %d" % (schema.edges[edge][0], *(end * scale for end in ends), new_name()) if kind == "unlink" else "",
            "delete": "delete %d job %d" % ((dice.choice(roots) if dice.random() < 0.9 else one) * scale, new_name()) if kind == "delete" else "",
            "restore": "restore %d" % job(),
            "expiry": dice.choice(["restore", "job"]) + " expiry %d" % (one * scale),
            "work": "work %d" % dice.choice([1, 2, 3, 5, 100]),
            "tick": "tick %d" % dice.choice([1, 1, 3, 10, 50, 2000]),
            "get": "get %d" % (one * scale),
            "show": "show",
            "job": "job %d" % job(),
            "jobs": "jobs",
            "fail": "fail %d" % dice.randint(1, 40),
            "crash": "crash %d" % dice.randrange(2**64),
            "report": "report",
        }[kind])
    return lines


def made(document, areas, moment):
    """As store.expects, and the areas also after status 6. None where a fault came into a command whose disk calls no page counts."""
    schema, commands = store.read_document(document)
    meaning = store.Run(schema, store.Disk(*areas), moment)
    try:
        meaning.open()
    except store.Bad as bad:
        return "bad store {} at {}\n".format(*bad.args), 7, areas
    for command in commands:
        if command[0] in ("show", "get", "report") and meaning.disk.left is not None:
            return None
        meaning.make(command)
    if meaning.disk.left is not None:
        return None
    if not meaning.down:
        meaning.disk.settle()
    text = "".join(line + "\n" for line in meaning.lines)
    return text, 6 if meaning.down else 0, tuple(bytes(meaning.disk.data[area]) for area in ("journal", "vault"))


runs = skipped = 0
for round_ in range(ROUNDS):
    dice = random.Random(SEED * 1_000_003 + round_)
    text, schema = schema_of(dice)
    areas = b"", b""
    moment = dice.randint(0, 50)
    names = []
    for _ in range(dice.randint(1, 4)):
        # Now and then a run reads the store under another schema.
        if areas[0] and dice.random() < 0.15:
            text, schema = schema_of(dice) if dice.random() < 0.5 else changed_in(dice, text)
        for attempt in range(20):
            document = (text + "\n".join(script_of(dice, schema, dice.choice([5, 30, 80, 200]), names)) + "\n").encode()
            wanted = made(document, areas, moment)
            if wanted is not None:
                break
        else:
            skipped += 1
            break
        folder = empty()
        if areas[0]:
            store.save(folder, *areas)
        came = (*run(folder, document, ("run", "--at", str(moment))), store.load(folder))
        runs += 1
        if came != wanted:
            lines = zip(came[0].splitlines() + ["-"], wanted[0].splitlines() + ["-"])
            differs = next((pair for pair in lines if pair[0] != pair[1]), None)
            path = f"/tmp/deviation-{SEED}-{round_}"
            with open(path, "wb") as file:
                file.write(document)
            wrong(f"round {round_}, at {moment}, the document in {path}", (differs, came[1], came[2] == wanted[2]), wanted[1])
            break
        areas = wanted[2]
        moment = max(0, moment + dice.choice([0, 1, 10, 100, -5, -1000]))
ok(f"{runs} runs in {ROUNDS} rounds, {skipped} left out")
end()
