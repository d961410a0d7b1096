"""one_failing_call.py DELF: over an id that was taken again, each disk call of the script fails in turn, and the text is the serial meaning.

Run it as `python3 checks/one_failing_call.py crates/delf/out/delf`. A deletion, a new object with the freed id and a restore are
made with one failing call, the first, the second, and so on until it no longer bites. The text is compared with the small
model, line by line up to the fault and behind it; then `crash`, and the store opens to what the text said.
"""
import store
from program import EVERY_KIND, SCHEMA, agrees, empty, end, ok, run, wrong

SCRIPTS = {
    "an impostor": b"""create 1 user "a"
create 2 photo "b"
link owns 1 2
delete 1 job 40
work 10
show
create 2 photo "n"
restore 40
work 10
job 40
""",
    "all kinds of entry": EVERY_KIND,
}


def calls_until_its_end(document):
    """The number of the disk calls that the model makes."""
    schema, commands = store.read_document(document)
    made = store.Run(schema, store.Disk(b"", b""), 0)
    made.open()
    for command in commands:
        made.make(command)
    return made.disk.calls


for name, script in SCRIPTS.items():
    document = SCHEMA + script + b"show\n"
    wanted = store.expects(document)
    if run(empty(), document) != wanted[:2]:
        wrong(name, run(empty(), document), wanted[:2])
    calls = calls_until_its_end(document)
    for n in range(1, calls + 1):
        # The status 6 and the text; then what the areas hold, both in the same run and in the next one.
        agrees(f"{name}, fail {n}", SCHEMA + b"fail %d\n" % n + script + b"show\n")
        areas = agrees(f"{name}, fail {n}, crash", SCHEMA + b"fail %d\n" % n + script + b"crash 0\njobs\nshow\nwork 100\njobs\nshow\n")
        agrees(f"{name}, fail {n}, the next run", SCHEMA + b"jobs\nwork 1000\nshow\n", *areas)
    ok(f"{name}: each of {calls} disk calls failed in turn")
    # Behind them come the reads of `show` and the last settling, then nothing.
    lines = wanted[0].splitlines()
    shown = next(at for at in range(len(lines) - 1, 0, -1) if lines[at].startswith("graph"))
    down = f"down at {store.read_store(store.read_document(document)[0], *wanted[2])[0].length}"
    last = None
    for n in range(calls + 1, calls + 60):
        text, status = run(empty(), SCHEMA + b"fail %d\n" % n + script + b"show\n")
        if (text.splitlines(), status) == (lines[:shown] + [down], 6):
            place = "show"
        elif (text.splitlines(), status) == (lines + [down], 6):
            place = "settle"
        elif (text, status) == wanted[:2]:
            place = "none"
        else:
            wrong(f"{name}, fail {n}", (text, status), "a fault in show or in the settling")
            continue
        order = ["show", "settle", "none"]
        if last is not None and order.index(place) < order.index(last):
            wrong(f"{name}, fail {n}", place, f"not before {last}")
        if place != last:
            ok(f"{name}: from call {n} on it is in {place}")
        last = place
        if place == "none":
            break
end()
