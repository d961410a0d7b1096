"""loads.py DELF [full]: `load N` makes the script of docs/LANGUAGE.md: its line, and the rows, jobs and length of the store, over an empty store and again over its own.

Its lanes run on threads, in any order, so that births and places in the files differ from run to run: the store is read back and compared by ids, keys and names.

Run it as `python3 checks/loads.py crates/delf/out/delf`. With `full` come N of up to 20,000, whose lines alone are compared.
"""
import sys

import store
from program import empty, end, ok, run, wrong

SCHEMA = b"""schema 1
window 100
object user directly
object photo by_any
edge owns user photo deep
edge likes user photo shallow
edge holds user photo refcount
edge next photo photo shallow
script
"""


def script_of(n):
    lines = []
    groups = n // 4
    for g in sorted(range(groups), key=lambda g: (g % 8, g)):
        u = 4 * g + 1
        photos = [u + 1, u + 2, u + 3]
        lines += [f'create {u} user "u"'] + [f'create {p} photo "p"' for p in photos]
        lines += [f"link {edge} {u} {p}" for p in photos for edge in ("owns", "likes", "holds")]
        lines += [f"link next {a} {b}" for a, b in ((u + 1, u + 2), (u + 2, u + 3), (u + 3, u + 1))]
        lines += [f"delete {u} job {g + 1}"] if g % 2 == 0 else []
    lines += ["work 1000000"] + [f"restore {g + 1}" for g in range(0, groups, 8)] + ["work 1000000"]
    return "\n".join(lines).encode() + b"\n"


def line_of(n, state):
    restored = sum(1 for job in state.jobs if job in state.restores and not state.left(job) and not state.owned(job) and job not in state.purged)
    return f"load {n} objects {len(state.objects)} edges {len(state.edges)} history {state.length} jobs {len(state.jobs)} restored {restored}\n"


def held(state):
    return set(state.objects), set(state.edges), sorted(state.jobs.values())


def agrees(n, folder):
    before = store.load(folder)
    came = run(folder, b"not a document", ["load", str(n)])
    after = store.load(folder)
    schema, _ = store.read_document(SCHEMA)
    # The moment is the clock's: that of the last entry that this load made.
    state, _ = store.read_store(schema, *after)
    wanted = store.expects(SCHEMA + script_of(n), *before, state.moment)
    serial, _ = store.read_store(schema, *wanted[2])
    if came != (line_of(n, state), 0) or came[0] != line_of(n, serial) or held(state) != held(serial):
        wrong(f"load {n}", (came, held(state)), (line_of(n, serial), held(serial)))


for n in (8, 9, 10, 11, 12, 15, 16, 31, 32, 33, 64, 100):
    folder = empty()
    agrees(n, folder)
    if n < 40:
        agrees(n, folder)
        agrees(n + 8, folder)
ok("small loads, once, again, and a larger one behind them")

for n in (2000, 20000) if "full" in sys.argv else (2000,):
    groups = n // 4
    even, eighth = (groups + 1) // 2, (groups + 7) // 8
    kept = groups - even + eighth
    line = f"load {n} objects {4 * kept} edges {12 * kept} history {16 * groups + 17 * even + 17 * eighth} jobs {even} restored {eighth}\n"
    came = run(empty(), b"", ["load", str(n)], seconds=300)
    if came != (line, 0):
        wrong(f"load {n}", came, line)
    ok(line[:-1])
end()
