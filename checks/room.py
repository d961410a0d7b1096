"""room.py DELF: a store that is full to its last entry refuses what would add, and still deletes, works, purges and opens.

Run it as `python3 checks/room.py crates/delf/out/delf`. It makes all 500,000 entries of a store, in some ten seconds and 60 MB.
"""
import store
from program import SCHEMA, empty, end, ok, run, wrong

folder = empty()


def has(case, script, lines):
    """A run over the store prints these lines; a line with a number before it stands so many times, counted up."""
    text, status = run(folder, SCHEMA + script, seconds=300)
    if (text, status) != ("".join(line + "\n" for line in lines), 0):
        came = text.splitlines()
        at = next((at for at, pair in enumerate(zip(came, lines)) if pair[0] != pair[1]), min(len(came), len(lines)))
        wrong(f"{case}, line {at + 1}", (came[at : at + 2], len(came), status), (lines[at : at + 2], len(lines)))
        return
    ok(f"{case}: {lines[-1]}")


N = 125_000
each = range(1, N + 1)
has("creates to the last", b"".join(b"create %d user\n" % id for id in each) + b"create %d user\nupdate 1 \"u\"\nlink likes 1 2\nget 1\n" % (N + 1),
    [f"{id - 1} created {id}" for id in each] + [f"refused 15 at {N} full {N} {3 * N}"] * 2 + [f"refused 5 at {N} wrong end 2 user", f'at {N} object 1 user birth 0 ""'])
has("deletes", b"".join(b"delete %d job %d\n" % (id, id) for id in each) + b"create %d user\n" % (N + 1),
    [f"{N + id - 1} deleting {id} job {id}" for id in each] + [f"refused 15 at {2 * N} full {2 * N} {2 * N}"])
has("steps", b"work 1000000\nrestore 1\ncreate 1 user\nwork 9\n",
    [f"work {N} idle", f"refused 15 at {3 * N} full {3 * N} {N}", f"refused 15 at {3 * N} full {3 * N} {N}", "work 0 idle"])
has("the last purge leaves nothing", b"tick 101\nwork 1000000\ncreate 1 user\nrestore 1\nwork 9\nshow\n",
    [f"work {N} idle", f"refused 15 at {4 * N} full {4 * N} 0", f"refused 14 at {4 * N} window over 100", "work 0 idle", "graph 0 0"])
has("a full store opens", b"crash 0\njob %d\ncreate 1 user\n" % N,
    [f"opened {4 * N}", f"job {N} start {2 * N - 1} root {N} purged", f"refused 15 at {4 * N} full {4 * N} 0"])
journal, vault = store.load(folder)
# A create, a delete, an erase and a purge have 33, 36, 28 and 20 bytes, a logged object 69.
if (len(journal), len(vault)) != (9 + N * 117, 9 + N * 69):
    wrong("its areas", (len(journal), len(vault)), (9 + N * 117, 9 + N * 69))

# One row short of full: each kind of call that would pass the end is refused, and what stays below it is not.
folder = empty()
has("calls near the end", b"".join(b"create %d user\n" % id for id in range(1, N - 1)) + b"""create %d photo
link likes 1 %d
update 1 "u"
update 1 "v"
update 1 "w"
link likes 2 %d
delete 1 job 1
work 9
restore 1
update 2 "z"
""" % (N - 1, N - 1, N - 1),
    [f"{id - 1} created {id}" for id in range(1, N - 1)] + [f"{N - 2} created {N - 1}", f"{N - 1} linked likes 1 {N - 1}", f"{N} updated 1", f"{N + 1} updated 1",
     f"refused 15 at {N + 2} full {N + 2} {3 * (N - 1) + 1}",
     f"refused 15 at {N + 2} full {N + 2} {3 * (N - 1) + 1}", f"{N + 2} deleting 1 job 1", "work 2 idle",
     f"refused 15 at {N + 5} full {N + 5} {3 * (N - 2) + 1}", f"refused 15 at {N + 5} full {N + 5} {3 * (N - 2) + 1}"])
end()
