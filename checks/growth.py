"""growth.py DELF [full] [NAME..]: deletions, restores and openings of large graphs take time that grows with their size, not with its square.

Run it as `python3 checks/growth.py crates/delf/out/delf`. Each graph is made, deleted, restored and opened again at one size and at
twice that size; the processor time of each run may at most treble. With `full` the larger one has 100,000 edges or 40,000 photos. The store
is in memory where /dev/shm is there; else the syncs are shut off by a library that is compiled into a temporary folder.
"""
import os
import subprocess
import sys

from program import FOLDER, empty, end, ok, processor_time, run, wrong

SIZE = 100_000 if "full" in sys.argv else 20_000
KINDS = [b"r%d" % i for i in range(10)]
HEAD = b"schema 1\nwindow 100\nobject node directly\nobject photo by_any\nobject session short_ttl 60\nedge owns node photo deep\n"
HEAD += b"".join(b"edge %s node node refcount\n" % kind for kind in KINDS) + b"script\n"
WORK = b"work 1000000\n"
environment = dict(os.environ)
if not FOLDER.startswith("/dev/shm"):
    source = os.path.join(FOLDER, "nosync.c")
    with open(source, "w") as file:
        file.write("int fsync(int d) { return 0; }\nint fdatasync(int d) { return 0; }\n")
    subprocess.run(["cc", "-shared", "-fPIC", "-o", source[:-2] + ".so", source], check=True)
    environment["LD_PRELOAD"] = source[:-2] + ".so"


def nodes(ids):
    return b"".join(b"create %d node\n" % id for id in ids)


def links(kind, pairs):
    return b"".join(b"link %s %d %d\n" % (kind, *pair) for pair in pairs)


def star(n):
    leaves = range(2, n // 10 + 2)
    make = nodes([1, *leaves]) + b"".join(links(kind, ((1, leaf) for leaf in leaves)) for kind in KINDS)
    rows = len(leaves) + 1 + 10 * len(leaves)
    return [
        ("make", make, [f"{rows - 1} linked r9 1 {leaves[-1]}"]), ("delete", b"delete 1 job 1\n" + WORK, [f"work {rows} idle"]),
        ("restore", b"restore 1\n" + WORK, [f"work {rows} idle"]), ("open", b"job 1\n", [f"job 1 start {rows} root 1 restored put {rows} listed 0"]),
    ]


def pointed_at(n):
    leaves = range(2, n // 10 + 2)
    make = nodes([1, *leaves]) + b"".join(links(kind, ((leaf, 1) for leaf in leaves)) for kind in KINDS)
    cuts = 10 * len(leaves)
    return [
        ("make", make, [f"{len(leaves) + cuts} linked r9 {leaves[-1]} 1"]), ("delete", b"delete 1 job 1\n" + WORK, [f"work {cuts + 1} idle"]),
        ("restore", b"restore 1\n" + WORK, [f"work {cuts + 1} idle"]),
        ("open", b"job 1\n", [f"job 1 start {len(leaves) + 1 + cuts} root 1 restored put {cuts + 1} listed 0"]),
    ]


def chain(n):
    ids = range(1, n // 10 + 2)
    make = nodes(ids) + b"".join(links(kind, zip(ids, ids[1:])) for kind in KINDS)
    rows = len(ids) + 10 * (len(ids) - 1)
    return [
        ("make", make, [f"{rows - 1} linked r9 {ids[-2]} {ids[-1]}"]), ("delete", b"delete 1 job 1\n" + WORK, [f"work {rows} idle"]),
        ("restore", b"restore 1\n" + WORK, [f"work {rows} idle"]), ("open", b"job 1\n", [f"job 1 start {rows} root 1 restored put {rows} listed 0"]),
    ]


def clique(n):
    ids = range(1, round(n**0.5) + 2)
    make = nodes(ids) + links(b"r0", ((a, b) for a in ids for b in ids if a != b))
    edges = len(ids) * (len(ids) - 1)
    deletes = b"".join(b"delete %d job %d\n" % (id, id) for id in ids)
    # The last one but for its owner takes no other along: each job erases its own root.
    return [
        ("make", make, [f"{len(ids) + edges - 1} linked r0 {ids[-1]} {ids[-2]}"]), ("delete", deletes + WORK, [f"work {len(ids) + edges} idle"]),
        ("restore", b"".join(b"restore %d\n" % id for id in reversed(ids)) + WORK + b"report\n", ["work "]), ("open", b"jobs\n", [f"jobs {len(ids)}"]),
    ]


def photos(n):
    n = n * 2 // 5
    make = b"create 1 node\n" + b"".join(b'create %d photo "p"\nlink owns 1 %d "l"\n' % (id, id) for id in range(2, n + 2))
    rows = 2 * n + 1
    return [
        ("make", make, [f"{rows - 1} linked owns 1 {n + 1}"]), ("delete", b"delete 1 job 1\n" + WORK, [f"work {rows} idle"]),
        ("restore", b"restore 1\n" + WORK, [f"work {rows} idle"]), ("open", b"job 1\n", [f"job 1 start {rows} root 1 restored put {rows} listed 0"]),
        ("show", b"show\n", [f"graph {n + 1} {n}"]),
    ]


def impostors(n):
    n = n // 4
    ids = range(2, n + 2)
    make = b"create 1 node\n" + b"".join(b'create %d photo "p"\nlink owns 1 %d\n' % (id, id) for id in ids)
    rows = 2 * n + 1
    again = b"".join(b"create %d photo\n" % id for id in ids)
    return [
        ("make and delete", make + b"delete 1 job 1\n" + WORK, [f"work {rows} idle"]), ("take each id", again, [f"{2 * rows + n} created {n + 1}"]),
        ("restore", b"restore 1\n" + WORK, [f"work {rows} idle"]), ("job", b"job 1\n" * 4, [f"job 1 start {rows} root 1 restored put 1 listed {2 * n}"]),
    ]


def jobs(n):
    n = n // 2
    ids = range(1, n + 1)
    return [
        ("make", nodes(ids), [f"{n - 1} created {n}"]), ("delete", b"".join(b"delete %d job %d\n" % (id, id) for id in ids) + WORK, [f"work {n} idle"]),
        ("jobs", b"jobs\n", [f"jobs {n}"]), ("a job each", b"".join(b"job %d\n" % id for id in ids), ["job "]),
        ("restore half", b"".join(b"restore %d\n" % id for id in ids[: n // 2]) + WORK, [f"work {n // 2} idle"]), ("purge", b"tick 101\n" + WORK, [f"work {n} idle"]),
        ("open", b"get 1\n", [f'at {5 * n} object 1 node birth 0 ""']),
    ]


def expiries(n):
    n = n // 2
    make = b"".join(b"create %d session\ntick 1\n" % (id * 7919 % 1_000_003) for id in range(1, n + 1))
    return [
        ("make", make, [f"{n - 1} created "]), ("expire", b"tick %d\n" % (n + 60) + WORK, [f"work {2 * n} idle"]),
        ("purge", b"tick %d\n" % (n + 200) + WORK, [f"work {n} idle"]), ("open", b"show\n", ["graph 0 0"]),
    ]


def updates(n):
    make = b"create 1 node\n" + b'update 1 "%s"\n' % (b"u" * 100) * n
    return [("update", make, [f"{n} updated 1"]), ("open", b"get 1\n", [f"at {n + 1} object 1 node birth 0 "])]


def one_id(n):
    n = n // 4
    make = b"".join(b'create 1 node "x"\nlink r0 1 1\ndelete 1 job %d\nwork 9\n' % i for i in range(n))
    back = b"".join(b"restore %d\nwork 2\ndelete 1 job %d\nwork 9\n" % (i, n + i) for i in range(0, n, 8))
    return [
        ("make and delete", make, ["work 2 idle"]), ("restore and delete", back, ["work 2 idle"]), ("open", b"show\n", ["graph 0 0"]),
    ]


def scattered(n):
    """A star whose leaves come in no order, and go by steps of one command each."""
    n = n * 3 // 8
    leaves = [2 + at * 7919 % n for at in range(n)] if n % 7919 else list(range(n + 1, 1, -1))
    make = nodes([n + 2]) + nodes(leaves) + links(b"r0", ((n + 2, leaf) for leaf in leaves)) + links(b"r1", ((leaf, n + 2) for leaf in leaves[: n // 2]))
    rows = 2 * n + n // 2 + 1
    return [
        ("make", make, [f"{rows - 1} linked r1 "]), ("update", b"".join(b'update %d "u"\n' % leaf for leaf in leaves[::2]), [f"{rows - 1 + (n + 1) // 2} updated "]),
        ("delete", b"delete %d job 1\n" % (n + 2) + b"work 1\n" * rows, ["work 1"]), ("restore", b"restore 1\n" + b"work 1\n" * rows + b"work 1\n", ["work 1", "work 0 idle"]),
        ("get", b"".join(b"get %d\n" % leaf for leaf in leaves), ["at "]),
    ]


def unlinks(n):
    """Each edge into a hub is taken away; the last one starts a job."""
    n = n // 2
    ids = range(2, n + 2)
    make = nodes([1, *ids]) + links(b"r0", ((id, 1) for id in ids))
    return [
        ("make", make, [f"{2 * n} linked r0 {n + 1} 1"]), ("unlink", b"".join(b"unlink r0 %d 1 job 7\n" % id for id in ids) + WORK, ["work 1 idle"]),
        ("refused", b"".join(b"unlink r0 %d 1 job 7\n" % id for id in ids), [f"refused 3 at {3 * n + 2} absent 1"]),
    ]


def waves(n):
    """Sessions whose dues are a second apart go one by one, and so do their windows."""
    n = n // 5
    make = b"".join(b"create %d session\ntick 1\n" % (id * 7919 % 1_000_003) for id in range(1, n + 1))
    again = b"".join(b"tick 1\nwork 1\nwork 9\n" for _ in range(n))
    make_at = b"".join(b"create %d session\n" % id for id in range(2_000_000, 2_000_000 + n))
    return [
        ("make", make, [f"{n - 1} created "]), ("idle", b"work 9\n" * n, ["work 0 idle"]), ("expire", b"tick 60\n" + again, ["work 0 idle"]),
        ("purge", b"tick %d\n" % (n + 161) + b"work 1\n" * n + WORK, ["work 0 idle"]), ("make again", make_at, [f"{5 * n - 1} created "]),
    ]


def restores(n):
    """Many jobs of some rows are restored at once, and stand in the way of each other."""
    n = n // 10
    ids = range(1, 2 * n + 1, 2)
    make = b"".join(b"create %d node\ncreate %d photo\nlink owns %d %d\n" % (id, id + 1, id, id + 1) for id in ids)
    deletes = b"".join(b"delete %d job %d\n" % (id, id) for id in ids)
    again = nodes(ids)
    back = b"".join(b"restore %d\n" % id for id in reversed(ids))
    return [
        ("make", make, [f"{3 * n - 1} linked owns "]), ("delete", deletes + WORK, [f"work {3 * n} idle"]), ("take", again, [f"{8 * n - 1} created "]),
        ("call", back, [f"{9 * n - 1} restoring 1 items 3"]), ("open", b"jobs\n", [f"jobs {n}"]), ("restore", WORK, [f"work {3 * n} idle"]), ("report", b"report\n", ["{"]),
    ]


GRAPHS = [scattered, unlinks, waves, restores, star, pointed_at, chain, clique, photos, impostors, jobs, expiries, updates, one_id]
named = [word for word in sys.argv[2:] if word != "full"]
for graph in GRAPHS:
    if named and graph.__name__ not in named:
        continue
    times = []
    for n in (SIZE // 2, SIZE):
        folder = empty()
        times.append({})
        for phase, script, wanted in graph(n):
            begun = processor_time()
            text, status = run(folder, HEAD + script, seconds=500, env=environment)
            times[-1][phase] = processor_time() - begun
            lines = text.splitlines()
            ends = lines[:1] + lines[-1:] if phase != "restore" else lines[-2:]
            if status != 0 or not any(line.startswith(wanted[0]) for line in ends):
                wrong(f"{graph.__name__} of {n}, {phase}", (text[:100], text[-100:], status), wanted)
    for phase, time in times[1].items():
        if time > 3 * times[0][phase] + 0.1:
            wrong(f"{graph.__name__}, {phase}: its time at {SIZE // 2} and {SIZE}", (times[0][phase], time), "at most three times")
    ok(f"{graph.__name__}: " + ", ".join(f"{phase} {times[0][phase]:.2f} {time:.2f}" for phase, time in times[1].items()))
end()
