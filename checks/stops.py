"""stops.py DELF: each disk call of a deletion's three steps fails in turn; the run says so, and after `crash` the deletion is finished.

Run it as `python3 checks/stops.py crates/delf/out/delf`. What is compared is the text of the small model, whose files keep all
that was written; and the length after `crash` has to be one of the two that the disk model allows.
"""
from program import SCHEMA, agrees, empty, end, ok, run, wrong

FOUR = b'create 1 user "a"\ncreate 2 photo "b"\nlink owns 1 2\ndelete 1 job 40\n'
# The last n of each row, its first work, and the lengths that a crash may leave.
TABLE = [
    (6, "work 0 down at 4", (4, 4)), (8, "work 0 down at 4", (4, 5)), (15, "work 1 down at 5", (5, 5)),
    (17, "work 1 down at 5", (5, 6)), (18, "work 1 down at 5", (6, 6)), (25, "work 2 down at 6", (6, 6)),
    (27, "work 2 down at 6", (6, 7)), (28, "work 2 down at 6", (7, 7)),
]

for pick in (*range(256), 6148914691236517205, 2**64 - 1):
    for n in range(1, 29):
        document = SCHEMA + FOUR + b"fail %d\nwork 10\ncrash %d\nwork 10\njob 40\nshow\n" % (n, pick)
        agrees(f"fail {n}, crash {pick}", document)
        lines = run(empty(), document)[0].splitlines()[4:]
        first, lengths = next(row[1:] for row in TABLE if n <= row[0])
        length = int(lines[1].split()[1])
        wanted = [first, f"opened {length}", f"work {7 - length} idle", "job 40 start 3 root 1 done erased 2 cut 1", "graph 0 0"]
        if lines != wanted or length not in lengths:
            wrong(f"fail {n}, crash {pick}: the table", lines, (first, lengths))
ok("28 disk calls failed in turn, with 258 picks each")

# The same without `crash`: the status is 6, and the next run finishes it.
for n in range(1, 29):
    folder = empty()
    text, status = run(folder, SCHEMA + FOUR + b"fail %d\nwork 10\n" % n)
    if status != 6:
        wrong(f"fail {n} without a crash", (text, status), "status 6")
    text, status = run(folder, SCHEMA + b"work 10\njob 40\nshow\n")
    if status != 0 or text.splitlines()[1:] != ["job 40 start 3 root 1 done erased 2 cut 1", "graph 0 0"]:
        wrong(f"fail {n}, the next run", (text, status), "the job is done")
ok("28 disk calls failed in turn, and the next run finished the job")
end()
