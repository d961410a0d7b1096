"""clock_back.py DELF: a clock that goes back between runs, stands at its greatest value, or is the system's own.

Run it as `python3 checks/clock_back.py crates/delf/out/delf`. No moment falls: a run goes on from the last entry's moment, so
nothing expires or is purged early, and no window opens again.
"""
import time

import store
from program import SCHEMA, agrees, empty, end, ok, run, wrong


def runs(case, *parts):
    """One run after another over the same areas, each with its moment."""
    areas = b"", b""
    for moment, script in parts:
        areas = agrees(f"{case}, at {moment}", SCHEMA + script, *areas, moment)
    return areas


folder = empty()
first = run(folder, SCHEMA + b"create 7 session\n", ("run", "--at", "5"))
second = run(folder, SCHEMA + b"create 8 session\ntick 61\nwork 10\n", ("run", "--at=3"))
if (first, second) != (("0 created 7\n", 0), ("1 created 8\nwork 0 idle\n", 0)):
    wrong("the clock goes back by two seconds", (first, second), "both dues are 65, and the moment is 64")
ok("the clock goes back by two seconds: nothing expires early")

runs("dues", (5, b"create 7 session\n"), (3, b"create 8 session\ntick 61\nwork 10\n"),
     (64, b"work 10\n"), (65, b"work 10\njobs\n"), (0, b"restore expiry 7\nwork 1\njobs\nshow\n"))
runs("a window", (1000, b"create 1 user\ndelete 1 job 1\nwork 9\n"), (0, b"tick 100\nwork 9\n"), (1101, b"work 9\njob 1\n"), (0, b"restore 1\njob 1\n"))
runs("a window that is still open", (1000, b"create 1 user\ndelete 1 job 1\nwork 9\n"), (0, b"restore 1\nwork 9\nshow\n"))
runs("a far moment", (999_999_999_999, b"create 7 session\ntick 999999999999\nwork 9\n"), (0, b"create 8 session\nwork 9\ntick 1\nwork 9\njobs\n"))
runs("a far moment and a window", (999_999_999_900, b"create 1 user\ndelete 1 job 1\nwork 9\ntick 200\nwork 9\nrestore 1\nwork 9\nshow\n"))
ok("dues, windows and the greatest moment")

# The system's clock: a due of now and 60 seconds lies in the future, and a store from the future goes on from there.
folder = empty()
text, status = run(folder, SCHEMA + b"create 7 session\nwork 9\n", ["run"])
moment = int.from_bytes(store.content(folder, "journal")[15:23], "big")
if (text, status) != ("0 created 7\nwork 0 idle\n", 0) or abs(moment - time.time()) > 60:
    wrong("the system's clock", (text, status, moment), time.time())
folder = empty()
run(folder, SCHEMA + b"create 7 session\n", ("run", "--at", "900000000000"))
text, status = run(folder, SCHEMA + b"create 8 session\nwork 9\n", ["run"])
moments = [int.from_bytes(store.content(folder, "journal")[at : at + 8], "big") for at in (15, 48)]
if (text, status) != ("1 created 8\nwork 0 idle\n", 0) or moments != [900000000000] * 2:
    wrong("a store from the future", (text, status, moments), 900000000000)
ok("the system's clock, and a store from the future")

for words in (["run", "--at", "1000000000000"], ["run", "--at", "01"], ["run", "--at", ""], ["run", "--at=-1"], ["run", "--at="], ["run", "--at", "1", "2"],
              ["run", "--at", "1e3"], ["run", "--At", "1"], ["RUN"], ["run "], ["check", "x"], ["load", "20001"], ["load", "7"], ["load", "08"], ["load", "4294967304"], ["load", "18446744073709551624"],
              ["load", "9" * 5000], ["load"], ["--help"], [], [""],
              ["run", "--at", "9" * 100_000], [b"run\xff"], ["run", b"--at", b"\xff1"], ["run", "--at", " 1"], ["run", "--at", "1\n"], ["run", "--at=1 "], ["run", "--at", "\u0661"]):
    folder = empty()
    came = run(folder, SCHEMA + b"create 7 session\n", words)
    if came != ("usage: delf run [--at N] | check | load N\n", 1) or store.load(folder) != (b"", b""):
        wrong(f"the words {words!r:.60}", came, "usage, status 1, and no file")
ok("words that are no command")
end()
