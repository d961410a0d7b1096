"""Runs the built program for the other scripts of this folder, in folders in memory that are removed at the end."""
import atexit
import os
import resource
import shutil
import signal
import subprocess
import sys
import tempfile

import store

SCRIPT = os.path.basename(sys.argv[0])
SCHEMA = b"""schema 1
window 100
object user directly
object photo by_any
object album directly
object session short_ttl 60
edge owns user photo deep
edge likes user photo shallow
edge holds album photo refcount
edge uses user session deep
script
"""
# A script that makes every kind of entry.
EVERY_KIND = b"""create 1 user "a"
create 5 album "x"
create 3 photo "p"
create 4 photo
link holds 5 3 "h"
link owns 1 4 "o"
link likes 1 4
update 1 "bb"
update 4 "cc"
unlink holds 5 3 job 41
create 7 session "s"
link uses 1 7 "u"
delete 1 job 40
work 3
create 3 photo "q"
work 100
restore 41
work 1
restore 40
work 100
tick 61
work 100
restore expiry 7
delete 1 job 42
work 100
tick 101
work 100
jobs
"""
if len(sys.argv) < 2 or not os.access(sys.argv[1], os.X_OK):
    print(f"usage: {SCRIPT} DELF ..", file=sys.stderr)
    sys.exit(2)
DELF = os.path.realpath(sys.argv[1])
FOLDER = tempfile.mkdtemp(dir="/dev/shm" if os.access("/dev/shm", os.W_OK) else None)
atexit.register(shutil.rmtree, FOLDER, ignore_errors=True)
signal.signal(signal.SIGTERM, lambda *_: sys.exit(1))
found = 0


def wrong(case, came, wanted):
    """A deviation: it is told, and the script goes on and ends with status 1."""
    global found
    found += 1
    if found <= 20:
        print(f"wrong: {case}\n  came:   {came!r:.400}\n  wanted: {wanted!r:.400}", flush=True)


def ok(text):
    print(f"ok: {text}", flush=True)


def end():
    if found:
        print(f"{found} wrong")
    sys.exit(1 if found else 0)


def empty(name="store"):
    """A new, empty folder."""
    path = os.path.join(FOLDER, name)
    shutil.rmtree(path, ignore_errors=True)
    os.mkdir(path)
    return path


def run(folder, document, words=("run", "--at", "0"), memory=None, seconds=60, **more):
    """What a run prints, and its status: less than 0 for a signal, None where it did not end in time."""

    def limit():
        if memory is not None:
            resource.setrlimit(resource.RLIMIT_AS, (memory, memory))
        if "before" in more:
            more["before"]()

    try:
        done = subprocess.run(
            [DELF, *words], input=document, stdout=subprocess.PIPE, stderr=subprocess.PIPE, cwd=folder, timeout=seconds,
            preexec_fn=limit if memory is not None or "before" in more else None, env=more.get("env"),
        )
    except subprocess.TimeoutExpired:
        return "", None
    if done.stderr and not more.get("loads"):
        wrong("standard error", done.stderr, b"")
    return done.stdout.decode("latin-1"), done.returncode


def processor_time():
    """The processor seconds of all runs so far, which other programs on the machine do not disturb much."""
    used = resource.getrusage(resource.RUSAGE_CHILDREN)
    return used.ru_utime + used.ru_stime


def agrees(case, document, journal=b"", vault=b"", moment=0, memory=None):
    """Runs a document over these areas and compares text, status and areas with the meaning. The areas that it leaves."""
    folder = empty()
    if journal or vault:
        store.save(folder, journal, vault)
    wanted = store.expects(document, journal, vault, moment)
    came = run(folder, document, ("run", "--at", str(moment)), memory)
    if came != wanted[:2]:
        wrong(case, came, wanted[:2])
    areas = store.load(folder)
    if wanted[2] is not None and came[1] == 0 and areas != wanted[2]:
        wrong(case + ": the settled areas", areas, wanted[2])
    return areas
