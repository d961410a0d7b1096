"""odd_files.py DELF: odd files in the store's place, few descriptors, a small stack, input without end: a status of the table, and nothing hangs.

Run it as `python3 checks/odd_files.py crates/delf/out/delf`. Links that lead out of the folder, folders, pipes, devices and sockets stand in the
place of each of the two files in turn; whatever cannot be a store is `down at 0`, status 6, and what lies there is left alone.
"""
import os
import resource
import socket
import subprocess
import time

import store
from program import DELF, EVERY_KIND, FOLDER, SCHEMA, empty, end, ok, run, wrong

LOOK = SCHEMA + b"show\n"
DOWN = "down at 0\n", 6
NAMES = list(store.FILES.values())


def odd(case, make, wanted, document=LOOK):
    for name in NAMES:
        folder = empty()
        make(os.path.join(folder, name))
        came = run(folder, document, seconds=10)
        if came not in wanted:
            wrong(f"{case} as {name}", came, wanted)


def of_socket(path):
    here = os.getcwd()
    os.chdir(os.path.dirname(path))
    with socket.socket(socket.AF_UNIX) as bound:
        bound.bind(os.path.basename(path))
    os.chdir(here)


outside = os.path.join(FOLDER, "outside")
EMPTY_STORE = "graph 0 0\n", 0
odd("a folder", os.mkdir, [DOWN])
odd("a pipe", os.mkfifo, [DOWN])
odd("a socket", of_socket, [DOWN])
odd("a link to itself", lambda path: os.symlink(path, path), [DOWN])
odd("a link to a folder", lambda path: os.symlink(FOLDER, path), [DOWN])
odd("a link into a folder that is missing", lambda path: os.symlink(os.path.join(FOLDER, "no", "where"), path), [DOWN])
for device in ("/dev/null", "/dev/zero", "/dev/full"):
    odd(device, lambda path: os.symlink(device, path), [DOWN])
ok("folders, pipes, sockets, loops and devices: down at 0, status 6")
if os.path.exists(outside):
    os.remove(outside)
odd("a link to a file that is missing", lambda path: (os.path.exists(outside) and os.remove(outside), os.symlink(outside, path)), [EMPTY_STORE])
ok("a link to a file that is missing makes that file")
for case, make in (("a hard link", os.link), ("a symbolic link", os.symlink)):
    folder = empty()
    journal, vault = (os.path.join(folder, name) for name in NAMES)
    open(journal, "wb").close()
    make(journal, vault)
    first = run(folder, SCHEMA + b"create 1 user\n")
    second = run(folder, LOOK)
    if first[1] == 0 and second[0] != 'graph 1 0\nobject 1 user birth 0 ""\n':
        wrong(f"both files are one, by {case}", (first, second), "no call is acknowledged and then lost")

# Files that may not be written.
if os.getuid() != 0:
    for bits in (0, 0o400, 0o200):
        odd(f"a file with the bits {bits:o}", lambda path: (open(path, "wb").close(), os.chmod(path, bits)), [DOWN])
    ok("files without rights")

# Few descriptors.
folder = empty()
run(folder, SCHEMA + EVERY_KIND)
areas = store.load(folder)
statuses = {}
for most in range(3, 16):
    store.save(folder, *areas)
    came = run(folder, LOOK, before=lambda: resource.setrlimit(resource.RLIMIT_NOFILE, (most, most)), loads=True)
    statuses[most] = came[1]
    if came not in (DOWN, store.expects(LOOK, *areas)[:2]) and not (most == 3 and came == ("", 127)):
        wrong(f"{most} descriptors", came, DOWN)
    if store.load(folder) != areas:
        wrong(f"{most} descriptors: the store", store.load(folder), areas)
ok(f"few descriptors: statuses {statuses}")

# A small stack.
for size in (128, 256, 1024):
    folder = empty()
    many = b"".join(b"create %d user\n" % id for id in range(1, 20001)) + b"delete 1 job 1\nwork 9\nshow\n"
    came = run(folder, SCHEMA + many, before=lambda: resource.setrlimit(resource.RLIMIT_STACK, (size << 10, size << 10)))
    if came[1] != 0 or "graph 19999 0" not in came[0]:
        wrong(f"a stack of {size} KiB", (came[0][-60:], came[1]), "status 0")
ok("a stack of 128 KiB")

# Input without end.
for device in ("/dev/zero", "/dev/urandom"):
    folder = empty()
    begun = time.monotonic()
    with open(device, "rb") as endless:
        done = subprocess.run([DELF, "run"], stdin=endless, stdout=subprocess.PIPE, cwd=folder, timeout=60)
    if (done.stdout, done.returncode, os.listdir(folder)) != (b"line 0: document too long\n", 2, []):
        wrong(device, (done.stdout, done.returncode), "document too long")
    ok(f"{device} as standard input: too long after {time.monotonic() - begun:.1f} s")
end()
