"""ends.py DELF: standard input that fails and standard output that closes: status 3 or 4, and the store holds just the commands made.

Run it as `python3 checks/ends.py crates/delf/out/delf`. Standard input is a folder, a closed descriptor, one that is for
writing alone, and pipes that end in the middle. Standard output takes k bytes and then fails, for each k of a short run. With `cc` a
small library goes between the program and both: each read and each write fails in turn, or moves nothing, also where they move few bytes each.
"""
import os
import resource
import signal
import subprocess

import store
from meaning import Fault
from program import DELF, EVERY_KIND, FOLDER, SCHEMA, empty, end, ok, run, wrong

DOCUMENT = SCHEMA + EVERY_KIND + b"show\n"
COMMANDS = DOCUMENT[len(SCHEMA) :].splitlines()


def made_by(count):
    """The text of the first commands, and the areas after them (not settled)."""
    schema, commands = store.read_document(DOCUMENT)
    made = store.Run(schema, store.Disk(b"", b""), 0)
    made.open()
    ends = []
    for command in commands[:count]:
        made.make(command)
        ends.append(sum(len(line) + 1 for line in made.lines))
    return made, ends


def start(words, folder, **files):
    return subprocess.Popen([DELF, *words], cwd=folder, stderr=subprocess.DEVNULL, **files)


def untouched(case, folder, status, wanted):
    if status != wanted or os.listdir(folder):
        wrong(case, (status, os.listdir(folder)), (wanted, []))


# Standard input.
folder = empty()
for case, opened in (("a folder as standard input", os.open(FOLDER, os.O_RDONLY)), ("standard input for writing alone", os.open(os.path.join(FOLDER, "sink"), os.O_WRONLY | os.O_CREAT))):
    for words in (["run", "--at", "0"], ["run"], ["check"]):
        with start(words, folder, stdin=opened, stdout=subprocess.PIPE) as running:
            text = running.stdout.read()
        untouched(f"{case}, {words}", folder, running.returncode, 3)
        if text:
            wrong(case, text, b"")
    os.close(opened)
ok("input that cannot be read: status 3, nothing printed, no file made")
# A pipe that is cut is the end of a shorter document.
for cut in range(0, len(DOCUMENT), 7):
    front = DOCUMENT[:cut]
    folder = empty()
    try:
        wanted = store.expects(front)[:2]
    except Fault as fault:
        wanted = "line {}: {}\n".format(*fault.args), 2
    came = run(folder, front)
    if came != wanted or (wanted[1] == 2 and os.listdir(folder)):
        wrong(f"a document of {cut} bytes", (came, os.listdir(folder)), wanted)
ok("a document that is cut at each seventh byte is the shorter document")
# Bytes that come one at a time.
folder = empty()
with start(["run", "--at", "0"], folder, stdin=subprocess.PIPE, stdout=subprocess.PIPE) as running:
    for at in range(len(DOCUMENT)):
        os.write(running.stdin.fileno(), DOCUMENT[at : at + 1])
    running.stdin.close()
    text = running.stdout.read().decode()
if (text, running.returncode) != store.expects(DOCUMENT)[:2]:
    wrong("bytes one at a time", (text, running.returncode), store.expects(DOCUMENT)[:2])
ok("a document that comes a byte at a time")

# Standard output that takes k bytes: a file that may not grow, with the signal ignored.
whole, ends = made_by(len(COMMANDS))
size = ends[-1]
text = "".join(line + "\n" for line in whole.lines).encode()


def holds(case, folder, told, status):
    """What was told is a front of the text; the store holds the commands up to the one whose line met the fault."""
    if status != 4 or not text.startswith(told):
        wrong(case, (status, told[-80:]), (4, "a front of the text"))
        return
    # The command whose line met the fault is the first whose text is not whole.
    count = next(at for at, place in enumerate(ends) if place > len(told)) + 1
    made = made_by(count)[0]
    areas = store.load(folder)
    state, _ = store.read_store(made.schema, *areas)
    if vars(state) | {"schema": None} != vars(made.state) | {"schema": None}:
        wrong(f"{case}: the store", state.length, f"{made.state.length}, after {count} commands")
    look = SCHEMA + b"jobs\nshow\n"
    came, wanted = run(folder, look), store.expects(look, *map(bytes, made.disk.data.values()))
    if came != wanted[:2] or store.load(folder) != wanted[2]:
        wrong(f"{case}: the next run", came, wanted[:2])


def limited(most):
    def limit():
        signal.signal(signal.SIGXFSZ, signal.SIG_IGN)
        resource.setrlimit(resource.RLIMIT_FSIZE, (most, most))

    return limit


# The limit binds the store's files too, so the text is put behind a hole, which the limit counts.
HOLE = 1 << 20
for k in range(size):
    folder = empty()
    printed = os.path.join(FOLDER, "printed")
    with open(printed, "wb") as file:
        file.truncate(HOLE)
        file.seek(HOLE)
        running = start(["run", "--at", "0"], folder, stdin=subprocess.PIPE, stdout=file, preexec_fn=limited(HOLE + k))
        running.communicate(DOCUMENT)
    with open(printed, "rb") as file:
        file.seek(HOLE)
        told = file.read()
    if len(told) != k:
        wrong(f"{k} bytes", len(told), k)
    holds(f"output that takes {k} bytes", folder, told, running.returncode)
ok(f"output that takes k bytes, for each k below {size}")

# A pipe whose reader goes away after k bytes. The program has to outlive SIGPIPE as it comes from a shell, or as it is ignored.
killed = 0
for ignored in (True, False):
    for k in range(0, size, 40):
        folder = empty()
        reader, writer = os.pipe()
        how = signal.SIG_IGN if ignored else signal.SIG_DFL
        running = start(["run", "--at", "0"], folder, stdin=subprocess.PIPE, stdout=writer, preexec_fn=lambda: signal.signal(signal.SIGPIPE, how))
        os.close(writer)
        told = b""
        running.stdin.write(DOCUMENT[:20])
        if k == 0:
            os.close(reader)
        running.stdin.write(DOCUMENT[20:])
        running.stdin.close()
        while 0 < k and len(told) < k:
            told += os.read(reader, k - len(told))
        if k:
            os.close(reader)
        status = running.wait()
        if status == -signal.SIGPIPE:
            killed += 1
        elif k == 0:
            holds(f"a pipe that is closed, ignored {ignored}", folder, b"", status)
        elif status not in (0, 4):
            wrong(f"a pipe that closes after {k} bytes, ignored {ignored}", status, "0 or 4")
        state, _ = store.read_store(whole.schema, *store.load(folder))
        least = made_by(sum(1 for place in ends if place <= len(told)))[0].state.length
        if state.length < least:
            wrong(f"a pipe that closes after {k} bytes", state.length, f"at least {least}")
ok(f"a pipe whose reader goes away: {killed} of the runs ended by its signal, nothing told is lost")
# Each read and each write fails in turn, whole ones and short ones.
LIBRARY = r"""
// Between a program and its standard streams: the read of standard input numbered READ_FAILS fails, and so does the write of standard
// output numbered WRITE_FAILS; WRITE_ZERO takes nothing. Each moves at most MOST bytes.
#define _GNU_SOURCE
#include <dlfcn.h>
#include <errno.h>
#include <stdlib.h>
#include <unistd.h>

static unsigned long reads, writes;

static unsigned long number(const char *name, unsigned long other) { char *text = getenv(name); return text ? strtoul(text, 0, 10) : other; }

static size_t most(size_t size) { size_t bound = number("MOST", size); return size < bound ? size : bound; }

ssize_t read(int fd, void *data, size_t size) {
    ssize_t (*real)(int, void *, size_t) = dlsym(RTLD_NEXT, "read");
    if (fd != 0) return real(fd, data, size);
    if (++reads == number("READ_FAILS", 0)) { errno = EIO; return -1; }
    return real(fd, data, most(size));
}

ssize_t write(int fd, const void *data, size_t size) {
    ssize_t (*real)(int, const void *, size_t) = dlsym(RTLD_NEXT, "write");
    if (fd != 1) return real(fd, data, size);
    writes++;
    if (writes == number("WRITE_FAILS", 0)) { errno = EIO; return -1; }
    if (writes == number("WRITE_ZERO", 0)) return 0;
    return real(fd, data, most(size));
}
"""
library = os.path.join(FOLDER, "ends.so")
try:
    compiled = subprocess.run(["cc", "-shared", "-fPIC", "-O1", "-x", "c", "-o", library, "-", "-ldl"], input=LIBRARY.encode()).returncode == 0
except FileNotFoundError:
    compiled = False


def between(**how):
    """A run with these orders to the library."""
    folder = empty()
    environment = dict(os.environ, LD_PRELOAD=library, **{name: str(value) for name, value in how.items()})
    came, status = run(folder, LONG, env=environment)
    return folder, came.encode("latin-1"), status


# Comments make the document several reads long.
LONG = SCHEMA + b"# a line that says nothing\n" * 400 + EVERY_KIND + b"show\n"
for most in (None, 1000, 7, 1) if compiled else ():
    how = {} if most is None else {"MOST": most}
    for order in ("READ_FAILS", "WRITE_FAILS", "WRITE_ZERO"):
        # With few bytes each there are thousands of places: some of them, and the last ones.
        place, met = 0, 0
        while True:
            place += 1 if met < 40 or order != "READ_FAILS" or most not in (7, 1) else 97
            folder, told, status = between(**how, **{order: place})
            if status == 0:
                break
            met += 1
            case = f"{order} {place}, {most or 'any number of'} bytes each"
            if order == "READ_FAILS":
                untouched(case, folder, status, 3)
                if told:
                    wrong(case, told, b"")
            else:
                holds(case, folder, told, status)
            if place > 30_000:
                wrong(case, place, "an end")
                break
        if (told, status) != (text, 0) or met < 2:
            wrong(f"{order}, {most} bytes each", (met, status, told[-80:]), "the whole text in the end")
        ok(f"{order} at {met} places, {most or 'any number of'} bytes each")
if os.path.exists("/dev/full"):
    folder = empty()
    with open("/dev/full", "wb") as full:
        running = start(["run", "--at", "0"], folder, stdin=subprocess.PIPE, stdout=full)
        running.communicate(DOCUMENT)
    holds("/dev/full", folder, b"", running.returncode)
    for words, document in ((["check"], DOCUMENT), (["run", "--at", "0"], b"bad\n"), (["nonsense"], b""), ([], b"")):
        folder = empty()
        with open("/dev/full", "wb") as full:
            running = start(words, folder, stdin=subprocess.PIPE, stdout=full)
            running.communicate(document)
        untouched(f"/dev/full, {words}", folder, running.returncode, 4)
    ok("/dev/full: status 4")
end()
