"""lost_writes.py DELF [PICKS]: the power goes at each write and each sync, and the writes since a file's last sync are lost, whole or torn.

Run it as `python3 checks/lost_writes.py crates/delf/out/delf`. It needs `cc`: a small library goes between the program and its files.
What is left opens, by the small model too, with each entry that was told, and at most the one that was being made; the history is the same.
"""
import os
import random
import re
import subprocess
import sys

import store
from program import EVERY_KIND, FOLDER, SCHEMA, agrees, empty, end, ok, run, wrong

LIBRARY = r"""
// Between a program and its files: at the call numbered LOSE_AT, of its writes and data-syncs, the power goes. Of the writes to a file
// since its last sync the bits of LOSE_PICK say, two each in order, what is left: nothing, all, 0xEE over the whole, or the first half.
#define _GNU_SOURCE
#include <dlfcn.h>
#include <signal.h>
#include <stdlib.h>
#include <string.h>
#include <sys/stat.h>
#include <unistd.h>

struct pending { int fd; off_t at; size_t size; off_t length; char *old; char *new; };
static struct pending list[100000];
static int count;
static unsigned long calls;
static ssize_t (*real)(int, const void *, size_t, off_t);

static unsigned long number(const char *name) { char *text = getenv(name); return text ? strtoul(text, 0, 10) : 0; }

static void lose(void) {
    unsigned long pick = number("LOSE_PICK");
    for (int i = count - 1; i >= 0; i--) {
        real(list[i].fd, list[i].old, list[i].size, list[i].at);
        if (ftruncate(list[i].fd, list[i].length)) abort();
    }
    for (int i = 0; i < count; i++, pick >>= 2) {
        size_t size = pick & 2 && pick & 1 ? list[i].size / 2 : list[i].size;
        if ((pick & 3) == 2) memset(list[i].new, 0xEE, size);
        if (pick & 3) real(list[i].fd, list[i].new, size, list[i].at);
    }
    kill(getpid(), SIGKILL);
}

ssize_t pwrite(int fd, const void *data, size_t size, off_t at) {
    if (!real) real = dlsym(RTLD_NEXT, "pwrite");
    struct stat found;
    if (fstat(fd, &found)) abort();
    struct pending *one = &list[count++];
    *one = (struct pending){fd, at, size, found.st_size, calloc(1, size), malloc(size)};
    if (pread(fd, one->old, size, at) < 0) abort();
    memcpy(one->new, data, size);
    if (++calls == number("LOSE_AT")) lose();
    return real(fd, data, size, at);
}

ssize_t pwrite64(int fd, const void *data, size_t size, off_t at) { return pwrite(fd, data, size, at); }

int fdatasync(int fd) {
    if (++calls == number("LOSE_AT")) lose();
    int kept = 0;
    for (int i = 0; i < count; i++) if (list[i].fd != fd) list[kept++] = list[i];
    count = kept;
    return 0;
}

int fsync(int fd) { (void)fd; return 0; }
"""
library = os.path.join(FOLDER, "lost_writes.so")
if subprocess.run(["cc", "-shared", "-fPIC", "-O1", "-x", "c", "-o", library, "-", "-ldl"], input=LIBRARY.encode()).returncode != 0:
    print("lost_writes.py: it needs cc", file=sys.stderr)
    sys.exit(2)

# A step a command, so that each entry has its line.
SCRIPT = re.sub(rb"work (\d+)\n", lambda work: b"work 1\n" * min(int(work[1]), 12), EVERY_KIND)
DOCUMENT = SCHEMA + SCRIPT + b"report\n"
LOOK = SCHEMA + b"jobs\nshow\nwork 100\nrestore 40\nwork 100\njobs\nshow\n"
folder = empty()
run(folder, DOCUMENT)
schema, _ = store.read_document(DOCUMENT)
whole = store.load(folder)
gates = store.read_store(schema, *whole)[1]["journal"]
heads = [store.record_at(whole[0], at)[0] for at in gates[:-1]]


def cut(at, pick, journal=b"", vault=b"", document=DOCUMENT):
    folder = empty()
    if journal:
        store.save(folder, journal, vault)
    environment = dict(os.environ, LD_PRELOAD=library, LOSE_AT=str(at), LOSE_PICK=str(pick))
    text, status = run(folder, document, env=environment)
    return text, status, store.load(folder)


def length_of(case, areas, least, most):
    try:
        state, gates = store.read_store(schema, *areas)
    except store.Bad as bad:
        wrong(case, bad.args, "a store")
        return None
    if not least <= state.length <= most:
        wrong(case, state.length, (least, most))
    if [store.record_at(areas[0], at)[0] for at in gates["journal"][:-1]] != heads[: state.length]:
        wrong(f"{case}: the entries", state.length, "those of the whole run")
    return state.length


dice = random.Random(3)
# Nothing and 0xEE; with PICKS all, halves, and so many mixtures.
picks = [0, 0xAAAAAAAAAAAAAAAA]
if len(sys.argv) > 2:
    picks += [0x5555555555555555, 0xFFFFFFFFFFFFFFFF, *(dice.randrange(2**64) for _ in range(int(sys.argv[2])))]
for pick in picks:
    at = 0
    while True:
        at += 1
        case = f"the power goes at call {at}, with {pick:#x}"
        text, status, areas = cut(at, pick)
        if status == 0:
            break
        told = sum(1 for line in text.splitlines() if re.match(r"\d+ [a-z]|work 1$", line))
        if status != -9:
            wrong(case, (text[-80:], status), "a kill")
        length_of(case, areas, told, min(told + 1, len(heads)))
        # The opening is cut too, at each of its calls in some cases; nothing more is lost.
        if at % 17 == 0:
            length = store.read_store(schema, *areas)[0].length
            for again in range(1, 40):
                _, status, left = cut(again, pick >> 1, *areas, SCHEMA + b"show\n")
                if status == 0:
                    break
                length_of(f"{case}, and the opening at call {again}", left, length, length)
                agrees(f"{case}, and the opening at call {again}", LOOK, *left)
        agrees(case, LOOK, *areas)
    ok(f"{at - 1} writes and syncs, with {pick:#x}")
end()
