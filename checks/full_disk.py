"""full_disk.py DELF: a disk without room, at every size of a file: the run says `down at N`, ends with 6, and no acknowledged call is lost.

Run it as `python3 checks/full_disk.py crates/delf/out/delf`. The room is bounded by the limit on a file's size, with its signal
ignored and not, for every limit up to the size that a run needs; and by a small file system in memory, where one may be mounted.
Text and bytes are compared with the small model, whose writes stop at the limit.
"""
import os
import resource
import signal
import subprocess

import store
from meaning import Run, Stop, read_document
from program import EVERY_KIND, FOLDER, SCHEMA, agrees, empty, end, ok, run, wrong

DOCUMENT = SCHEMA + EVERY_KIND
LOOK = SCHEMA + b"jobs\nshow\nwork 100\njobs\nshow\n"


class FullDisk(store.Disk):
    """Areas of at most so many bytes: a write brings its front to the medium, and fails."""

    def __init__(self, most):
        super().__init__(b"", b"")
        self.most = most

    def write(self, area, at, data):
        super().write(area, at, data[: max(0, self.most - at)])
        if at + len(data) > self.most:
            raise Stop


def told_with(most):
    """What a run prints where no file may be longer, its status, and the areas that it leaves."""
    schema, commands = read_document(DOCUMENT)
    if most < 9:
        return "down at 0\n", 6, (store.MARKS["journal"][:most], b"")
    made = Run(schema, FullDisk(most), 0)
    made.open()
    for command in commands:
        made.make(command)
    areas = tuple(bytes(made.disk.data[area]) for area in ("journal", "vault"))
    return "".join(line + "\n" for line in made.lines), 6 if made.down else 0, areas


def limited(most, how):
    def limit():
        signal.signal(signal.SIGXFSZ, how)
        resource.setrlimit(resource.RLIMIT_FSIZE, (most, most))

    return limit


folder = empty()
run(folder, DOCUMENT)
size = max(map(len, store.load(folder)))
signals = 0
for most in range(size + 1):
    wanted = told_with(most)
    folder = empty()
    came = run(folder, DOCUMENT, before=limited(most, signal.SIG_IGN))
    if came != wanted[:2] or store.load(folder) != wanted[2] and came[1] == 6:
        wrong(f"files of at most {most} bytes", (came, store.load(folder)), wanted)
    agrees(f"after files of at most {most} bytes", LOOK, *store.load(folder))
    if most % 16 == 0:
        # The signal kills it where nobody ignores it. What was told is a front of the same text, and stands.
        folder = empty()
        text, status = run(folder, DOCUMENT, before=limited(most, signal.SIG_DFL))
        signals += status == -signal.SIGXFSZ
        if not wanted[0].startswith(text) or status not in (wanted[1], -signal.SIGXFSZ):
            wrong(f"files of at most {most} bytes, by the signal", (text, status), wanted)
        agrees(f"after files of at most {most} bytes, by the signal", LOOK, *store.load(folder))
ok(f"each limit up to {size} bytes; its signal ended {signals} of {size // 16 + 1} runs that did not ignore it")

# A file system of 16 pages, which other files fill page by page.
mounted = os.path.join(FOLDER, "mounted")
os.mkdir(mounted)
if os.getuid() != 0 or subprocess.run(["mount", "-t", "tmpfs", "-o", "size=64k", "none", mounted], capture_output=True).returncode != 0:
    ok("no small file system here: left out")
    end()
try:
    document = SCHEMA + b"".join(b'create %d user "%s"\n' % (id, b"u" * 500) for id in range(1, 150))
    for pages in range(17):
        with open(os.path.join(mounted, "other"), "wb") as file:
            try:
                file.write(b"x" * 4096 * pages)
                file.flush()
            except OSError:
                pass
        text, status = run(mounted, document)
        lines = text.splitlines()
        made = sum(1 for line in lines if " created " in line)
        if status != 6 or lines[made] != f"down at {made}" or lines[made + 1 :] != [f"refused 1 at {made} down"] * (len(lines) - made - 1):
            wrong(f"{pages} pages are taken", (text[-200:], status), "down, and refusals behind it")
        os.remove(os.path.join(mounted, "other"))
        text, status = run(mounted, SCHEMA + b"show\n")
        if status != 0 or not text.startswith(("graph %d " % made, "graph %d " % (made + 1))):
            wrong(f"after {pages} pages were taken", (text[:60], status), f"{made} objects")
        for name in os.listdir(mounted):
            os.remove(os.path.join(mounted, name))
finally:
    subprocess.run(["umount", mounted], check=True)
ok("a file system without room, with 0 to 16 of 16 pages taken")
end()
