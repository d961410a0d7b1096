"""Runs each command that README.md and docs/OPERATING.md show, and compares what it prints with what stands there.

A fenced block named `console` is a part of a session of `sh`: a line behind `$ ` is a command, a line behind `> ` goes on with it, and the other
lines are what it prints, on either output. The blocks of a page are one session. It begins in a folder that looks like the top of this repository
and has the program at crates/delf/out/delf, with a home of its own. A fenced block named `document FILE` is that file of examples/, or lines of it
that stand together. Blocks of other names are told and left alone.
"""
import os
import queue
import re
import subprocess
import threading

import program
from program import DELF, empty, end, ok, wrong

TOP = os.path.dirname(os.path.dirname(os.path.realpath(__file__)))
PAGES = ["README.md", "docs/OPERATING.md"]
MARK = "-- pages.py: the command ended --"
SECONDS = 120


def blocks_of(page):
    """The fenced blocks of a page: the number of the first line, the name, and the lines."""
    blocks, fence = [], None
    with open(os.path.join(TOP, page), encoding="utf-8") as file:
        for number, line in enumerate(file.read().split("\n"), 1):
            if not line.startswith("```"):
                if fence is not None:
                    blocks[-1][2].append(line)
            elif fence is None:
                fence = line[3:].strip()
                blocks.append((number, fence, []))
            else:
                fence = None
    if fence is not None:
        wrong(page, "a block without its end", "```")
    return blocks


def commands_of(lines):
    """The commands of a session, each with the lines that it prints."""
    commands = []
    for line in lines:
        if line.startswith("$ "):
            commands.append((line[2:], []))
        elif line.startswith("> ") and commands and not commands[-1][1]:
            commands[-1] = (commands[-1][0] + "\n" + line[2:], [])
        elif commands:
            commands[-1][1].append(line)
        else:
            wrong("a session", line, "a command first")
    return commands


class Session:
    """A shell that is given one command after the other."""

    def __init__(self, folder):
        home = empty("home")
        environment = {"PATH": os.environ["PATH"], "HOME": home, "LC_ALL": "C", "PWD": folder}
        self.shell = subprocess.Popen(
            ["sh"], cwd=folder, env=environment, stdin=subprocess.PIPE, stdout=subprocess.PIPE, stderr=subprocess.STDOUT, text=True, encoding="latin-1",
        )
        self.lines = queue.Queue()
        threading.Thread(target=self.read, daemon=True).start()

    def read(self):
        for line in self.shell.stdout:
            self.lines.put(line)
        self.lines.put(None)

    def prints(self, command):
        """What the command prints; its status is kept for the next one."""
        self.shell.stdin.write(f"{command}\nlast=$?; echo '{MARK}'; (exit $last)\n")
        self.shell.stdin.flush()
        printed = []
        while True:
            try:
                line = self.lines.get(timeout=SECONDS)
            except queue.Empty:
                self.shell.kill()
                line = None
            if line is None:
                return printed + ["(the session ended)"]
            if line.endswith(MARK + "\n"):
                rest = line[: -len(MARK) - 1]
                return printed + [rest] if rest else printed
            printed.append(line.rstrip("\n"))

    def close(self):
        self.shell.stdin.close()
        self.shell.wait(timeout=SECONDS)


def top_of(page):
    """A folder that looks like the top of the repository."""
    folder = empty(re.sub(r"\W", "_", page))
    for name in ("README.md", "docs", "checks"):
        os.symlink(os.path.join(TOP, name), os.path.join(folder, name))
    os.symlink(os.path.join(TOP, "crates", "examples", "data"), os.path.join(folder, "examples"))
    os.makedirs(os.path.join(folder, "crates", "delf", "out"))
    os.symlink(DELF, os.path.join(folder, "crates", "delf", "out", "delf"))
    return folder


def shows(page, number, name, lines):
    """A document is its file, or a part of it."""
    path = os.path.join(TOP, "crates", "examples", "data", name)
    with open(path, encoding="utf-8") as file:
        held = file.read().split("\n")
    if not any(held[at : at + len(lines)] == lines for at in range(len(held))):
        wrong(f"{page}, line {number}: {name}", lines, held)


def run_page(page):
    before = program.found
    session = Session(top_of(page))
    commands = documents = 0
    others = []
    for number, name, lines in blocks_of(page):
        if name == "console":
            for command, printed in commands_of(lines):
                came = session.prints(command)
                if came != printed:
                    wrong(f"{page}, block at line {number}: {command}", came, printed)
                commands += 1
        elif name.startswith("document "):
            shows(page, number, name.split()[1], lines)
            documents += 1
        else:
            others.append(f"{number} ({name or 'no name'})")
    session.close()
    if not commands:
        wrong(page, "no command", "one at least")
    rest = f"; blocks that are not run: line {', '.join(others)}" if others else ""
    if program.found == before:
        ok(f"{page}: {commands} commands print what stands there; documents that are those of examples/: {documents}{rest}")


for each in PAGES:
    run_page(each)
end()
