"""little_memory.py DELF: with any bound on its memory the program does its work or ends with status 5, and what it acknowledged stands.

Run it as `python3 checks/little_memory.py crates/delf/out/delf`. The bound on the address space rises from nothing until all runs pass.
"""
import store
from program import EVERY_KIND, SCHEMA, agrees, empty, end, ok, run, wrong

MANY = b"".join(b'create %d user "%s"\ncreate %d photo\nlink owns %d %d\n' % (i, b"u" * 300, i + 1, i, i + 1) for i in range(1, 12001, 2))
SCRIPTS = {"all kinds of entry": EVERY_KIND + b"show\n", "many rows": MANY + b"delete 1 job 1\nwork 9\nshow\n", "a large document": b"#" * 9_000_000 + b"\n" + EVERY_KIND}


def bounds():
    """From 1 MiB on, in small steps first."""
    size = 1 << 20
    while size < 256 << 20:
        yield size
        size += max(1 << 16, size // 50)


def least_of(document):
    """The least bound with which an empty document is read: below it the loader has no room."""
    return next(size for size in bounds() if run(empty(), document, memory=size, loads=True)[1] == 2)


begin = least_of(b"")
for name, script in SCRIPTS.items():
    document = SCHEMA + script
    if name == "many rows":
        folder = empty()
        wanted = (*run(folder, document), store.load(folder))
    else:
        wanted = store.expects(document)
    statuses = {}
    passed = 0
    for size in bounds():
        if size < begin:
            continue
        folder = empty()
        text, status = run(folder, document, memory=size)
        statuses[status] = statuses.get(status, 0) + 1
        if status == 0:
            passed += 1
            if (text, status, store.load(folder)) != wanted:
                wrong(f"{name}, {size} bytes", (text[-100:], status), wanted[:2])
            if passed == 5:
                break
            continue
        if status != 5 or not wanted[0].startswith(text) or (text and not text.endswith("\n")):
            wrong(f"{name}, {size} bytes", (text[-100:], status), (5, "a front of the text"))
        # The entries of the lines that went out stand, and then perhaps some of the next command.
        told = len([line for line in text.splitlines() if line[:1].isdigit()])
        areas = store.load(folder)
        if name != "many rows":
            state, _ = store.read_store(store.read_document(document)[0], *areas)
            agrees(f"{name}, {size} bytes, the next run", SCHEMA + b"jobs\nshow\nwork 100\n", *areas)
            if state.length < told:
                wrong(f"{name}, {size} bytes", state.length, f"at least {told}")
        else:
            after, status = run(folder, SCHEMA + b"fail 1\ncreate 999999 user\n")
            length = int(after.split()[-1]) if after else 0
            if status != 6 or length < told:
                wrong(f"{name}, {size} bytes", (after, status), f"a history of at least {told}")
    ok(f"{name}: statuses {dict(sorted(statuses.items()))} with bounds from {begin >> 10} KiB on")

# An opening with little memory leaves the store as it was, and the next run has it whole.
folder = empty()
run(folder, SCHEMA + MANY)
areas = store.load(folder)
statuses = {}
for size in bounds():
    if size < begin:
        continue
    folder = empty()
    store.save(folder, *areas)
    text, status = run(folder, SCHEMA + b"get 1\n", memory=size)
    statuses[status] = statuses.get(status, 0) + 1
    if store.load(folder) != areas or (status, text) not in ((5, ""), (0, 'at 18000 object 1 user birth 0 "%s"\n' % ("u" * 300))):
        wrong(f"an opening with {size} bytes", (text[:80], status), "status 0 or 5, and the store as it was")
    if status == 0:
        break
ok(f"an opening of 18,000 entries: statuses {statuses}")
end()
