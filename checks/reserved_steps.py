"""reserved_steps.py DELF: behind a `reserve` an expiry, cuts, erasures and purges are made over files while every allocation is refused.

Run it as `python3 checks/reserved_steps.py crates/delf/out/delf`. It needs `rt`. A small program over the crates of this repository, which stands
in this script, makes a store, keeps room for seven steps, and makes them, by `work` or by `begin` and `finish`. It is built as `rt try --fail-alloc`
builds it (`tried.py`), and run with each allocation refused from the first one on, then from the second one on, and so on. Either it was refused
memory before `reserve` had answered, or all seven steps are made; and DELF then finds them in the store.
"""
import os
import shutil
import sys

import program
from program import FOLDER, empty, end, ok, run, wrong
from tried import REPOSITORY, Tried, build

SOURCE = r"""//! Keeps room for seven steps, and makes them.
#![tactic(auto)]

use delete_step::prepare;
use delf_book::{Begun, Book, Worked};
use delf_disk::{FileDisk, Rig};
use delf_model::{Bytes, Call, EdgeNo, Moment, ObjectId, Rules, TypeNo};
use delf_recovery::open_book;
use live_graph::ShardGraph;
use schema_lang::parse_schema;
use std::alloc::{AllocError, Global};
use std::env;
use std::process::ExitCode;

const SCHEMA: &[u8] =
    b"schema 1\nwindow 100\nobject user directly\nobject photo by_any\nobject session short_ttl 60\nedge owns user photo deep\n";

// Memory was wanting before the room was kept.
const BEFORE: u8 = 10;

fn create<R: Rig>(alloc: Global, book: &mut Book<ShardGraph, R>, kind: u8, n: u64) -> Result<bool, AllocError> {
    let Some(id) = ObjectId::new(n) else {
        return Ok(false);
    };
    let payload = Bytes::of(alloc, b"a payload of some bytes")?;
    Ok(book.call(0, 0, &Call::Create { kind: TypeNo(kind), id, payload }).is_ok())
}

fn fill<R: Rig>(alloc: Global, book: &mut Book<ShardGraph, R>) -> Result<bool, AllocError> {
    let (Some(user), Some(photo)) = (ObjectId::new(1), ObjectId::new(2)) else {
        return Ok(false);
    };
    let made = create(alloc, book, 0, 1)? && create(alloc, book, 1, 2)? && create(alloc, book, 2, 7)?;
    let payload = Bytes::of(alloc, b"of the edge")?;
    let link = Call::Link { edge: EdgeNo(0), from: user, to: photo, payload };
    Ok(made && book.call(0, 0, &link).is_ok() && book.call(0, 0, &Call::Delete { id: user, name: 40 }).is_ok())
}

fn work<R: Rig>(book: &mut Book<ShardGraph, R>, now: Moment, claims: bool) -> bool {
    if !claims {
        return matches!(book.work(now), Ok(Worked::Stepped { .. }));
    }
    match book.begin(now) {
        Ok(Begun::Stepped { .. }) => true,
        Ok(Begun::Claimed(claim)) => book.finish(now, prepare(claim)).is_ok(),
        _ => false,
    }
}

fn steps<R: Rig>(alloc: Global, book: &mut Book<ShardGraph, R>, claims: bool) -> u8 {
    match fill(alloc, book) {
        Ok(true) => {}
        _ => return BEFORE,
    }
    if book.reserve(7).is_err() {
        return BEFORE;
    }
    // A cut and two erasures; an expiry and its erasure; two purges.
    let moments: [Moment; 7] = [60, 60, 60, 60, 60, 161, 161];
    let mut made = 0u8;
    for now in moments {
        if !work(book, now, claims) {
            return 20 + made;
        }
        made += 1;
    }
    0
}

// Takes a while, in which the program is copied.
fn spins() -> bool {
    let mut sum = 1u64;
    for at in 0..20_000_000_000u64 {
        sum = sum.wrapping_mul(31).wrapping_add(at);
    }
    sum != 0
}

fn main(rt: HostRuntime) -> ExitCode {
    let alloc = rt.alloc();
    let Ok(args) = env::args(&rt) else {
        return ExitCode::from(BEFORE);
    };
    let claims = args.len() == 2;
    if args.len() > 2 && spins() {
        return ExitCode::from(BEFORE);
    }
    let Ok(disk) = FileDisk::at(&rt, alloc, ".") else {
        return ExitCode::from(BEFORE);
    };
    let Ok(schema) = parse_schema(alloc, SCHEMA) else {
        return ExitCode::from(BEFORE);
    };
    let Ok(rules) = Rules::of(alloc, &schema) else {
        return ExitCode::from(BEFORE);
    };
    let Ok(graph) = ShardGraph::empty(alloc, &rules) else {
        return ExitCode::from(BEFORE);
    };
    match open_book(alloc, rules, graph, disk) {
        Ok(mut book) => {
            let status = steps(alloc, &mut book, claims);
            drop(book.into_disk());
            ExitCode::from(status)
        }
        Err(_) => ExitCode::from(BEFORE),
    }
}
"""
SCHEMA = b"schema 1\nwindow 100\nobject user directly\nobject photo by_any\nobject session short_ttl 60\nedge owns user photo deep\nscript\n"
MADE = "jobs 2\njob 40 start 4 root 1 purged\njob expiry 7 start 8 root 7 purged\ngraph 0 0\nwork 0 idle\n", 0
path = os.path.join(FOLDER, "reserving")
if len(sys.argv) > 2:
    shutil.copy(sys.argv[2], path)
    reserving = Tried(path)
else:
    # A repository of the same crates and one more.
    beside = os.path.join(FOLDER, "repository")
    os.makedirs(os.path.join(beside, "crates", "reserving", "src"))
    for crate in os.listdir(os.path.join(REPOSITORY, "crates")):
        shutil.copytree(os.path.join(REPOSITORY, "crates", crate), os.path.join(beside, "crates", crate), ignore=shutil.ignore_patterns("out"))
    with open(os.path.join(REPOSITORY, "crates.txt")) as file:
        crates = file.read()
    with open(os.path.join(beside, "crates.txt"), "w") as file:
        file.write(crates + "reserving: delf_model delf_disk schema_lang live_graph delete_step delf_recovery delf_book\n")
    with open(os.path.join(beside, "crates", "reserving", "src", "main.rt"), "w") as file:
        file.write(SOURCE)
    shutil.copy(os.path.join(REPOSITORY, "HANDLES"), beside)
    reserving = build(path, "reserving", ["a", "while"], beside)

for how, words in (("work", []), ("begin and finish", ["claims"])):
    before, behind, number = 0, 0, 0
    while behind < 20 and number < 20_000:
        number += 1
        reserving.refuse(number, and_all_behind=True)
        folder = empty()
        usual, program.DELF = program.DELF, path
        text, status = run(folder, b"", words)
        program.DELF = usual
        if (text, status) == ("", 10):
            before += 1
            if behind:
                wrong(f"{how}, from allocation {number} on", "memory was wanting again", "room")
        elif (text, status) == ("", 0):
            behind += 1
            came = run(folder, SCHEMA + b"jobs\nshow\nwork 9\n", ["run", "--at", "161"])
            if came != MADE:
                wrong(f"{how}, from allocation {number} on: the store", came, MADE)
        else:
            wrong(f"{how}, from allocation {number} on", (text, status), "all seven steps, or want of memory before the room was kept")
    if not before or not behind:
        wrong(how, (before, behind), "some of both")
    ok(f"{how}: from each of the first {before} allocations on memory is wanting before the room is kept; with all behind them refused the seven steps are made")
end()
