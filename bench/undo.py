#!/usr/bin/env python3
"""Times the calls on undo chains, which the program doesn't make yet, over pages in memory: so many images of 984 bytes pushed onto
one slot, four a page, and popped again; and chains of so many pages filled and given back by one call.

usage: bench/undo.py [ROUNDS]      (default: 5; the least of each size counts)

Prints seconds and, from size to size, the ratio of the seconds, without what the pages in memory take by themselves. Twice as many
calls are to take twice as long: a call's time doesn't grow with the chain. The program that is timed stands below; it is proved and
built in a folder of its own, which takes minutes where the crates below it weren't proved yet.
"""
import os
import shutil
import subprocess
import sys
import tempfile
import time

TOP = os.path.dirname(os.path.dirname(os.path.abspath(__file__)))
LINE = "undo_calls: isp_undo isp_undo_pages isp_page isp_format\n"

MAIN = """//! Reads lines: `pop N` pushes N images and pops them, `finish N` pushes N images and gives their pages back, `push N` pushes them.
#![tactic(auto)]

mod calls;

use std::process::ExitCode;

fn main(rt: HostRuntime) -> ExitCode {
    for line in rt.lines(rt.alloc()) {
        let line = match line {
            Ok(line) => line,
            Err(_) => return ExitCode::from(1),
        };
        let text = line.as_str();
        let done = if let Some(count) = text.strip_prefix("pop ") {
            calls::push_and_pop(rt.alloc(), calls::number(count))
        } else if let Some(count) = text.strip_prefix("finish ") {
            calls::push_and_finish(rt.alloc(), calls::number(count))
        } else {
            calls::only_push(rt.alloc(), calls::number(text.strip_prefix("push ").unwrap_or("")))
        };
        if !done {
            return ExitCode::from(1);
        }
    }
    ExitCode::from(0)
}
"""

CALLS = """//! The calls.
ghost use Rattle.std.specs.Prelude.{◌≡◌, true, OnOk};
ghost use Rattle.isp_page.specs.State.{none_begun};
ghost use Rattle.isp_undo_pages.specs.Entries.{IsBuf};

use isp_page::{Fault, MemPages, Pages, StoreFault};
use isp_undo::{UndoBuf, finish, pop, push};
use std::alloc::Global;

pub(crate) fn number(text: &str) -> u64 {
    match text.parse::<u64>() {
        Ok(number) => number,
        Err(_) => 0,
    }
}

fn image(key: i64) -> UndoBuf
    ensures { IsBuf result }
{
    UndoBuf {
        table: 1,
        key,
        kind: 1,
        len: 984,
        bytes: [7; 1_000],
    }
}

fn push_one<P: Pages>(pages: &mut P, key: u64) -> Result<(), StoreFault>
    requires usable { P.usable pages.old ≡ true }
    requires none { P.mini pages.old ≡ none_begun }
    ensures usable { OnOk result (P.usable pages.new ≡ true) }
    ensures none { OnOk result (P.mini pages.new ≡ none_begun) }
{
    let old = image(key.cast_signed());
    pages.begin();
    push(pages, 1, &old)?;
    pages.finish()?;
    Ok(())
}

fn pop_one<P: Pages>(pages: &mut P) -> Result<(), StoreFault>
    requires usable { P.usable pages.old ≡ true }
    requires none { P.mini pages.old ≡ none_begun }
    ensures usable { OnOk result (P.usable pages.new ≡ true) }
    ensures none { OnOk result (P.mini pages.new ≡ none_begun) }
{
    pages.begin();
    pop(pages, 1)?;
    pages.finish()?;
    Ok(())
}

fn finish_one<P: Pages>(pages: &mut P) -> Result<(), StoreFault>
    requires usable { P.usable pages.old ≡ true }
    requires none { P.mini pages.old ≡ none_begun }
{
    pages.begin();
    finish(pages, 1)?;
    pages.finish()?;
    Ok(())
}

fn push_all<P: Pages>(pages: &mut P, count: u64) -> Result<(), StoreFault>
    requires usable { P.usable pages.old ≡ true }
    requires none { P.mini pages.old ≡ none_begun }
    ensures usable { OnOk result (P.usable pages.new ≡ true) }
    ensures none { OnOk result (P.mini pages.new ≡ none_begun) }
{
    for key in 0..count {
        push_one(pages, key)?;
    }
    Ok(())
}

fn pop_all<P: Pages>(pages: &mut P, count: u64) -> Result<(), StoreFault>
    requires usable { P.usable pages.old ≡ true }
    requires none { P.mini pages.old ≡ none_begun }
    ensures usable { OnOk result (P.usable pages.new ≡ true) }
    ensures none { OnOk result (P.mini pages.new ≡ none_begun) }
{
    for _key in 0..count {
        pop_one(pages)?;
    }
    Ok(())
}

fn pushed(alloc: Global, count: u64) -> Result<MemPages, Fault> {
    let mut pages = MemPages::new(alloc, 8_192, 4, 0)?;
    push_all(&mut pages, count)?;
    Ok(pages)
}

fn popped(alloc: Global, count: u64) -> Result<(), Fault> {
    let mut pages = MemPages::new(alloc, 8_192, 4, 0)?;
    push_all(&mut pages, count)?;
    pop_all(&mut pages, count)?;
    Ok(())
}

fn finished(alloc: Global, count: u64) -> Result<(), Fault> {
    let mut pages = MemPages::new(alloc, 8_192, 4, 0)?;
    push_all(&mut pages, count)?;
    finish_one(&mut pages)?;
    Ok(())
}

pub(crate) fn only_push(alloc: Global, count: u64) -> bool {
    pushed(alloc, count).is_ok()
}

pub(crate) fn push_and_pop(alloc: Global, count: u64) -> bool {
    popped(alloc, count).is_ok()
}

pub(crate) fn push_and_finish(alloc: Global, count: u64) -> bool {
    finished(alloc, count).is_ok()
}
"""

INVARIANT = """use Rattle.std.proofs.Common.{◌≡◌, true}
use Rattle.isp_page.specs.State.{none_begun}
use Rattle.undo_calls.proofs.calls.%s.Given as goal

abbrev pub invariant-loop-key : goal.invariant-loop-key
invariant-loop-key g l = record {
  usable : g.P.Pages.usable l.pages ≡ true;
  none : g.P.Pages.mini l.pages ≡ none_begun;
}
"""


def write(path, text):
    os.makedirs(os.path.dirname(path), exist_ok=True)
    with open(path, "w", encoding="utf-8") as file:
        file.write(text)


def build(folder):
    """The program, built beside copies of the crates."""
    shutil.copytree(os.path.join(TOP, "crates"), os.path.join(folder, "crates"), ignore=shutil.ignore_patterns("out"))
    with open(os.path.join(TOP, "crates.txt"), encoding="utf-8") as file:
        write(os.path.join(folder, "crates.txt"), file.read() + LINE)
    crate = os.path.join(folder, "crates", "undo_calls")
    write(os.path.join(crate, "src", "main.rt"), MAIN)
    write(os.path.join(crate, "src", "calls.rt"), CALLS)
    for function in ("push_all", "pop_all"):
        text = INVARIANT % function
        write(os.path.join(crate, "proofs", "calls", function, "Invariants.antt"), text)
    built = subprocess.run(os.environ.get("RT", "rt").split() + ["run"], cwd=crate, stdin=subprocess.DEVNULL)
    if built.returncode != 0:
        sys.exit("the program was not built")
    return os.path.join(crate, "out", "undo_calls")


def timed(program, word, size):
    begin = time.perf_counter()
    done = subprocess.run([program], input=f"{word} {size}\n", text=True)
    if done.returncode != 0:
        sys.exit(f"the program ended with status {done.returncode}")
    return time.perf_counter() - begin


def table(program, title, word, sizes, rounds):
    """The sizes are run in turn, round by round, so that a slow moment of the machine does not fall on one of them."""
    print(title)
    runs = [[timed(program, word, size) for size in (0, *sizes)] for _ in range(rounds)]
    nothing, *least = map(min, zip(*runs))
    before = None
    for size, seconds in zip(sizes, (seconds - nothing for seconds in least)):
        ratio = "" if before is None else f"  x{seconds / before:.2f}"
        print(f"  {size:>7}  {seconds:8.3f} s{ratio}")
        before = seconds


def main():
    rounds = int(sys.argv[1]) if len(sys.argv) > 1 else 5
    with tempfile.TemporaryDirectory() as folder:
        program = build(folder)
        table(program, "images pushed", "push", (2_500, 5_000, 10_000, 20_000), rounds)
        table(program, "images pushed and popped", "pop", (2_500, 5_000, 10_000, 20_000), rounds)
        table(program, "images pushed, and their pages given back by one call, four images a page", "finish", (1_000, 2_000, 4_000, 8_000), rounds)


main()
