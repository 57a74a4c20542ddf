#!/usr/bin/env python3
"""Processor time of threads that wait for the turn.

Eight threads take the turn, each has it for half a second asleep, and the others wait meanwhile: four seconds in which
28 half seconds are waited through. Prints the seconds that passed and the processor seconds that all threads used.

    python3 bench/turn.py          # at the top of the repository; builds the program below in a folder of its own
"""

import os
import pathlib
import shutil
import subprocess
import tempfile
import time

PROGRAM = """//! Eight threads, each of which has the turn for half a second.
#![tactic(auto)]
ghost use Rattle.std.specs.Prelude.{[]};
ghost use Rattle.lg_turn.specs.Passes.{IsAway, IsPassOf};

use lg_base::NoMemory;
use lg_turn::{Keeps, Pass, Turn};
use std::rt::Clock;
use std::sync::Wait;
use std::thread;
use std::thread::for_each_mut;
use std::time::Duration;

#[derive(Drop)]
struct Nothing;

impl Keeps for Nothing {
    type Item = u32;

    type Base = u32;

    ghost items = { λ nothing. [] };

    ghost number = { λ item. item };

    ghost base = { λ nothing. 0 };
}

fn hold<R: Wait + Clock>(rt: &R, turn: &Turn<Nothing>, pass: &mut Pass<Nothing>)
    requires turn { IsPassOf turn.now pass.old × IsAway pass.old }
    ensures turn { IsPassOf turn.now pass.new × IsAway pass.new }
{
    let value = turn.take(rt, pass);
    thread::sleep(rt, Duration::from_millis(500));
    turn.give(pass, value);
}

fn main(rt: HostRuntime) -> Result<(), NoMemory> {
    let (turn, mut passes) = Turn::make_all(rt.alloc(), Nothing, 8).map_err(|back| back.1)?;
    for_each_mut(&rt, passes.as_mut_slice(), 8, &|_, pass| hold(&rt, &turn, pass));
    let _ = turn.close_all(passes);
    Ok(())
}
"""


def built(top, folder):
    """The program, proved and built over this repository's `lg_turn`."""
    for name in ["lg_base", "lg_turn"]:
        shutil.copytree(top / "crates" / name, folder / "crates" / name, ignore=shutil.ignore_patterns("out"))
    waits = folder / "crates" / "waits"
    (waits / "src").mkdir(parents=True)
    (waits / "src" / "main.rt").write_text(PROGRAM, encoding="utf-8")
    (folder / "crates.txt").write_text("lg_base:\nlg_turn: lg_base atomic_table\nwaits: lg_base lg_turn\n")
    shutil.copy(top / "HANDLES", folder / "HANDLES")
    subprocess.run(["rt", "run"], cwd=waits, check=True, stdout=subprocess.DEVNULL, stderr=subprocess.DEVNULL)
    return waits / "out" / "waits"


def main():
    top = pathlib.Path(__file__).resolve().parent.parent
    with tempfile.TemporaryDirectory() as folder:
        program = built(top, pathlib.Path(folder))
        begin = time.monotonic()
        child = os.spawnv(os.P_NOWAIT, program, [str(program)])
        _, status, used = os.wait4(child, 0)
        passed = time.monotonic() - begin
    if status != 0:
        raise SystemExit("the program failed")
    print(f"{passed:.2f} seconds passed, {used.ru_utime + used.ru_stime:.3f} processor seconds were used")


if __name__ == "__main__":
    main()
