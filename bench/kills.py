#!/usr/bin/env python3
"""Is a saved file whole when the process that saves it is killed?

A program saves two states in turn in one file, over and over. It is killed 200 times, each time at a random moment; then the
file must hold the whole text of the one state or of the other (or be absent still, before the first save of all). Prints how
often it held which, and how often a file aside was left behind, which tells that the kill came in the middle of a save.
Ends with status 1 where the file held anything else.

    python3 bench/kills.py          # at the top of the repository; builds the program below in a folder of its own
"""

import pathlib
import random
import subprocess
import sys
import tempfile
import time

from snapshot import STATES, built

KILLS = 200
MOST_SECONDS = 0.06

PROGRAM = (
    """//! Saves two states in turn in the file that its word names, until it is killed.
#![tactic(auto)]

use lg_base::{Amounts, Moment, Name, NoMemory, Seq, TaskId, Text, WorkerId};
use lg_calls::{Settings, State, Status, TaskRec};
use lg_io::{DiskFiles, RandomNumbers};
use lg_retry::{Failures, Policy};
use lg_snapshot::{SaveFault, save};
use std::alloc::Global;
use std::env;
use std::process::ExitCode;
use std::rt::Env;

"""
    + STATES
    + """
/// The one word of the command line.
fn path(rt: &(impl Env + Alloc<A = Global>)) -> Option<Text> {
    let mut words = env::args(rt).ok()?;
    Some(Text::from_string(words.nth(1)?))
}

/// The path with an ending.
fn beside(alloc: Global, path: &Text, ending: &str) -> Result<Text, NoMemory> {
    Ok(Text::from_string(format!(in alloc; "{}{ending}", path.as_str())?))
}

/// Saves two states beside the path, says that it is ready, and saves them in turn at the path.
fn run(rt: &HostRuntime, path: &Text) -> Result<(), SaveFault> {
    let alloc = rt.alloc();
    let settings = Settings::new();
    let one = state(alloc, 1_000, &settings)?;
    let other = state(alloc, 1_500, &settings)?;
    let mut files = DiskFiles::new(rt);
    let mut numbers = RandomNumbers::new(rt);
    save(alloc, &mut files, &beside(alloc, path, ".one")?, &mut numbers, &one)?;
    save(alloc, &mut files, &beside(alloc, path, ".other")?, &mut numbers, &other)?;
    println!(rt; "ready").map_err(|_| SaveFault::NoMemory)?;
    for _ in 0..1_000_000_u32 {
        save(alloc, &mut files, path, &mut numbers, &one)?;
        save(alloc, &mut files, path, &mut numbers, &other)?;
    }
    Ok(())
}

fn main(rt: HostRuntime) -> ExitCode {
    let Some(path) = path(&rt) else {
        return ExitCode::from(2);
    };
    match run(&rt, &path) {
        Ok(()) => ExitCode::SUCCESS,
        Err(_) => ExitCode::FAILURE,
    }
}
"""
)


def killed(program, path, most):
    """Kills the program at a random moment of its saves."""
    process = subprocess.Popen([program, path], stdout=subprocess.PIPE, text=True)
    if process.stdout.readline() != "ready\n":
        sys.exit("the program saved nothing")
    time.sleep(random.uniform(0, most))
    process.kill()
    if process.wait() >= 0:
        sys.exit("the program ended by itself")


def left(folder):
    """Removes the files aside that a kill left behind, and tells how many there were."""
    asides = [it for it in folder.iterdir() if "-luigi-tmp-" in it.name]
    for it in asides:
        it.unlink()
    return len(asides)


def tried(program, folder):
    """What the file held after each kill, and how many files aside were left behind."""
    path = folder / "state"
    found, asides = {"absent": 0, "one": 0, "other": 0, "else": 0}, 0
    for number in range(KILLS):
        killed(program, path, MOST_SECONDS)
        whole = {(folder / f"state.{name}").read_bytes(): name for name in ("one", "other")}
        if path.exists():
            found[whole.get(path.read_bytes(), "else")] += 1
        else:
            found["absent" if found["one"] + found["other"] == 0 else "else"] += 1
        asides += left(folder)
    return found, asides


def main():
    top = pathlib.Path(__file__).resolve().parent.parent
    with tempfile.TemporaryDirectory() as folder, tempfile.TemporaryDirectory() as room:
        program = built(top, pathlib.Path(folder), PROGRAM, "lg_base lg_io lg_retry lg_calls lg_snapshot")
        found, asides = tried(program, pathlib.Path(room))
    print(f"killed {KILLS} times: {found}, {asides} files aside left behind")
    return 1 if found["else"] else 0


if __name__ == "__main__":
    sys.exit(main())
