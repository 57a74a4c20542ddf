#!/usr/bin/env python3
"""The time of writing and of reading the text of a state, and whether a task costs more among many others.

Makes states of 1,000, 10,000 and 100,000 tasks, each with a dependency, two parameters, a resource, a worker and a
stakeholder; writes the text of each and reads it back. Prints the milliseconds of each, the best of three, and what a task
costs in the largest state against the smallest: a ratio of about 1 says that the cost is linear.

    python3 bench/snapshot.py          # at the top of the repository; builds the program below in a folder of its own
"""

import pathlib
import shutil
import subprocess
import tempfile

COUNTS = [1_000, 10_000, 100_000]
ROUNDS = 3
LIBRARIES = ["lg_base", "lg_io", "lg_json", "lg_retry", "lg_target", "lg_calls", "lg_snapshot"]

# The functions of a program that make a state of so many tasks.
STATES = """fn text(alloc: Global, word: &str) -> Result<Text, NoMemory> {
    Ok(Text::copied(alloc, word)?)
}

fn numbered(alloc: Global, number: u64) -> Result<TaskId, NoMemory> {
    let id = format!(in alloc; "Report_{number:07}_99914b932b")?;
    Ok(TaskId::from(Text::from_string(id)))
}

fn params(alloc: Global) -> Result<Seq<(Name, Text)>, NoMemory> {
    let mut params = Seq::new(alloc);
    let day = (Name::from(text(alloc, "day")?), text(alloc, "2026-12-01")?);
    params.push(day)?;
    let path = (Name::from(text(alloc, "path")?), text(alloc, "a \\"quoted\\" path")?);
    params.push(path)?;
    Ok(params)
}

fn one_worker(alloc: Global) -> Result<Seq<WorkerId>, NoMemory> {
    let mut workers = Seq::new(alloc);
    workers.push(WorkerId::from(text(alloc, "worker-1")?))?;
    Ok(workers)
}

fn deps(alloc: Global, number: u64) -> Result<Seq<TaskId>, NoMemory> {
    let mut deps = Seq::new(alloc);
    if number > 0 {
        deps.push(numbered(alloc, number - 1)?)?;
    }
    Ok(deps)
}

fn resources(alloc: Global) -> Result<Amounts, NoMemory> {
    let mut amounts = Amounts::new(alloc);
    amounts.put(Name::from(text(alloc, "db")?), 1)?;
    Ok(amounts)
}

fn task(alloc: Global, number: u64) -> Result<TaskRec, NoMemory> {
    let id = numbered(alloc, number)?;
    let family = Name::from(text(alloc, "Report")?);
    let params = params(alloc)?;
    let deps = deps(alloc, number)?;
    let workers = one_worker(alloc)?;
    let stakeholders = one_worker(alloc)?;
    let resources = resources(alloc)?;
    Ok(TaskRec {
        id,
        number,
        family,
        module: None,
        params,
        status: Status::Pending,
        deps,
        workers,
        stakeholders,
        priority: 0,
        resources,
        added: Moment(0),
        updated: Moment(0),
        runnable: true,
        batchable: false,
        accepts_messages: false,
        worker_running: None,
        time_running: None,
        batch: None,
        failures: Failures::new(alloc),
        policy: Policy::default(),
        retry: None,
        disabled_at: None,
        remove: None,
        expl: None,
        tracking_url: None,
        status_message: None,
        progress: None,
    })
}

fn state(alloc: Global, count: u64, settings: &Settings) -> Result<State, NoMemory> {
    let mut state = State::empty(alloc, settings.copy()?);
    let mut tasks = Seq::new(alloc);
    for number in 0..count {
        tasks.push(task(alloc, number)?)?;
    }
    state.tasks = tasks;
    state.next = count;
    Ok(state)
}
"""

PROGRAM = (
    """//! Writes the text of a state of so many tasks, and reads it back.
#![tactic(auto)]

use lg_base::{Amounts, Moment, Name, NoMemory, Seq, TaskId, Text, WorkerId};
use lg_calls::{Settings, State, Status, TaskRec};
use lg_retry::{Failures, Policy};
use lg_snapshot::{decode, encode};
use std::alloc::Global;
use std::rt::Clock;
use std::time::Instant;

"""
    + STATES
    + """
fn measured<R: Clock>(rt: &R, alloc: Global, count: u64) -> Result<(u128, u128), NoMemory> {
    let settings = Settings::new();
    let state = state(alloc, count, &settings)?;
    let begin = Instant::now(rt).map_err(|_| NoMemory)?;
    let text = encode(alloc, &state)?;
    let written = begin.elapsed(rt).map_err(|_| NoMemory)?;
    let begin = Instant::now(rt).map_err(|_| NoMemory)?;
    let read = decode(alloc, text.bytes(), &settings)?;
    let spent = begin.elapsed(rt).map_err(|_| NoMemory)?;
    match read {
        Some(_) => Ok((written.as_micros(), spent.as_micros())),
        None => Err(NoMemory),
    }
}

fn main(rt: HostRuntime) -> Result<(), NoMemory> {
    for count in [COUNTS] {
        let (written, read) = measured(&rt, rt.alloc(), count)?;
        println!(rt; "{count} {written} {read}").map_err(|_| NoMemory)?;
    }
    Ok(())
}
""".replace("COUNTS", ", ".join(str(count) for count in COUNTS))
)


def built(top, folder, program, libraries):
    """A program, proved and built over these libraries of the repository and the crates below them."""
    lines = (top / "crates.txt").read_text(encoding="utf-8").splitlines()
    kept = [line for line in lines if line.split(":")[0] in LIBRARIES]
    for name in LIBRARIES:
        crate = top / "crates" / name
        shutil.copytree(crate, folder / "crates" / name, ignore=lambda at, _: ["out"] if pathlib.Path(at) == crate else [])
    saves = folder / "crates" / "saves"
    (saves / "src").mkdir(parents=True)
    (saves / "src" / "main.rt").write_text(program, encoding="utf-8")
    kept.append(f"saves: {libraries}")
    (folder / "crates.txt").write_text("\n".join(kept) + "\n")
    shutil.copy(top / "HANDLES", folder / "HANDLES")
    subprocess.run(["rt", "run"], cwd=saves, check=True, stdout=subprocess.DEVNULL, stderr=subprocess.DEVNULL)
    return saves / "out" / "saves"


def best_of(program):
    """For each count the best time of writing and of reading, in microseconds."""
    rounds = []
    for _ in range(ROUNDS):
        run = subprocess.run([program], check=True, capture_output=True, text=True)
        rounds.append([[int(word) for word in line.split()] for line in run.stdout.splitlines()])
    return [[min(each[at][part] for each in rounds) for part in (1, 2)] for at in range(len(COUNTS))]


def main():
    top = pathlib.Path(__file__).resolve().parent.parent
    with tempfile.TemporaryDirectory() as folder:
        times = best_of(built(top, pathlib.Path(folder), PROGRAM, "lg_base lg_retry lg_calls lg_snapshot"))
    for count, (written, read) in zip(COUNTS, times):
        print(f"{count:>7} tasks: written in {written / 1000:.1f} ms, read in {read / 1000:.1f} ms")
    growth = COUNTS[-1] / COUNTS[0]
    written, read = (times[-1][part] / times[0][part] / growth for part in (0, 1))
    print(f"a task costs {written:.2f} times as much to write, and {read:.2f} times as much to read")


if __name__ == "__main__":
    main()
