#!/usr/bin/env python3
"""What `add_task` costs among many tasks, and what a rise of priorities along many dependencies costs.

Declares 1,000, 2,000 and 4,000 tasks, one call each, over `luigid --stdio`, and prints the milliseconds of a call. Then it
declares tasks that wait for each other, with 1,000, 10,000 and 100,000 dependencies in all, and prints what a report costs that
makes all of them urgent: the processor time of a run with some more of these, less that of a run with as many that make none
urgent. Last comes a chain of 10,000 tasks.

    rt ci luigid          # builds the daemon
    python3 bench/add_task.py crates/luigid/out/luigid
"""

import json
import os
import resource
import subprocess
import sys
import tempfile

COUNTS = [1_000, 2_000, 4_000]
EDGES = [(106, 10), (413, 25), (1_051, 100)]
CHAIN = (10_000, 1)
ROUNDS = 3
VISITS = 2_000_000


def call(method, payload):
    """The bytes of a call."""
    body = b"data=" + json.dumps(payload, separators=(",", ":")).encode()
    return b"POST /api/%s HTTP/1.1\r\nHost: x\r\nContent-Length: %d\r\n\r\n" % (method.encode(), len(body)) + body


STOP = call("stop", {})


def seconds(daemon, folder, calls):
    """The least processor time of a run over these calls and a stop; each must be answered."""
    messages = os.path.join(folder, "messages")
    with open(messages, "wb") as file:
        file.write(b"".join(calls) + STOP)
    best = None
    for _ in range(ROUNDS):
        with open(messages, "rb") as requests:
            begin = resource.getrusage(resource.RUSAGE_CHILDREN)
            run = subprocess.run([daemon, "--stdio"], stdin=requests, capture_output=True, check=True)
            end = resource.getrusage(resource.RUSAGE_CHILDREN)
            took = end.ru_utime + end.ru_stime - begin.ru_utime - begin.ru_stime
        if run.stdout.count(b"HTTP/1.1 200 OK") != len(calls) + 1:
            sys.exit("not all calls were answered")
        best = took if best is None else min(best, took)
    return best


def task(number, **more):
    return call("add_task", {"worker": "w", "task_id": f"t{number:06}", **more})


def layered(tasks, each):
    """Tasks of which each waits for `each` of those before it, so that they hang together."""
    calls = []
    for number in range(tasks):
        deps = [f"t{dep:06}" for dep in range(max(0, number - each), number)]
        calls.append(task(number, deps=deps))
    return calls


def main():
    if len(sys.argv) != 2:
        sys.exit("usage: add_task.py DAEMON")
    daemon = sys.argv[1]
    with tempfile.TemporaryDirectory() as folder:
        for count in COUNTS:
            took = seconds(daemon, folder, [task(number) for number in range(count)])
            print(f"{count:>7} tasks: {took / count * 1000:.3f} ms a call")
        for tasks, each in [*EDGES, CHAIN]:
            calls = layered(tasks, each)
            without = seconds(daemon, folder, calls)
            dependencies = sum(min(number, each) for number in range(tasks))
            rises = VISITS // dependencies
            urgent = [task(tasks - 1, priority=priority) for priority in range(1, rises + 1)]
            calm = [task(tasks - 1)] * rises
            rise = (seconds(daemon, folder, calls + urgent) - seconds(daemon, folder, calls + calm)) / rises
            print(f"{dependencies:>7} dependencies: {rise * 1000:.2f} ms the rise, of {without * 1000:.0f} ms for the declarations")
    print(f"processors: {os.cpu_count()}")


main()
