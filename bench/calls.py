#!/usr/bin/env python3
"""Calls per second of the daemon on its standard streams, and whether a call costs more behind many others.

Runs 1,000, 10,000 and 100,000 pipelined calls over `luigid --stdio`, the last one a stop, and prints the calls per second
of each, the best of three, and the ratio of the last to the first: a ratio of about 1 or more says that the cost of a call
does not grow with the calls before it.

    rt ci luigid          # builds the daemon
    python3 bench/calls.py crates/luigid/out/luigid
"""

import os
import subprocess
import sys
import tempfile
import time

SET = b'POST /api/update_resource HTTP/1.1\r\nHost: x\r\nContent-Length: 34\r\n\r\ndata={"resource":"gpu","amount":2}'
STOP = b"POST /api/stop HTTP/1.1\r\nHost: x\r\nContent-Length: 0\r\n\r\n"
COUNTS = [1_000, 10_000, 100_000]
ROUNDS = 3


def seconds(daemon, messages, calls):
    """The time of one run, which must end with status 0 and answer each call."""
    with open(messages, "rb") as requests:
        begin = time.perf_counter()
        run = subprocess.run([daemon, "--stdio"], stdin=requests, capture_output=True, check=True)
        end = time.perf_counter()
    if run.stdout.count(b"HTTP/1.1 200 OK") != calls:
        sys.exit(f"{calls} calls were not all answered")
    return end - begin


def main():
    if len(sys.argv) != 2:
        sys.exit("usage: calls.py DAEMON")
    rates = []
    with tempfile.TemporaryDirectory() as folder:
        for calls in COUNTS:
            messages = os.path.join(folder, str(calls))
            with open(messages, "wb") as file:
                file.write(SET * (calls - 1) + STOP)
            best = min(seconds(sys.argv[1], messages, calls) for _ in range(ROUNDS))
            rates.append(calls / best)
            print(f"{calls:>7} calls: {rates[-1]:>9,.0f} calls per second")
    print(f"ratio of the last to the first: {rates[-1] / rates[0]:.2f}")
    print(f"processors: {os.cpu_count()}")


main()
