#!/usr/bin/env python3
"""Megabytes per second of a stream of pings that comes in pieces of 1, 100 and 65,536 bytes, and their ratios."""
import os
import subprocess
import sys
import threading
import time

FORM = b"data=%7B%22worker%22%3A%22w%22%7D"
PING = b"POST /api/ping HTTP/1.1\r\nHost: x\r\nContent-Length: %d\r\n\r\n%s" % (len(FORM), FORM)
STOP = b"POST /api/stop HTTP/1.1\r\nContent-Length: 0\r\n\r\n"


def run(program, pings, piece):
    """The seconds that so many pings take, written in pieces of this size."""
    stream = PING * pings + STOP
    child = subprocess.Popen([program, "--stdio"], stdin=subprocess.PIPE, stdout=subprocess.PIPE, stderr=subprocess.DEVNULL)
    written = []
    reader = threading.Thread(target=lambda: written.append(child.stdout.read()))
    begin = time.perf_counter()
    reader.start()
    into = child.stdin.fileno()
    for at in range(0, len(stream), piece):
        part = stream[at:at + piece]
        while part:
            part = part[os.write(into, part):]
    child.stdin.close()
    reader.join()
    seconds = time.perf_counter() - begin
    assert child.wait() == 0
    assert written[0].count(b"HTTP/1.1 200 OK") == pings + 1
    return len(stream) / 1e6 / seconds


def main():
    program = sys.argv[1]
    rates = {}
    for piece, pings in ((1, 20_000), (100, 100_000), (65_536, 100_000)):
        rates[piece] = max(run(program, pings, piece) for _ in range(3))
    for piece, rate in rates.items():
        print(f"{piece:>6} {rate:8.2f} MB/s  {rate / rates[65_536]:.3f} of the rate in pieces of 65,536")


main()
