#!/usr/bin/env python3
"""Measures the reads of `asm_server stdio` in a long journal, requests that are piped and asked one by one, and the demo.

usage: bench/reads.py PROGRAM [ENTRIES]      (ENTRIES: 100,000 by default)

Each row is the best of five runs of the program; what the entries before take is measured apart and taken off. It checks the replies, and
prints tables for bench/README.md.
"""
import os
import pathlib
import subprocess
import sys
import tempfile
import time

from invariants import CROSSING, pressed
from models import STEP, load, measured

COUNTER = "asm Q signature: controlled n: Integer definitions: main rule r_Main = n := n + 1 default init s0: function n = 0"


def in_a_journal(program: str, entries: int, reads: int) -> None:
    print(f"| {reads:,} times | after entries | time of one | peak memory |")
    print("|---|---|---|---|")
    asked = [
        ("`value` of `expired`", '{"op":"value","name":"Q","term":"expired"}\n'),
        ("`state`", '{"op":"state","name":"Q"}\n'),
        ("`text`", '{"op":"text","name":"Q"}\n'),
        ("`log` of 16 from the first", '{"op":"log","from":1,"count":16}\n'),
        ("`log` of 16 from the middle", '{"op":"log","from":%d,"count":16}\n'),
    ]
    for count in (entries // 100, entries):
        first = [load(CROSSING)] + [pressed(n) for n in range(count - 1)]
        before, _ = measured(program, first)
        for name, request in asked:
            line = request % (count // 2) if "%d" in request else request
            seconds, memory = measured(program, first + [line] * reads)
            print(f"| {name} | {count:,} | {1e6 * (seconds - before) / reads:,.1f} µs | {memory:,} KiB |")
    print()


def one_by_one(program: str, requests: int) -> tuple[float, float]:
    """Seconds by the clock and of the processor, each request sent once the reply before it has come; the best of five runs."""
    best = (float("inf"), float("inf"))
    for _ in range(5):
        child = subprocess.Popen([program, "stdio"], stdin=subprocess.PIPE, stdout=subprocess.PIPE, bufsize=0)
        read, write = child.stdout.readline, child.stdin.write
        write(load(COUNTER).encode())
        assert b'"loaded"' in read()
        line = STEP.encode()
        began = time.monotonic()
        for _ in range(requests):
            write(line)
            reply = read()
        wall = time.monotonic() - began
        assert reply.startswith(b'{"at":%d,"ok"' % (requests + 1)), reply
        child.stdin.close()
        _, status, usage = os.wait4(child.pid, 0)
        assert os.waitstatus_to_exitcode(status) == 0, status
        best = min(best, (wall, usage.ru_utime + usage.ru_stime))
    return best


def piped(program: str, requests: int) -> tuple[float, float]:
    """The same, from a file into a file."""
    best = (float("inf"), float("inf"))
    with tempfile.TemporaryDirectory() as folder:
        sent, taken = pathlib.Path(folder) / "sent", pathlib.Path(folder) / "taken"
        sent.write_text(load(COUNTER) + STEP * requests)
        for _ in range(5):
            with open(sent, "rb") as source, open(taken, "wb") as sink:
                began = time.monotonic()
                child = subprocess.Popen([program, "stdio"], stdin=source, stdout=sink)
                _, status, usage = os.wait4(child.pid, 0)
                wall = time.monotonic() - began
            assert os.waitstatus_to_exitcode(status) == 0, status
            assert taken.read_text().count('"ok":') == requests + 1
            best = min(best, (wall, usage.ru_utime + usage.ru_stime))
    return best


def asking(program: str, requests: int) -> None:
    print("| steps of a counter | requests per second | processor time of one |")
    print("|---|---|---|")
    for name, ran in (("in a file", piped), ("one by one, through pipes", one_by_one)):
        wall, seconds = ran(program, requests)
        print(f"| {name} | {requests / wall:,.0f} | {1e6 * seconds / requests:,.1f} µs |")
    print()


def demo(program: str) -> None:
    print("| demo | processor time | peak memory | its line |")
    print("|---|---|---|---|")
    for n in (1, 16, 256):
        best, memory = float("inf"), 0
        for _ in range(5):
            child = subprocess.Popen([program, "demo", str(n)], stdin=subprocess.DEVNULL, stdout=subprocess.PIPE)
            line = child.stdout.read().decode()
            _, status, usage = os.wait4(child.pid, 0)
            assert os.waitstatus_to_exitcode(status) == 0, status
            assert line == f"demo {n}: entries 23 refused 1 sum {5 * n * (n + 1)}\n", line
            best, memory = min(best, usage.ru_utime + usage.ru_stime), max(memory, usage.ru_maxrss)
        print(f"| `demo {n}` | {1e3 * best:,.1f} ms | {memory:,} KiB | `{line.strip()}` |")
    print()


def main() -> None:
    program = sys.argv[1]
    entries = int(sys.argv[2]) if len(sys.argv) > 2 else 100_000
    print(f"processors: {os.cpu_count()}\n")
    in_a_journal(program, entries, entries // 10)
    asking(program, entries)
    demo(program)


if __name__ == "__main__":
    main()
