#!/usr/bin/env python3
"""Measures the book with threads: commits of several seats, commits over a long journal, and peeks while another seat commits.

usage: bench/book.py PROGRAM [STEPS]      (STEPS: 80,000 by default, of all seats together; at most 762,599)

PROGRAM is crates/asm_book_bench/out/asm_book_bench. Each row is the best of five runs, with the time of the shortest run of the program (one
seat, one step) taken off. It checks what the program prints, and prints tables for bench/README.md.
"""
import os
import subprocess
import sys
import time

RUNS = 5


def run(program: str, *words) -> tuple[float, list[int]]:
    """Wall seconds of one run, and the numbers that it printed."""
    began = time.monotonic()
    told = subprocess.run([program, *map(str, words)], check=True, capture_output=True, text=True).stdout
    wall = time.monotonic() - began
    return wall, [int(it) for it in told.split()[1::2]]


def best(program: str, entries: int, *words) -> tuple[float, list[int]]:
    """The shortest of some runs, each of which has to print this number of entries."""
    runs = [run(program, *words) for _ in range(RUNS)]
    assert all(numbers[0] == entries for _, numbers in runs), (words, runs)
    return min(runs)


def commits(program: str, start: float, steps: int) -> None:
    print("| seats | commits of each | seconds | commits per second |")
    print("|---|---|---|---|")
    for seats in (1, 2, 4, 8):
        each = steps // seats
        wall = best(program, seats * each + 1, "commits", seats, each)[0] - start
        print(f"| {seats} | {each:,} | {wall:.3f} | {seats * each / wall:,.0f} |")
    print()


def journal(program: str, start: float) -> None:
    print("| commits of one seat | seconds | time of a commit |")
    print("|---|---|---|")
    for steps in (1_000, 10_000, 100_000):
        wall = best(program, steps + 1, "commits", 1, steps)[0] - start
        print(f"| {steps:,} | {wall:.3f} | {1e6 * wall / steps:,.1f} µs |")
    print()


def peeks(program: str, start: float, steps: int) -> None:
    """Here the best run is the one with the most peeks per second."""
    print("| peeking seats | commits of the other | commits per second | peeks | peeks per second | of each seat |")
    print("|---|---|---|---|---|---|")
    for seats in (1, 2, 3, 7):
        runs = [run(program, "peeks", seats + 1, steps) for _ in range(RUNS)]
        assert all(numbers[0] == steps + 1 for _, numbers in runs), runs
        wall, (_, count) = max(runs, key=lambda it: it[1][1] / it[0])
        wall -= start
        print(f"| {seats} | {steps:,} | {steps / wall:,.0f} | {count:,} | {count / wall:,.0f} | {count / wall / seats:,.0f} |")
    print()


def main() -> None:
    program = sys.argv[1]
    steps = int(sys.argv[2]) if len(sys.argv) > 2 else 80_000
    print(f"processors: {os.cpu_count()}\n")
    start = best(program, 2, "commits", 1, 1)[0]
    commits(program, start, steps)
    journal(program, start)
    peeks(program, start, steps)


if __name__ == "__main__":
    main()
