#!/usr/bin/env python3
"""Measures `asm_format`: texts of 16, 64 and 256 KiB are lexed, parsed and printed.

usage: bench/texts.py PROGRAM

It writes texts of four shapes, gives each to the program, checks that it writes a model, and prints a table for bench/README.md.
"""
import os
import subprocess
import sys
import tempfile

HEAD = "asm Q\nsignature:\n    controlled x: Integer\ndefinitions:\n"


def filled(first: str, line: str, last: str, size: int) -> str:
    """A text of about so many bytes: lines between a first and a last part."""
    return first + line * ((size - len(first) - len(last)) // len(line)) + last


def updates(size: int) -> str:
    return filled(HEAD + "main rule r_Main = par\n", "x := x + 1 * (2 - 3)\n", "endpar\n", size)


def functions(size: int) -> str:
    line = "function f($a in Integer) = if $a < 0 then -$a else $a endif\n"
    return filled(HEAD, line, "main rule r_Main = skip\n", size)


def comments(size: int) -> str:
    return filled(HEAD, "// nothing is done here, and this is why\n", "main rule r_Main = skip\n", size)


def nests(size: int) -> str:
    line = "x := " + "(" * 60 + "1" + " + 1)" * 60 + "\n"
    return filled(HEAD + "main rule r_Main = par\n", line, "endpar\n", size)


SHAPES = [("updates", updates), ("functions", functions), ("comments", comments), ("60 parentheses in one another", nests)]


def measured(program: str, text: str) -> tuple[float, int, int]:
    """The processor seconds of the best of five runs, the peak memory in KiB, and the bytes written."""
    with tempfile.NamedTemporaryFile("w", delete=False) as sent:
        sent.write(text)
    taken = tempfile.NamedTemporaryFile("rb", delete=False)
    best, memory = float("inf"), 0
    try:
        for _ in range(5):
            with open(sent.name, "rb") as source, open(taken.name, "wb") as sink:
                child = subprocess.Popen([program], stdin=source, stdout=sink)
                _, status, usage = os.wait4(child.pid, 0)
            assert os.waitstatus_to_exitcode(status) == 0, status
            best = min(best, usage.ru_utime + usage.ru_stime)
            memory = max(memory, usage.ru_maxrss)
        with open(taken.name) as written:
            assert written.read().startswith("asm Q\nsignature :\n")
        return best, memory, os.path.getsize(taken.name)
    finally:
        os.unlink(sent.name)
        os.unlink(taken.name)


def main() -> None:
    program = sys.argv[1]
    print(f"processors: {os.cpu_count()}\n")
    print("| text | bytes read | bytes written | processor time | per byte read | peak memory |")
    print("|---|---|---|---|---|---|")
    for name, shape in SHAPES:
        for size in (16 * 1024, 64 * 1024, 256 * 1024):
            text = shape(size)
            seconds, memory, written = measured(program, text)
            print(f"| {name} | {len(text):,} | {written:,} | {1e3 * seconds:,.1f} ms | {1e9 * seconds / len(text):,.0f} ns | {memory:,} KiB |")


if __name__ == "__main__":
    main()
