#!/usr/bin/env python3
"""Measures `asm_server stdio`: lines per second, processor time per line, and memory over many lines.

usage: bench/run.py PROGRAM [LINES]      (LINES: 1,000,000 by default)

It sends one-step `run` requests, and then steps of a loaded model, in files of growing length, and checks the replies of the first
kinds. It prints tables for bench/README.md.
"""
import os
import resource
import subprocess
import sys
import tempfile
import time

TEXT = "asm Q signature: controlled b: Boolean definitions: main rule r_Main = b := true"
REPLY = '{"at":0,"ok":{"domains":{},"functions":{"b":true},"steps":1}}\n'




def wide(name: str, functions: int) -> str:
    """A text over so many functions, all updated in one step."""
    names = [f"f{i}" for i in range(functions)]
    declared = " ".join(f"controlled {f}: Integer" for f in names)
    rule = "par " + " ".join(f"{f} := {i}" for i, f in enumerate(names)) + " endpar"
    return f"asm {name} signature: {declared} definitions: main rule r_Main = {rule}"


def run(text: str) -> str:
    return f'{{"op":"run","steps":1,"text":"{text}"}}\n'


def load(name: str, text: str) -> str:
    return f'{{"op":"load","name":"{name}","text":"{text}"}}\n'


def step(name: str) -> str:
    return f'{{"op":"step","formula":"{name}"}}\n'


def measured(program: str, first: list[str], request: str, lines: int, check) -> tuple[float, float, int, int]:
    """Wall seconds, processor seconds, peak memory in KiB and bytes sent of one run: some first lines, and then one line so often."""
    with tempfile.NamedTemporaryFile("w", delete=False) as sent:
        sent.writelines(first)
        for _ in range(lines):
            sent.write(request)
    taken = tempfile.NamedTemporaryFile("rb", delete=False)
    try:
        began = time.monotonic()
        with open(sent.name, "rb") as source, open(taken.name, "wb") as sink:
            child = subprocess.Popen([program, "stdio"], stdin=source, stdout=sink)
            _, status, usage = os.wait4(child.pid, 0)
        wall = time.monotonic() - began
        assert os.waitstatus_to_exitcode(status) == 0, status
        with open(taken.name) as replies:
            count = 0
            for count, line in enumerate(replies, 1):
                assert check(count, line), line
        assert count == len(first) + lines, (count, lines)
        return wall, usage.ru_utime + usage.ru_stime, usage.ru_maxrss, os.path.getsize(sent.name)
    finally:
        os.unlink(sent.name)
        os.unlink(taken.name)


def table(program: str, rows: list) -> None:
    print("| requests | lines | bytes | lines per second | processor time per line | peak memory |")
    print("|---|---|---|---|---|---|")
    for name, first, request, lines, check in rows:
        wall, processor, memory, size = measured(program, first, request, lines, check)
        print(f"| {name} | {lines:,} | {size:,} | {lines / wall:,.0f} | {1e6 * processor / lines:,.1f} µs | {memory:,} KiB |")
    print()


def main() -> None:
    program = sys.argv[1]
    most = int(sys.argv[2]) if len(sys.argv) > 2 else 1_000_000
    print(f"processors: {os.cpu_count()}\n")

    def is_told(count: int, line: str) -> bool:
        return line == REPLY

    def is_ok(count: int, line: str) -> bool:
        return '"ok":' in line

    def is_next(count: int, line: str) -> bool:
        return line.startswith(f'{{"at":{count},"ok":')

    rows = [("`run`, one update", [], run(TEXT), n, is_told) for n in (most // 100, most // 10, most)]
    rows += [(f"`run`, {n} updates in a `par`", [], run(wide("W", n)), max(most // 1000, 1), is_ok) for n in (16, 64, 256)]
    table(program, rows)
    few = [load("Q", TEXT)]
    many = [load(f"M{n}", wide("W", 256)) for n in range(31)] + few
    rows = [("`step`, one model", few, step("Q"), n, is_next) for n in (most // 1000, most // 100, most // 10)]
    rows += [("`step`, beside 31 wide models", many, step("Q"), n, is_next) for n in (most // 1000, most // 10)]
    rows += [("`step` of 256 updates", many, step("M0"), most // 1000, is_next)]
    table(program, rows)


if __name__ == "__main__":
    main()
