#!/usr/bin/env python3
"""Measures checking and steps of `asm_server stdio`: long texts, quantifiers, and the rules of the whole language.

usage: bench/models.py PROGRAM

Each row is the best of five runs of the program; what loading takes is measured apart and taken off. It checks that each reply is Ok, and
prints tables for bench/README.md.
"""
import json
import os
import subprocess
import sys
import tempfile

HEAD = "asm Q\nsignature:\n    domain N subsetof Integer\n    controlled x: Integer\n    controlled f: N -> Integer\n"
NUMBERS = "definitions:\n    domain N = {0..4095}\n"

CROSSING = """asm Crossing
signature:
    enum domain Light = {RED | AMBER | GREEN}
    domain Count subsetof Integer
    controlled light: Light
    controlled ticks: Count
    controlled waiting: Boolean
    derived limit: Light -> Integer
    derived expired: Boolean
definitions:
    domain Count = {0..9}
    function limit($l in Light) = switch $l case GREEN: 4 case AMBER: 1 otherwise 3 endswitch
    function expired = ticks >= limit(light)
    rule r_turn($next in Light) = par light := $next ticks := 0 endpar
    rule r_green = if expired and waiting then r_turn[AMBER] else if not expired then ticks := ticks + 1 endif endif
    rule r_amber = if expired then r_turn[RED] else ticks := ticks + 1 endif
    rule r_red = if expired then par r_turn[GREEN] waiting := true endpar else ticks := ticks + 1 endif
    main rule r_Main = switch light case GREEN: r_green[] case AMBER: r_amber[] otherwise r_red[] endswitch
default init s0:
    function light = GREEN
    function ticks = 0
    function waiting = true
"""


def text(rule: str, init: str = "") -> str:
    return HEAD + NUMBERS + f"    main rule r_Main = {rule}\n" + init


def filled(line: str, size: int) -> str:
    """A text of about so many bytes, in a macro rule that nothing calls."""
    first, last = HEAD + NUMBERS + "    rule r_long = par\n", "endpar\n    main rule r_Main = skip\n"
    return first + line * ((size - len(first) - len(last)) // len(line)) + last


def load(model: str) -> str:
    return json.dumps({"op": "load", "name": "Q", "text": model}, separators=(",", ":")) + "\n"


def run(model: str) -> str:
    return json.dumps({"op": "run", "steps": 1, "text": model}, separators=(",", ":")) + "\n"


STEP = '{"op":"step","formula":"Q"}\n'


def measured(program: str, lines: list[str]) -> tuple[float, int]:
    """The processor seconds of the best of five runs, and the most memory in KiB."""
    with tempfile.NamedTemporaryFile("w", delete=False) as sent:
        sent.writelines(lines)
    taken = tempfile.NamedTemporaryFile("rb", delete=False)
    best, memory = float("inf"), 0
    try:
        for _ in range(5):
            with open(sent.name, "rb") as source, open(taken.name, "wb") as sink:
                child = subprocess.Popen([program, "stdio"], stdin=source, stdout=sink)
                _, status, usage = os.wait4(child.pid, 0)
            assert os.waitstatus_to_exitcode(status) == 0, status
            best, memory = min(best, usage.ru_utime + usage.ru_stime), max(memory, usage.ru_maxrss)
            with open(taken.name) as replies:
                for line in replies:
                    assert '"ok":' in line, line
        return best, memory
    finally:
        os.unlink(sent.name)
        os.unlink(taken.name)


def checking(program: str) -> None:
    print("| text | bytes | time of one check | per byte | peak memory |")
    print("|---|---|---|---|---|")
    shapes = [
        ("updates with operators", "x := x + 1 * (2 - 3)\n"),
        ("`forall` with a call", "forall $n in N with $n > 7 do f($n) := f($n) + 1\n"),
        ("`let` and `switch`", "let ($a = x, $b = $a + 1) in switch $b case 1: f($a) := $b otherwise skip endswitch endlet\n"),
    ]
    for name, line in shapes:
        for size in (16 * 1024, 64 * 1024, 256 * 1024):
            model = filled(line, size)
            count = max(1, 1024 * 1024 // size)
            seconds, memory = measured(program, [run(model)] * count)
            each = seconds / count
            print(f"| {name} | {len(model):,} | {1e3 * each:,.1f} ms | {1e9 * each / len(model):,.0f} ns | {memory:,} KiB |")
    print()


def stepping(program: str) -> None:
    print("| step | units | time of one step | per unit | memory above loading |")
    print("|---|---|---|---|---|")
    state = "default init s0:\n    function x = 0\n    function f($n in N) = 0\n"
    small = "default init s0:\n    function x = 0\n"
    seq = "seq\n" + "x := x + 1\n" * 64 + "endseq"
    rows = [
        ("the crossing", CROSSING, 1, "step", 1000),
        ("a quantifier over 65,536 combinations", text("x := if (forall $a in N, $b in N with $a < 16 implies true) then 1 else 2 endif").replace("{0..4095}", "{0..255}"), 65_536, "combination", 20),
        ("10^6 nodes of work", text("x := if (forall $a in N with (forall $b in N with $a + $b * 2 - 1 + 3 * 4 >= 0)) then 1 else 2 endif").replace("{0..4095}", "{0..285}"), 286 * (2 + 286 * 13), "node", 5),
        ("`forall` over 4,096, one update each", text("forall $n in N do f($n) := $n + 1", state), 4096, "update", 20),
        ("`seq` of 64 parts, state of 1 location", text(seq, small), 64, "update", 200),
        ("`seq` of 64 parts, state of 4,097 locations", text(seq, state), 64, "update", 200),
    ]
    for name, model, units, unit, count in rows:
        before, base = measured(program, [load(model)])
        seconds, memory = measured(program, [load(model)] + [STEP] * count)
        each = (seconds - before) / count
        print(f"| {name} | {units:,} | {1e6 * each:,.1f} µs | {1e9 * each / units:,.0f} ns per {unit} | {memory - base:,} KiB over {count} steps |")
    print()


def main() -> None:
    program = sys.argv[1]
    print(f"processors: {os.cpu_count()}\n")
    checking(program)
    stepping(program)


if __name__ == "__main__":
    main()
