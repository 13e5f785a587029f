#!/usr/bin/env python3
"""Measures invariants, inputs and the trail of `asm_server stdio`: steps under 64 invariants, and 100,000 steps of the crossing.

usage: bench/invariants.py PROGRAM [STEPS]      (STEPS: 100,000 by default)

Each row is the best of five runs of the program; what loading takes is measured apart and taken off. It checks that each reply is Ok, and
prints tables for bench/README.md.
"""
import json
import os
import pathlib
import sys

from models import STEP, load, measured

CROSSING = (pathlib.Path(__file__).resolve().parent.parent / "examples/crossing.asm").read_text()
INVARIANTS = "    invariant inv_safe over light, walk: walk = GO implies light = RED\n    invariant inv_ticks over ticks: ticks <= 4\n"


def kept(invariants: int) -> str:
    """A counter with so many invariants, each of which holds in each state."""
    lines = [f"    invariant inv_{i} over n: n >= 0 - {i}\n" for i in range(invariants)]
    return (
        "asm Q\nsignature:\n    controlled n: Integer\ndefinitions:\n"
        + "".join(lines)
        + "    main rule r_Main = n := n + 1\ndefault init s0:\n    function n = 0\n"
    )


def broad(model: str) -> str:
    """The crossing with a function of 256 values beside it, which no step changes."""
    return (
        model.replace("    dynamic monitored button", "    domain Place subsetof Integer\n    controlled paving: Place -> Integer\n    dynamic monitored button")
        .replace("    domain Count = {0..9}\n", "    domain Count = {0..9}\n    domain Place = {0..255}\n")
        .replace("    function light = GREEN\n", "    function paving($p in Place) = $p\n    function light = GREEN\n")
    )


def pressed(step: int) -> str:
    """A step of the crossing; in each tenth the button is pressed."""
    return json.dumps({"op": "step", "formula": "Q", "inputs": {"Q": {"button": step % 10 == 0}}}, separators=(",", ":")) + "\n"


def under_invariants(program: str, steps: int) -> None:
    print("| model | steps | time of one step | above none |")
    print("|---|---|---|---|")
    none = 0.0
    for invariants in (0, 1, 16, 64):
        model = kept(invariants)
        before, _ = measured(program, [load(model)])
        seconds, _ = measured(program, [load(model)] + [STEP] * steps)
        each = (seconds - before) / steps
        none = none or each
        more = f"{1e9 * (each - none) / invariants:,.0f} ns for each" if invariants else ""
        print(f"| a counter with {invariants} invariants | {steps:,} | {1e6 * each:,.1f} µs | {more} |")
    print()


def over_time(program: str, steps: int) -> None:
    print("| steps of the crossing | processor time, less loading | of the last tenth, for one step | for one step | peak memory |")
    print("|---|---|---|---|---|")
    before, _ = measured(program, [load(CROSSING)])
    last = 0.0
    for tenth in range(1, 11):
        count = steps * tenth // 10
        seconds, memory = measured(program, [load(CROSSING)] + [pressed(n) for n in range(count)])
        seconds -= before
        print(f"| {count:,} | {seconds:,.2f} s | {1e6 * (seconds - last) / (steps // 10):,.1f} µs | {1e6 * seconds / count:,.1f} µs | {memory:,} KiB |")
        last = seconds
    print()


def by_entries(program: str, steps: int) -> None:
    """Between two numbers of entries for which the journal's own table has one size."""
    few, many = steps // 5, steps * 3 // 10
    print(f"| model | peak memory after {few:,} steps | after {many:,} | for an entry |")
    print("|---|---|---|---|")
    bare = CROSSING.replace(INVARIANTS, "")
    assert bare != CROSSING and broad(CROSSING).count("Place") == 4
    for name, model in (("the crossing without its invariants", bare), ("the crossing", CROSSING), ("with 256 more locations", broad(CROSSING))):
        sizes = [measured(program, [load(model)] + [pressed(n) for n in range(count)])[1] for count in (few, many)]
        print(f"| {name} | {sizes[0]:,} KiB | {sizes[1]:,} KiB | {1024 * (sizes[1] - sizes[0]) / (many - few):,.0f} bytes |")
    print()


def main() -> None:
    program = sys.argv[1]
    steps = int(sys.argv[2]) if len(sys.argv) > 2 else 100_000
    print(f"processors: {os.cpu_count()}\n")
    under_invariants(program, steps // 10)
    over_time(program, steps)
    by_entries(program, steps)


if __name__ == "__main__":
    main()
