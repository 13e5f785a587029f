#!/usr/bin/env python3
"""Measures steps of joined models by `asm_server stdio`: of 1, 2, 4, 8 and 16 models, by each operator.

usage: bench/joined.py PROGRAM [STEPS]      (STEPS: 20,000 by default)

Each model adds 1 to what it hears from the others, or to 0, and tells it. Each row is the best of five runs of the program; what loading
takes is measured apart and taken off. It checks that each reply is Ok, and prints a table for bench/README.md.
"""
import json
import sys

from models import measured

OPERATORS = ("|", "||", "<|>", "<||>")


def model(number: int) -> str:
    """A model that hears the one before it, and tells the one after it."""
    return (
        f"asm M signature: monitored told{number}: Integer out told{number + 1}: Integer definitions: "
        f"main rule r_Main = if isDef(told{number}) then told{number + 1} := told{number} + 1 else told{number + 1} := 1 endif"
    )


def load(number: int) -> str:
    asked = {"op": "load", "name": f"m{number}", "text": model(number)}
    return json.dumps(asked, separators=(",", ":")) + "\n"


def step(names: list[str], operator: str) -> str:
    """Of `<|>` and `<||>` there are only pairs, so these are joined by `|` among themselves."""
    parts = names
    if operator.startswith("<") and len(names) > 1:
        parts = [f"({a} {operator} {b})" for a, b in zip(names[::2], names[1::2])]
        operator = "|"
    formula = f" {operator} ".join(parts)
    return json.dumps({"op": "step", "formula": formula}, separators=(",", ":")) + "\n"


def main() -> None:
    program, steps = sys.argv[1], int(sys.argv[2]) if len(sys.argv) > 2 else 20_000
    print(f"| models | {' | '.join(f'`{it}`' for it in OPERATORS)} |")
    print(f"|---|{'---|' * len(OPERATORS)}")
    for count in (1, 2, 4, 8, 16):
        loads = [load(number) for number in range(count)]
        before, _ = measured(program, loads)
        names = [f"m{number}" for number in range(count)]
        times = [measured(program, loads + [step(names, it)] * steps)[0] - before for it in OPERATORS]
        print(f"| {count} | {' | '.join(f'{1e6 * it / steps:,.1f} µs' for it in times)} |")


if __name__ == "__main__":
    main()
