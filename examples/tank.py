#!/usr/bin/env python3
"""Runs the model of tank.asm beside a cistern that is made up here, until the model forbids a step.

usage: examples/tank.py PROGRAM      (PROGRAM: the built asm_server)
"""
import json
import pathlib
import subprocess
import sys

MODEL = pathlib.Path(__file__).with_name("tank.asm")


class Server:
    """A server of models: each request goes in as one line, and its reply comes out as one."""

    def __init__(self, program: str) -> None:
        self.process = subprocess.Popen(
            [program, "stdio"], stdin=subprocess.PIPE, stdout=subprocess.PIPE, text=True)

    def ask(self, **request) -> dict:
        print(json.dumps(request), file=self.process.stdin, flush=True)
        return json.loads(self.process.stdout.readline())


def beside(server: Server) -> None:
    """Each turn the pump adds 25 percent or the cistern loses 30; from turn 8 on the inlet is shut."""
    level = 45
    for turn in range(1, 12):
        inputs = {"cistern": {"level": level}}
        reply = server.ask(op="step", formula="cistern", inputs=inputs)
        if "no" in reply:
            print(f"turn {turn}: {level} percent, refused: {reply['no']} {reply['why']}")
            return
        pump = reply["ok"]["out"]["cistern"]["pump"]
        print(f"turn {turn}: {level} percent, the pump is {pump}")
        if pump == "OFF":
            level -= 30
        elif turn < 8:
            level += 25


def main() -> None:
    server = Server(sys.argv[1])
    print(server.ask(op="load", name="cistern", text=MODEL.read_text()))
    print(server.ask(op="addinv", name="cistern", inv="inv_rest", term="filled <= 2"))
    beside(server)
    print(server.ask(op="value", name="cistern", term="filled"))


if __name__ == "__main__":
    main()
