#!/usr/bin/env python3
"""Runs the gate and prints what it cost, in processor seconds for each crate: its proof, the proof of
its tests, the first check that its must-fail edits begin with, and the edits.

    bench/gate.py [WORD..]        from the repository's top; the words go to `rt ci`, as --anew

The status is that of `rt ci`. The seconds are read from /proc every two seconds, so each check counts
up to a second less or more.
"""
import collections
import os
import subprocess
import sys
import time

PAUSE = 2
TICK = os.sysconf("SC_CLK_TCK")
KINDS = ("proof", "tests", "first", "edits")


def kind_of(crate, words, folder, firsts):
    """What a check is for. A check of an edit works in a copy of the crate."""
    if "rt-edit" not in folder:
        return "tests" if "--test" in words else "proof"
    kept = words[words.index("--incremental") + 1] if "--incremental" in words else ""
    if kept.endswith("/seed") and firsts.setdefault(crate, folder) == folder:
        return "first"
    return "edits"


def checks_below(top):
    """The running checks of this gate: (process, start), words, folder and seconds."""
    parents, found = {}, []
    for process in filter(str.isdigit, os.listdir("/proc")):
        try:
            with open(f"/proc/{process}/stat") as stat:
                fields = stat.read().rpartition(")")[2].split()
            with open(f"/proc/{process}/cmdline", "rb") as line:
                words = line.read().decode(errors="replace").split("\0")
            parents[process] = fields[1]
            if words[0].endswith("/rattle") and "--crate-name" in words:
                seconds = (int(fields[11]) + int(fields[12])) / TICK + PAUSE / 2
                found.append((process, fields[19], words, os.readlink(f"/proc/{process}/cwd"), seconds))
        except (OSError, IndexError):
            continue
    for process, start, words, folder, seconds in found:
        above = process
        while above not in ("0", "1", str(top)):
            above = parents.get(above, "0")
        if above == str(top):
            yield (process, start), words, folder, seconds


def table_of(checks):
    """Crate to kind to seconds."""
    table = collections.defaultdict(collections.Counter)
    for crate, kind, seconds in checks.values():
        table[crate][kind] += seconds
    return table


def show(table, minutes):
    print(f"\n| {'processor seconds':22} |" + "".join(f"{kind:>7} |" for kind in KINDS) + f"{'all':>8} |")
    print("|---|" + "---:|" * (len(KINDS) + 1))
    for crate, row in sorted(table.items(), key=lambda it: -sum(it[1].values())):
        cells = "".join(f"{row[kind]:7.0f} |" if row[kind] else f"{'':>7} |" for kind in KINDS)
        print(f"| {'`' + crate + '`':22} |{cells}{sum(row.values()):8.0f} |")
    sums = [sum(row[kind] for row in table.values()) for kind in KINDS]
    print(f"| {'all, in minutes':22} |" + "".join(f"{it / 60:7.1f} |" for it in sums) + f"{sum(sums) / 60:8.1f} |")
    print(f"\n{minutes:.0f} minutes by the clock, {os.cpu_count()} processors")


def main():
    begin, checks, firsts = time.time(), {}, {}
    gate = subprocess.Popen(["rt", "ci", *sys.argv[1:]])
    while gate.poll() is None:
        for key, words, folder, seconds in checks_below(gate.pid):
            crate = words[words.index("--crate-name") + 1]
            kind = checks[key][1] if key in checks else kind_of(crate, words, folder, firsts)
            checks[key] = crate, kind, seconds
        time.sleep(PAUSE)
    show(table_of(checks), (time.time() - begin) / 60)
    return gate.returncode


sys.exit(main())
