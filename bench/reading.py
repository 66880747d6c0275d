#!/usr/bin/env python3
"""Times the reading of scripts of 64 MiB, beside python's `json` and, where it is installed, `jq` over the same bytes.

    bench/reading.py                   times all
    bench/reading.py --program FILE    times another build of the program

The last line of each script is bad, so nothing is done: the program reads the script, and prints the number of that line. It prints processor
seconds, the least of three runs, and how many times those of the others they are.
"""
import argparse
import os
import resource
import shutil
import subprocess
import sys
import tempfile

TOP = os.path.dirname(os.path.dirname(os.path.abspath(__file__)))
PROGRAM = os.path.join(TOP, "crates", "tilestore", "out", "tilestore")
BYTES = 64 * 2**20 - 64
CELLS = 2**20
COMMANDS = 4096
RUNS = 3
# What reads each line that is not blank, as a script does.
PYTHON = "import json, sys\nfor line in sys.stdin.buffer:\n    if line.strip(b' \\t\\n'):\n        json.loads(line)\n"


def numbers(count, start):
    return ",".join(str(10**17 + start + i) for i in range(count))


def blank_lines():
    line = " " * 63 + "\n"
    return line * (BYTES // len(line))


def one_write():
    columns = ",".join(f'"{name}":[{numbers(CELLS, at)}]' for at, name in enumerate("vwx"))
    return f'{{"cmd":"write","at":1,"cols":{{{columns}}}}}\n'


def many_commands():
    cells = BYTES // COMMANDS // 60
    columns = ",".join(f'"{name}":[{numbers(cells, at)}]' for at, name in enumerate("vwx"))
    return f'{{"cmd":"write","at":1,"cols":{{{columns}}}}}\n' * (COMMANDS - 1)


def seconds(command, path):
    """The processor seconds that the command takes with this file as its input, the least of a few runs."""
    best = None
    for _ in range(RUNS):
        before = resource.getrusage(resource.RUSAGE_CHILDREN)
        with open(path, "rb") as script:
            subprocess.run(command, stdin=script, stdout=subprocess.DEVNULL, stderr=subprocess.DEVNULL)
        after = resource.getrusage(resource.RUSAGE_CHILDREN)
        took = after.ru_utime + after.ru_stime - before.ru_utime - before.ru_stime
        best = took if best is None else min(best, took)
    return best


def main():
    parser = argparse.ArgumentParser(description=__doc__.split("\n")[0])
    parser.add_argument("--program", default=PROGRAM)
    program = parser.parse_args().program
    others = {"python": [sys.executable, "-c", PYTHON]}
    if shutil.which("jq"):
        others["jq"] = ["jq", "-c", "1"]
    for name, script in (("blank lines", blank_lines()), ("one write of 2^20 cells", one_write()), ("4,095 commands", many_commands())):
        with tempfile.NamedTemporaryFile("w", suffix=".script", delete=False) as file:
            file.write(script + "{}\n")
        try:
            own = seconds([program, "-", "play"], file.name)
            beside = ", ".join(f"{own / took:.2f} times {other}'s {took:.2f} s" for other, took in ((o, seconds(c, file.name)) for o, c in others.items()))
            print(f"{name}, {len(script) / 2**20:.0f} MiB: {own:.2f} s, {beside}", flush=True)
        finally:
            os.unlink(file.name)


if __name__ == "__main__":
    main()
