#!/usr/bin/env python3
"""Times the work of tables of a million cells, and that of tiles of a million values, beside the same work in plain Rust.

    bench/columns.py

It builds `crates/speed`, which it has to prove first, and `bench/columns.rs` by rustc. It prints nanoseconds for each
cell, the least of five runs of each, and how many times plain Rust's the first is. Then it does so for a column of 64
tiles that is decoded on all processors, and on one of them, each of them in turn: medians of forty runs, since how
long the system takes to hand out memory differs from run to run and from processor to processor.
"""
import os
import statistics
import subprocess
import tempfile

TOP = os.path.dirname(os.path.dirname(os.path.abspath(__file__)))
SPEED = os.path.join(TOP, "crates", "speed")
RUNS = 5
RUNS_OF_MANY = 40


def add_times(took, words):
    """Adds the time of each work in one run, in nanoseconds for each cell."""
    for line in subprocess.run(words, capture_output=True, check=True, text=True).stdout.splitlines():
        name, time, _ = line.split("\t")
        took.setdefault(name, []).append(int(time.removesuffix(" ps")) / 1000)


def least(words):
    """The least time of each work over some runs, in nanoseconds for each cell."""
    took = {}
    for _ in range(RUNS):
        add_times(took, words)
    return {name: min(each) for name, each in took.items()}


def medians_in_turn(program):
    """The median time of each work over some runs on all processors, and over as many on one: a run of each in turn."""
    at_once, alone = {}, {}
    for run in range(RUNS_OF_MANY):
        add_times(at_once, [program, "many"])
        add_times(alone, ["taskset", "-c", str(run % os.cpu_count()), program, "many"])
    return tuple({name: statistics.median(each) for name, each in took.items()} for took in (at_once, alone))


def main():
    subprocess.run(["rt", "run"], cwd=SPEED, stdin=subprocess.DEVNULL, stdout=subprocess.DEVNULL, check=True)
    program = os.path.join(SPEED, "out", "speed")
    with tempfile.TemporaryDirectory() as folder:
        plain = os.path.join(folder, "columns")
        subprocess.run(["rustc", "--edition", "2021", "-O", "-o", plain, os.path.join(TOP, "bench", "columns.rs")], check=True)
        own, others = {}, {}
        for work in "table", "tiles":
            own |= least([program, work])
            others |= least([plain, work])
    print("work\town\tplain Rust\ttimes")
    for name, took in own.items():
        print("%s\t%.2f\t%.2f\t%.1f" % (name, took, others[name], took / others[name]))
    at_once, alone = medians_in_turn(program)
    print("work\tall processors\tone\ttimes")
    for name, took in at_once.items():
        print("%s\t%.2f\t%.2f\t%.1f" % (name, took, alone[name], alone[name] / took))


if __name__ == "__main__":
    main()
