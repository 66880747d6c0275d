#!/usr/bin/env python3
"""Times a read and a write of one cell in a folder beside `sqlite3` on a file with the same rows, both called from the shell.

    bench/folder.py                  on the program that `./tilestore` builds
    bench/folder.py --program FILE   on another build of the program

The store has 1,000 fragments of one cell each, over ten places in turn; the file of `sqlite3` has a row for each of these writes, with its place and its stamp as the key.
A read shows one place as it is in the end. A write adds a cell, and is synced: `sqlite3` has `synchronous` at FULL. It prints the medians of what one call takes on the wall
and of processors, and how many system calls it makes, where `strace` is there. At last it times the same read after all fragments were consolidated into one, a vacuum of what was merged, and the
read once more behind it.
"""
import argparse
import json
import os
import resource
import shutil
import statistics
import subprocess
import sys
import tempfile
import time

TOP = os.path.dirname(os.path.dirname(os.path.abspath(__file__)))
WRAPPER = os.path.join(TOP, "tilestore")
PROGRAM = os.path.join(TOP, "crates", "tilestore", "out", "tilestore")
FRAGMENTS = 1000
PLACES = 10
RUNS = 21
PLACE = 5


def text_of(commands):
    return "".join(json.dumps(command, separators=(",", ":")) + "\n" for command in commands).encode()


def create():
    dims = [{"name": "x", "type": "int64", "domain": [0, PLACES - 1], "extent": PLACES}]
    return {"cmd": "create", "at": 0, "kind": "sparse", "dims": dims, "attrs": [{"name": "v", "type": "int64"}]}


def columns(at, place):
    return {"cols": {"x": [place], "v": [at * 7]}}


def write(at, place):
    return {"cmd": "write", "at": at, **columns(at, place)}


def processors():
    """The seconds that processors have worked for the calls so far."""
    used = resource.getrusage(resource.RUSAGE_CHILDREN)
    return used.ru_utime + used.ru_stime


class Call:
    """A call from the shell: its words, its input, and what it has to print."""

    def __init__(self, words, given, wanted):
        self.words, self.given, self.wanted = words, given, wanted

    def run(self, before=()):
        """Runs it: the seconds that it took on the wall, and those of processors."""
        start, used = time.perf_counter(), processors()
        ran = subprocess.run([*before, *self.words], input=self.given, capture_output=True)
        took, used = time.perf_counter() - start, processors() - used
        if ran.returncode or self.wanted not in ran.stdout:
            sys.exit(f"{self.words} ends with {ran.returncode}: {ran.stdout[:400]} {ran.stderr[:400]}")
        return took, used

    def system_calls(self):
        if not shutil.which("strace"):
            return None
        with tempfile.NamedTemporaryFile("r") as counts:
            self.run(["strace", "-f", "-c", "-o", counts.name])
            total = [line.split() for line in counts if line.rstrip().endswith("total")]
        return int(total[0][3])


def medians(calls):
    """The medians of the wall and of the processors over some calls, after a first one."""
    took = [call.run() for call in calls][1:]
    return statistics.median(wall for wall, _ in took), statistics.median(used for _, used in took)


def show(name, wall, used, system_calls):
    print(f"{name}\t{wall * 1000:.1f} ms on the wall\t{used * 1000:.1f} ms of processors\t{system_calls} system calls", flush=True)


def main():
    parser = argparse.ArgumentParser(description=__doc__, formatter_class=argparse.RawDescriptionHelpFormatter)
    parser.add_argument("--program", default=PROGRAM)
    program = parser.parse_args().program
    if program == PROGRAM:
        # The wrapper looks whether it has to build, which would be timed with each call.
        subprocess.run([WRAPPER, "-", "play"], input=b"", check=True)
    with tempfile.TemporaryDirectory(prefix="tilestore-") as top:
        store, file = os.path.join(top, "store"), os.path.join(top, "rows")
        Call([program, store, "play"], text_of([create()] + [write(at, at % PLACES) for at in range(1, FRAGMENTS + 1)]), b"write\tok").run()
        rows = "".join(f"insert into writes values ({at % PLACES},{at},{at * 7});" for at in range(1, FRAGMENTS + 1))
        Call(["sqlite3", file, f"create table writes (x integer, t integer, v integer, primary key (x, t)); begin; {rows} commit;"], None, b"").run()
        last = max(at for at in range(1, FRAGMENTS + 1) if at % PLACES == PLACE) * 7
        read = [program, store, "read", "--at", str(FRAGMENTS), "--box", f"x={PLACE}..{PLACE}"]
        asked = f"select x, v from writes where x = {PLACE} and t <= {FRAGMENTS} order by t desc limit 1;"
        stamps = range(FRAGMENTS + 1, FRAGMENTS + RUNS + 2)

        def written(at):
            return Call([program, store, "write", "--at", str(at)], json.dumps(columns(at, PLACE)).encode(), b"write\tok")

        synced = "pragma synchronous=full; insert into writes values (%d,%d,%d);"
        calls = {
            "read": (
                [Call(read, None, b"%d\t%d\n" % (PLACE, last))] * (RUNS + 1),
                [Call(["sqlite3", "-separator", "\t", file, asked], None, b"%d\t%d\n" % (PLACE, last))] * (RUNS + 1),
            ),
            "write": (
                [written(at) for at in stamps],
                [Call(["sqlite3", file, synced % (PLACE, at, at * 7)], None, b"") for at in stamps],
            ),
        }
        more = {
            "write": (
                written(FRAGMENTS * 2),
                Call(["sqlite3", file, synced % (PLACE, FRAGMENTS * 2, 0)], None, b""),
            )
        }
        print("\ttilestore\tsqlite3\ttimes")
        for name, (own, others) in calls.items():
            (wall, used), (other_wall, other_used) = medians(own), medians(others)
            print(f"{name}, ms on the wall\t{wall * 1000:.1f}\t{other_wall * 1000:.1f}\t{wall / other_wall:.1f}")
            print(f"{name}, ms of processors\t{used * 1000:.1f}\t{other_used * 1000:.1f}\t{used / other_used:.1f}", flush=True)
            mine, theirs = [call.system_calls() for call in more.get(name, (own[0], others[0]))]
            if mine and theirs:
                print(f"{name}, system calls\t{mine}\t{theirs}\t{mine / theirs:.1f}", flush=True)
        Call([program, store, "consolidate", "--at", str(FRAGMENTS), "--max", str(FRAGMENTS)], None, b"consolidate\tok").run()
        merged = [Call(read, None, b"%d\t%d\n" % (PLACE, last))] * (RUNS + 1)
        wall, used = medians(merged)
        show("read after a consolidation", wall, used, merged[0].system_calls())
        wall, used = Call([program, store, "vacuum", "--at", str(FRAGMENTS)], None, b"vacuum\tok\t%d\n" % FRAGMENTS).run()
        show("vacuum", wall, used, None)
        wall, used = medians(merged)
        show("read after a vacuum", wall, used, merged[0].system_calls())


if __name__ == "__main__":
    main()
