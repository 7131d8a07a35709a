#!/usr/bin/env python3
"""Runs each behaviour beside programs that only count, so that its threads get the processor late and in another order.

checks/busy_tests.py [ROUNDS] [BUSY]   100 rounds beside 8 programs where they are not given
  --program PATH   another program than crates/program_tables/out/program_tables
  --only WORD      the behaviours alone that have this word in their names
  --seconds N      so long a run may take, 60 where it is not given
The behaviours are those that stand below `=== behaviours` in program_tables/stdin. Behind the runs stands how long each
took at most. The last line is 'N passed, M failed': the runs.
"""

import argparse
import collections
import os
import subprocess
import sys
import time

sys.dont_write_bytecode = True

from programs import TOP, Hangs, built, ran

TITLE = "=== behaviours\n"
COUNTING = [sys.executable, "-c", "while True:\n    pass"]


def behaviours():
    """Their names."""
    with open(os.path.join(TOP, "crates", "program_tables", "stdin"), newline="") as file:
        return file.read().partition(TITLE)[2].splitlines()


def run_of(program, name, seconds):
    """Whether the behaviour holds, and how long it took."""
    begin = time.monotonic()
    try:
        status, output, errors = ran(program, [], f"{TITLE}{name}\n".encode(), seconds)
    except Hangs:
        return False, seconds, "not ended"
    said = (output + errors).decode(errors="replace")
    return (status, said) == (0, f"{TITLE}{name} => holds\n"), time.monotonic() - begin, said


def main():
    words = argparse.ArgumentParser(description=__doc__, formatter_class=argparse.RawDescriptionHelpFormatter)
    words.add_argument("rounds", nargs="?", type=int, default=100)
    words.add_argument("busy", nargs="?", type=int, default=8)
    words.add_argument("--program")
    words.add_argument("--only", default="")
    words.add_argument("--seconds", type=float, default=60)
    given = words.parse_args()
    program = given.program or built("program_tables")
    names = [name for name in behaviours() if given.only in name]
    longest, failed = collections.Counter(), 0
    beside = [subprocess.Popen(COUNTING) for _ in range(given.busy)]
    try:
        for _ in range(given.rounds):
            for name in names:
                passed, took, said = run_of(program, name, given.seconds)
                longest[name] = max(longest[name], took)
                if not passed:
                    failed += 1
                    print(f"{name} failed after {took:.1f} s: {said[-400:]}", flush=True)
    finally:
        for counting in beside:
            counting.kill()
            counting.wait()
    for name, took in longest.most_common():
        print(f"{took:6.1f} s  {name}")
    print(f"{given.rounds * len(names) - failed} passed, {failed} failed")
    return failed > 0


if __name__ == "__main__":
    sys.exit(main())
