#!/usr/bin/env python3
"""Runs suites with a pool in which every lane refuses every number: each run has to end all the same.

checks/refused_puts.py [SUITES] [SEED]   2 suites and the seed 1 where they are not given
  --program PATH                         another program than the one of these sources to compare with
A lane is a hint: a worker without a task comes to each node by a look round all of them too. The sources
are copied, `Lane::put` of the copy refuses whatever it is given, and the suites, made at random, run by four
workers as `rt try` runs them, without a proof: that takes some minutes a suite. Tree, summary and status
have to be those of the program as it is.
The last line is 'N passed, M failed': the runs.
"""

import argparse
import os
import re
import shutil
import subprocess
import sys
import tempfile
from random import Random

sys.dont_write_bytecode = True

from programs import PREFIX, TOP, built_console, ran
from suites import Maker, text_of

LANE = "crates/ready_deques/src/lane.rt"
PUT = "        self.worker.push_as::<Puts>(node)\n"
REFUSED = "        Err(node)\n"
# In so many seconds a run has to end.
SECONDS_A_RUN = 60
SECONDS_A_TRY = 1_800
MOST_SHOWN = 10
WORDS = [
    "--config", f"{PREFIX}enabled=true", "--config", f"{PREFIX}mode.default=concurrent",
    "--config", f"{PREFIX}config.strategy=fixed", "--config", f"{PREFIX}config.fixed.parallelism=4",
]


class Wrong(Exception):
    """What is wrong with a run."""


def refusing_copy(folder):
    """A copy of the sources in which every number is refused."""
    top = os.path.join(folder, "sources")
    shutil.copytree(TOP, top, ignore=shutil.ignore_patterns("out", ".git"))
    path = os.path.join(top, LANE)
    with open(path, encoding="utf-8") as source:
        text = source.read()
    if text.count(PUT) != 1:
        sys.exit(f"{LANE} has not the line that is edited: {PUT.strip()}")
    with open(path, "w", encoding="utf-8") as source:
        source.write(text.replace(PUT, REFUSED))
    return os.path.join(top, "crates", "console")


def tried(console, suite):
    """The status and the output of the copy."""
    words = ["rt", "try", "--seconds", str(SECONDS_A_RUN), "--", *WORDS]
    done = subprocess.run(words, cwd=console, input=suite, capture_output=True, timeout=SECONDS_A_TRY)
    ended = re.search(rb"checked: ended status=(\d+)", done.stdout + done.stderr)
    if not ended:
        raise Wrong(f"did not end: {(done.stdout + done.stderr)[-500:]!r}")
    return int(ended.group(1)), done.stdout


def judge(program, console, seed, number):
    suite = text_of(Maker(Random(f"{seed}/{number}")).plan()).encode()
    status, output, _ = ran(program, WORDS, suite, SECONDS_A_RUN)
    found = tried(console, suite)
    if found != (status, output):
        raise Wrong(f"status {found[0]} and {status}, printed {found[1]!r} and {output!r}")


def main():
    words = argparse.ArgumentParser(description=__doc__, formatter_class=argparse.RawDescriptionHelpFormatter)
    words.add_argument("suites", nargs="?", type=int, default=2)
    words.add_argument("seed", nargs="?", default="1")
    words.add_argument("--program")
    given = words.parse_args()
    program = given.program or built_console()
    passed = failed = 0
    with tempfile.TemporaryDirectory() as folder:
        console = refusing_copy(folder)
        for number in range(1, given.suites + 1):
            try:
                judge(program, console, given.seed, number)
                passed += 1
            except Wrong as why:
                failed += 1
                if failed <= MOST_SHOWN:
                    print(f"FAILED suite {number} of seed {given.seed}: {why}", flush=True)
    print(f"{passed} passed, {failed} failed")
    return 1 if failed else 0


if __name__ == "__main__":
    sys.exit(main())
