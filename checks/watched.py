#!/usr/bin/env python3
"""Watches a run as a user would: what --details testfeed and json print has to come while the run goes on.

checks/watched.py [SUITES] [SEED]   20 suites and the seed 1 where they are not given
  --program PATH                    another program than the one of these sources
A suite whose tests take their time is read through a pipe and on a terminal: its lines have to come one
after the other, and what has come is at any moment a beginning of the whole. To a file it prints the same.
A writer that takes nothing, and one that closes after some lines, are answered with 255, when the run is
over. Suites made at random print to a pipe, to a terminal and to a file what their replay prints.
The last line is 'N passed, M failed': the runs.
"""

import argparse
import json
import os
import pty
import subprocess
import sys
import tempfile
import time
from random import Random

sys.dont_write_bytecode = True

from programs import built_console
from suites import Maker, text_of

TESTS = 600
# So far each of the slow suite's tests counts, which takes about a millisecond.
SPIN = 1_000_000
# In so many parts its lines have to come at least.
PARTS = 50
SECONDS_A_RUN = 120
MOST_SHOWN = 10
REFUSED = 255


class Wrong(Exception):
    """What is wrong with a run."""


def slow_suite():
    lines = ["engine e", "  class a.B"]
    lines += [f"    test t{number}() spin={SPIN} pass" for number in range(TESTS)]
    return ("\n".join(lines) + "\n").encode()


def wanted_feed():
    """What the slow suite prints on its one worker."""
    below = "[engine:e]/[class:a.B]"
    lines = ["w1 plan started", "w1 started [engine:e]", f"w1 started {below}"]
    for number in range(TESTS):
        test = f"{below}/[method:t{number}()]"
        lines += [f"w1 started {test}", f"w1 finished {test} SUCCESSFUL"]
    lines += [f"w1 finished {below} SUCCESSFUL", "w1 finished [engine:e] SUCCESSFUL", "w1 plan finished"]
    return ("\n".join(lines) + "\n").encode()


class Run:
    """A run of the program that goes on."""

    def __init__(self, program, suite, output, words=(), details="testfeed"):
        self.begin = time.monotonic()
        given = tempfile.TemporaryFile()
        given.write(suite)
        given.seek(0)
        self.process = subprocess.Popen(
            [program, "--details", details, *words], stdin=given, stdout=output, stderr=subprocess.PIPE
        )

    def status(self):
        try:
            return self.process.wait(SECONDS_A_RUN)
        except subprocess.TimeoutExpired:
            self.process.kill()
            raise Wrong(f"not ended in {SECONDS_A_RUN} s")

    def passed(self):
        return time.monotonic() - self.begin


def arrivals(run, reader):
    """What has come at each read, with the seconds that had passed."""
    got, found = b"", []
    while True:
        try:
            more = os.read(reader, 65_536)
        except OSError:
            # a terminal that nobody writes to any more
            more = b""
        if not more:
            return found
        got += more
        found.append((run.passed(), got))


def through_pipe(program, suite, words=(), details="testfeed"):
    reader, writer = os.pipe()
    run = Run(program, suite, writer, words, details)
    os.close(writer)
    found = arrivals(run, reader)
    os.close(reader)
    return run.status(), found


def on_terminal(program, suite, words=(), details="testfeed"):
    reader, writer = pty.openpty()
    run = Run(program, suite, writer, words, details)
    os.close(writer)
    found = [(at, got.replace(b"\r\n", b"\n")) for at, got in arrivals(run, reader)]
    os.close(reader)
    return run.status(), found


def to_file(program, suite, words=(), details="testfeed"):
    with tempfile.TemporaryFile() as output:
        run = Run(program, suite, output, words, details)
        status = run.status()
        output.seek(0)
        return status, [(run.passed(), output.read())]


WAYS = {"pipe": through_pipe, "terminal": on_terminal, "file": to_file}


def wanted_json():
    """The same as JSON."""
    lines = []
    for line in wanted_feed().decode().splitlines():
        worker, *said = line.split(" ")
        told = {"worker": int(worker[1:])}
        if said[0] == "plan":
            lines.append({"event": said[1], **told, "type": "PLAN"})
            continue
        name = said[1].rpartition(":")[2].rstrip("]")
        kind = "TEST" if "method" in said[1] else "CONTAINER"
        ending = {"status": said[2]} if len(said) > 2 else {}
        lines.append({"event": said[0], **told, "type": kind, "id": said[1], "name": name, **ending})
    return "".join(json.dumps(line, separators=(",", ":")) + "\n" for line in lines).encode()


WANTED = {"testfeed": wanted_feed, "json": wanted_json}


def judge_watched(program, details, way):
    """The lines of the slow suite come one after the other, and each time they are a beginning of the whole."""
    status, found = WAYS[way](program, slow_suite(), details=details)
    wanted = WANTED[details]()
    if status != 0 or found[-1][1] != wanted:
        raise Wrong(f"status {status}, printed {found[-1][1]!r}")
    if any(not wanted.startswith(got) for _, got in found):
        raise Wrong("what has come is no beginning of the whole")
    if way == "file":
        return
    begun = next(at for at, got in found if b"t0()" in got)
    last = f"[method:t{TESTS - 1}()]".encode()
    over = next(at for at, got in found if got.count(last) > 1)
    moments = len({got.count(b"SUCCESSFUL") for _, got in found})
    if moments < PARTS or over - begun < 0.5 * found[-1][0]:
        raise Wrong(f"its lines came in {moments} parts, from {begun:.2f} to {over:.2f} s of {found[-1][0]:.2f} s")


def judge_full(program):
    """A device that takes nothing: the run goes on to its end, and is answered with 255."""
    whole = time.monotonic()
    to_file(program, slow_suite())
    whole = time.monotonic() - whole
    with open("/dev/full", "wb") as output:
        run = Run(program, slow_suite(), output)
        status = run.status()
    said = run.process.stderr.read()
    if status != REFUSED or b"did not take all" not in said or run.passed() < 0.5 * whole:
        raise Wrong(f"status {status} after {run.passed():.2f} s of {whole:.2f} s, said {said!r}")


def judge_closed(program):
    """A reader that leaves after some lines: the run goes on to its end, and is answered with 255."""
    reader, writer = os.pipe()
    run = Run(program, slow_suite(), writer)
    os.close(writer)
    got = b""
    while b"t9()" not in got:
        got += os.read(reader, 65_536)
    left = run.passed()
    os.close(reader)
    status = run.status()
    if status != REFUSED or run.passed() < 2 * left:
        raise Wrong(f"status {status}, {run.passed() - left:.2f} s after its reader left")
    if not wanted_feed().startswith(got):
        raise Wrong("what has come is no beginning of the whole")


def judge_random(program, seed, number):
    """A suite made at random prints the same by each way."""
    suite = text_of(Maker(Random(f"{seed}/{number}")).plan()).encode()
    words = ["--config", "junit.jupiter.execution.parallel.enabled=false"]
    printed = {way: (found[0], found[1][-1][1]) for way, found in ((way, WAYS[way](program, suite, words)) for way in WAYS)}
    if len(set(printed.values())) != 1:
        raise Wrong(f"printed {printed}")
    status, text = printed["file"]
    if status not in (0, 1) or not text.endswith(b"w1 plan finished\n"):
        raise Wrong(f"status {status}, printed {text!r}")


def main():
    words = argparse.ArgumentParser(description=__doc__, formatter_class=argparse.RawDescriptionHelpFormatter)
    words.add_argument("suites", nargs="?", type=int, default=20)
    words.add_argument("seed", nargs="?", default="1")
    words.add_argument("--program")
    given = words.parse_args()
    program = given.program or built_console()
    cases = [(f"a slow suite's {what} by {way}", judge_watched, (program, what, way)) for what in WANTED for way in WAYS]
    cases += [("a device that is full", judge_full, (program,)), ("a reader that leaves", judge_closed, (program,))]
    cases += [(f"suite {n} of seed {given.seed}", judge_random, (program, given.seed, n)) for n in range(1, given.suites + 1)]
    passed = failed = 0
    for what, judge, arguments in cases:
        try:
            judge(*arguments)
            passed += 1
        except Wrong as why:
            failed += 1
            if failed <= MOST_SHOWN:
                print(f"FAILED {what}: {why}", flush=True)
    print(f"{passed} passed, {failed} failed")
    return 1 if failed else 0


if __name__ == "__main__":
    sys.exit(main())
