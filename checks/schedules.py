#!/usr/bin/env python3
"""Holds the steps that --schedule prints behind a run against --replay: it has to print the same feed.

checks/schedules.py [SUITES] [SEED]   100 suites and the seed 1 where they are not given
  --program PATH                      another program than the one of these sources
Each suite is made at random, and run by 2, 4 and 8 workers on threads, and then by --drive. Its steps are split
off and replayed: none may be passed over, and the feeds have to be the same bytes. What --drive prints has to be the
same a second time. So are the steps of the tests of example_tests, which program_tables runs by four workers: a
suite of the same ids and answers replays them. The last line is 'N passed, M failed': the runs.
"""

import argparse
import sys
from random import Random

sys.dont_write_bytecode = True

from programs import Hangs, built, built_console, config, ran
from suites import Maker, text_of

WORKERS = [2, 4, 8]
# Tests of one's own, and for each a suite of the same ids and answers.
OWN_TESTS = {
    "shelf": b"""engine shelf
  class shelf.Books lock=shelf
    test holds() fail got 2, want 3
    factory fits() pass
      dyn three pass
""",
    "semver": b"""property junit.jupiter.execution.parallel.enabled=true
property junit.jupiter.execution.parallel.mode.default=concurrent
engine semver
  class semver.Versions
    test reads() pass
    test refuses() pass
    test reads_wrongly() #wrong fail Error("unexpected character 'x' while parsing minor version number")
    test compares_wrongly() #wrong fail got 20, want 2
    test needs_a_network() abort there is no network
    after pass
  class semver.Requirements lock=table:r
    test orders() pass
    test lexes() disabled until there is a lexer
    factory caret() pass
      dyn 1.2.0 pass
      dyn 1.1.0 pass
""",
}
RUNS_OF_OWN = 50
SECONDS_A_RUN = 60
MOST_SHOWN = 10


class Wrong(Exception):
    """What is wrong with a run or with its replay."""


def settings(random, workers):
    """The words that say how a suite is run by so many workers."""
    words = config("enabled", "true") + config("config.strategy", "fixed")
    words += config("config.fixed.parallelism", workers)
    for key in ("mode.default", "mode.classes.default"):
        words += config(key, random.choice(["concurrent", "concurrent", "same_thread"]))
    return words + random.choice([[], [], [], [], ["--fail-fast"], ["--max-fail", "2"], ["--max-fail", "3"]])




def split(text):
    """A feed, and the line behind it without its end: an observer of the program's own may print more."""
    front, finish, rest = text.partition(b" plan finished\n")
    return front + finish, rest.partition(b"\n")[0]


class Schedules:
    """The runs that were replayed, and what was wrong with them."""

    def __init__(self, program):
        self.program = program
        self.passed = self.failed = 0

    def text(self, words, suite, program=None):
        """What the program prints, or another."""
        status, text, said = ran(program or self.program, words, suite, SECONDS_A_RUN)
        if said or status not in (0, 1) or not text.endswith(b"\n"):
            raise Wrong(f"status {status}: {said.decode(errors='replace')}")
        return text

    def row_text(self, program, words):
        """What a row with these words has the tests of semver print."""
        row = f"{' '.join(['=v console', *words])}\n".encode()
        return self.text([], row, program).removeprefix(row)

    def replay(self, words, suite, text_of_run=None):
        """Runs a suite, or tests of the same ids and answers, and replays its steps."""
        words_of_run = [*words, "--schedule", "--details", "testfeed"]
        feed, steps = split(text_of_run(words_of_run) if text_of_run else self.text(words_of_run, suite))
        if steps == b"no schedule was found":
            raise Wrong("no schedule was found")
        again, counts = split(self.text([*words, "--replay", steps.decode()], suite))
        events = feed.count(b"\n")
        wanted = f"steps {len(steps.split())} passed-over 0 published {events} given {events}"
        if counts.decode() != wanted:
            raise Wrong(f"the replay ends in {counts.decode()!r} and not in {wanted!r}")
        if again != feed:
            raise Wrong("the replay has another feed")
        return feed

    def drive(self, words, suite):
        """Runs a suite twice by the fixed schedule, and replays its steps."""
        feed = self.replay(words, suite)
        if self.text([*words, "--details", "testfeed"], suite) != feed:
            raise Wrong("the second run has another feed")

    def judge(self, what, look):
        try:
            look()
            self.passed += 1
        except (Wrong, Hangs) as why:
            self.failed += 1
            if self.failed <= MOST_SHOWN:
                print(f"FAILED {what}: {why}", flush=True)

    def suite(self, seed, number):
        """Makes the suite of this number, and judges a run of it by each number of workers."""
        random = Random(f"{seed}/{number}")
        maker = Maker(random)
        root = maker.plan()
        maker.limit(root)
        suite = text_of(root).encode()
        for workers in WORKERS:
            words = settings(random, workers)
            what = f"suite {number} of seed {seed}, {workers} workers"
            self.judge(what, lambda: self.replay(words, suite))
            self.judge(f"{what}, driven", lambda: self.drive([*words, "--drive", str(workers)], suite))

    def own_tests(self, tested, suite):
        """Judges runs of these tests by four workers."""
        table = built("program_tables")
        if tested == "semver":
            text_of_run = lambda words: self.row_text(table, words)
        else:
            text_of_run = lambda words: self.text(words, b"", table)
        for number in range(RUNS_OF_OWN):
            self.judge(f"tests of {tested}, run {number}", lambda: self.replay(["--workers", "4"], suite, text_of_run))


def main():
    words = argparse.ArgumentParser(description=__doc__, formatter_class=argparse.RawDescriptionHelpFormatter)
    words.add_argument("suites", nargs="?", type=int, default=100)
    words.add_argument("seed", nargs="?", default="1")
    words.add_argument("--program")
    given = words.parse_args()
    schedules = Schedules(given.program or built_console())
    for number in range(1, given.suites + 1):
        schedules.suite(given.seed, number)
    for tested, suite in OWN_TESTS.items():
        schedules.own_tests(tested, suite)
    print(f"{schedules.passed} passed, {schedules.failed} failed")
    return 1 if schedules.failed else 0


if __name__ == "__main__":
    sys.exit(main())
