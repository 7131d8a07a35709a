#!/usr/bin/env python3
"""Holds what is run, and in which order, against definitions of its own.

checks/selection.py [SUITES] [SEED]   300 suites and the seed 1 where they are not given
  --program PATH                      another program than the one of these sources
  --suite K                           the suite of this number alone, which is printed
  --mistakes                          changes a definition at a time: a suite has to tell each from the program's
Suites are made at random, with stars, dollars, dots, hashes, percent signs and slashes in their names, and so are
words that select, leave out, shard, draw an order and stop after some failures; some are refused. The list, the feed
of one worker and the status have to be what docs/FORMATS.md says, line by line, and so has a refusal. With a seed the
feed has to have the lines that it has without, each node below its parent and dynamic tests in their order, and be the
same with the same seed. The last line is 'N passed, M failed': what was judged, and last all seeds, of which two have
to give two orders if ten suites were run with some; or the mistakes.
"""

import argparse
import os
import shlex
import sys
from random import Random
from unittest.mock import patch

sys.dont_write_bytecode = True

import selecting
from asking import Asker, SelectionMaker
from feeds import Refused, Run, judged
from one_worker import feed_of
from plans import Plan
from programs import Hangs, built_console, config, ran
from reports import Wrong, list_of, same, units_of
from selecting import Asked
from suites import text_of
from wrong_selections import MISTAKES

SECONDS_A_RUN = 60
MOST_SHOWN = 10
# From how many suites on that were run with two seeds these have to give two orders at least once.
ENOUGH = 10


def run_words(words):
    """The words of the command line, of these and nothing else."""
    return [text for word in words for text in word.words()]


def without_order(words):
    """Those of these words that say which tests are run, and nothing else."""
    return [word for word in words if word.option not in ("--seed", "--max-fail", "--fail-if-no-tests")]


def answer_of(tree, is_anything, asked, details):
    """The status, and the list or the feed, of a tree that is run; it is told whether anything is selected at all."""
    plan = Plan(tree, False, "same_thread", "same_thread")
    text = list_of(units_of(plan)) if details == "list" else feed_of(plan, asked.most)
    has_tests = " registered " in text or any(node.word == "test" for node in tree.below())
    is_found = is_anything if asked.one("--shard") else text if details == "list" else has_tests
    if asked.fails_without_tests and not is_found:
        return 2, text
    return int(" FAILED" in text), text


class Selection:
    """The runs that were judged, and what was wrong with them; with a table of answers, no run is made twice."""

    def __init__(self, program, answers=None):
        self.program = program
        self.answers = answers
        self.most_shown = MOST_SHOWN if answers is None else 0
        self.passed = self.failed = 0
        # of each two seeds that a suite was run with, whether they gave two orders
        self.orders = []
        self.refusals = {}

    def ran(self, suite, words):
        """Status, output and standard error of a run, which may have been made."""
        if self.answers is None:
            return self.answered(suite, words)
        key = suite, *words
        if key not in self.answers:
            self.answers[key] = self.answered(suite, words)
        return self.answers[key]

    def answered(self, suite, words):
        """The same of a run that is made."""
        left_out = ("TEST_TOTAL_SHARDS", "TEST_SHARD_INDEX", "TEST_SHARD_STATUS_FILE")
        env = {name: value for name, value in os.environ.items() if name not in left_out}
        status, text, said = ran(self.program, words, suite.encode(), SECONDS_A_RUN, env=env)
        return status, text.decode(), said.decode()

    def judge(self, what, words, judge, *given):
        """Makes a judgement, and counts it."""
        try:
            judge(words, *given)
            self.passed += 1
        except (Wrong, Refused, Hangs, ValueError) as why:
            self.failed += 1
            if self.failed <= self.most_shown:
                print(f"FAILED {what}: {shlex.join(run_words(words))}\n  {why}", flush=True)

    def judge_words(self, words, root, suite, details):
        """What is printed of these words, the status and what is said of the seed; or the refusal."""
        asked, told = Asked(words), self.ran(suite, ["--details", details, *run_words(words)])
        refusal = selecting.refusal_of(root, asked)
        if refusal:
            number = refusal.split()[1]
            self.refusals[number] = self.refusals.get(number, 0) + 1
            same("the refusal", told[:2], (255, refusal))
            return
        tree, is_anything = selecting.tree_of(root, asked)
        status, text = answer_of(tree, is_anything, asked, details)
        same(f"the {details}", told[1], text)
        same("the status", told[0], status)
        seed = asked.one("--seed")
        same("what is said", told[2], f"Seed: {int(seed)}\n" if seed else "")

    def judge_seed(self, words, root, suite, seeds):
        """With a seed the same lines; the same again with the same seed, and perhaps others with another one."""
        plain = self.ran(suite, ["--details", "testfeed", *run_words(words)])
        feeds = []
        for seed in (seeds[0], *seeds):
            status, feed, _ = self.ran(suite, ["--details", "testfeed", *run_words(words), "--seed", str(seed)])
            same("the lines with a seed", sorted(feed.split("\n")), sorted(plain[1].split("\n")))
            same("the status with a seed", status, plain[0])
            self.judge_places(feed)
            feeds.append(feed)
        same("the same seed again", feeds[1], feeds[0])
        self.orders.append(len(set(feeds[1:])) > 1)

    def judge_places(self, feed):
        """Each node is told of while its parent runs, and dynamic tests in their order."""
        running, last = [""], {}
        for line in feed.split("\n")[1:-2]:
            kind, name = line.split(" ")[1:3]
            if kind == "finished":
                same("the node that ends", name, running.pop())
            above, _, segment = name.rpartition("/")
            if kind != "finished" and kind != "registered":
                same(f"the parent of {name}", running[-1], above)
            if kind == "registered":
                number = int(segment.rpartition("#")[2][:-1])
                same(f"the number of {name}", number, last.get(above, 0) + 1)
                last[above] = number
            if kind == "started":
                running.append(name)

    def judge_orders(self, _):
        """Two seeds have to give two orders at least once."""
        same("whether seeds give other orders", True in self.orders, True)

    def judge_most(self, words, root, suite, most):
        """One worker stops after so many failures: in the tree's order, and whatever comes first where all may."""
        tree, _ = selecting.tree_of(root, Asked(words))
        stops = ["--workers", "1", "--max-fail", str(most), "--details", "testfeed", *run_words(words)]
        status, feed, _ = self.ran(suite, [*stops, *config("mode.default", "same_thread")])
        wanted = feed_of(Plan(tree, False, "same_thread", "same_thread"), most)
        same("the feed", feed, wanted)
        same("the status", status, 1 if " FAILED" in wanted else 0)
        self.judge_failures(feed, most)
        status, feed, _ = self.ran(suite, stops)
        judged(Plan(tree, True, "concurrent", "concurrent"), Run(1, True, most - 1), feed, status)
        self.judge_failures(feed, most)

    def judge_failures(self, feed, most):
        """Before so many failures nothing is cancelled; behind them nothing starts, and what fails had started."""
        lines = feed.split("\n")
        fails = [at for at, line in enumerate(lines) if " finished " in line and " FAILED" in line]
        last = fails[most - 1] if len(fails) >= most else len(lines)
        same("what is cancelled too early", [line for line in lines[:last] if line.endswith(" cancelled")], [])
        same("what starts too late", [line for line in lines[last:] if " started " in line], [])
        tests = ("[method:", "[dynamic-test:")
        late = [lines[at] for at in fails[most:] if lines[at].rpartition("/")[2].startswith(tests)]
        same("tests that fail behind the last failure", late, [])

    def suite(self, seed, number, is_shown=False):
        """Makes the suite of this number, and judges its runs."""
        random, what = Random(f"{seed}/{number}"), f"suite {number} of seed {seed}"
        root = SelectionMaker(random).plan()
        suite = text_of(root)
        if is_shown:
            print(suite, end="")
        lists = [Asker(random, root).all() for _ in range(4)]
        for words in lists:
            details = random.choice(["list", "testfeed"])
            self.judge(f"{what}, {details}", words, self.judge_words, root, suite, details)
        lists = [*map(without_order, lists), []]
        words = next(words for words in lists if not selecting.refusal_of(root, Asked(words)))
        if random.random() < 0.4:
            seeds = [random.randrange(2**64) for _ in range(2)]
            self.judge(f"{what}, seeds {seeds}", words, self.judge_seed, root, suite, seeds)
        else:
            most = random.choice([1, 2, 3, 4, 6])
            self.judge(f"{what}, {most} failures", words, self.judge_most, root, suite, most)

    def all(self, numbers, seed):
        """Judges the suites of these numbers."""
        for number in numbers:
            self.suite(seed, number, len(numbers) == 1)
        if len(self.orders) >= ENOUGH:
            self.judge("all seeds", [], self.judge_orders)
        print("refused: " + ", ".join(f"{count} by {number}" for number, count in sorted(self.refusals.items())))


def tried_mistakes(program, seed, suites):
    """Changes each definition in turn; how many changes were seen in so many suites, and how many were not."""
    answers = {}
    seen = [is_seen(program, answers, seed, suites, *mistake) for mistake in MISTAKES]
    return sum(seen), len(seen) - sum(seen)


def is_seen(program, answers, seed, suites, what, of, name, wrong):
    """Whether a suite tells this mistake from the program's answers."""
    selection = Selection(program, answers)
    with patch.dict(of, {name: wrong}) if isinstance(of, dict) else patch.object(of, name, wrong):
        for number in range(1, suites + 1):
            selection.suite(seed, number)
            if selection.failed:
                print(f"{what}: seen in suite {number}", flush=True)
                return True
    print(f"FAILED {what}: not seen", flush=True)
    return False


def main():
    words = argparse.ArgumentParser(description=__doc__, formatter_class=argparse.RawDescriptionHelpFormatter)
    words.add_argument("suites", nargs="?", type=int, default=300)
    words.add_argument("seed", nargs="?", default="1")
    words.add_argument("--program")
    words.add_argument("--suite", type=int)
    words.add_argument("--mistakes", action="store_true")
    given = words.parse_args()
    selection = Selection(os.path.abspath(given.program) if given.program else built_console())
    if given.mistakes:
        passed, failed = tried_mistakes(selection.program, given.seed, given.suites)
    else:
        selection.all([given.suite] if given.suite else range(1, given.suites + 1), given.seed)
        passed, failed = selection.passed, selection.failed
    print(f"{passed} passed, {failed} failed")
    return 1 if failed else 0


if __name__ == "__main__":
    sys.exit(main())
