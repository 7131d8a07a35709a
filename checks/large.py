#!/usr/bin/env python3
"""Runs the largest suites that the program takes, and looks at what it prints, at what they cost, and at its refusals.

checks/large.py
  --program PATH  another program than the one of these sources
Suites of 3,750 tests, and with --most-nodes of 15,000 in 150 classes, some of which fail, are aborted or disabled, are
run by 1 and by 4 workers, with rings of 1 and of 16,384 events: tree, feed, XML and JSON have to be what readers make of
the definitions, the feed of one worker line by line. The larger suite may take 4.1 times the instructions and the memory
of the smaller one. As many nodes and bytes as may be are taken, and one more is refused. A program without --most-nodes
is asked for 3,750 tests, beside 937. Needs valgrind and /usr/bin/time. The last line is 'N passed, M failed'.
"""

import argparse
import os
import subprocess
import sys
from collections.abc import Callable
from concurrent.futures import ThreadPoolExecutor
from itertools import product, zip_longest
from xml.etree.ElementTree import ParseError
from xml.parsers.expat import ExpatError

sys.dont_write_bytecode = True

import costs
import one_worker
from costs import COSTS, Costed
from feeds import Refused, Run, judged
from plans import Plan
from programs import Hangs, built_console, knows, ran
from reports import Told, Wrong, feed_line, judge_tree, judge_xml, same, tree_of
from suites import Node, Verdict, many_tests, text_of

SECONDS_A_RUN = 120
FAILED, REFUSED = 1, 255
WORKERS = (1, 4)
RINGS = (1, 16_384)
FORMS = ("tree", "testfeed", "xml", "json")
# Four times the tests, and some.
MOST_GROWTH = 4.1
# The nodes and the bytes that a suite may have, and what --most-nodes may be at the most.
NODES, BYTES = 4_095, 1_048_576
MOST_NODES, MORE_BYTES = 16_383, 16 * 1_048_576
# Each so manieth test ends so.
ENDS = {97: Verdict("fail", "no such order"), 89: Verdict("abort", "closed today"), 83: Verdict("disabled", "until later")}


def suite_of(tests: int) -> Node:
    """Some of the tests of this suite do not pass; a class has about a hundred."""
    made = many_tests(tests, -(-tests // 100))
    for number, test in enumerate(node for node in made.below() if node.word == "test"):
        for each, verdict in ENDS.items():
            if number % each == each - 1:
                test.verdict = verdict
    return made


def same_lines(what: str, found: list[str], wanted: list[str]) -> None:
    for one, other in zip_longest(found, wanted):
        same(what, one, other)


class Suite:
    """A suite of so many tests, and the words by which the program takes it."""

    def __init__(self, program: str, tests: int, words: list[str]) -> None:
        self.program, self.tests, self.words = program, tests, words
        self.root = suite_of(tests)
        self.text = text_of(self.root)
        self.in_order = Plan(self.root, False, "same_thread", "same_thread")
        self.concurrent = Plan(self.root, True, "concurrent", "concurrent")

    def asked(self, form: str, workers: int, ring: int) -> list[str]:
        by = ["--workers", str(workers)] if workers > 1 else []
        return [*self.words, "--details", form, "--ring", str(ring), *by]

    def judge(self, form: str, workers: int, ring: int) -> None:
        """Runs the suite, and raises what is wrong with what is printed."""
        plan = self.in_order if workers == 1 else self.concurrent
        status, output, said = ran(self.program, self.asked(form, workers, ring), self.text.encode(), SECONDS_A_RUN)
        same("the status", status, FAILED)
        if said and form != "tree":
            raise Wrong(f"standard error has {said[:80]!r}")
        self.judge_text(plan, form, workers, output.decode())

    def judge_text(self, plan: Plan, form: str, workers: int, text: str) -> None:
        if form == "tree":
            judge_tree(plan, text, [])
        elif form == "xml":
            judge_xml(plan, text, Told(FAILED, "", False, tree_of(plan)))
        else:
            lines = text.split("\n")[:-1]
            lines = [feed_line(plan, line) for line in lines] if form == "json" else lines
            if workers == 1:
                same_lines("a line of the feed", lines, one_worker.feed_of(plan).split("\n")[:-1])
            judged(plan, Run(workers), "".join(f"{line}\n" for line in lines), FAILED)

    def cost(self, cost: str, form: str, ring: int) -> int:
        """What a run by one worker costs, the least of three."""
        run = Costed(self.program, self.asked(form, 1, ring), self.text, FAILED)
        return min(COSTS[cost].count(run) for _ in range(1 if cost == "instructions" else 3))


def judge_growth(few: Suite, many: Suite, cost: str, form: str, ring: int) -> str:
    """What both suites cost."""
    less, more = few.cost(cost, form, ring), many.cost(cost, form, ring)
    told = f"{less:,} and {more:,} {cost}, {more / less:.2f} times as many"
    if more > MOST_GROWTH * less:
        raise Wrong(f"{told}, and {MOST_GROWTH} are allowed")
    return told


def judge_refused(program: str, words: list[str], suite: str, answer: str) -> None:
    """Nothing is run of it, and this is said."""
    status, output, _ = ran(program, words, suite.encode(), SECONDS_A_RUN)
    same("the answer", (status, output[:80].decode(errors="replace")), (REFUSED, f"{answer}\n"))


def judge_limit(program: str, words: list[str], most: int) -> None:
    """So many nodes besides the plan are taken; the line of the next is refused, however many follow."""
    root = many_tests(most - 2, 1)
    status, output, _ = ran(program, [*words, "--details", "tree"], text_of(root).encode(), SECONDS_A_RUN)
    same("the status", status, 0)
    judge_tree(Plan(root, False, "same_thread", "same_thread"), output.decode(), [])
    for more in (1, most):
        judge_refused(program, words, text_of(many_tests(most - 2 + more, 1)), f"error 10 at {most + 1}")


def judge_bytes(program: str, words: list[str], most: int) -> None:
    """So many bytes are taken, and one more is refused."""
    head = "engine e\n  class a.B\n    test t() pass\n#"
    suite = head + "x" * (most - len(head) - 1) + "\n"
    status, output, _ = ran(program, [*words, "--details", "list"], suite.encode(), SECONDS_A_RUN)
    same("the answer", (status, output), (0, b"[engine:e]/[class:a.B]/[method:t()]\n"))
    judge_refused(program, words, f"{suite}#", "error 103")


Case = tuple[str, Callable[..., str | None], tuple]


def cases_of(program: str, has_more: bool) -> list[Case]:
    """Each thing to be looked at: what it is, who judges it, and of what."""
    most = ["--most-nodes", str(MOST_NODES)]
    few, many = Suite(program, 3_750 if has_more else 937, []), Suite(program, 15_000 if has_more else 3_750, most * has_more)
    cases: list[Case] = []
    for suite in (few, many):
        for workers, ring, form in product(WORKERS, RINGS, FORMS):
            name = f"{suite.tests:,} tests by {workers}, a ring of {ring:,}, {form}"
            cases.append((name, suite.judge, (form, workers, ring)))
    for cost, ring, form in product(("instructions", "kB resident"), RINGS, FORMS):
        name = f"{few.tests:,} and {many.tests:,} tests, a ring of {ring:,}, {form}"
        cases.append((name, judge_growth, (few, many, cost, form, ring)))
    cases.append((f"{NODES:,} nodes", judge_limit, (program, [], NODES)))
    cases.append((f"{BYTES:,} bytes", judge_bytes, (program, [], BYTES)))
    for limit in (NODES, 10_000, MOST_NODES) if has_more else ():
        cases.append((f"{limit:,} nodes, asked for", judge_limit, (program, ["--most-nodes", str(limit)], limit)))
    if has_more:
        cases.append((f"{MORE_BYTES:,} bytes", judge_bytes, (program, most, MORE_BYTES)))
    for word in (NODES - 1, MOST_NODES + 1, 0, "x", "-1", ""):
        name = f"--most-nodes {word!r}"
        cases.append((name, judge_refused, (program, ["--most-nodes", str(word)], "engine e\n", "error 105")))
    return cases


def told_of(case: Case) -> tuple[bool, str]:
    """Whether a case is right, and what is said of it."""
    name, judge, given = case
    try:
        told = judge(*given)
        return True, f"{name}: {told}" if told else ""
    except (Wrong, costs.Wrong, Refused, Hangs, subprocess.TimeoutExpired) as why:
        return False, f"FAILED {name}: {str(why)[:300]}"
    except (ValueError, KeyError, ParseError, ExpatError) as why:
        return False, f"FAILED {name}: {type(why).__name__} {str(why)[:300]}"


def main() -> int:
    words = argparse.ArgumentParser(description=__doc__, formatter_class=argparse.RawDescriptionHelpFormatter)
    words.add_argument("--program")
    program = words.parse_args().program or built_console()
    has_more = knows(program, ["--most-nodes", str(NODES)])
    if not has_more:
        print("the program does not know --most-nodes", flush=True)
    passed = failed = 0
    with ThreadPoolExecutor(os.cpu_count()) as pool:
        for is_right, told in pool.map(told_of, cases_of(program, has_more)):
            passed, failed = passed + is_right, failed + (not is_right)
            print(f"{told}\n" if told else "", end="", flush=True)
    print(f"{passed} passed, {failed} failed")
    return 1 if failed else 0


if __name__ == "__main__":
    sys.exit(main())
