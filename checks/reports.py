#!/usr/bin/env python3
"""Holds the program's reports against other readers: Python's json, its xml.etree and its xml.dom.

checks/reports.py [SUITES] [SEED]     200 suites and the seed 1 where they are not given
  --program PATH                      another program than the one of these sources
Each suite is made at random, with names and texts that have to be escaped, some with settings that are
warned of, and run by one worker, some with a schedule. The JSON has to say what the feed says, the tree with its
summary and the XML what the definitions say of the suite, the XML as many tests and a failure where the status is 1,
the list which tests and factories would be run, and the nodes of the plan in which modes and with which locks
they would be. Each has to be that and nothing else. Of shards each has to list the tests that it gets, and all
together tell in their feeds what a run of the whole tells, and fail if that does. The last line
is 'N passed, M failed': the texts that were judged.
"""

import argparse
import json
import sys
import xml.etree.ElementTree as xml
from collections import Counter
from itertools import zip_longest
from random import Random
from xml.dom import minidom
from xml.parsers.expat import ExpatError

sys.dont_write_bytecode = True

from plans import Plan
from programs import built_console, ran
from suites import Maker, text_of

SECONDS_A_RUN = 60
MOST_SHOWN = 10
TYPES = {"plan": "PLAN", "engine": "CONTAINER", "class": "CONTAINER", "factory": "CONTAINER"}
TYPES |= {"test": "TEST", "dyn": "TEST"}
MODE = "junit.jupiter.execution.parallel.mode."
KEYS = [f"{MODE}default", f"{MODE}classes.default"]
LOCK_MODES = {"r": "READ", "rw": "READ_WRITE"}
MARKS = {"SUCCESSFUL": "✔", "FAILED": "✘", "ABORTED": "■", "SKIPPED": "↷"}
COUNTED = ("found", "skipped", "started", "aborted", "successful", "failed")
PARALLEL = ["--config", "junit.jupiter.execution.parallel.enabled=true"]
# One worker, so that nothing else changes.
PARALLEL += ["--config", "junit.jupiter.execution.parallel.config.strategy=fixed"]
PARALLEL += ["--config", "junit.jupiter.execution.parallel.config.fixed.parallelism=1"]
BADNESS = {"FAILED": 2, "SKIPPED": 1, "ABORTED": 1}
# What one format or the other has to escape, and what it has to leave as it is.
ODD = ['"', "\\", "&", "<", ">", "'", "\x00", "\x01", "\t", "\b", "\f", "a\rb", "\x1f", "\x7f", "\x85", "]]>"]
ODD += ["\u2028", "\ufffd", "\ufffe", "\uffff", "\U0001f600", "\U0010ffff", "ä", "%", "[", "/", "\\u0041", "&amp;"]


class Wrong(Exception):
    """What is wrong with a text."""


class OddMaker(Maker):
    """Makes suites whose names and texts have characters that are escaped."""

    def odd(self):
        return "".join(self.random.choice(ODD) for _ in range(self.random.randint(0, 5)))

    def name(self, node, word):
        return f"n{self.odd()}{len(node.children)}"

    def verdict(self, can_be_disabled=True):
        made = super().verdict(can_be_disabled)
        if made.word != "pass":
            made.text = f"{self.odd()} {self.odd()}.".strip(" ")
        return made


def same(what, is_so, wanted):
    if is_so != wanted:
        raise Wrong(f"{what} is {is_so!r} and not {wanted!r}")


def printed(text):
    """A text as the feed prints it."""
    return "".join(" " if ord(c) < 32 or ord(c) == 127 else c for c in text)


def feed_line(plan, line):
    """The line of the feed that says what an object says; the object's members and their order are judged."""
    told = json.loads(line)
    keys = ["event", "worker", "type"]
    if told["type"] == "PLAN":
        same("the order of members", list(told), keys)
        return f"w{told['worker']} plan {told['event']}"
    node = plan.by_id[told["id"]]
    keys += ["id", "name"]
    ends = [told["status"]] if "status" in told else []
    keys += ["status"] if ends else []
    keys += ["text"] if told["event"] == "skipped" or ends not in ([], ["SUCCESSFUL"]) else []
    same("the order of members", list(told), keys)
    same(f"the type of {node.id}", told["type"], TYPES[node.word])
    same(f"the name of {node.id}", told["name"], node.name)
    if "text" in told:
        same(f"the text of {node.id}", told["text"], outcome_of(plan, node)[1])
        ends += [printed(told["text"])] if told["text"] else []
    return " ".join([f"w{told['worker']}", told["event"], node.id, *ends])


def judge_json(plan, text, told):
    """Each line is an object that says what the line of the feed says; warnings and a schedule are objects too."""
    lines = text.split("\n")[:-1]
    front = [json.dumps({"event": "warning", "key": key}, separators=(",", ":")) for key in told.warnings]
    same("the warnings", lines[: len(front)], front)
    back = [json.dumps({"event": "schedule", "steps": steps}, separators=(",", ":")) for steps in told.schedule]
    same("the schedule", lines[len(lines) - len(back) :], back)
    said = [feed_line(plan, line) for line in lines[len(front) : len(lines) - len(back)]]
    same("the feed that the objects say", said, told.lines)


def outcome_of(plan, node):
    """What becomes of a node of a suite that is run to its end, and its text."""
    if plan.is_silent(node):
        return "NOT RUN", ""
    if node.disabled:
        return "SKIPPED", node.verdict.text
    return plan.ends[node]


def cause_of(plan, node):
    """The node that is told of: the nearest of the worst of this one and those above it."""
    line = [above for above in (node, *node.ancestors()) if above.word != "plan"]
    bad = [BADNESS.get(outcome_of(plan, above)[0], 0) for above in line]
    return line[bad.index(max(bad))]


def is_bare(plan, node):
    """Whether it is a factory without a test, and did not pass."""
    if node.word != "factory" or not all(plan.is_silent(test) for test in node.children):
        return False
    return outcome_of(plan, cause_of(plan, node))[0] != "SUCCESSFUL"


def cases_of(plan, node):
    """The nodes that are the cases of a node's suite, in order."""
    cases = []
    for child in plan.children(node) if node.word != "factory" else []:
        cases += [child] if child.word == "test" or is_bare(plan, child) else []
        cases += [test for test in child.children if test.word == "dyn" and not plan.is_silent(test)]
    return cases


def class_name(plan, node):
    names = [above.name for above in (node, *node.ancestors()) if above.word not in ("plan", "engine")]
    engine = [above.name for above in (node, *node.ancestors()) if above.word == "engine"][0]
    if not names:
        return engine
    several = len(plan.children(plan.root)) > 1
    return f"{engine}/" * several + "$".join(reversed(names))


def carried(text):
    """A text as XML 1.0 carries it."""
    return "".join("\ufffd" if (c < " " and c not in "\t\n\r") or c in "\ufffe\uffff" else c for c in text)


def element_of(case):
    """What an element says of a case: its attributes, and each element in it with attributes and text."""
    return case.tag, dict(case.attrib), [(below.tag, dict(below.attrib), below.text) for below in case]


def reason_of(plan, node):
    """The element that says why a case did not pass, if there is one."""
    cause = cause_of(plan, node)
    outcome, text = outcome_of(plan, cause)
    if outcome == "SUCCESSFUL":
        return []
    if outcome == "FAILED":
        return [("failure" if cause is node else "error", {"message": carried(text), "type": outcome}, None)]
    words = "not run" if outcome == "NOT RUN" else "" if cause is node else f"parent was {outcome.lower()}: "
    return [("skipped", {"message": words + carried(text), "type": outcome.replace(" ", "_")}, None)]


def case_of(plan, node, suite):
    """The same, as it has to be."""
    name = f"{node.parent.name}[{node.parent.children.index(node) + 1}]" if node.word == "dyn" else node.name
    attributes = {"name": carried(name), "classname": carried(class_name(plan, suite)), "time": "0"}
    output = carried(f"unique-id: {node.id}\ndisplay-name: {node.name}")
    return "testcase", attributes, [*reason_of(plan, node), ("system-out", {}, output)]


def judge_comments(text, told):
    """Besides the document's element there are comments, of the warnings before it and of a schedule behind it."""
    nodes = minidom.parseString(text.encode()).childNodes
    comments = [f" {line} " for line in [*(f"WARNING {key}" for key in told.warnings), *told.schedule]]
    same("the comments", [node.data for node in nodes if node.nodeType == node.COMMENT_NODE], comments)
    same("the element's place", [node.nodeType == node.ELEMENT_NODE for node in nodes].index(True), len(told.warnings))
    same("the number of nodes", len(nodes), len(comments) + 1)


def judge_xml(plan, text, told):
    """Each suite and each case is there, in order, and no other."""
    judge_comments(text, told)
    root = xml.fromstring(text)
    same("the root", (root.tag, dict(root.attrib)), ("testsuites", {}))
    suites = [node for node in plan.nodes if cases_of(plan, node)]
    same("the number of suites", len(root), len(suites))
    bad = tests = 0
    for given, node in zip(root, suites):
        cases = cases_of(plan, node)
        ends = [(reason_of(plan, case) or [("passed",)])[0][0] for case in cases]
        counts = [len(cases), ends.count("failure"), ends.count("error"), ends.count("skipped"), 0]
        wanted = dict(zip(("tests", "failures", "errors", "skipped", "time"), map(str, counts)))
        wanted["name"] = carried(class_name(plan, node))
        same("a suite", (given.tag, dict(given.attrib)), ("testsuite", wanted))
        same(f"the cases of {node.id}", [element_of(case) for case in given], [case_of(plan, case, node) for case in cases])
        bad += counts[1] + counts[2]
        tests += sum(1 for case in cases if case.word != "factory")
    same("the number of tests", tests, told.tests)
    same("whether something failed", bad > 0, told.status == 1)


def tree_lines(plan, node, front=""):
    """The lines of the tree below a node, which have this in front."""
    told = [child for child in plan.children(node) if not plan.is_silent(child)]
    for child in told:
        branch, bar = ("├─ ", "│  ") if child is not told[-1] else ("└─ ", "   ")
        end, text = outcome_of(plan, child)
        said = f" {printed(text)}" if text and end != "SUCCESSFUL" else ""
        yield f"{front}{branch}{printed(child.name)} {MARKS[end]}{said}"
        yield from tree_lines(plan, child, front + bar)


def counts_of(plan, node):
    """As what a node counts in the summary."""
    end = outcome_of(plan, node)[0]
    if end == "NOT RUN" and node.word == "dyn":
        return []
    if end == "NOT RUN":
        is_skipped = any(outcome_of(plan, above)[0] == "SKIPPED" for above in node.ancestors())
        return ["found", "skipped"] if is_skipped else ["found"]
    return ["found", "skipped"] if end == "SKIPPED" else ["found", "started", end.lower()]


def tree_of(plan):
    """The tree and the summary of a run to its end."""
    lines = [*tree_lines(plan, plan.root), "Test run finished"]
    counts = {"containers": Counter(), "tests": Counter()}
    for node in plan.nodes[1:]:
        counts["tests" if node.word in ("test", "dyn") else "containers"].update(counts_of(plan, node))
    lines += [f"[{counts[kind][what]:10} {f'{kind} {what}':21} ]" for kind in counts for what in COUNTED]
    return "".join(f"{line}\n" for line in lines)


def judge_tree(plan, text, warnings):
    """Behind the warnings a line of each node that is told of, and the twelve counts."""
    said = [f"WARNING {key}" for key in warnings] + tree_of(plan).split("\n")[:-1]
    for found, wanted in zip_longest(text.split("\n")[:-1], said):
        same("a line of the tree", found, wanted)


def units_of(plan):
    """Each test but a dynamic one, and each factory."""
    return [node for node in plan.nodes if node.word in ("test", "factory")]


def list_of(units):
    """The list of what would be run of these: what is not disabled, and below no node that is."""
    run = [node for node in units if not any(above.disabled for above in (node, *node.ancestors()))]
    return "".join(f"{node.id}\n" for node in run)


def hash_of(text):
    """FNV-1a of 64 bits."""
    value = 14695981039346656037
    for byte in text.encode():
        value = (value ^ byte) * 1099511628211 % 2**64
    return value


def share(units, form, number, count):
    """The units of this shard, by their places or by the hashes of their ids."""
    if form == "hash:":
        return [node for node in units if hash_of(node.id) % count == number - 1]
    return units[number - 1 :: count]


def judge_list(plan, text):
    """Each test but a dynamic one, and each factory, unless it is disabled or a node above it is."""
    same("the list", text, list_of(units_of(plan)))


def lock_object(plan, key, mode):
    """What is said of a lock that a node holds, with how many nodes may hold it at once, if that is limited."""
    limit = plan.limit_of(key)
    return {"key": key, "mode": LOCK_MODES[mode]} | ({"holders": limit} if limit else {})


def node_object(plan, node):
    """What is said of a node before it is run."""
    held = sorted(plan.held[node].items(), key=lambda lock: lock[0].encode())
    said = {"type": TYPES[node.word], "id": node.id, "parent": node.parent.id if node.parent.parent else ""}
    said |= {"name": node.name, "mode": plan.modes[node].upper()}
    said["held"] = [lock_object(plan, key, mode) for key, mode in held]
    return said | ({"disabled": node.verdict.text} if node.disabled else {})


def judge_plan(plan, text, warnings):
    """An object for each warning, and one for each node but the plan, with its members in their order."""
    wanted = [{"event": "warning", "key": key} for key in warnings] + [node_object(plan, node) for node in plan.nodes[1:]]
    same("the nodes", [json.loads(line, object_pairs_hook=list) for line in text.split("\n")[:-1]], [pairs(it) for it in wanted])


def pairs(value):
    """Objects as lists of their members, so that the order counts."""
    if isinstance(value, dict):
        return [(name, pairs(it)) for name, it in value.items()]
    return [pairs(it) for it in value] if isinstance(value, list) else value


class Told:
    """What a run tells people: its warnings, the lines of the feed, its schedule, the tests that it found, and its status."""

    def __init__(self, status, feed, has_schedule, summary):
        lines = feed.split("\n")[:-1]
        self.status = status
        self.warnings = [line[len("WARNING ") :] for line in lines if line.startswith("WARNING ")]
        self.schedule = lines[-1:] if has_schedule else []
        self.lines = lines[len(self.warnings) : len(lines) - len(self.schedule)]
        self.tests = int(next(line for line in summary.split("\n") if "tests found" in line).split()[1])


class Reports:
    """The texts that were judged, and what was wrong with them."""

    def __init__(self, program):
        self.program = program
        self.passed = self.failed = 0

    def ran(self, details, suite, *words):
        status, text, said = ran(self.program, ["--details", details, *words], suite.encode(), SECONDS_A_RUN)
        is_log = details in ("tree", "summary") and said.startswith((b"Hints (", b"Failures ("))
        if (said and not is_log) or status not in (0, 1):
            raise Wrong(f"status {status}: {said.decode(errors='replace')}")
        return status, text.decode()

    def text(self, details, suite, *words):
        return self.ran(details, suite, *words)[1]

    def judge(self, what, judged):
        try:
            judged()
            self.passed += 1
        except (Wrong, ValueError, KeyError, xml.ParseError, ExpatError) as why:
            self.failed += 1
            if self.failed <= MOST_SHOWN:
                print(f"FAILED {what}: {type(why).__name__} {why}", flush=True)

    def judge_shards(self, plan, suite, form, count):
        """The lists of all shards, what their feeds tell together, and whether one of them fails."""
        status, feed = self.ran("testfeed", suite)
        failed, lines = 0, set()
        for number in range(1, count + 1):
            words = ["--shard", f"{form}{number}/{count}"]
            same(f"the list of {words[1]}", self.text("list", suite, *words), list_of(share(units_of(plan), form, number, count)))
            ended, told = self.ran("testfeed", suite, *words)
            failed, lines = max(failed, ended), lines | set(told.split("\n"))
        same("what the feeds of all shards tell", sorted(lines), sorted(set(feed.split("\n"))))
        same("whether a shard fails", failed, status)

    def suite(self, seed, number):
        """Makes the suite of this number, and judges its reports."""
        random = Random(f"{seed}/{number}")
        maker = OddMaker(random)
        root = maker.plan()
        maker.limit(root)
        wrong = [f"property {key}=parallel\n" for key in KEYS if random.random() < 0.4]
        suite, plan = "".join(wrong) + text_of(root), Plan(root, False, "same_thread", "same_thread")
        words = ["--schedule"] * (random.random() < 0.3)
        name = f"suite {number} of seed {seed}"
        status, feed = self.ran("testfeed", suite, *words)
        tree = self.text("tree", suite)
        told = Told(status, feed, bool(words), tree)
        self.judge(f"{name}, json", lambda: judge_json(plan, self.text("json", suite, *words), told))
        self.judge(f"{name}, tree", lambda: judge_tree(plan, tree, told.warnings))
        self.judge(f"{name}, xml", lambda: judge_xml(plan, self.text("xml", suite, *words), told))
        self.judge(f"{name}, list", lambda: judge_list(plan, self.text("list", suite, *words)))
        form, count = random.choice(["", "hash:"]), random.randrange(1, 5)
        self.judge(f"{name}, shards", lambda: self.judge_shards(plan, suite, form, count))
        is_parallel = random.random() < 0.7
        nodes = Plan(root, is_parallel, "same_thread", "same_thread")
        self.judge(f"{name}, plan", lambda: judge_plan(nodes, self.text("plan", suite, *PARALLEL * is_parallel), told.warnings))


def main():
    words = argparse.ArgumentParser(description=__doc__, formatter_class=argparse.RawDescriptionHelpFormatter)
    words.add_argument("suites", nargs="?", type=int, default=200)
    words.add_argument("seed", nargs="?", default="1")
    words.add_argument("--program")
    given = words.parse_args()
    reports = Reports(given.program or built_console())
    for number in range(1, given.suites + 1):
        reports.suite(given.seed, number)
    print(f"{reports.passed} passed, {reports.failed} failed")
    return 1 if reports.failed else 0


if __name__ == "__main__":
    sys.exit(main())
