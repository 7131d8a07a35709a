"""What the runs of the suites of examples/ have to have in common, whatever the form in which they are told."""

import json
import pathlib
import subprocess

from crates import TOP

SECONDS = 60
RAN = (0, 1)


class Refused(Exception):
    """A run that did not end as a run of tests does."""


def ran(program: pathlib.Path, suite: pathlib.Path, *words: str) -> tuple[int, str]:
    """The status and the output of a run of a suite."""
    done = subprocess.run([program, *words], input=suite.read_bytes(), capture_output=True, timeout=SECONDS)
    if done.returncode not in RAN:
        raise Refused(f"status {done.returncode}: {done.stderr.decode(errors='replace').strip()}")
    return done.returncode, done.stdout.decode()


def feed_line(line: str) -> str:
    """The line of the feed that tells what a line of the JSON tells."""
    said = json.loads(line)
    if said["type"] == "PLAN":
        return f"w{said['worker']} plan {said['event']}"
    words = (f"w{said['worker']}", said["event"], said["id"], said.get("status"), said.get("text"))
    return " ".join(it for it in words if it)


def json_is_the_feed(program: pathlib.Path, suite: pathlib.Path) -> bool:
    """By a fixed schedule, JSON and feed tell the same events in the same order, with the same status."""
    told, feed = (ran(program, suite, "--drive", "3", "--details", form) for form in ("json", "testfeed"))
    return told[0] == feed[0] and [feed_line(it) for it in told[1].splitlines()] == feed[1].splitlines()


def workers_change_no_tree(program: pathlib.Path, suite: pathlib.Path) -> bool:
    """The tree and the status are the same on threads as by fixed schedules of one worker and of several."""
    ways = ((), ("--workers", "1"), ("--workers", "4"), ("--drive", "1"), ("--drive", "7"))
    return len({ran(program, suite, "--details", "tree", *way) for way in ways}) == 1


def status_tells_of_failures(program: pathlib.Path, suite: pathlib.Path) -> bool:
    """The status is 1 if and only if the feed has a node that FAILED."""
    status, feed = ran(program, suite, "--details", "testfeed")
    return status == any(line.split(" ")[1] == "finished" and " FAILED" in line for line in feed.splitlines())


def steps_lead_to_the_feed(program: pathlib.Path, suite: pathlib.Path) -> bool:
    """The steps that a run on threads prints lead to its feed again, and none of them is passed over."""
    *feed, steps = ran(program, suite, "--details", "testfeed", "--schedule")[1].splitlines()
    *replayed, counts = ran(program, suite, "--details", "testfeed", "--replay", steps)[1].splitlines()
    return replayed == feed and " passed-over 0 " in counts


RULES = (json_is_the_feed, workers_change_no_tree, status_tells_of_failures, steps_lead_to_the_feed)


def judge_examples(program: pathlib.Path) -> tuple[int, int]:
    """How many of the rules hold for how many examples, and how many do not; what fails is printed."""
    passed = failed = 0
    for suite in sorted((TOP / "examples").glob("*.suite")):
        for rule in RULES:
            try:
                why = "" if rule(program, suite) else rule.__doc__
            except (Refused, subprocess.TimeoutExpired) as found:
                why = str(found)
            passed, failed = passed + (not why), failed + bool(why)
            if why:
                print(f"FAILED {suite.name}, {rule.__name__}: {why}")
    return passed, failed
