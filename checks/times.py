#!/usr/bin/env python3
"""Looks at the times that --times tells, as a user would.

checks/times.py [SUITES] [SEED]   20 suites and the seed 1 where they are not given
  --program PATH                  another program than the one of these sources
Of suites made at random, run by 1, 2, 4 and 8 workers, standard output and the files of --report have the same text,
be it JSON or XML, and the same time of each node; a suite has the sum of its cases, the name of this machine and the
moment at which the run began; and standard error has the ten slowest. Where no clock is read, and without --times, no
time is told, and all else is the same. A test that counts longer takes longer, and no worker's tests take longer
together than the run. The JSON of a run that goes on comes through a pipe line by line, each finish with its time.
The last line is 'N passed, M failed': the runs.
"""

import argparse
import json
import os
import re
import socket
import sys
import tempfile
import time
import xml.etree.ElementTree as ElementTree
from datetime import datetime, timezone
from random import Random

sys.dont_write_bytecode = True

from programs import Hangs, built_console, ran
from suites import Maker, text_of
from watched import PARTS, TESTS, slow_suite, through_pipe

SECONDS_A_RUN = 120
REFUSED = 255
MOST_SLOW = 10
TITLE = re.compile(r"Slowest \((\d+) of (\d+)\):")
# So many tests count so far each, beside as many that do not count.
LONG, SPIN = 40, 1_000_000


class Wrong(Exception):
    """What is wrong with a run."""


def need(truth, what):
    if not truth:
        raise Wrong(what)


def times_in_json(text):
    """The milliseconds of each node by its id, and the ids of the tests among them."""
    took, tests = {}, []
    for line in map(json.loads, text.splitlines()):
        if "ms" in line:
            need(line["event"] == "finished" and list(line)[-1] == "ms", f"a time in {line}")
            took[line["id"]] = line["ms"]
            tests += [line["id"]] * (line["type"] == "TEST")
    return took, tests


def milliseconds(text):
    """What a time in seconds is: nothing is a mere 0, and all else has three places."""
    if text == "0":
        return 0
    need(re.fullmatch(r"\d+\.\d{3}", text), f"the time {text!r}")
    return int(text.replace(".", ""))


def judge_stamps(text, begun, ended):
    """Each suite has the name of this machine, and all have one moment of the run, in whole seconds of UTC."""
    suites = list(ElementTree.fromstring(text).iter("testsuite"))
    need({suite.get("hostname") for suite in suites} <= {socket.gethostname()}, "another machine's name")
    stamps = {suite.get("timestamp", "none") for suite in suites}
    need(len(stamps) <= 1, f"the time stamps {stamps}")
    for stamp in stamps:
        need(re.fullmatch(r"\d{4}-\d\d-\d\dT\d\d:\d\d:\d\d", stamp), f"the time stamp {stamp!r}")
        moment = datetime.fromisoformat(stamp).replace(tzinfo=timezone.utc).timestamp()
        need(int(begun) <= moment <= ended, f"{stamp} is no moment of the run, from {begun} to {ended}")


def judge_xml(text, took):
    """Each case has the time of its node, and a suite the sum: what is less than a millisecond of each is cut off."""
    for suite in ElementTree.fromstring(text).iter("testsuite"):
        cases = list(suite.iter("testcase"))
        told = [milliseconds(case.get("time")) for case in cases]
        for case, ms in zip(cases, told):
            node = case.find("system-out").text.split("\n")[0].removeprefix("unique-id: ")
            need(ms == took.get(node, 0), f"{ms} ms of {node} in XML, {took.get(node)} in JSON")
        whole = milliseconds(suite.get("time"))
        need(sum(told) <= whole <= sum(told) + len(told), f"{whole} ms of the suite {suite.get('name')}, of {sum(told)}")


def judge_slowest(errors, took, tests):
    """The slowest tests are the last that is said, and of them just those and their times."""
    at = [number for number, line in enumerate(errors) if TITLE.fullmatch(line)]
    if not tests:
        need(not at, "a list of the slowest of no tests")
        return
    need(len(at) == 1, f"{len(at)} lists of the slowest tests")
    lines = errors[at[0] :]
    told, count = map(int, TITLE.fullmatch(lines[0]).groups())
    need((told, count) == (min(MOST_SLOW, len(tests)), len(tests)), f"{lines[0]} of {len(tests)}")
    need(len(lines) == 1 + 2 * told, f"{len(lines)} lines of the slowest tests")
    listed = []
    for number in range(told):
        seconds = lines[1 + 2 * number].split(" s  ")[0].strip()
        node = lines[2 + 2 * number].strip()
        need(took.get(node) == int(seconds.replace(".", "")), f"{seconds} s of {node}, in JSON {took.get(node)}")
        listed.append(took[node])
    need(listed == sorted(took[test] for test in tests)[::-1][:told], "other tests are the slowest")


def ran_in(program, words, suite, folder):
    status, output, errors = ran(program, words, suite, SECONDS_A_RUN, cwd=folder)
    return status, output.decode(), errors.decode().splitlines()


def without_times(text):
    return re.sub(r',"ms":\d+}', "}", text)


def has_no_time(text):
    return '"ms"' not in text and not re.search(r' (hostname|timestamp)=| time="(?!0")', text)


def reported(program, suite, workers, folder, form):
    """A run that prints one form, and writes both into files; what it said besides, and the times that it told."""
    begun = time.time()
    words = ["--workers", str(workers), "--details", form, "--times", "--report", "json=run.json", "--report", "xml=run.xml"]
    status, output, errors = ran_in(program, words, suite, folder)
    if status == REFUSED:
        return None
    files = {}
    for name in ("json", "xml"):
        with open(os.path.join(folder, f"run.{name}"), newline="") as file:
            files[name] = file.read()
    need(files[form] == output, f"the file has another text than standard output, as {form}")
    took, tests = times_in_json(files["json"])
    judge_xml(files["xml"], took)
    judge_stamps(files["xml"], begun, time.time())
    judge_slowest(errors, took, tests)
    return status, output


def tells_alike(program, suite, workers, folder):
    """Runs that tell their times in all forms, and the same runs without them."""
    for form in ("json", "xml"):
        timed = reported(program, suite, workers, folder, form)
        if timed is None:
            return
        words = ["--workers", str(workers), "--details", form]
        status, printed, said = ran_in(program, words, suite, folder)
        need(status == timed[0], f"status {status} without times, {timed[0]} with them")
        need(has_no_time(printed), "a time that nobody asked for")
        need(not any(TITLE.fullmatch(line) for line in said), "a list that nobody asked for")
        if workers == 1 and form == "json":
            need(without_times(timed[1]) == printed, "another history with times")
        for unread in (["--drive", "2"], ["--replay", ""]):
            _, printed, said = ran_in(program, [*words, "--times", *unread], suite, folder)
            need(has_no_time(printed), f"a time with {unread[0]}")
            need(not any(TITLE.fullmatch(line) for line in said), f"slow tests with {unread[0]}")


def lines_come_while_the_run_goes_on(program, folder):
    """What has come through a pipe is at any moment a beginning of the whole, in which each test has its time."""
    status, found = through_pipe(program, slow_suite(), ["--times"], "json")
    whole = found[-1][1]
    need(status == 0 and all(whole.startswith(got) for _, got in found), f"status {status}, or no beginning of the whole")
    need(len(times_in_json(whole.decode())[1]) == TESTS, "a test without a time")
    begun = next(at for at, got in found if b'"ms":' in got)
    parts = len({got.count(b'"ms":') for _, got in found})
    over = found[-1][0]
    need(parts >= PARTS and begun < 0.5 * over, f"{parts} parts, the first time after {begun:.2f} s of {over:.2f} s")


def who_counts_longer_takes_longer(program, folder):
    lines = ["engine e", "  class a.B"]
    for number in range(LONG):
        lines += [f"    test t{number}() spin={SPIN} pass", f"    test u{number}() pass"]
    suite = ("\n".join(lines) + "\n").encode()
    begun = time.monotonic()
    status, output, errors = ran_in(program, ["--workers", "4", "--times", "--details", "json"], suite, folder)
    passed = 1000 * (time.monotonic() - begun)
    took, tests = times_in_json(output)
    need((status, len(tests)) == (0, 2 * LONG), f"status {status}, {len(tests)} tests")
    judge_slowest(errors, took, tests)
    by_worker = {}
    for line in map(json.loads, output.splitlines()):
        by_worker[line["worker"]] = by_worker.get(line["worker"], 0) + line.get("ms", 0)
    need(max(by_worker.values()) <= passed, f"{by_worker} ms of workers in {passed:.0f} ms")
    longs = sorted(took[test] for test in tests if "[method:t" in test)
    shorts = sorted(took[test] for test in tests if "[method:u" in test)
    need(shorts[LONG // 2] < longs[LONG // 2], f"{shorts[LONG // 2]} ms of what does not count, {longs[LONG // 2]} of what does")


def main():
    words = argparse.ArgumentParser(description=__doc__, formatter_class=argparse.RawDescriptionHelpFormatter)
    words.add_argument("suites", nargs="?", type=int, default=20)
    words.add_argument("seed", nargs="?", default="1")
    words.add_argument("--program")
    given = words.parse_args()
    program = os.path.abspath(given.program or built_console())
    runs = [("counting", lambda folder: who_counts_longer_takes_longer(program, folder))]
    runs.append(("a run that goes on", lambda folder: lines_come_while_the_run_goes_on(program, folder)))
    for number in range(1, given.suites + 1):
        suite = text_of(Maker(Random(f"{given.seed}/{number}")).plan()).encode()
        for workers in (1, 2, 4, 8):
            runs.append(
                (f"suite {number}, {workers} workers", lambda folder, s=suite, w=workers: tells_alike(program, s, w, folder))
            )
    failed = 0
    for name, run in runs:
        with tempfile.TemporaryDirectory() as folder:
            try:
                run(folder)
            except (Wrong, Hangs, ElementTree.ParseError, ValueError, KeyError) as wrong:
                failed += 1
                print(f"FAILED {name}: {type(wrong).__name__} {wrong}", flush=True)
    print(f"{len(runs) - failed} passed, {failed} failed")
    return 1 if failed else 0


if __name__ == "__main__":
    sys.exit(main())
