#!/usr/bin/env python3
"""Looks at the files that --report writes, as a user would.

checks/report_files.py [SUITES] [SEED]   20 suites and the seed 1 where they are not given
  --program PATH                         another program than the one of these sources
Of suites made at random each form is written in one run: the XML, as Python reads it, has the counts of the
summary, feed and JSON tell the same events, and where one worker runs each report is what --details prints of it.
Folders that are not there or may not be written, what is no file, a file that is full, two names of one place,
and a run that is killed have to leave what docs/FORMATS.md says.
The last line is 'N passed, M failed': the runs.
"""

import argparse
import json
import os
import resource
import signal
import subprocess
import sys
import tempfile
import time
import xml.etree.ElementTree as ElementTree
from random import Random

sys.dont_write_bytecode = True

from programs import built_console
from suites import Maker, text_of

FORMS = ("xml", "json", "testfeed", "tree", "summary", "list")
SECONDS_A_RUN = 120
REFUSED = 255
SPIN = 1_000_000
SMALL = b"engine e\n  class a.B\n    test t() pass\n    test u() fail no\n"
FAILED = 1


class Wrong(Exception):
    """What is wrong with a run."""


def ran(program, words, suite, folder, **how):
    """The status, the output and the standard error of a run in this folder."""
    done = subprocess.run(
        [program, *words], input=suite, capture_output=True, cwd=folder, timeout=SECONDS_A_RUN, **how
    )
    return done.returncode, done.stdout, done.stderr.decode()


def asked(pairs):
    return [word for form, name in pairs for word in ("--report", f"{form}={name}")]


def held(folder):
    """What stands in a folder: each file with its bytes."""
    found = {}
    for name in os.listdir(folder):
        path = os.path.join(folder, name)
        if os.path.isfile(path):
            with open(path, "rb") as file:
                found[name] = file.read()
    return found


def need(truth, what):
    if not truth:
        raise Wrong(what)


def count(summary, what):
    """How many tests are so by a summary."""
    for line in summary.decode().splitlines():
        words = line.strip("[] ").split()
        if words[1:] == ["tests", what]:
            return int(words[0])
    raise Wrong(f"no line of tests {what}")


def kind(node):
    """The type of the last segment of an id."""
    return node.rsplit("/[", 1)[-1].lstrip("[").split(":", 1)[0]


def failed_cases(files, lines):
    """Of a document: its cases are the tests that were found, and factories of which no test was registered; those
    that failed are those of the JSON."""
    cases = {}
    for case in ElementTree.fromstring(files["xml"]).iter("testcase"):
        cases[case.find("system-out").text.split("\n")[0].removeprefix("unique-id: ")] = case
    factories = {node for node in cases if kind(node) == "test-factory"}
    registered = {line["id"].rsplit("/[", 1)[0] for line in lines if line["event"] == "registered"}
    need(not factories & registered, f"cases of {sorted(factories & registered)}, which have tests")
    wanted = count(files["summary"], "found") + len(factories)
    need(len(cases) == wanted, f"{len(cases)} cases in XML, and {wanted} tests found")
    told = {node for node, case in cases.items() if case.find("failure") is not None}
    failed = {line["id"] for line in lines if line.get("status") == "FAILED"}
    failed = {node for node in failed if node in factories or kind(node) in ("method", "dynamic-test")}
    need(told == failed, f"{sorted(told ^ failed)} failed in XML or in JSON alone")


def agrees(files):
    """Whether the reports of one run tell the same."""
    lines = [json.loads(line) for line in files["json"].splitlines()]
    failed_cases(files, lines)
    feed = files["testfeed"].decode().splitlines()
    need(len(lines) == len(feed), f"{len(lines)} lines of JSON, and {len(feed)} of the feed")
    need(files["tree"].endswith(files["summary"]), "the tree does not end with the summary")


def writes_each_form(program, suite, folder):
    """Each form in one run, beside what it prints."""
    status, output, _ = ran(program, ["--details", "summary", *asked((form, form) for form in FORMS)], suite, folder)
    files = held(folder)
    if status == REFUSED:
        need(not files, "a refused run has left a file")
        return
    need(set(files) == set(FORMS), f"there are {sorted(files)}")
    need(output.endswith(files["summary"]), "the report is another summary than is printed")
    agrees(files)
    for form in FORMS:
        details = ran(program, ["--details", form], suite, folder)[1].decode()
        told = files[form].decode()
        plain = "\n".join(line for line in details.splitlines() if not line.startswith("WARNING"))
        if "w2 " not in files["testfeed"].decode() and "WARNING" not in details and '"warning"' not in details:
            need(told.rstrip("\n") == plain.rstrip("\n"), f"the report {form} is another than --details prints")


def refuses_a_missing_folder(program, folder):
    status, output, errors = ran(program, asked([("xml", "a.xml"), ("json", "no/a.json")]), SMALL, folder)
    need((status, output) == (REFUSED, b"error 107 at 2\n"), f"{status} {output}")
    need("no/a.json" in errors, "the message does not name the file")
    need(not held(folder), "a file is left")


def refuses_a_folder_that_may_not_be_written(program, folder):
    inner = os.path.join(folder, "inner")
    os.mkdir(inner, 0o555)
    if os.access(inner, os.W_OK):
        return
    status, output, _ = ran(program, asked([("xml", "inner/a.xml")]), SMALL, folder)
    need((status, output) == (REFUSED, b"error 107 at 1\n"), f"{status} {output}")


def refuses_a_folder_as_a_file(program, folder):
    os.mkdir(os.path.join(folder, "inner"))
    status, output, _ = ran(program, asked([("xml", "inner")]), SMALL, folder)
    need((status, output) == (REFUSED, b"error 107 at 1\n"), f"{status} {output}")
    need(not held(folder), "a file is left")


def tells_of_a_full_device(program, folder):
    words = ["--details", "summary", *asked([("xml", "/dev/full"), ("json", "a.json")])]
    status, output, errors = ran(program, words, SMALL, folder)
    need(status == REFUSED and b"error" not in output and b"tests failed" in output, f"{status} {output}")
    need("/dev/full" in errors, "the message does not name the file")
    need(set(held(folder)) == {"a.json"}, f"there are {sorted(held(folder))}")


def few_bytes():
    signal.signal(signal.SIGXFSZ, signal.SIG_IGN)
    resource.setrlimit(resource.RLIMIT_FSIZE, (64, 64))


def tells_of_a_file_that_is_full(program, folder):
    words = ["--details", "none", *asked([("list", "a.txt"), ("xml", "a.xml")])]
    status, output, _ = ran(program, words, SMALL, folder, preexec_fn=few_bytes)
    need((status, output) == (REFUSED, b""), f"{status} {output}")
    need("a.xml" not in held(folder) and "a.xml.unfinished" not in held(folder), "a cut report is left")


def writes_into_a_pipe(program, folder):
    reading, writing = os.pipe()
    words = ["--details", "none", *asked([("summary", f"/dev/fd/{writing}")])]
    status, _, _ = ran(program, words, SMALL, folder, pass_fds=[writing])
    os.close(writing)
    with os.fdopen(reading, "rb") as pipe:
        told = pipe.read()
    need(status == FAILED and b"tests failed" in told, f"{status} {told}")


def keeps_one_of_two_names_of_one_place(program, folder):
    words = ["--details", "none", *asked([("xml", "a"), ("json", "./a")])]
    status, _, _ = ran(program, words, SMALL, folder)
    need(status == REFUSED, f"status {status}")
    files = held(folder)
    need(set(files) == {"a"} and files["a"].startswith(b"{"), f"there are {files}")


def replaces_what_was_there(program, folder):
    for name in ("a.xml", "a.xml.unfinished"):
        with open(os.path.join(folder, name), "w") as file:
            file.write("old " * 10_000)
    status, _, _ = ran(program, ["--details", "none", *asked([("xml", "a.xml")])], SMALL, folder)
    need(status == FAILED, f"status {status}")
    files = held(folder)
    need(set(files) == {"a.xml"}, f"there are {sorted(files)}")
    ElementTree.fromstring(files["a.xml"])


def leaves_what_was_there_where_it_is_refused(program, folder):
    with open(os.path.join(folder, "a.xml"), "w") as file:
        file.write("old")
    status, _, _ = ran(program, asked([("xml", "a.xml")]), b"nonsense\n", folder)
    need((status, held(folder)) == (REFUSED, {"a.xml": b"old"}), f"{status} {held(folder)}")


def leaves_no_report_where_it_is_killed(program, folder):
    lines = ["engine e", "  class a.B"] + [f"    test t{number}() spin={SPIN} pass" for number in range(4000)]
    run = subprocess.Popen(
        [program, "--details", "testfeed", *asked([("xml", "a.xml")])],
        stdin=subprocess.PIPE, stdout=subprocess.PIPE, stderr=subprocess.DEVNULL, cwd=folder,
    )
    run.stdin.write(("\n".join(lines) + "\n").encode())
    run.stdin.close()
    run.stdout.readline()
    time.sleep(0.2)
    need(run.poll() is None, "the run was over too soon")
    run.kill()
    run.wait()
    run.stdout.close()
    need("a.xml" not in held(folder), "a killed run has left a report")


CASES = (
    refuses_a_missing_folder,
    refuses_a_folder_that_may_not_be_written,
    refuses_a_folder_as_a_file,
    tells_of_a_full_device,
    tells_of_a_file_that_is_full,
    writes_into_a_pipe,
    keeps_one_of_two_names_of_one_place,
    replaces_what_was_there,
    leaves_what_was_there_where_it_is_refused,
    leaves_no_report_where_it_is_killed,
)


def main():
    given = argparse.ArgumentParser(usage=__doc__)
    given.add_argument("suites", nargs="?", type=int, default=20)
    given.add_argument("seed", nargs="?", type=int, default=1)
    given.add_argument("--program")
    given = given.parse_args()
    program = os.path.abspath(given.program or built_console())
    runs = [(case.__name__, lambda folder, case=case: case(program, folder)) for case in CASES]
    for number in range(given.suites):
        suite = text_of(Maker(Random(f"{given.seed}/{number}")).plan()).encode()
        runs.append((f"suite {number}", lambda folder, suite=suite: writes_each_form(program, suite, folder)))
    failed = 0
    for name, run in runs:
        with tempfile.TemporaryDirectory() as folder:
            try:
                run(folder)
            except (Wrong, ElementTree.ParseError, ValueError, KeyError, subprocess.TimeoutExpired) as wrong:
                failed += 1
                print(f"{name}: {wrong}")
    print(f"{len(runs) - failed} passed, {failed} failed")
    return 1 if failed else 0


if __name__ == "__main__":
    sys.exit(main())
