#!/usr/bin/env python3
"""Has the readers that others use for JUnit's XML read the program's reports, and compares what they make of them.

checks/xml_readers.py [SUITES] [SEED]   10 suites and the seed 1 where they are not given
  --program PATH                        another program than the one of these sources
  --schema FILE                         a schema to hold the reports against, any number of times
Each suite is made at random, with names and texts that have to be escaped, and reported by one worker without and
with --times. Python's xml.etree has to find what the definitions say of the suite: how many cases there are, failed,
had errors and were skipped, and the name, end, type and text of each; as many as the summary has tests, and as many
failed. What any other reader tells of that, of times, hosts and time stamps has to be the same.
Readers: xmllint, xml.etree, Java's DOM, junitparser, the parser of Maven's Surefire, Ant's junit-noframes.xsl by
xsltproc, and Ant's junitreport (frames). Debian's packages: libxml2-utils, a JDK, python3-junitparser,
libsurefire-java, ant-optional, xsltproc. None has a schema, but two of its sources have: junit5 jenkins-junit.xsd, and
surefire surefire-test-report.xsd. What a reader does not tell, or tells in its own way, is not compared:
  - Surefire counts elements; a skip without a text counts, but its case has passed; it tells no type of a skip;
  - Ant's pages tell no type, and white space is not as it was; if no test was run the rate of success is NaN;
  - junitreport takes one suite a file, so each is cut out, and drops characters beyond U+FFFF; of a whole report
    junit-noframes.xsl lists the packages with zeros;
  - the older schema lets `skipped` have no attribute, Surefire's no type, and a suite no host and no time stamp.
The last line is 'N passed, M failed': the readings, and behind them how many readers are missing.
"""

import argparse
import os
import re
import sys
import tempfile
from random import Random

sys.dont_write_bytecode = True

from junit_readers import BASE, ENDS, Bad, lacks, readers, versions
from plans import Plan
from programs import built_console, ran
from reports import OddMaker, case_of, cases_of
from suites import text_of

SECONDS_A_RUN = 60
MOST_SHOWN = 10


class DottedMaker(OddMaker):
    """Makes suites some of whose names have dots, where readers look for packages."""

    def name(self, node, word):
        return self.random.choice(["", "", "a.", "a.b."]) + super().name(node, word)


class Report:
    """A report that was printed, in a folder of its own, and what the definitions say of it."""

    def __init__(self, name, folder, text, plan):
        os.makedirs(folder)
        self.name, self.path = name, os.path.join(folder, "report.xml")
        with open(self.path, "wb") as file:
            file.write(text)
        self.suites, self.cases, self.tests = [], [], []
        for node in plan.nodes:
            nodes = cases_of(plan, node)
            cases = [told_of(*case_of(plan, case, node)) for case in nodes]
            ends = [case[2] for case in cases]
            self.suites += [(cases[0][0], len(cases), *map(ends.count, ENDS))] if cases else []
            self.cases += cases
            self.tests += [end for end, case in zip(ends, nodes) if case.word != "factory"]

    def judge_summary(self, summary):
        """Holds a summary against the definitions."""
        lines = [line[1:-1].strip() for line in summary.splitlines()]
        wanted = [f"{len(self.tests)} tests found", f"{self.tests.count('failure')} tests failed"]
        same("the summary", [line for line in lines if line.endswith(("tests found", "tests failed"))], wanted)

    def judge(self, reader, reading, base):
        """Holds what a reader makes of it against the definitions, or against what the base makes of it."""
        for it in (reading, base):
            if isinstance(it, Bad):
                raise it
        if reader == BASE:
            same("suites", [it[:5] for it in reading.suites], self.suites)
            same("cases", [it[:5] for it in reading.cases], self.cases)
        seen = SEEN.get(reader, lambda *case: case)
        if reading.suites is not None:
            same("suites", reading.suites, [(*it[:6], "", "") if reader == "Surefire" else it for it in base.suites])
        if reading.cases is not None:
            same("cases", sorted(reading.cases), sorted(seen(*case) for case in base.cases))
        if reading.totals is not None:
            totals = [sum(suite[at] for suite in base.suites) for at in range(1, 6)]
            same("the whole", reading.totals, (*totals[:4], totals[4] if reading.totals[4] is not None else None))
        if reading.stamps is not None:
            same("stamps", sorted(reading.stamps), sorted({suite[6:] for suite in base.suites}))


def told_of(_, attributes, below):
    """What is told of a case whose element is this."""
    end, said, _ = below[0]
    told = (end, said["type"], said["message"]) if end in ENDS else ("passed", "", "")
    return attributes["classname"], attributes["name"], *told


def same(what, is_so, wanted):
    if is_so != wanted:
        pairs = list(zip(is_so, wanted)) if len(is_so) == len(wanted) else [(len(is_so), len(wanted))]
        raise Bad(f"{what}: {next(pair for pair in pairs if pair[0] != pair[1])}")


def flat(text):
    return " ".join(text.split())


def seen_by_surefire(suite, name, end, kind, text, time):
    if end != "skipped":
        return suite, name, end, kind, text, time
    return (suite, name, end, end, text, time) if text.strip("\t\n\r ") else (suite, name, "passed", "", "", time)


def seen_in_a_page(suite, name, end, kind, text, time):
    return flat(suite), flat(name), end, "", flat(text), time


def seen_in_frames(suite, name, end, kind, text, time):
    suite, name, text = (re.sub("[^\0-\uffff]", "", it) for it in (suite.rpartition(".")[2], name, text))
    return seen_in_a_page(suite, name, end, kind, text, time)


SEEN = {"Surefire": seen_by_surefire, "junit-noframes.xsl": seen_in_a_page, "junitreport": seen_in_frames}


class Readings:
    """The reports of suites, and how many readings of them were as they have to be."""

    def __init__(self, program, folder):
        self.program, self.folder, self.reports = program, folder, []
        self.passed = self.failed = self.missing = 0

    def judge(self, what, judged, *arguments):
        try:
            judged(*arguments)
            self.passed += 1
        except Bad as why:
            self.failed += 1
            if self.failed <= MOST_SHOWN:
                print(f"FAILED {what}: {str(why)[:500]}", flush=True)

    def printed(self, suite, *words):
        return ran(self.program, ["--details", *words], suite, SECONDS_A_RUN)[1]

    def suite(self, seed, number):
        """Has the suite of this number reported."""
        plan = Plan(DottedMaker(Random(f"{seed}/{number}")).plan(), False, "same_thread", "same_thread")
        name, suite = f"suite {number} of seed {seed}", text_of(plan.root).encode()
        for words in ([], ["--times"]):
            folder = os.path.join(self.folder, f"{number}{''.join(words)}")
            self.reports.append(Report(" ".join([name, *words]), folder, self.printed(suite, "xml", *words), plan))
        self.judge(f"{name}, summary", self.reports[-1].judge_summary, self.printed(suite, "summary").decode())

    def read(self, name, read, needs):
        """Has a reader read all reports."""
        if lacks(needs):
            self.missing += 1
            print(f"MISSING {name}: {', '.join(lacks(needs))}")
            return
        paths = [report.path for report in self.reports]
        try:
            readings = read(paths, self.folder)
        except Bad as why:
            readings = [why] * len(paths)
        self.base = readings if name == BASE else self.base
        for report, reading, base in zip(self.reports, readings, self.base):
            self.judge(f"{report.name}, {name}", report.judge, name, reading, base)


def main():
    words = argparse.ArgumentParser(description=__doc__, formatter_class=argparse.RawDescriptionHelpFormatter)
    words.add_argument("suites", nargs="?", type=int, default=10)
    words.add_argument("seed", nargs="?", default="1")
    words.add_argument("--program")
    words.add_argument("--schema", action="append", default=[])
    given = words.parse_args()
    print(versions())
    with tempfile.TemporaryDirectory() as folder:
        readings = Readings(given.program or built_console(), folder)
        for number in range(1, given.suites + 1):
            readings.suite(given.seed, number)
        for name, (read, needs) in readers(given.schema).items():
            readings.read(name, read, needs)
    missing = f", {readings.missing} readers missing" if readings.missing else ""
    print(f"{readings.passed} passed, {readings.failed} failed{missing}")
    return 1 if readings.failed else 0


if __name__ == "__main__":
    sys.exit(main())
