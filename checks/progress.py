#!/usr/bin/env python3
"""Looks at standard error as a user would: on a terminal stands how far a run has come, and what failed.

checks/progress.py [SUITES] [SEED]   20 suites and the seed 1 where they are not given
  --program PATH                     another program than the one of these sources
A pseudo-terminal is used. The line is drawn at most ten times a second, its numbers grow, and it is gone
at the end, also where the output goes to the same terminal, and where that is narrower than the line. The test
that it names, if one has been running for two seconds, is the one that runs longest by the feed, which is a report.
A file, a terminal that is dumb and one of an unknown kind get nothing of it. What failed is said once more, on a terminal and in a file, at most twenty
of it, and the words that are said select just that, or the first ten of it.
Suites made at random print the same with a terminal and without one, and so do the tests of a shelf that
program_tables runs by its words.
The last line is 'N passed, M failed': the runs.
"""

import argparse
import fcntl
import os
import pty
import re
import shlex
import signal
import struct
import subprocess
import sys
import tempfile
import termios
import threading
import time
from random import Random

sys.dont_write_bytecode = True

from programs import built, built_console
from suites import Maker, text_of

TESTS = 1_200
# A run of so many takes more than two seconds.
MANY_TESTS = 2_600
# So far each of the slow suite's tests counts, which takes about a millisecond.
SPIN = 1_000_000
SECONDS_A_RUN = 120
MOST_SHOWN = 10
# Words by which program_tables runs the tests of a shelf as it would without any.
OWN = ["--workers", "1"]
DRAWN = re.compile(
    rb"\r\x1b\[K\x1b\[\?7l(\d+) found, (\d+) running, (\d+) done, (\d+) failed, (\d+) s"
    rb"(?:, longest (?P<long>\d+) s: (?P<name>[^\x00-\x1f]+))?\x1b\[\?7h"
)
FED = re.compile(rb"w\d+ (?P<what>started|finished) \S*\[method:(?P<test>[^]]*)\]")
# So often a run is held up, and for so many seconds: no body takes as long by itself.
STOPS = 3
SECONDS_A_STOP = 2.3
ERASED = b"\r\x1b[K"
# The line has at least 43 columns.
NARROW = (20, 40)
# Wider than all that a run prints.
WIDE = 200
BELOW = "[engine:e]/[class:a.B]"
FAILING = ("t3()", "t'4()")
MANY = tuple(f"m{number}()" for number in range(23))


class Wrong(Exception):
    """What is wrong with a run."""


def slow_suite(tests=TESTS):
    lines = ["engine e", "  class a.B"]
    lines += [f"    test t{number}() spin={SPIN} pass" for number in range(tests)]
    return ("\n".join(lines) + "\n").encode()


def failing_suite(names):
    lines = ["engine e", "  class a.B"]
    lines += [f"    test {name} pass" for name in ("t1()", "t2()")]
    lines += [f"    test {name} fail wrong" for name in names]
    return ("\n".join(lines) + "\n").encode()


class Screen:
    """What a terminal of so many columns shows of what it is given: a character behind the last column goes on the next row, or takes the last one's place where that is switched off."""

    def __init__(self, columns=WIDE):
        self.columns, self.wraps = columns, True
        self.rows, self.row, self.place = [[]], 0, 0

    def put(self, character):
        if self.place == self.columns:
            if self.wraps:
                self.go_down()
            else:
                self.place -= 1
        row = self.rows[self.row]
        row.extend(" " * (self.place + 1 - len(row)))
        row[self.place] = character
        self.place += 1

    def go_down(self):
        self.row, self.place = self.row + 1, 0
        if self.row == len(self.rows):
            self.rows.append([])

    def take(self, text):
        for piece in re.findall(r"\x1b\[K|\x1b\[\?7[hl]|[^\x1b]", text):
            if piece == "\r":
                self.place = 0
            elif piece == "\n":
                self.go_down()
            elif piece == "\x1b[K":
                del self.rows[self.row][self.place :]
            elif piece in ("\x1b[?7h", "\x1b[?7l"):
                self.wraps = piece.endswith("h")
            else:
                self.put(piece)

    def text(self):
        return "\n".join("".join(row).rstrip(" ") for row in self.rows)


def read_all(reader, found):
    while True:
        try:
            more = os.read(reader, 65_536)
        except OSError:
            # a terminal that nobody writes to any more
            more = b""
        if not more:
            return
        found.append(more)


class Run:
    """A run of the program: what came on its output and on its errors, each a pipe or a terminal, or one terminal for both."""

    def __init__(self, program, suite, words, errors="terminal", both=False, env=None, columns=WIDE, stops=0):
        self.seconds, self.columns = time.monotonic(), columns
        streams = {}
        ends = []
        error_end = self.open(errors, streams, ends, "errors")
        output_end = error_end if both else self.open("pipe", streams, ends, "output")
        with tempfile.TemporaryFile() as given:
            given.write(suite)
            given.seek(0)
            kinds = {"TERM": "xterm"} if env is None else env
            kept = {name: value for name, value in os.environ.items() if name not in ("TERM", "NO_COLOR")}
            # one that is held up runs on one processor, so that its bodies take their time
            bind = (lambda: os.sched_setaffinity(0, {min(os.sched_getaffinity(0))})) if stops else None
            process = subprocess.Popen([program, *words], stdin=given, stdout=output_end, stderr=error_end, env={**kept, **kinds}, preexec_fn=bind)
        for end in ends:
            os.close(end)
        threads = []
        for reader, found in streams.values():
            threads.append(threading.Thread(target=read_all, args=(reader, found)))
            threads[-1].start()
        for _ in range(stops):
            time.sleep(0.4)
            process.send_signal(signal.SIGSTOP)
            time.sleep(SECONDS_A_STOP)
            process.send_signal(signal.SIGCONT)
        try:
            self.status = process.wait(SECONDS_A_RUN)
        except subprocess.TimeoutExpired:
            process.kill()
            raise Wrong(f"not ended in {SECONDS_A_RUN} s")
        for thread in threads:
            thread.join()
        self.seconds = time.monotonic() - self.seconds
        got = {name: b"".join(found).replace(b"\r\n", b"\n") for name, (_, found) in streams.items()}
        for reader, _ in streams.values():
            os.close(reader)
        self.errors, self.output = got["errors"], got.get("output", b"")

    def open(self, kind, streams, ends, name):
        reader, writer = pty.openpty() if kind == "terminal" else os.pipe()
        if kind == "terminal":
            fcntl.ioctl(writer, termios.TIOCSWINSZ, struct.pack("HHHH", 24, self.columns, 0, 0))
        streams[name] = (reader, [])
        ends.append(writer)
        return writer


def drawn_in(errors):
    """The numbers of each drawing, and the test that it names, or none."""
    return [(tuple(map(int, found.groups()[:5])), found["name"]) for found in DRAWN.finditer(errors)]


def judge_drawn(program, details):
    """The line comes at most ten times a second, its numbers grow, and it is gone at the end."""
    run = Run(program, slow_suite(), ["--details", details])
    silent = Run(program, slow_suite(), ["--details", details], errors="pipe")
    if (run.status, run.output) != (silent.status, silent.output) or run.status != 0:
        raise Wrong(f"status {run.status} and {silent.status}")
    drawn, names = zip(*drawn_in(run.errors)) if DRAWN.search(run.errors) else ((), ())
    if not 3 <= len(drawn) <= 10 * run.seconds + 1:
        raise Wrong(f"drawn {len(drawn)} times in {run.seconds:.2f} s")
    if DRAWN.sub(b"", run.errors).replace(ERASED, b"") != b"" or not run.errors.endswith(ERASED):
        raise Wrong(f"something else stands there, or the line at the end: {run.errors[-200:]!r}")
    for before, after in zip(drawn, drawn[1:]):
        if after[2] < before[2] or after[4] < before[4]:
            raise Wrong(f"{before} before {after}")
    if any(found != TESTS or running > 1 or done + running > found or failed for found, running, done, failed, _ in drawn):
        raise Wrong(f"{drawn}")
    if any(names):
        raise Wrong(f"no test takes two seconds, and {names} are named")


def longest_by(feed):
    """For each number of tests that are done, the first to start of those that run: by the events of a feed."""
    running, longest = [], [None]
    for found in FED.finditer(feed):
        if found["what"] == b"started":
            running.append(found["test"])
            longest[-1] = running[0]
        else:
            running.remove(found["test"])
            longest.append(running[0] if running else None)
    return longest


def judge_longest(program):
    """A test that is named runs, and of those that run it was the first to start: so the feed says, which is a report."""
    with tempfile.TemporaryDirectory() as folder:
        path = os.path.join(folder, "feed")
        words = ["--details", "none", "--workers", "8", "--report", f"testfeed={path}"]
        run = Run(program, slow_suite(MANY_TESTS), words, stops=STOPS)
        with open(path, "rb") as feed:
            longest = longest_by(feed.read())
    named = [found for found in DRAWN.finditer(run.errors) if found["name"]]
    for found in named:
        test = longest[int(found[3])]
        if test is None or found["name"] != test + b" in a.B":
            raise Wrong(f"{found['name']} is named, and {test} runs longest")
        if not 2 <= int(found["long"]) <= run.seconds:
            raise Wrong(f"{found[0]} in a run of {run.seconds:.2f} s")
    if run.status != 0 or not named:
        raise Wrong(f"status {run.status}, {len(named)} were named")


def judge_seconds(program):
    """The seconds are those since the beginning, and not those since the line was drawn last."""
    run = Run(program, slow_suite(MANY_TESTS), ["--details", "none"])
    seconds = [numbers[4] for numbers, _ in drawn_in(run.errors)]
    if not run.seconds - 1.5 < seconds[-1] < run.seconds:
        raise Wrong(f"{seconds[-1]} s in the end, of {run.seconds:.2f} s")


def judge_together(program, details, columns=WIDE):
    """Where both go to one terminal, at the end it shows what is printed, and nothing else; and it goes on as before on the next row."""
    run = Run(program, slow_suite(), ["--details", details], both=True, columns=columns)
    alone = Run(program, slow_suite(), ["--details", details], errors="pipe")
    if run.errors.count(ERASED) < 2:
        raise Wrong("no line was drawn")
    screen, wanted = Screen(columns), Screen(columns)
    screen.take(run.errors.decode())
    wanted.take(alone.output.decode())
    if screen.text() != wanted.text():
        raise Wrong(f"the screen shows {screen.text()[:500]!r}")
    if not screen.wraps:
        raise Wrong("the terminal leaves out what does not fit on a line")


def judge_silent(program, errors, env):
    """No terminal, or one that cannot draw, gets nothing."""
    run = Run(program, slow_suite(), ["--details", "summary"], errors=errors, env=env)
    if run.errors != b"":
        raise Wrong(f"{run.errors[:200]!r}")


def judge_colours(program):
    """Nothing is coloured, whatever NO_COLOR says."""
    for env in ({"TERM": "xterm"}, {"TERM": "xterm", "NO_COLOR": "1"}):
        run = Run(program, slow_suite(), ["--details", "summary"], env=env)
        if re.search(rb"\x1b\[[0-9;]*m", run.errors):
            raise Wrong(f"{run.errors[:200]!r}")


def wanted_failures(names, shown):
    """The lines of what failed, before the words."""
    lines = [f"Failures ({len(names)}):"]
    for name in names[:shown]:
        lines += [f"  {name}", f"    {BELOW}/[method:{name}]", "    => wrong"]
    return lines + [f"  and {len(names) - shown} more"] * (len(names) > shown)


def judge_failures(program, details, names, is_said):
    """What failed is said once more, behind all else, with words that select just that, or the first ten."""
    suite = failing_suite(names)
    run = Run(program, suite, ["--details", details])
    alone = Run(program, suite, ["--details", details], errors="pipe")
    if (run.status, run.output) != (1, alone.output):
        raise Wrong(f"status {run.status}, without a terminal {alone.output!r}")
    said = DRAWN.sub(b"", run.errors).replace(ERASED, b"").decode()
    if said != alone.errors.decode():
        raise Wrong(f"said {said!r}, without a terminal {alone.errors!r}")
    if not is_said:
        if said != "":
            raise Wrong(f"said {said!r}")
        return
    lines = said.splitlines()
    if lines[:-2] != wanted_failures(names, 20):
        raise Wrong(f"said {said!r}")
    which = "just these" if len(names) <= 10 else "just the first of these"
    if lines[-2] != f"To select {which}, a dynamic test with its factory:":
        raise Wrong(f"said {lines[-2]!r}")
    again = Run(program, suite, ["--details", "list", *shlex.split(lines[-1])], errors="pipe")
    if again.output.decode().splitlines() != [f"{BELOW}/[method:{name}]" for name in names[:10]]:
        raise Wrong(f"the words select {again.output!r}")


def judge_random(program, seed, number):
    """A suite made at random prints the same with a terminal and without one."""
    suite = text_of(Maker(Random(f"{seed}/{number}")).plan()).encode()
    words = ["--details", Random(f"{seed}/{number}").choice(["tree", "summary", "testfeed", "xml"]), "--config", "junit.jupiter.execution.parallel.enabled=false"]
    run, alone = Run(program, suite, words), Run(program, suite, words, errors="pipe")
    if (run.status, run.output) != (alone.status, alone.output):
        raise Wrong(f"status {run.status} and {alone.status}, printed {run.output!r} and {alone.output!r}")


def judge_own_tests(program):
    """A program's own tests print on a terminal what they print without one, and say what failed."""
    run, alone = Run(program, b"", OWN), Run(program, b"", OWN, errors="pipe")
    said = DRAWN.sub(b"", run.errors).replace(ERASED, b"")
    if (run.status, run.output, said) != (1, alone.output, alone.errors) or not said.startswith(b"Failures ("):
        raise Wrong(f"status {run.status}, said {run.errors!r}, without a terminal {alone.errors!r}")


def main():
    words = argparse.ArgumentParser(description=__doc__, formatter_class=argparse.RawDescriptionHelpFormatter)
    words.add_argument("suites", nargs="?", type=int, default=20)
    words.add_argument("seed", nargs="?", default="1")
    words.add_argument("--program")
    given = words.parse_args()
    program = given.program or built_console()
    cases = [(f"drawn beside {details}", judge_drawn, (program, details)) for details in ("tree", "summary", "json")]
    cases += [("the seconds of a long run", judge_seconds, (program,)), ("the test that runs longest", judge_longest, (program,))]
    cases += [(f"{details} on the same terminal", judge_together, (program, details)) for details in ("tree", "testfeed", "none")]
    cases += [(f"{details} on a terminal of {columns} columns", judge_together, (program, details, columns)) for columns in NARROW for details in ("summary", "testfeed", "none")]
    cases += [("a pipe", judge_silent, (program, "pipe", None)), ("a dumb terminal", judge_silent, (program, "terminal", {"TERM": "dumb"}))]
    cases += [("a terminal of no kind", judge_silent, (program, "terminal", {})), ("colours", judge_colours, (program,))]
    said = {"tree": True, "summary": True, "testfeed": False, "none": False, "json": False}
    cases += [(f"failures behind {details}", judge_failures, (program, details, FAILING, is_said)) for details, is_said in said.items()]
    cases += [(f"many failures behind {details}", judge_failures, (program, details, MANY, True)) for details in ("tree", "summary")]
    cases += [("the tests of a shelf", judge_own_tests, (built("program_tables"),))]
    cases += [(f"suite {n} of seed {given.seed}", judge_random, (program, given.seed, n)) for n in range(1, given.suites + 1)]
    passed = failed = 0
    for what, judge, arguments in cases:
        try:
            judge(*arguments)
            passed += 1
        except Wrong as why:
            failed += 1
            if failed <= MOST_SHOWN:
                print(f"FAILED {what}: {why}", flush=True)
    print(f"{passed} passed, {failed} failed")
    return 1 if failed else 0


if __name__ == "__main__":
    sys.exit(main())
