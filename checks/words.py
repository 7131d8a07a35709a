#!/usr/bin/env python3
"""Gives the program words by files, and what the system tells, and holds what it does against the same words given plainly.

checks/words.py [LISTS] [SEED]   200 lists of words and the seed 1 where they are not given
  --program PATH                 another program than the one of these sources
Lists of words are written into files at random, by the grammar of crates/word_files/README.md, and have to be read as
just these. A schedule of 4,000 tests, which is too long for a word of a command line, is replayed from a file. The
variables of Bazel have to share a suite as --shard does, and its file has to be touched.
The last line is 'N passed, M failed': the lists and the others.
"""

import argparse
import os
import subprocess
import sys
import tempfile
from random import Random

sys.dont_write_bytecode = True

from programs import built_console

TESTS = 4_000
SECONDS_A_RUN = 300
WHITE = [" ", "\t", "\n", "\r", "\r\n", "  "]
LETTERS = ["a", "B", "=", "#", "@", "'", '"', "\\", " ", "\t", "\n", "é", "引", "$", "n"]


class Wrong(Exception):
    """What is wrong with a run."""


def suite_of(count):
    """A suite of so many tests."""
    return "engine e\n  class a.B\n" + "".join(f"    test t{number}() pass\n" for number in range(count))


def part(random, text, first):
    """A part of a word that stands for this text, which is not empty."""
    forms = ["escape"]
    if "'" not in text:
        forms.append("single")
    forms.append("double")
    if not any(c in " \t\n\r'\"\\" for c in text) and not (first and text[0] == "#"):
        forms.append("plain")
    form = random.choice(forms)
    if form == "single":
        return f"'{text}'"
    if form == "double":
        return '"' + "".join("\\" + c if c in '"\\' or random.random() < 0.1 else c for c in text) + '"'
    if form == "escape":
        return "".join("\\" + c for c in text)
    return text


def spelled(random, word):
    """A word as it may stand in a file."""
    if not word:
        return random.choice(["''", '""', "''\"\""])
    parts, left = [], word
    while left:
        count = random.randint(1, len(left))
        parts.append(part(random, left[:count], not parts))
        left = left[count:]
    return "".join(parts)


def gap(random):
    """What may stand between two words."""
    text = random.choice(WHITE)
    while random.random() < 0.3:
        text += random.choice(WHITE + ["# it isn't \"a\\ word\n", "#\n"])
    return text


def file_text(random, words):
    """These words, as a file may have them."""
    text = gap(random) if random.random() < 0.5 else ""
    for word in words:
        text += spelled(random, word) + gap(random)
    return text + random.choice(["", "# the end", "\n"])


class Words:
    """The runs that were tried, and what was wrong with them."""

    def __init__(self, program, folder):
        self.program, self.folder = program, folder
        self.passed = self.failed = 0

    def path(self, name, text):
        """The path of a file with this text."""
        path = os.path.join(self.folder, name)
        with open(path, "w", encoding="utf-8", newline="") as file:
            file.write(text)
        return path

    def ran(self, words, suite, **variables):
        """The status and the output."""
        left_out = ("TEST_TOTAL_SHARDS", "TEST_SHARD_INDEX", "TEST_SHARD_STATUS_FILE")
        env = {name: value for name, value in os.environ.items() if name not in left_out} | variables
        done = subprocess.run(
            [self.program, *words], input=suite.encode(), capture_output=True, timeout=SECONDS_A_RUN, env=env
        )
        return done.returncode, done.stdout, done.stderr

    def same(self, one, other, suite, **variables):
        """Runs with the first words and variables, and with the other words alone; they have to answer the same."""
        told, wanted = self.ran(one, suite, **variables), self.ran(other, suite)
        if told[:2] != wanted[:2]:
            raise Wrong(f"{one} answer {told}\nand {other} {wanted}")

    def list_of_words(self, random):
        """A list of words in a file, each the value of an option whose refusal says it."""
        words = []
        for _ in range(random.randint(0, 6)):
            value = "".join(random.choice(LETTERS) for _ in range(random.randint(0, 8)))
            words += random.choice([["--system", "k=" + value], ["--system=k=" + value], ["--include-name", "x" + value]])
        path = self.path("words", file_text(random, words))
        plain = [word if not word.startswith("@") else "@" + word for word in words]
        self.same(["--details", "list", "@" + path], ["--details", "list", *plain], suite_of(3))

    def long_replay(self):
        """A schedule of many tests, replayed from a file."""
        suite = suite_of(TESTS)
        status, text, said = self.ran(["--drive", "3", "--schedule", "--details", "testfeed"], suite)
        front, _, steps = text[:-1].rpartition(b"\n")
        if status or b" " not in steps:
            raise Wrong(f"no schedule: {status}, {said}")
        path = self.path("steps", "# of three workers\n" + steps.decode().replace(" ", "\n"))
        for words in (["--replay", "@" + path], ["--replay=@" + path]):
            status, text, said = self.ran([*words, "--drive", "3"], suite)
            again, _, counts = text[:-1].rpartition(b"\n")
            if status or again != front or b"passed-over 0 " not in counts:
                raise Wrong(f"the replay ends in {status}, {counts}, {said}")

    def refused(self):
        """Files that cannot be read, or are none of words."""
        latin = os.path.join(self.folder, "latin")
        with open(latin, "wb") as file:
            file.write(b"--details \xe9")
        good, open_quote = self.path("good", "--details list"), self.path("open", "'a")
        for at, words in (
            (1, ["@" + self.folder + "/nothing"]), (1, ["@" + self.folder]), (1, ["@" + latin]),
            (2, ["@" + good, "@" + open_quote]), (1, ["--replay", "@" + open_quote]),
        ):  # fmt: skip
            status, text, said = self.ran(words, suite_of(1))
            if (status, text) != (255, b"error 110 at %d\n" % at) or b"a file of words could not be read" not in said:
                raise Wrong(f"{words} end in {status}, {text}, {said}")

    def shards(self):
        """What a build server asks for."""
        suite, plain = suite_of(7), ["--details", "list"]
        for index in range(3):
            asked = {"TEST_TOTAL_SHARDS": "3", "TEST_SHARD_INDEX": str(index)}
            self.same(plain, [*plain, "--shard", f"{index + 1}/3"], suite, **asked)
            self.same([*plain, "--shard", "2/2"], [*plain, "--shard", "2/2"], suite, **asked)
        self.same(plain, plain, suite, TEST_TOTAL_SHARDS="3")
        self.same(plain, [*plain, "--shard", "x/3"], suite, TEST_TOTAL_SHARDS="3", TEST_SHARD_INDEX="x")
        touched = os.path.join(self.folder, "touched")
        self.ran(plain, suite, TEST_SHARD_STATUS_FILE=touched)
        if not os.path.exists(touched):
            raise Wrong("the file of the shards was not touched")

    def processors(self):
        """As many workers as the system has processors."""
        count = min(len(os.sched_getaffinity(0)), 64)
        steps = f"w{count}:look w{count + 1}:look"
        status, text, said = self.ran(["--workers", "auto", "--replay", steps], suite_of(1))
        if b"steps 2 passed-over 1 " not in text:
            raise Wrong(f"{count} processors: {status}, {text}, {said}")

    def judge(self, what, look, *given):
        try:
            look(*given)
            self.passed += 1
        except Wrong as wrong:
            self.failed += 1
            print(f"{what}: {wrong}", flush=True)


def main():
    parser = argparse.ArgumentParser(description=__doc__, formatter_class=argparse.RawDescriptionHelpFormatter)
    parser.add_argument("lists", nargs="?", type=int, default=200)
    parser.add_argument("seed", nargs="?", type=int, default=1)
    parser.add_argument("--program")
    said = parser.parse_args()
    with tempfile.TemporaryDirectory() as folder:
        words = Words(os.path.abspath(said.program) if said.program else built_console(), folder)
        for number in range(said.lists):
            words.judge(f"list {number}", words.list_of_words, Random(f"{said.seed} {number}"))
        for look in (words.long_replay, words.refused, words.shards, words.processors):
            words.judge(look.__doc__, look)
        print(f"{words.passed} passed, {words.failed} failed")
        sys.exit(words.failed > 0)


if __name__ == "__main__":
    main()
