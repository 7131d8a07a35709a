"""Holds two programs of the same sources against each other: their output, their status and their standard error."""

import pathlib
import subprocess
import tempfile
from collections.abc import Iterator
from dataclasses import dataclass
from random import Random

from crates import TOP
from suites import Maker, text_of

ROWS = TOP / "crates" / "program_tables" / "stdin"
SECONDS = 120
# By these words an answer is a function of the suite: a tree and a summary are on any number of workers.
WORDS = (
    "",
    "--details summary",
    "--details testfeed --workers 1",
    "--details json --workers 1",
    "--details xml",
    "--details list",
    "--details plan",
    "--details testfeed --drive 3",
    "--details-theme ascii --fail-fast --workers 1",
    "--seed 5 --shard 1/2 --workers 1",
    "--select-class shop.Orders --fail-if-no-tests",
    "--no-such-option",
)
# Words of rows by which threads, a clock, a machine or files decide what is answered.
NOT_OF_THE_SUITE = ("--times", "random", "--workers", "--schedule", "--report", "@", "--rerun", "--processors")


@dataclass(frozen=True)
class Question:
    """A suite, and the words that a program is given with it."""

    title: str
    words: list[str]
    suite: bytes


def answer(program: pathlib.Path, question: Question) -> tuple[int | str, bytes, bytes]:
    """The status, the output and the standard error of a run in an empty folder."""
    with tempfile.TemporaryDirectory(prefix="answer-") as folder:
        try:
            done = subprocess.run(
                [program, *question.words], cwd=folder, input=question.suite, capture_output=True, timeout=SECONDS
            )
        except subprocess.TimeoutExpired:
            return "hangs", b"", b""
    return done.returncode, done.stdout, done.stderr


def differences(one: pathlib.Path, other: pathlib.Path, questions: Iterator[Question]) -> Iterator[tuple[str, str | None]]:
    """The title of each question, and in what the two programs differ there, if they do."""
    for question in questions:
        parts = zip(("status", "output", "standard error"), answer(one, question), answer(other, question))
        found = [name for name, mine, yours in parts if mine != yours]
        yield question.title, f"{question.title}: they differ in {', '.join(found)}" if found else None


def of_examples() -> Iterator[Question]:
    """Each suite of examples/, with each of the words."""
    for suite in sorted((TOP / "examples").glob("*.suite")):
        for words in WORDS:
            yield Question(f"examples/{suite.name} {words}".rstrip(), words.split(), suite.read_bytes())


def of_rows() -> Iterator[Question]:
    """The runs of the console that are rows of the tables, as far as no machine and no thread decides what they answer."""
    title, words, lines = "", None, []
    for line in [*ROWS.read_text().partition("=== texts\n")[0].splitlines(), "="]:
        if not line.startswith("="):
            lines.append(line)
            continue
        if words is not None:
            yield Question(title, words, "".join(f"{it}\n" for it in lines).encode())
        title, words, lines = line, None, []
        is_run = line.startswith(("== console", "=? console"))
        if is_run and not any(it in line for it in NOT_OF_THE_SUITE) and not set("'\"\\") & set(line):
            words = line.split()[2:]


def of_random_suites(number: int, seed: int) -> Iterator[Question]:
    """Suites that are made at random, with some of the words."""
    random = Random(seed)
    for at in range(number):
        suite, words = text_of(Maker(random).plan()).encode(), random.choice(WORDS)
        yield Question(f"random suite {at} of seed {seed} {words}".rstrip(), words.split(), suite)


def differences_of_examples(one: pathlib.Path, other: pathlib.Path) -> Iterator[str]:
    """In what the two programs differ on the examples."""
    return (found for _, found in differences(one, other, of_examples()) if found)
