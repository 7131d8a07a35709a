"""The programs that are checked: where they are, and how they are built and run."""

import os
import subprocess
import sys

from kept_programs import answering, proved_program, taken_program
from source_sums import NoKit
from unproved import CannotBuild, unproved_program

TOP = os.path.dirname(os.path.dirname(os.path.abspath(__file__)))
PREFIX = "junit.jupiter.execution.parallel."


class Hangs(Exception):
    """A run that had not ended in its time."""


def built(crate: str) -> str:
    """The path of a crate's program: the proved one of these sources, else the one that is compiled without a proof."""
    try:
        kind, program = answering("any", crate, is_fast=True)
    except (CannotBuild, NoKit) as why:
        sys.exit(f"{crate} cannot be built: {why}")
    print(f"{crate}: the {kind} program of these sources is checked", file=sys.stderr, flush=True)
    return str(program)


def built_console() -> str:
    """The path of the program itself."""
    return built("console")


def console_of(kind: str) -> str:
    """The path of the program of these sources that is `proved`, which has to be here, or `unproved`."""
    try:
        if kind == "unproved":
            return str(unproved_program("console", is_fast=True))
        program = proved_program("console") or taken_program("console")
    except (CannotBuild, NoKit) as why:
        sys.exit(f"console cannot be built: {why}")
    return str(program) if program else sys.exit("no proved program of these sources is here: ./console --proved makes it")


def ran(program, words, given, seconds, processors=None, **how):
    """The status, the output and the standard error of a run on these processors, all that there are if none is named."""
    bind = (lambda: os.sched_setaffinity(0, processors)) if processors else None
    try:
        done = subprocess.run(
            [program, *words], input=given, capture_output=True, timeout=seconds, preexec_fn=bind, **how
        )
    except subprocess.TimeoutExpired:
        raise Hangs(f"hangs: not ended in {seconds} s")
    return done.returncode, done.stdout, done.stderr


def knows(program, words):
    """Whether the program takes these words."""
    return ran(program, [*words, "--details", "none"], b"", 60)[0] == 0


def config(key, value):
    """The two words that set a key of parallel execution."""
    return ["--config", f"{PREFIX}{key}={value}"]
