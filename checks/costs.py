"""What a run costs: instructions and allocated bytes, as valgrind counts them, resident memory and system calls."""

import os
import re
import resource
import shutil
import subprocess
import tempfile
from collections.abc import Callable
from dataclasses import dataclass, field

REFS = re.compile(r"I\s+refs:\s+([\d,]+)")
ALLOCATED = re.compile(r"Total:\s+([\d,]+) bytes")
STACK = 64 * 1024 * 1024
# The system's loader would go through a user's own variables.
ENVIRONMENT = {"PATH": os.environ.get("PATH", os.defpath)}
# Of the system calls those by which a thread that waits lets others go on: how many there are is the system's affair.
YIELD = "sched_yield"


class Wrong(Exception):
    """A run that ended otherwise than it has to."""


@dataclass(frozen=True)
class Costed:
    """A run: the program, its words and its standard input, the status that is wanted, and the seconds that it may take."""

    program: str
    words: list[str] = field(default_factory=list)
    suite: str = ""
    status: int = 0
    seconds: float = 600


def lift_stack() -> None:
    """Lets words be as long as the system takes them."""
    most = resource.getrlimit(resource.RLIMIT_STACK)[1]
    if most == resource.RLIM_INFINITY or most >= STACK:
        resource.setrlimit(resource.RLIMIT_STACK, (STACK, most))


def told_by(tool: Callable[[str], list[str]], run: Costed) -> str:
    """What a tool, which is started with the path of its file, writes of a run into that file."""
    with tempfile.NamedTemporaryFile("r", prefix="costs-") as log:
        ended = subprocess.run(
            [*tool(log.name), run.program, *run.words],
            input=run.suite.encode("utf-8", "surrogateescape"),
            stdout=subprocess.PIPE,
            stderr=subprocess.DEVNULL,
            timeout=run.seconds,
            env=ENVIRONMENT,
            preexec_fn=lift_stack,
        )
        if ended.returncode != run.status:
            raise Wrong(f"status {ended.returncode}, and {run.status} is wanted: {ended.stdout[:80]!r}")
        return log.read()


def number_in(pattern: re.Pattern[str], text: str) -> int:
    """The number that a tool tells."""
    found = pattern.search(text)
    if found is None:
        raise Wrong(f"no figure in {text[-200:]!r}")
    return int(found[1].replace(",", ""))


def instructions(run: Costed) -> int:
    """The instructions of the process, with those of the system's loader."""
    words = ["valgrind", "--tool=cachegrind", "--cache-sim=no", "--cachegrind-out-file=/dev/null"]
    return number_in(REFS, told_by(lambda log: [*words, f"--log-file={log}"], run))


def allocated(run: Costed) -> int:
    """The bytes that the program asked for, all in all; what it gave back counts too."""
    words = ["valgrind", "--tool=dhat", "--dhat-out-file=/dev/null"]
    return number_in(ALLOCATED, told_by(lambda log: [*words, f"--log-file={log}"], run))


def resident(run: Costed) -> int:
    """The kB that were resident at the most."""
    # A child of Python itself would be told of with what Python has.
    told = told_by(lambda log: ["/usr/bin/time", "-f", "%M", "-o", log], run)
    return int(told.split()[-1])


def system_calls(run: Costed) -> int:
    """The system calls of all threads, without those that yield."""
    told = told_by(lambda log: ["strace", "-f", "-c", "-o", log], run)
    rows = [line.split() for line in told.splitlines()]
    # share, seconds, microseconds a call, calls, perhaps errors, name
    return sum(int(row[3]) for row in rows if len(row) > 4 and row[3].isdigit() and row[-1] not in (YIELD, "total"))


@dataclass(frozen=True)
class Cost:
    """How a cost is counted, and the program that does it."""

    count: Callable[[Costed], int]
    tool: str


COSTS = {
    "instructions": Cost(instructions, "valgrind"),
    "bytes allocated": Cost(allocated, "valgrind"),
    "kB resident": Cost(resident, "/usr/bin/time"),
    "system calls": Cost(system_calls, "strace"),
}


def missing() -> dict[str, str]:
    """The costs that cannot be counted here, each with the program that is missing."""
    return {name: cost.tool for name, cost in COSTS.items() if shutil.which(cost.tool) is None}
