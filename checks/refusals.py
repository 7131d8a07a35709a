"""Runs of the driver in which growths or threads are refused: how they are made, and how they are judged."""

import os
import re
import resource
import subprocess
from dataclasses import dataclass

from programs import ran

REPORT = re.compile(r"growths (\d+) threads (\d+) refused (\d+)\n")
# A run takes milliseconds; one that takes so long does not end.
SECONDS_A_RUN = 60
# A user who has no other processes, so that a limit counts those of the run alone.
LONELY_USER = 64_321


class Wrong(Exception):
    """What is wrong of a run."""


@dataclass
class Turn:
    """What the driver says of one call: what it was given, and what it answered."""

    given: str
    answer: str

    @property
    def refusal(self):
        """The number of a refusal; none of another answer."""
        found = re.match(r"refused (\d+)", self.answer)
        return int(found[1]) if found else None

    @property
    def back(self):
        """What a refusal left, or handed back."""
        return self.answer.partition("\n")[2]

    @property
    def idle(self):
        """How many of the last workers had nothing to do; none where no run is told of."""
        found = re.search(r"^idle (\d+)$", self.answer, re.M)
        return int(found[1]) if found else None

    @property
    def settled(self):
        """The answer without what depends on the threads."""
        return re.sub(r"^idle \d+$", "idle", self.answer, flags=re.M)


def turns_of(text):
    """The two turns of a driver's output."""
    turns = []
    for block in text.split("given\n")[1:]:
        given, is_called, rest = block.partition("call\n")
        answer = rest.removeprefix("answered\n")
        if not is_called or answer == rest:
            raise Wrong(f"output that is none: {block[:80]!r}")
        turns.append(Turn(given, answer))
    if len(turns) != 2:
        raise Wrong(f"{len(turns)} calls in place of two: {text[-80:]!r}")
    return turns


def lines(text):
    """The lines of what came back, in which jobs may stand in any order."""
    return sorted(line for line in text.split("\n") if line)


def judge(ample, turns, refused, may_refuse=(0,)):
    """Raises what is wrong of a run in which so much was refused, where `ample` is a run in which nothing was."""
    first, again = turns
    if first.given != ample[0].given:
        raise Wrong("other input than with ample memory")
    if first.refusal is None:
        if first.settled != ample[0].settled:
            raise Wrong(f"another answer than with ample memory: {first.answer[:80]!r}")
    elif first.refusal not in may_refuse:
        raise Wrong(f"refusal {first.refusal}")
    elif not refused:
        raise Wrong(f"refusal {first.refusal} where nothing was refused")
    elif lines(first.back) != lines(first.given):
        raise Wrong(f"other than was handed in came back: {first.back[:80]!r}")
    if again.settled != ample[1].settled:
        raise Wrong(f"another answer afterwards: {again.answer[:80]!r}")


class Bench:
    """A program, the library that refuses, and a folder for what it reports."""

    def __init__(self, program, library, folder):
        self.program, self.library = program, library
        self.report = os.path.join(folder, "report")

    def ran(self, words=(), given=b"", limit=None, **refused):
        """Status, both outputs and report of a run in which this is refused, by the names of the library's environment."""
        if os.path.exists(self.report):
            os.remove(self.report)
        env = {"PATH": os.defpath, "REFUSE_REPORT": self.report}
        env |= {f"REFUSE_{name.upper()}": str(value) for name, value in refused.items()}
        if limit is None:
            env["LD_PRELOAD"] = self.library
            done = ran(self.program, words, given, SECONDS_A_RUN, env=env)
        else:
            done = ran_alone(self.program, words, given, limit)
        return *done, self.reported()

    def reported(self):
        """How many growths and threads were asked for, and how much of that was refused."""
        if not os.path.exists(self.report):
            return 0, 0, 0
        with open(self.report, encoding="utf-8") as file:
            found = REPORT.fullmatch(file.read())
        return tuple(int(number) for number in found.groups())

    def turns(self, row, **how):
        """The two turns of the driver's row, and the report."""
        status, output, said, report = self.ran((), f"=== texts\n=== calls\n{row}\n".encode(), **how)
        if status or said:
            raise Wrong(f"status {status}: {said.decode(errors='replace')[:200]}")
        return turns_of(output.decode()), report


def ran_alone(program, words, given, limit):
    """A run by a user of its own, who may have so many threads, that of the program's start among them."""

    def alone():
        os.setgroups([])
        os.setgid(LONELY_USER)
        resource.setrlimit(resource.RLIMIT_NPROC, (limit, limit))
        os.setuid(LONELY_USER)

    done = subprocess.run(
        [program, *words], input=given, capture_output=True, timeout=SECONDS_A_RUN, preexec_fn=alone, env={}, cwd="/"
    )
    return done.returncode, done.stdout, done.stderr


GIVEN = "a plan\njob 3 Successful\njob 4 Successful\n"
DONE = Turn(GIVEN, "10 events\nidle 0\n")
BACK = Turn(GIVEN, "refused 0\njob 4 Successful\na plan\njob 3 Successful\n")

# Turns that are right, or have a mistake each: what it is, the two turns, how much was refused, whether that is wrong.
PLANTED = [
    ("nothing refused", [DONE, DONE], 0, False),
    ("a refusal", [BACK, DONE], 1, False),
    ("a growth that was not needed", [DONE, DONE], 1, False),
    ("a worker who had nothing to do", [Turn(GIVEN, "10 events\nidle 1\n"), DONE], 1, False),
    ("another answer", [Turn(GIVEN, "9 events\nidle 0\n"), DONE], 1, True),
    ("another refusal", [Turn(GIVEN, "refused 50\n" + GIVEN), DONE], 1, True),
    ("a refusal without cause", [BACK, DONE], 0, True),
    ("a job that was lost", [Turn(GIVEN, "refused 0\na plan\njob 3 Successful\n"), DONE], 1, True),
    ("a job that was run", [Turn(GIVEN, BACK.answer.replace("4 Successful", "4 Failed")), DONE], 1, True),
    ("another plan", [Turn(GIVEN, BACK.answer.replace("a plan", "b plan")), DONE], 1, True),
    ("a refusal afterwards", [BACK, BACK], 1, True),
    ("another answer afterwards", [BACK, Turn(GIVEN, "9 events\nidle 0\n")], 1, True),
    ("other input", [Turn("a plan\n", "10 events\nidle 0\n"), DONE], 1, True),
]


def misjudged():
    """The planted turns that are judged wrongly."""
    found = []
    for what, turns, refused, is_wrong in PLANTED:
        try:
            judge([DONE, DONE], turns, refused)
            is_refused = False
        except Wrong:
            is_refused = True
        if is_refused != is_wrong:
            found.append(what)
    return found
