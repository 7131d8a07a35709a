#!/usr/bin/env python3
"""Which program answers for the sources as they stand: the proved one, or one that is compiled without a proof.

checks/kept_programs.py WANT PROGRAM    what is missing is proved or compiled first
  WANT    any; proved; unproved; or optimised: the unproved one, once it is optimised
Prints `proved` or `unproved`, and the path of the program. Status 254: there is none, and standard error says why; 130:
it was stopped, and the next run goes on.
"""

import hashlib
import os
import pathlib
import signal
import subprocess
import sys

sys.dont_write_bytecode = True

import rt_store
from crates import TOP
from source_sums import NoKit, proved_sum
from unproved import CannotBuild, say, unproved_program

WANTS = ("any", "proved", "unproved", "optimised")
STOPPED = 130
NOT_BUILT = 254


def place_of(program: str) -> pathlib.Path:
    """Where a proved program stands."""
    return TOP / "crates" / program / "out" / program


def record_of(program: str, sources: str, made: pathlib.Path) -> str:
    """What stands beside a proved program: the sum of its sources, and its own."""
    return f"{sources} {hashlib.sha256(made.read_bytes()).hexdigest()}\n"


def record(program: str, sources: str) -> None:
    """Notes that the program in its place was proved and built from the sources with this sum."""
    made = place_of(program)
    note = made.with_suffix(".sum")
    note.with_suffix(".new").write_text(record_of(program, sources, made))
    os.replace(note.with_suffix(".new"), note)


def proved_program(program: str) -> pathlib.Path | None:
    """The program that was proved here from just these sources, if there is one."""
    made = place_of(program)
    try:
        note = made.with_suffix(".sum").read_text()
        return made if note == record_of(program, proved_sum(program), made) else None
    except OSError:
        return None


def taken_program(program: str) -> pathlib.Path | None:
    """The program, if `rt ci` has proved it here from just these sources, in this folder or in another one."""
    sources = proved_sum(program)
    try:
        if not rt_store.proved_program(program) or proved_sum(program) != sources:
            return None
    except rt_store.NoStore:
        return None
    record(program, sources)
    return place_of(program)


def prove(program: str) -> pathlib.Path:
    """Proves and builds the program first, if it was not."""
    if proved_program(program) is None:
        status = subprocess.run([TOP / "build", program], stdin=subprocess.DEVNULL, stdout=sys.stderr).returncode
        if status:
            raise SystemExit(STOPPED if status == STOPPED else NOT_BUILT)
    made = proved_program(program)
    if made is None:
        raise CannotBuild("the sources were changed while they were proved: run this again")
    return made


def answering(want: str, program: str, is_fast: bool = False) -> tuple[str, pathlib.Path]:
    """Which kind of program answers, and where it stands."""
    if want == "proved":
        return "proved", prove(program)
    proved = proved_program(program) or taken_program(program) if want == "any" else None
    return ("proved", proved) if proved else ("unproved", unproved_program(program, is_fast or want == "optimised"))


def main(words: list[str]) -> int:
    if len(words) != 2 or words[0] not in WANTS:
        print(__doc__)
        return 0 if words in (["-h"], ["--help"]) else 2
    for number in (signal.SIGINT, signal.SIGTERM, signal.SIGHUP):
        signal.signal(number, lambda *_: sys.exit(STOPPED))
    try:
        print(*answering(*words))
        return 0
    except (CannotBuild, NoKit) as why:
        say(f"{words[1]}: it cannot be built: {why}")
    except OSError as why:
        say(f"{words[1]}: it cannot be built, as a file cannot be read or written: {why}")
    return NOT_BUILT


if __name__ == "__main__":
    sys.exit(main(sys.argv[1:]))
