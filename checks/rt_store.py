"""What `rt ci` has kept on this machine: libraries and programs that it has proved, by names in the kit's own `rt`.

Nothing promises these names: rattle-kit-13f has them.
"""

import glob
import importlib.machinery
import importlib.util
import os
import pathlib
import shutil
import sys
import types
from collections.abc import Iterable

TOP = pathlib.Path(__file__).resolve().parent.parent


class NoStore(Exception):
    """The kit's `rt` keeps nothing, or keeps it otherwise."""


def load_rt() -> types.ModuleType:
    """The kit's own `rt`, as a module."""
    path = os.path.realpath(shutil.which("rt") or "rt")
    loader = importlib.machinery.SourceFileLoader("rt_of_kit", path)
    made = importlib.util.module_from_spec(importlib.util.spec_from_loader("rt_of_kit", loader))
    sys.modules["rt_of_kit"] = made
    loader.exec_module(made)
    return made


def proved_program(name: str) -> bool:
    """Whether a program of these very sources was proved here, in this folder or in another one; then it stands in its place."""
    try:
        rt = load_rt()
        # so that nothing is gone through on a machine on which no such program was proved
        if not glob.glob(f"{rt.STORE}/proof-{name}-*"):
            return False
        return Store(rt).take_program(name)
    except (AttributeError, TypeError, OSError) as why:
        raise NoStore(str(why)) from why


class Store:
    """The crates of this repository, and what is kept of them."""

    def __init__(self, rt: types.ModuleType | None = None) -> None:
        try:
            rt = rt or load_rt()
            # As in the gate: what is kept are statements.
            rt.Crate.cuts_libraries, rt.Crate.allowed = True, rt.handles_of(str(TOP))
            self.crates = rt.crates_of(str(TOP))
            self.kept = rt.Kept(self.crates)
        except (AttributeError, TypeError, OSError) as why:
            raise NoStore(str(why)) from why
        self.missing: list[str] = []

    def take_library(self, crate) -> bool:
        """Whether the crate's library is there: from before, or from what is kept."""
        made = pathlib.Path(crate.folder) / "out" / "rlib"
        stamp, key = crate.stamp(), self.kept.key(crate)
        if not (made / "stamp").is_file() or (made / "stamp").read_text() != stamp:
            if not os.path.exists(self.kept.place(crate, False, key)):
                return False
            shutil.rmtree(made, ignore_errors=True)
            if not self.kept.give(crate, False, key):
                return False
            (made / "stamp").write_text(stamp)
        # (the keys of the crates above go by the libraries below them)
        self.kept.is_built(crate)
        return True

    def take_below(self, names: Iterable[str]) -> int:
        """How many libraries below these crates are there, of all crates if none is named; notes those that are missing."""
        wanted = {below for it in self.crates if not names or it.name in names for below in it.below()}
        there = 0
        for crate in self.crates:
            if crate in wanted and not crate.is_program:
                if any(it.name in self.missing for it in crate.below()) or not self.take_library(crate):
                    self.missing.append(crate.name)
                else:
                    there += 1
        return there

    def take_program(self, name: str) -> bool:
        """Whether a program of these very sources was proved here; then it stands in its place."""
        program = next(it for it in self.crates if it.name == name)
        self.take_below([name])
        return not self.missing and self.kept.give(program, False, self.kept.key(program))
