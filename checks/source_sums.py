"""The sums that say from which sources, and by which kit, a program was made."""

import hashlib
import pathlib
import shutil
from collections.abc import Iterator

from crates import SOURCES, TOP, needed_by, read_crates

# What the kit compiles; the rest of a crate is read by proofs alone.
COMPILED = ("src",)


class NoKit(Exception):
    """The Rattle kit is not on this machine."""


def kit_folder() -> pathlib.Path:
    """Where the kit stands whose `rt` is found first."""
    command = shutil.which("rt")
    if command is None:
        raise NoKit("rt is missing: it belongs to the Rattle kit, which proves and builds the program")
    return pathlib.Path(command).resolve().parent.parent


def files_of(crate: str, parts: tuple[str, ...], top: pathlib.Path = TOP) -> Iterator[pathlib.Path]:
    """The files of these parts of a crate, in the order of their names."""
    for part in parts:
        yield from sorted(it for it in (top / "crates" / crate / part).rglob("*") if it.is_file())


def sum_over(program: str, parts: tuple[str, ...], top: pathlib.Path) -> str:
    """The sum of the kit, the lines of crates.txt, and these parts of the crates that a program is made of."""
    needed = needed_by([program], read_crates(top))
    found = hashlib.sha256((kit_folder() / "KIT-ID").read_bytes())
    found.update("".join(f"{line}\n" for line in needed.values()).encode())
    for crate in needed:
        for file in files_of(crate, parts, top):
            content = file.read_bytes()
            found.update(f"{file.relative_to(top)} {len(content)}\n".encode() + content)
    return found.hexdigest()


def compiled_sum(program: str, top: pathlib.Path = TOP) -> str:
    """The sum of all that an unproved program is compiled from."""
    return sum_over(program, COMPILED, top)


def proved_sum(program: str, top: pathlib.Path = TOP) -> str:
    """The sum of all that a proved program is proved and built from."""
    handles = (top / "HANDLES").read_bytes() if (top / "HANDLES").is_file() else b""
    return hashlib.sha256(sum_over(program, SOURCES, top).encode() + handles).hexdigest()
