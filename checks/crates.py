"""The crates of this repository: which there are, what each uses, and copies of them."""

import pathlib
import shutil

TOP = pathlib.Path(__file__).resolve().parent.parent
# What a crate is proved from.
SOURCES = ("src", "specs", "proofs")


def read_crates(top=TOP):
    """The line of crates.txt and the names of the crates that it uses, for each crate."""
    listed = {}
    for line in (top / "crates.txt").read_text().splitlines():
        name, _, uses = line.partition("#")[0].partition(":")
        if name.strip():
            listed[name.strip().split()[0]] = line, uses.split()
    return listed


def needed_by(names, listed):
    """The lines of these crates and of those below them, the crates of this repository alone, in the order of crates.txt."""
    found, left = set(), list(names)
    while left:
        name = left.pop()
        if name in listed and name not in found:
            found.add(name)
            left += listed[name][1]
    return {name: line for name, (line, _) in listed.items() if name in found}


def copy_parts(home, copy, parts):
    """Copies these files and folders of a crate, where it has them."""
    copy.mkdir(parents=True, exist_ok=True)
    for part in parts:
        made = home / part
        if made.is_dir():
            shutil.copytree(made, copy / part)
        elif made.is_file():
            shutil.copy2(made, copy)


def copy_crates(folder, needed, parts=SOURCES):
    """Makes a repository of these crates in an empty folder."""
    shutil.copy2(TOP / "HANDLES", folder)
    (folder / "crates.txt").write_text("".join(f"{line}\n" for line in needed.values()))
    for name in needed:
        copy_parts(TOP / "crates" / name, folder / "crates" / name, parts)
