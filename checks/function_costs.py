"""What each function of a crate takes of its proof, by when the checker wrote its modules: for checks/cost and gate-cost."""

import collections
import os
import re

# The parts of what is checked of a function; of these the last three are what its author proves.
KINDS = set(
    "Lts Layout Goals Tie Mir Reads Named Kinds Code View Given Met Statement Symbol Key Carried TheLink".split()
) | {"Proof", "Answers", "Invariants"}
OF_AUTHOR = ("Proof", "Answers", "Invariants")
# A module that was so long in coming and is so small had a stage of the whole check before it.
LONG, SMALL = 5, 64 << 10


def files_below(folder):
    """The checked modules below a folder: when each was written, its name, and its size."""
    for at, _, names in os.walk(folder):
        for name in names:
            if is_module(name):
                found = os.stat(os.path.join(at, name))
                yield found.st_mtime, name, found.st_size


def is_module(name):
    return name.endswith(".oantt") and not name.endswith(".decls.oantt")


def modules(files):
    """The checked modules in the order in which they were written: their names, the time since the last, and sizes."""
    last = None
    for time, name, size in sorted(files):
        yield name.removesuffix(".oantt"), time - last if last else 0.0, size
        last = time


def owner(crate, name):
    """The function that a module belongs to and which part it is, or None and None."""
    found = re.match(rf"Rattle[-.]{crate}[-.](?:specs[.-]contracts|proofs)\.(.*)$", name)
    parts = found[1].split(".") if found else []
    for place, part in enumerate(parts):
        kind = re.sub(r"[-0-9]+$", "", part)
        if kind in KINDS:
            return ".".join(parts[:place]), kind
    return None, None


class Costs:
    """What each function of a crate costs, by its parts, and what its other modules cost."""

    def __init__(self, crate, files, by_size=False):
        self.functions = collections.defaultdict(collections.Counter)
        self.others = collections.Counter()
        self.waits = []
        for name, took, size in modules(files):
            function, kind = owner(crate, name)
            cost = size / 1024 if by_size else took
            if not by_size and took > LONG and size < SMALL:
                self.waits.append((took, name))
            elif function is None:
                self.others[name] += cost
            else:
                self.functions[function][kind] += cost

    def rows(self):
        """Of each function all, what the checker writes, what its author proves, and the steps; the dearest first."""
        for function, by in self.functions.items():
            proof = sum(by[kind] for kind in OF_AUTHOR)
            yield sum(by.values()), sum(by.values()) - proof, proof, by["Lts"], function
