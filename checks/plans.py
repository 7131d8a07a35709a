"""What the definitions say of a suite's plan: which nodes run, their modes, their locks, and how each ends."""

from suites import Verdict

GLOBAL = "GLOBAL"
STATUSES = {"pass": "SUCCESSFUL", "fail": "FAILED", "abort": "ABORTED"}


def joined(locks):
    """Locks as a table from key to mode, in which READ_WRITE wins over READ."""
    table = {}
    for key, mode in locks:
        table[key] = "rw" if "rw" in (mode, table.get(key)) else "r"
    return table


def own_locks(node):
    """The locks that a node declares itself; isolation is the global one in READ_WRITE."""
    return list(node.locks) + ([(GLOBAL, "rw")] if node.isolated else [])


def conflict(these, those):
    """Whether two tables share a key that one of them has in READ_WRITE."""
    return any(key in those and "rw" in (mode, those[key]) for key, mode in these.items())


def kept_nodes(root):
    """Tests and factories run, with all their spares, and each node that one of those is below."""
    kept = {node for node in root.below() if node.word in ("test", "factory", "dyn")}
    return kept | {above for node in kept for above in node.ancestors()}


class Plan:
    """The plan that a suite runs as, under these settings of a run."""

    def __init__(self, root, parallel, default_mode, classes_mode):
        self.root = root
        self.parallel = parallel
        self.default_mode = default_mode
        self.classes_mode = classes_mode
        self.kept = kept_nodes(root)
        self.nodes = [root] + [node for node in root.below() if node in self.kept]
        self.by_id = {node.id: node for node in self.nodes}
        self.locks_below = {node: self.gathered(node) for node in self.nodes}
        self.held = {node: self.held_by(node) for node in self.nodes}
        self.modes = {node: self.mode_of(node) for node in self.nodes}
        self.declared = {node: self.declared_by(node) for node in self.nodes}
        self.ends = {node: self.end_of(node) for node in self.nodes}

    def children(self, node):
        return [child for child in node.children if child in self.kept]

    def given_mode(self, node):
        """The mode that the settings and the declarations give, before locks change it."""
        if not self.parallel or node.word in ("plan", "engine"):
            return "same_thread"
        for at in (node, *node.ancestors()):
            if at.mode:
                return at.mode
        return self.classes_mode if node.parent.word == "engine" else self.default_mode

    def gathered(self, node):
        """All locks that are declared at or below a node of the plan."""
        nodes = [node] + [below for below in node.below() if below in self.kept]
        return joined(lock for at in nodes for lock in own_locks(at))

    def held_by(self, node):
        """The locks that a node holds while it runs."""
        if node.word in ("plan", "engine"):
            return {}
        line = [node, *node.ancestors()]
        child = line[-3]
        below = self.locks_below[child]
        if below.get(GLOBAL) == "rw":
            return below if node is child else {}
        held = {GLOBAL: "r"} if node is child else {}
        is_first = not any(own_locks(above) for above in line[1:])
        if own_locks(node) and is_first:
            held = joined([*held.items(), *self.locks_below[node].items()])
        return held

    def limit_of(self, key):
        """How many nodes may hold a lock at once; 0 if that is not limited."""
        return self.root.limits.get(key, 0)

    def mode_of(self, node):
        """The mode in which a node runs: below a node that writes, or that holds a limited lock, all runs in one thread."""
        locks = [lock for above in node.ancestors() for lock in self.held[above].items()]
        if any(mode == "rw" or self.limit_of(key) for key, mode in locks):
            return "same_thread"
        return self.given_mode(node)

    def declared_by(self, node):
        """The locks that are declared at a node and above it; below an engine the global one besides."""
        if node.word in ("plan", "engine"):
            return {}
        locks = [lock for at in (node, *node.ancestors()) for lock in own_locks(at)]
        return joined([(GLOBAL, "r"), *locks])

    def end_of(self, node):
        """The status and the text that a node finishes with, where it is run to its end."""
        if node.word in ("plan", "engine") or node.disabled:
            return ("SUCCESSFUL", "")
        verdict = node.verdict or Verdict("pass")
        if node.word == "factory" and self.pulls(node) > len(node.children):
            return ("FAILED", "too many dynamic tests")
        if node.word == "class" and verdict.word == "pass" and node.after and self.children(node):
            verdict = node.after
        return (STATUSES[verdict.word], verdict.text)

    def is_stopped(self, node):
        """Whether a before-body ends this container before its children."""
        return node.word == "class" and node.verdict is not None and node.verdict.word in ("fail", "abort")

    @staticmethod
    def pulls(factory):
        """How many dynamic tests a factory asks for."""
        if factory.disabled:
            return 0
        return len(factory.children) if factory.pulls is None else factory.pulls

    def is_registered(self, node):
        """Whether a spare's factory gets to it, where the factory is run."""
        return self.pulls(node.parent) > node.parent.children.index(node)

    def is_silent(self, node):
        """Whether nothing is told of a node, where nothing is cancelled."""
        if node.parent is None:
            return False
        above = node.parent
        if self.is_silent(above) or above.disabled or self.is_stopped(above):
            return True
        return node.word == "dyn" and not self.is_registered(node)
