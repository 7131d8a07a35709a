"""Suites made at random: nodes with what they declare, and the text that says them."""

from dataclasses import dataclass, field
from typing import Dict, List, Optional, Tuple

ESCAPED = "%+[]:/"
SEGMENTS = {"engine": "engine", "test": "method", "factory": "test-factory", "dyn": "dynamic-test"}


@dataclass
class Verdict:
    """What a body answers, or that its node is disabled."""

    word: str
    text: str = ""

    def __str__(self):
        return f"{self.word} {self.text}".rstrip(" ")


@dataclass(eq=False)
class Node:
    """A line of a suite that declares a node; the word of node 0, which no line has, is `plan`."""

    word: str
    name: str
    parent: Optional["Node"] = None
    children: List["Node"] = field(default_factory=list)
    tags: List[str] = field(default_factory=list)
    mode: Optional[str] = None
    locks: List[Tuple[str, str]] = field(default_factory=list)
    isolated: bool = False
    spin: Optional[int] = None
    slow: Optional[int] = None
    pulls: Optional[int] = None
    verdict: Optional[Verdict] = None
    after: Optional[Verdict] = None
    # Behind how many of its children a class's line `after` stands.
    after_at: int = 0
    # Of the plan: how many nodes may hold a lock at once, for each lock for which its properties say it.
    limits: Dict[str, int] = field(default_factory=dict)

    def add(self, word, name, **declared):
        """A new node at the end of this one's children."""
        child = Node(word, name, self, **declared)
        self.children.append(child)
        return child

    def below(self):
        """All nodes below this one, in preorder."""
        for child in self.children:
            yield child
            yield from child.below()

    def ancestors(self):
        """The nodes above this one, from its parent to the plan."""
        node = self.parent
        while node is not None:
            yield node
            node = node.parent

    @property
    def depth(self):
        return sum(1 for _ in self.ancestors())

    @property
    def disabled(self):
        return self.verdict is not None and self.verdict.word == "disabled"

    @property
    def segment(self):
        """The last segment of the unique id."""
        kind = SEGMENTS.get(self.word)
        if self.word == "class":
            kind = "class" if self.parent.word == "engine" else "nested-class"
        value = self.name
        if self.word == "dyn":
            value = f"#{self.parent.children.index(self) + 1}"
        spelled = "".join(f"%{ord(c):02X}" if c in ESCAPED else c for c in value)
        return f"[{kind}:{spelled}]"

    @property
    def id(self):
        """The unique id; of the plan nothing."""
        if self.word == "plan":
            return ""
        above = self.parent.id
        return f"{above}/{self.segment}" if above else self.segment


def attributes(node):
    """The words of a node's line between its name and its verdict."""
    words = [f"#{tag}" for tag in node.tags]
    words += [f"@{node.mode}"] if node.mode else []
    words += [f"lock={key}:{mode}" for key, mode in node.locks]
    words += ["isolated"] if node.isolated else []
    words += [f"spin={node.spin}"] if node.spin is not None else []
    words += [f"@slow={node.slow}"] if node.slow is not None else []
    words += [f"pulls={node.pulls}"] if node.pulls is not None else []
    return words


def lines_of(node, level):
    """The lines of a node and of all below it."""
    words = [node.word, node.name, *attributes(node)]
    words += [str(node.verdict)] if node.verdict else []
    lines = ["  " * level + " ".join(words)]
    for index, child in enumerate(node.children):
        if node.after and index == node.after_at:
            lines.append("  " * (level + 1) + f"after {node.after}")
        lines += lines_of(child, level + 1)
    if node.after and node.after_at >= len(node.children):
        lines.append("  " * (level + 1) + f"after {node.after}")
    return lines


def text_of(plan):
    """The text of a suite."""
    lines = [f"property nelborugy.lock.{key}.holders={most}" for key, most in plan.limits.items()]
    lines += [line for engine in plan.children for line in lines_of(engine, 0)]
    return "".join(f"{line}\n" for line in lines)


class Maker:
    """Makes suites by a generator of random numbers; what stands how often changes from suite to suite."""

    KEYS = ["db", "log", "net", "a/b", "GLOBAL", "disk"]
    TEXTS = ["", "boom", "no such file", "later (again)", "déjà vu"]

    def __init__(self, random):
        self.random = random
        self.left = random.choice([6, 12, 25, 25, 60, 60, 150, 400])
        self.keys = random.sample(self.KEYS, random.randint(1, len(self.KEYS)))
        self.often = {
            what: random.choice([0.0, 0.1, 0.3, 0.7])
            for what in ("lock", "isolated", "mode", "fail", "disabled", "before", "after", "spin", "slow")
        }
        self.often["isolated"] *= 0.4
        self.often["disabled"] *= 0.4
        self.most_spin = random.choice([10, 1_000, 20_000, 100_000])

    def happens(self, what):
        return self.random.random() < self.often[what]

    def verdict(self, can_be_disabled=True):
        if can_be_disabled and self.happens("disabled"):
            return Verdict("disabled", self.random.choice(self.TEXTS))
        if self.happens("fail"):
            return Verdict(self.random.choice(["fail", "fail", "abort"]), self.random.choice(self.TEXTS))
        return Verdict("pass")

    def declared(self):
        """Mode, locks and isolation of a class, a test or a factory."""
        locks = []
        while self.happens("lock") and len(locks) < 8:
            locks.append((self.random.choice(self.keys), self.random.choice(["r", "r", "rw"])))
        mode = self.random.choice(["concurrent", "same_thread"]) if self.happens("mode") else None
        return {"locks": locks, "mode": mode, "isolated": self.happens("isolated")}

    def spin(self):
        return self.random.randint(0, self.most_spin) if self.happens("spin") else None

    def slow(self):
        """Milliseconds that no test of a suite made at random takes."""
        return self.random.randint(60_000, 86_400_000) if self.happens("slow") else None

    def name(self, node, word):
        """A name that no child of this node with this word has."""
        stem = self.random.choice(["a.B", "t()", "x", "p%q", "n[1]", "é"])
        return f"{stem}{len(node.children)}"

    def add_test(self, parent):
        self.left -= 1
        parent.add("test", self.name(parent, "test"), verdict=self.verdict(), spin=self.spin(), slow=self.slow(), **self.declared())

    def add_factory(self, parent):
        self.left -= 1
        factory = parent.add("factory", self.name(parent, "factory"), verdict=self.verdict(), **self.declared())
        for number in range(self.random.choice([0, 1, 3, 3, 8])):
            self.left -= 1
            factory.add("dyn", f"dyn{number}", verdict=self.verdict(), spin=self.spin(), slow=self.slow())
        if self.random.random() < 0.5:
            factory.pulls = self.random.randint(0, len(factory.children) + 2)

    def add_class(self, parent):
        self.left -= 1
        made = parent.add("class", self.name(parent, "class"), **self.declared())
        if self.happens("before") or self.happens("disabled"):
            made.verdict = self.verdict()
        for _ in range(self.random.randint(0, 7)):
            if self.left > 0:
                self.add_child(made)
        if self.happens("after"):
            made.after = self.verdict(can_be_disabled=False)
            made.after_at = self.random.randint(0, len(made.children))

    def add_child(self, parent):
        what = self.random.random()
        if what < 0.2 and parent.depth < 9:
            self.add_class(parent)
        elif what < 0.35:
            self.add_factory(parent)
        else:
            self.add_test(parent)

    def limit(self, plan):
        """Limits some of the locks that a suite's nodes name; the global one can have no limit."""
        named = sorted({key for node in plan.below() for key, _ in node.locks} - {"GLOBAL"})
        for key in named:
            # of a property the first '=' ends the key
            if "=" not in key and self.random.random() < 0.5:
                plan.limits[key] = self.random.choice([1, 2, 2, 3, 5, 64])

    def plan(self):
        """A suite of some engines, as node 0 of its tree."""
        plan = Node("plan", "")
        for number in range(self.random.choice([1, 1, 1, 2, 3])):
            engine = plan.add("engine", f"e{number}")
            most = self.left // 2 if number == 0 else self.left
            for _ in range(self.random.randint(0, 12) + most // 12):
                if self.left > 0:
                    self.add_class(engine)
        return plan


def many_tests(tests, classes):
    """A suite of so many tests that pass, in an engine's classes, of which none has two tests more than another."""
    plan = Node("plan", "")
    engine = plan.add("engine", "e")
    for number in range(classes):
        made = engine.add("class", f"a.C{number:03d}")
        for place in range((number + 1) * tests // classes - number * tests // classes):
            made.add("test", f"t{place:03d}()", verdict=Verdict("pass"))
    return plan
