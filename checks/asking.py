"""Suites whose names are hard to select by, and words that select of them, both made at random."""

import re

import selecting
from selecting import Word, class_name
from suites import Maker

MOST_NODES = 60
ENGINES = ["e", "a.B", "e*", "ä/", "#"]
CLASSES = ["a.B", "a.B$N", "N", "a.b.C", "a.b", "a", "*", "a.*", "a#b", "p%q.r", "n/1", "é.ü", "日本.語", "$", "."]
CLASSES += ["a..B", "-c.d", "@c.d", "#c", "n[1]:+", "a\u00a0B", "a\tB", "%41.B"]
TESTS = ["t()", "u()", "t*", "*", "#t", "b#t()", "t$u", "t.u", "50%", "%41", "a/b", "é()", "e\u0301()", "語", "-t"]
TESTS += ["@t", "t\u00a0u", "t\tu", "[t]", "a:b+c", "tt()", "t()t()"]
TAGS = ["fast", "slow", "x-1", "é", "a.b", "*", "$", "#t", "%41", "/", "-t", "@t"]
BAD_IDS = ["", "e", "[engine:]", "[:e]", "[engine:e]/", "[engine:%]", "[engine:%4]", "[engine:%ff]", "[engine:e]]"]
BAD_IDS += ["[engine:e", "[engine:a[b]", "[engine:a:b]", "[engine:e][class:c]", " [engine:e]", "/".join(["[a:b]"] * 65)]
BAD_IDS += [f"[a:{'b' * 1021}]"]
BAD_SHARDS = ["", "0/2", "3/2", "1", "1/", "/2", "1/0", "+1/2", "1/4096", " 1/2", "hash:", "hash:0/1", "Hash:1/2"]
BAD_SHARDS += ["1/2/3", "-1/2"]
BAD_NUMBERS = ["", "x", "+5", "-5", "1.0", " 1", "18446744073709551616", "٣"]


class SelectionMaker(Maker):
    """Makes suites whose names have the characters that selectors, patterns and ids treat specially."""

    def __init__(self, random):
        super().__init__(random)
        self.left = min(self.left, MOST_NODES)
        self.often["mode"] = self.often["spin"] = 0
        self.often["tag"] = random.choice([0.0, 0.2, 0.5])
        self.classes = random.sample(CLASSES, random.randint(1, len(CLASSES)))
        self.tests = random.sample(TESTS, random.randint(1, len(TESTS)))

    def tags(self):
        """The tags of a node, in which one may be again."""
        tags = []
        while self.happens("tag") and len(tags) < 4:
            tags.append(self.random.choice(TAGS))
        return tags

    def declared(self):
        """What a class, a test or a factory declares."""
        return super().declared() | {"tags": self.tags()}

    def name(self, node, word):
        """A name that no child of this node with this word has."""
        taken = {child.name for child in node.children if child.word == word}
        name = self.random.choice(self.classes if word == "class" else self.tests)
        while name in taken:
            name += str(len(taken))
        return name

    def plan(self):
        """A suite, with names and tags of its engines."""
        plan = super().plan()
        for engine in plan.children:
            engine.name, engine.tags = self.random.choice(ENGINES) + engine.name[1:], self.tags()
        return plan


class Asker:
    """Makes words at random that ask for a part of a suite; most name something in it, and some are refused."""

    def __init__(self, random, root):
        self.random = random
        self.nodes = list(root.below())
        self.classes = [node for node in self.nodes if node.word == "class"]
        self.units = [node for node in self.nodes if selecting.is_unit(node)]
        self.odd = random.choice([0.0, 0.0, 0.02, 0.2])

    def happens(self, often):
        """Whether something happens that happens so often."""
        return self.random.random() < often

    def id_spelled(self, node):
        """The id of a node, in which any byte of a part may be escaped, and escapes may be in lower case."""
        often = self.random.choice([0.0, 0.0, 0.3])
        return "".join(self.piece(piece, often) for piece in re.findall("%..|.", node.id, re.DOTALL))

    def piece(self, piece, often):
        """A character of an id, or an escape, in another spelling."""
        if piece in "[]:/" or not self.happens(often):
            return piece
        if piece.startswith("%"):
            return "+" if piece == "%2B" else piece.lower()
        return "".join(self.random.choice(["%%%02x", "%%%02X"]) % byte for byte in piece.encode())

    def id(self):
        """The id of a node, or a text that is none."""
        if self.happens(self.odd):
            return self.random.choice(BAD_IDS)
        return self.id_spelled(self.random.choice(self.nodes))

    def name_of_class(self):
        """The class name of a class of the suite, if it has one."""
        return class_name(self.random.choice(self.classes)) if self.classes else "a"

    def package(self):
        """What a class name has before one of its dots, or all of it."""
        name = self.name_of_class()
        dots = [at for at, c in enumerate(name) if c == "."]
        return name[: self.random.choice(dots)] if dots else name

    def method(self):
        """The class and the name of a test or a factory, if the suite has one."""
        if not self.units:
            return "a#b"
        unit = self.random.choice(self.units)
        return f"{class_name(unit.parent)}#{unit.name}"

    def pattern(self):
        """A name in which some pieces are stars, or a star is put."""
        name = self.method()
        for _ in range(self.random.choice([0, 1, 1, 2, 3])):
            first, last = sorted(self.random.randint(0, len(name)) for _ in range(2))
            name = name[:first] + "*" + name[last:]
        return name

    def value(self, kind):
        """A text for an option of this kind; a few of them name nothing, or are refused."""
        made = {"id": self.id, "class": self.name_of_class, "package": self.package, "method": self.method}
        text = made.get(kind, self.pattern)()
        if kind == "id" or not self.happens(self.odd):
            return text
        at = self.random.randint(0, len(text))
        halves = ["", "", ""] if kind == "name" else ["#", "a#", "#a"]
        return self.random.choice(["", "-", *halves, "a b", text + "x", text[:at], text[at:], text.upper()])

    def words(self, option, often, value):
        """Words of this option with values that are made."""
        made = []
        while self.happens(often) and len(made) < 4:
            made.append(self.word(option, value()))
        return made

    def word(self, option, value, means=None):
        """An option with its value, apart from it or not; few values that begin with a hyphen are."""
        is_apart = self.happens(0.5) and (self.happens(self.odd and 0.5) or not value.startswith("-"))
        return Word(option, value, is_apart, means)

    def expression(self, depth=0):
        """A tag expression: how tightly it binds, its text, and what it means."""
        form = self.random.choice(["tag", "tag", "any", "not", "and", "or"]) if depth < 4 else "tag"
        if form == "tag":
            tag = self.random.choice(TAGS)
            return 3, tag, lambda tags: tag in tags
        if form == "any":
            return self.random.choice([(3, "any()", bool), (3, "none()", lambda tags: not tags)])
        if form == "not":
            text, means = self.operand(2, depth)
            return 2, f"!{self.blank()}{text}", lambda tags: not means(tags)
        level, sign, both = {"and": (1, "&", all), "or": (0, "|", any)}[form]
        (left, one), (right, other) = self.operand(level, depth), self.operand(level, depth)
        return level, f"{left}{self.blank()}{sign}{self.blank()}{right}", lambda tags: both([one(tags), other(tags)])

    def operand(self, level, depth):
        """An expression that binds at least so tightly, in parentheses where it does not, or may be."""
        binds, text, means = self.expression(depth + 1)
        is_bare = binds >= level and not self.happens(0.2)
        return (text if is_bare else f"({self.blank()}{text}{self.blank()})"), means

    def blank(self):
        """What may stand between two pieces of an expression."""
        return self.random.choice(["", " ", "  "])

    def tag_words(self, option):
        """Words of this option with expressions, and a few with none."""
        made = []
        while self.happens(0.15) and len(made) < 3:
            _, text, means = self.expression()
            made.append(self.word(option, "" if self.happens(self.odd / 2) else text, means))
        return made

    def seed(self):
        """A number of a seed."""
        largest = self.random.choice([3, 1000, 2**64])
        return self.random.choice(["", "", "00"]) + str(self.random.randrange(largest))

    def single(self, option, often, value, bad):
        """A word that may be given once, sometimes twice."""
        made = []
        for _ in range(self.happens(often) * (1 + self.happens(self.odd / 2))):
            is_bad = bad and self.happens(self.odd)
            made.append(self.word(option, self.random.choice(bad) if is_bad else value()))
        return made

    def shard(self):
        """A shard, by places or by hashes."""
        count = self.random.choice([1, 2, 3, 5, 4095])
        return f"{self.random.choice(['', 'hash:'])}{self.random.randint(1, min(count, 7))}/{count}"

    def most(self):
        """After how many failures a run stops."""
        return str(self.random.choice([1, 2, 3, 7, 4095]))

    def most_nodes(self):
        """How many nodes a suite may have."""
        return str(self.random.choice([4095, 4096, 16383]))

    def all(self):
        """A list of words."""
        made = []
        scale = self.random.choice([0.3, 1.0])
        for option, kind in selecting.NAMING.items():
            often = {"select": 0.3, "include": 0.15, "exclude": 0.15, "rerun": 0.15}[option[2:].partition("-")[0]]
            made += self.words(option, often * scale, lambda kind=kind: self.value(kind))
        made += self.tag_words("--include-tag") + self.tag_words("--exclude-tag")
        made += self.single("--shard", 0.3, self.shard, BAD_SHARDS)
        made += self.single("--seed", 0.3, self.seed, BAD_NUMBERS)
        made += self.single("--max-fail", 0.2, self.most, [*BAD_NUMBERS, "0", "4096"])
        made += self.single("--most-nodes", 0.1, self.most_nodes, [*BAD_NUMBERS, "4094", "16384"])
        made += self.single("--fail-if-no-tests", 0.3, str, None)
        self.random.shuffle(made)
        return made
