"""What docs/FORMATS.md says of the words that select: what they name, what is run, and why they are refused."""

import re
from dataclasses import dataclass
from functools import lru_cache

from reports import share
from seeds import copied, ordered

# What selects or leaves out, in the order in which it is numbered, and by what.
NAMING = {"--select-unique-id": "id", "--select-class": "class", "--select-method": "method"}
NAMING |= {"--select-package": "package", "--include-name": "name", "--exclude-name": "name"}
NAMING |= {"--exclude-unique-id": "id", "--exclude-class": "class", "--exclude-method": "method"}
NAMING |= {"--exclude-package": "package", "--rerun": "id"}
SELECTING = ("--select-unique-id", "--select-class", "--select-method", "--select-package")
HAS_TO_COVER = (*SELECTING, "--include-name")
LEAVING_OUT = tuple(option for option in NAMING if option.startswith("--exclude-"))
ONCE = ("--shard", "--seed", "--max-fail", "--most-nodes", "--fail-if-no-tests")
PART = re.compile(rb"\[([^\[\]:]+):([^\[\]:]+)\]")
SHARD = re.compile(r"(hash:)?([0-9]+)/([0-9]+)")
MOST_BYTES, MOST_SEGMENTS, MOST_SHARDS, MOST_FAILURES = 1024, 64, 4095, 4095
USUAL_NODES, MOST_NODES = 4095, 16383


@dataclass
class Word:
    """An option with its value, which may be a word of its own; of a tag expression also what it means."""

    option: str
    value: str = ""
    is_apart: bool = False
    means: object = None

    def words(self):
        """The words of the command line."""
        if self.option == "--fail-if-no-tests":
            return [self.option]
        if not self.is_apart:
            return [f"{self.option}={self.value}"]
        return [self.option, "@" * self.value.startswith("@") + self.value]


@dataclass
class Asked:
    """What a list of words asks for."""

    given: list

    def of(self, *options):
        """The words of these options, option by option."""
        return [word for option in options for word in self.given if word.option == option]

    def one(self, option):
        """The value of an option that is given once at most."""
        return next((word.value for word in self.of(option)), None)

    @property
    def naming(self):
        """The words that name nodes, in the order of their numbers."""
        return self.of(*NAMING)

    @property
    def fails_without_tests(self):
        """Whether it is a failure that there is no test."""
        return self.one("--fail-if-no-tests") is not None

    @property
    def most(self):
        """After how many failures the run stops; none if it does not."""
        return int(self.one("--max-fail")) if self.one("--max-fail") else None


def spelled(part):
    """A part of an id in its canonical text."""
    return b"".join(b"%%%02X" % byte if byte in b"%+[]:/" else bytes([byte]) for byte in part)


def part_of(text):
    """The bytes that a part of an id stands for; none if it stands for none."""
    if re.search(rb"%(?![0-9a-fA-F]{2})", text):
        return None
    part = re.sub(rb"%(..)", lambda found: bytes([int(found[1], 16)]), text, flags=re.DOTALL)
    try:
        part.decode()
    except UnicodeDecodeError:
        return None
    return part


@lru_cache(100)
def canonical(text):
    """The canonical text of a unique id; none of what is no id."""
    found = [PART.fullmatch(segment) for segment in text.encode().split(b"/")]
    if None in found or len(found) > MOST_SEGMENTS or len(text.encode()) > MOST_BYTES:
        return None
    parts = [(part_of(segment[1]), part_of(segment[2])) for segment in found]
    if any(None in pair for pair in parts):
        return None
    made = b"/".join(b"[%s:%s]" % (spelled(kind), spelled(value)) for kind, value in parts)
    return made.decode() if len(made) <= MOST_BYTES else None


def method_of(text):
    """The class and the method of `CLASS#METHOD`."""
    name, _, method = text.partition("#")
    return name, method


def is_spelled(kind, text):
    """Whether a text spells a selector of this kind."""
    if kind == "id":
        return canonical(text) is not None
    return all(method_of(text)) if kind == "method" else text != ""


@lru_cache(1000)
def class_name(node):
    """The class name of a node, if it has one."""
    if node.word != "class":
        return None
    return node.name if node.parent.word == "engine" else f"{class_name(node.parent)}${node.name}"


def is_unit(node):
    """Whether a node is a test, but no dynamic one, or a factory."""
    return node.word in ("test", "factory")


def matches(pattern, text):
    """Whether a pattern matches the whole of a text."""
    return re.fullmatch(".*".join(map(re.escape, pattern.split("*"))), text, re.DOTALL) is not None


@lru_cache(1000)
def ids_of(node):
    """The ids that name a node: its own, and of a factory those of its dynamic tests."""
    return [node.id, *(child.id for child in node.children if child.word == "dyn")]


def is_named_by_id(node, text):
    """Whether a text is a spelling of an id that names a node."""
    return canonical(text) in ids_of(node)


def is_named_by_method(node, text):
    """Whether a node is this test or factory of a class of this name."""
    return is_unit(node) and (class_name(node.parent), node.name) == method_of(text)


def is_in_package(node, text):
    """Whether a node is a class, no nested one, of this package."""
    return node.word == "class" and node.parent.word == "engine" and node.name.startswith(f"{text}.")


def has_name_of(node, pattern):
    """Whether a test or a factory has a name that a pattern matches."""
    return is_unit(node) and matches(pattern, f"{class_name(node.parent)}#{node.name}")


NAMES = {
    "id": is_named_by_id,
    "class": lambda node, text: class_name(node) == text,
    "method": is_named_by_method,
    "package": is_in_package,
    "name": has_name_of,
}


def covered(root, word):
    """The nodes that a selector names, and all below them."""
    found = set()
    for node in root.below():
        if node.parent in found or NAMES[NAMING[word.option]](node, word.value):
            found.add(node)
    return found


def tags_of(node):
    """The tags of a node and of those above it."""
    return {tag for at in (node, *node.ancestors()) for tag in at.tags}


def selected(root, asked):
    """The tests and factories that are selected, in the suite's order."""
    units = [node for node in root.below() if is_unit(node)]
    for options in (SELECTING, ("--include-name",), ("--rerun",)):
        one_of = [covered(root, word) for word in asked.of(*options)]
        units = [unit for unit in units if not one_of or any(unit in some for some in one_of)]
    none_of = [covered(root, word) for word in asked.of(*LEAVING_OUT)]
    units = [unit for unit in units if not any(unit in some for some in none_of)]
    return [unit for unit in units if has_tags(tags_of(unit), asked)]


def has_tags(tags, asked):
    """Whether tags make one of the include expressions true, if there are any, and none of the exclude expressions."""
    included = asked.of("--include-tag")
    if any(word.means(tags) for word in asked.of("--exclude-tag")):
        return False
    return not included or any(word.means(tags) for word in included)


def shard_of(text):
    """Form, number and count of a shard; none of what is no shard."""
    found = SHARD.fullmatch(text)
    if not found or not 1 <= int(found[2]) <= int(found[3]) <= MOST_SHARDS:
        return None
    return found[1] or "", int(found[2]), int(found[3])


def is_number(text, least, most):
    """Whether a text is a number in digits."""
    return re.fullmatch("[0-9]+", text) is not None and least <= int(text) <= most


def is_refused_word(word):
    """Whether a word of the command line is none that its option takes."""
    if word.is_apart and word.value.startswith("-") and word.value != "-":
        return True
    bounds = {"--seed": (0, 2**64 - 1), "--max-fail": (1, MOST_FAILURES), "--most-nodes": (USUAL_NODES, MOST_NODES)}
    if word.option in bounds:
        return not is_number(word.value, *bounds[word.option])
    return word.option == "--shard" and shard_of(word.value) is None


def refusal_of(root, asked):
    """The line of the first refusal, if there is one."""
    if any(len(asked.of(option)) > 1 for option in ONCE) or any(map(is_refused_word, asked.given)):
        return "error 105\n"
    for number, word in enumerate(asked.naming, 1):
        if not is_spelled(NAMING[word.option], word.value):
            return f"error {43 if NAMING[word.option] == 'name' else 40} at {number}\n"
    if any(word.value == "" for word in asked.of("--include-tag", "--exclude-tag")):
        return "error 20\n"
    for number, word in enumerate(asked.naming, 1):
        if word.option in HAS_TO_COVER and not covered(root, word):
            return f"error 41 at {number}\n"
    return ""


def tree_of(root, asked):
    """A copy of what is run of a suite, in its order; whether anything is selected at all."""
    units = selected(root, asked)
    shard = asked.one("--shard")
    run = share(units, *shard_of(shard)) if shard else units
    kept = {at for unit in run for at in (unit, *unit.children, *unit.ancestors())}
    tree, seed = copied(root, kept), asked.one("--seed")
    return (ordered(tree, int(seed)) if seed else tree), bool(units)
