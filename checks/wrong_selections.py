"""Mistakes in the definitions of checks/selection.py: what is wrong, where it stands, and what stands in its place."""

import re

import one_worker
import seeds
import selecting
from reports import hash_of

right = {name: getattr(selecting, name) for name in ("canonical", "refusal_of", "share", "tree_of", "is_refused_word")}


def star_of_letters(letters):
    """A reading of patterns in which a star stands for this alone."""
    return lambda pattern, text: re.fullmatch(letters.join(map(re.escape, pattern.split("*"))), text, re.DOTALL)


def share_of_plain_ids(units, form, number, count):
    """Shards by the hash of ids without escapes."""
    if not form:
        return right["share"](units, form, number, count)
    return [unit for unit in units if hash_of(re.sub("%5[BD]|%2[5BF]|%3A", "x", unit.id)) % count == number - 1]


def share_of_what_runs(units, form, number, count):
    """Shards of what is not disabled."""
    run = [unit for unit in units if not any(at.disabled for at in (unit, *unit.ancestors()))]
    return right["share"](run, form, number, count)


def refusal_of_reruns(root, asked):
    """Refuses what is to be run again and is not there, too."""
    for number, word in enumerate(asked.naming, 1):
        if word.option == "--rerun" and not selecting.covered(root, word):
            return f"error 41 at {number}\n"
    return right["refusal_of"](root, asked)


def refusal_without_places(root, asked):
    """Numbers each option's words from 1."""
    said = right["refusal_of"](root, asked)
    return re.sub(r"(4[013]) at [0-9]+", r"\1 at 1", said)


def tree_by_shard_last(root, asked):
    """Draws the order of the whole, and shares it then."""
    shard, rest = asked.of("--shard"), [word for word in asked.given if word.option != "--shard"]
    tree, is_anything = right["tree_of"](root, selecting.Asked(rest))
    return right["tree_of"](tree, selecting.Asked(shard))[0], is_anything


def is_skipped_without(failures):
    """A worker that stops after so many failures more."""

    def skipped(self, node):
        if node.disabled:
            return True, one_worker.printed(node.verdict.text)
        return self.most is not None and self.failures >= self.most + failures, "cancelled"

    return skipped


def stopped_first(self, node):
    """A worker that cancels disabled nodes too."""
    if self.most is not None and self.failures >= self.most:
        return True, "cancelled"
    return node.disabled, one_worker.printed(node.verdict.text) if node.disabled else ""


def is_begun(node, text):
    """Whether a class of an engine has a name that begins so, with a dot behind it or not."""
    return node.word == "class" and node.parent.word == "engine" and node.name.startswith(text)


def is_nested_in_package(node, text):
    """Whether the value of a class begins so, of a nested one too."""
    return node.word == "class" and node.name.startswith(f"{text}.")


def next_share(units, form, number, count):
    """The shard of the next number."""
    return right["share"](units, form, number % count + 1, count)


def hyphen_is_none(word):
    """Takes a value that begins with a hyphen as a word of its own."""
    return right["is_refused_word"](selecting.Word(word.option, word.value))


def later_words(seed, count):
    """The words of a seed but the first."""
    return right_words(seed, count + 1)[1:]


def has_id(node, text):
    """Whether a node has this id, and no node below it."""
    return node.id == right["canonical"](text)


def own_name(node):
    """The name of a class, of a nested one too."""
    return node.name if node.word == "class" else None


right_words = seeds.words_of
MISTAKES = [
    ("a method is cut at its last hash", selecting, "method_of", lambda text: tuple(text.rpartition("#")[::2])),
    ("a package is any beginning", selecting.NAMES, "package", is_begun),
    ("a package is of nested classes too", selecting.NAMES, "package", is_nested_in_package),
    ("a star is some text", selecting, "matches", star_of_letters(".+")),
    ("a star ends at a hash", selecting, "matches", star_of_letters("[^#]*")),
    ("a star ends at a slash", selecting, "matches", star_of_letters("[^/]*")),
    ("a nested class has its own name", selecting, "class_name", own_name),
    ("a factory is not named by its tests", selecting.NAMES, "id", has_id),
    ("ids have one spelling", selecting, "canonical", lambda text: text if right["canonical"](text) else None),
    ("tags are a node's own", selecting, "tags_of", lambda node: set(node.tags)),
    ("the first shard is the second", selecting, "share", next_share),
    ("hashes are of plain names", selecting, "share", share_of_plain_ids),
    ("what is disabled is in no shard", selecting, "share", share_of_what_runs),
    ("shards are of the order", selecting, "tree_of", tree_by_shard_last),
    ("what is run again has to be there", selecting, "refusal_of", refusal_of_reruns),
    ("refusals are at 1", selecting, "refusal_of", refusal_without_places),
    ("a word may begin with a hyphen", selecting, "is_refused_word", hyphen_is_none),
    ("the first word is the second", seeds, "words_of", later_words),
    ("a failure more is tolerated", one_worker.OneWorker, "skipped", is_skipped_without(1)),
    ("a failure less is tolerated", one_worker.OneWorker, "skipped", is_skipped_without(-1)),
    ("disabled nodes are cancelled too", one_worker.OneWorker, "skipped", stopped_first),
]
