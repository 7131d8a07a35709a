"""The worst inputs for each parser, and for what is made of what it read: each at any size up to the limits."""

from dataclasses import dataclass
from typing import Callable, List, Tuple

from programs import config

MEGABYTE = 1_048_576
SHARE = MEGABYTE // 4
# The most nodes that a suite may have.
NODES = 4_095
# The most bytes that the system hands over in one word.
WORD = 131_000
# A run that is refused before anything is run: so the reading alone is counted.
UNRUN = ["--select-class", "no.Such"]


@dataclass
class Case:
    """Words and a standard input, made at so many fourths of the whole, the status that is wanted, and the program's crate."""

    name: str
    made: Callable[[int], Tuple[List[str], str]]
    status: int = 255
    crate: str = "console"


def filled(line, size):
    """As many of a line as have room in so many bytes."""
    return line * (size // len(line.encode()))


def numbered(line, size):
    """Lines in which a number stands, as many as have room in so many bytes."""
    lines, left = [], size
    while left > 0:
        lines.append(line.format(len(lines)))
        left -= len(lines[-1].encode())
    return "".join(lines[:-1])


def suite(lines):
    """A case of a suite that is read, and of which nothing is run."""
    return lambda part: (UNRUN, lines(part))


def tests(count, words="", head="engine e\n  class a.B\n"):
    """A class of so many tests."""
    return head + "".join(f"    test t{number:04d}() {words}pass\n" for number in range(count))


def nodes(part, above=2):
    """How many tests there are room for below so many nodes."""
    return NODES * part // 4 - above


def one_line(front, piece, back=""):
    """A suite one line of which is as long as a suite may be."""

    def made(part):
        head = "engine e\n  class a.B\n"
        room = MEGABYTE * part // 4 - len(head) - len(front) - len(back) - 1
        return head + front + piece(room) + back + "\n"

    return suite(made)


def words_falling(form, size):
    """Words with numbers, the greatest first, in so many bytes."""
    count = 0
    while (count + 1) * len(form.format(1_000_000)) <= size:
        count += 1
    return "".join(form.format(1_000_000 + number) for number in reversed(range(count)))


def words_rising(form, size):
    """Words with numbers, the least first, in so many bytes."""
    return "".join(form.format(1_000_000 + number) for number in range(size // len(form.format(1_000_000))))


def long_ids(part):
    """Nodes with unique ids of 1,024 bytes."""
    # [engine:e]/[class:NAME]/[method:NAME]
    room = 1024 - len("[engine:e]/[class:]/[method:]") - 210
    lines = [f"engine e\n  class {'c' * room}\n"]
    lines += [f"    test {number:0210d} pass\n" for number in range(nodes(part))]
    return "".join(lines)


def nested(part):
    """Classes in one another as deep as ids of 1,024 bytes let them be, with tests in the last."""
    deepest = 56
    lines = ["engine e\n"] + ["  " * level + "class c\n" for level in range(1, deepest + 1)]
    test = "  " * (deepest + 1) + "test t{0:04d}() pass\n"
    return "".join(lines) + "".join(test.format(number) for number in range(nodes(part, deepest + 1)))


def engines(part):
    return "".join(f"engine e{number:04d}\n" for number in range(NODES * part // 4))


def classes(part, words=""):
    """Classes with a before-body and an after-body, of a test each."""
    each = "  class c{0:04d}{1} pass\n    test t() pass\n    after pass\n"
    return "engine e\n" + "".join(each.format(number, words) for number in range(NODES * part // 8))


def factory(part):
    """A factory of as many dynamic tests as there are room for."""
    return "engine e\n  class a.B\n    factory f() pass\n" + "      dyn d pass\n" * nodes(part, 3)


def keyed(part):
    """Tests that have 255 keys among them, two each."""
    line = "    test t{0:04d}() lock=k{1:03d}:r lock=k{2:03d} pass\n"
    made = (line.format(number, number % 255, (number * 7 + 1) % 255) for number in range(nodes(part)))
    return "engine e\n  class a.B\n" + "".join(made)


def full_locks(part):
    """Tests with sixteen locks each, in classes of their own."""
    words = " ".join(f"lock=k{number:02d}:r" for number in range(16))
    lines = ["engine e\n"]
    for number in range(NODES * part // 8):
        lines.append(f"  class c{number:04d}\n    test t() {words} pass\n")
    return "".join(lines)


def limited(part):
    """A limit for each of the locks of tests that have four each."""
    made = nodes(part)
    limits = "".join(f"property nelborugy.lock.k{number:05d}.holders=2\n" for number in range(4 * made))
    line = "    test t{0:04d}() lock=k{1:05d} lock=k{2:05d} lock=k{3:05d} lock=k{4:05d} pass\n"
    return limits + "engine e\n  class a.B\n" + "".join(line.format(at, *range(4 * at, 4 * at + 4)) for at in range(made))


def tagged(part):
    """Tests with a tag each, in nested classes with tags."""
    return tests(nodes(part), "#a #b ", "engine e #c\n  class a.B #d\n")


def told(details, lines):
    """A run of which these details are printed."""
    return lambda part: (["--details", details], lines(part))


def run(lines, *words):
    """A case of a suite that is run."""
    return lambda part: (["--details", "none", *words], lines(part))


def expression(size):
    """An expression of so many bytes, which takes all of it to be judged."""
    return "!x" + "&!x" * ((size - 2) // 3)


def nested_expression(size):
    """An expression with as many parentheses pending as may be, over and over."""
    piece = "(" * 60 + "a" + ")" * 60
    return piece + ("|" + piece) * ((size - len(piece)) // (len(piece) + 1))


def by_count(option, form, most=32, words=("--details", "none")):
    """A case of so many selectors over all nodes."""

    def made(part):
        given = [word for number in range(most * part // 4) for word in (option, form.format(number))]
        return [*words, *given], tests(NODES - 2)

    return made


def by_nodes(option, form, most=32, words=("--details", "none")):
    """A case of all selectors over so many nodes."""

    def made(part):
        given = [word for number in range(most) for word in (option, form.format(number))]
        return [*words, *given], tests(nodes(part))

    return made


def replayed(steps, end=""):
    """A case of steps in one word."""
    return lambda part: (["--replay", filled(steps + " ", WORD * part // 4) + end], tests(2))


def replayed_in_memory(steps):
    """A case of a megabyte of steps, more than the system hands over in a word: a row of the table of runs over memory."""
    return lambda part: ([], f'== console --replay "{filled(steps + " ", SHARE * part)}"\n' + tests(2))


def in_word(option, made):
    """A case of one word as long as the system hands over."""
    return lambda part: ([option, made(WORD * part // 4), *UNRUN], "engine e\n")


def many_words(option, form, most=4_000):
    """A case of an option that is given over and over."""

    def made(part):
        given = [word for number in range(most * part // 4) for word in (option, form.format(number))]
        return [*given, *UNRUN], "engine e\n"

    return made


PARALLEL = [
    *config("enabled", "true"),
    *config("mode.default", "concurrent"),
    *config("config.strategy", "fixed"),
    *config("config.fixed.parallelism", 1),
]

CASES = [
    # lines
    Case("65,536 comments", suite(lambda part: filled("# a short line!\n", SHARE * part))),
    Case("a megabyte of line ends", suite(lambda part: "\n" * (SHARE * part))),
    Case("a megabyte of CR LF", suite(lambda part: filled("\r\n", SHARE * part))),
    Case("one comment of a megabyte", suite(lambda part: "#" * (SHARE * part))),
    Case("one line of blanks", suite(lambda part: " " * (SHARE * part))),
    Case("a bad byte at the end", suite(lambda part: filled("# a short line!\n", SHARE * part - 1) + "\udcff")),
    Case("four times too many bytes", suite(lambda part: "#" * (MEGABYTE * part + 1))),
    Case("properties, each key once", suite(lambda part: numbered("property k{0:05d}=v\n", SHARE * part))),
    Case("properties of one key", suite(lambda part: filled("property key=value\n", SHARE * part))),
    Case("one property of a megabyte", suite(lambda part: "property k=" + "v" * (SHARE * part - 11))),
    # one line of a megabyte
    Case("a reason of a megabyte", one_line("    test t() fail ", lambda room: "x" * room)),
    Case("a name of a megabyte", one_line("    test ", lambda room: "x" * room, " pass")),
    Case("blanks between two words", one_line("    test t()", lambda room: " " * room, "pass")),
    Case("a megabyte of one tag", one_line("    test t()", lambda room: " #a" * (room // 3), " pass")),
    Case("a megabyte of tags, rising", one_line("    test t()", lambda room: words_rising(" #{0}", room), " pass")),
    Case("a megabyte of tags, falling", one_line("    test t()", lambda room: words_falling(" #{0}", room), " pass")),
    Case("a megabyte of one lock", one_line("    test t()", lambda room: " lock=a" * (room // 7), " pass")),
    Case("a megabyte of locks, rising", one_line("    test t()", lambda room: words_rising(" lock={0}", room), " pass")),
    Case("a megabyte of locks, falling", one_line("    test t()", lambda room: words_falling(" lock={0}", room), " pass")),
    Case("a megabyte of isolated", one_line("    test t()", lambda room: " isolated" * (room // 9), " pass")),
    # nodes
    Case("4,095 tests", suite(lambda part: tests(nodes(part)))),
    Case("4,095 engines", suite(engines)),
    Case("ids of 1,024 bytes", suite(long_ids)),
    Case("tests 58 levels deep", suite(nested)),
    Case("classes with both bodies", suite(classes)),
    Case("a factory of 4,092 dynamic tests", suite(factory)),
    Case("sixteen locks on each test", suite(full_locks)),
    # runs
    Case("4,095 tests, run", run(lambda part: tests(nodes(part))), 0),
    Case("ids of 1,024 bytes, all printed", told("testfeed", long_ids), 0),
    Case("tests 58 levels deep, the tree printed", told("tree", nested), 0),
    Case("4,095 tests, reported in XML", told("xml", lambda part: tests(nodes(part))), 0),
    Case("tests 58 levels deep, reported in XML", told("xml", nested), 0),
    Case("classes with both bodies, reported in XML", told("xml", classes), 0),
    Case("a factory of 4,092 dynamic tests, reported in XML", told("xml", factory), 0),
    Case("4,095 tests, told as JSON", told("json", lambda part: tests(nodes(part))), 0),
    Case("tests 58 levels deep, told as JSON", told("json", nested), 0),
    Case("4,095 tests, listed", told("list", lambda part: tests(nodes(part))), 0),
    Case("tests 58 levels deep, listed", told("list", nested), 0),
    Case("sixteen locks on each test, told as a plan", told("plan", full_locks), 0),
    Case("4,095 tests that fail", lambda part: (["--details", "summary"], tests(nodes(part)).replace(" pass", " fail x")), 1),
    Case("classes with both bodies, run", run(classes), 0),
    Case("a factory of 4,092 dynamic tests, run", run(factory), 0),
    Case("255 keys on 4,093 tests, run", run(keyed), 0),
    Case("sixteen locks on each test, run", run(full_locks), 0),
    Case("255 keys, concurrent", run(keyed, *PARALLEL), 0),
    Case("limits of 16,372 locks, of which one test is run", run(limited, "--select-method", "a.B#t0000()"), 0),
    Case("4,095 tests, skipped", lambda part: (["--details", "tree"], tests(nodes(part)).replace(" pass", " disabled x")), 0),
    # what is to run
    Case("32 ids over all nodes", by_count("--select-unique-id", "[engine:e]/[class:a.B]/[method:t{0:04d}()]"), 0),
    Case("32 ids over 4,095 nodes", by_nodes("--select-unique-id", "[engine:e]/[class:a.B]/[method:t{0:04d}()]"), 0),
    Case("32 classes over 4,095 nodes", by_nodes("--select-class", "a.B"), 0),
    Case("32 classes over all nodes", by_count("--select-class", "a.B"), 0),
    Case("32 methods over 4,095 nodes", by_nodes("--select-method", "a.B#t{0:04d}()"), 0),
    Case("32 methods over all nodes", by_count("--select-method", "a.B#t{0:04d}()"), 0),
    Case("32 patterns over 4,095 nodes", by_nodes("--include-name", "*a*.*B*#*t{0:04d}*"), 0),
    Case("32 patterns over all nodes", by_count("--include-name", "*a*.*B*#*t{0:04d}*"), 0),
    Case("32 exclusions over 4,095 nodes", by_nodes("--exclude-name", "*a*.*B*#*x{0:04d}*"), 0),
    Case("32 packages over 4,095 nodes", by_nodes("--select-package", "a"), 0),
    Case("32 packages over all nodes", by_count("--select-package", "a"), 0),
    Case(
        "an expression of 1,024 bytes on 4,095 nodes",
        lambda part: (["--details", "none", "--include-tag", expression(1024)], tagged(part)),
        0,
    ),
    Case(
        "an expression as long as may be on all nodes",
        lambda part: (["--details", "none", "--include-tag", expression(256 * part)], tagged(4)),
        0,
    ),
    Case(
        "parentheses on 4,095 nodes",
        lambda part: (["--details", "none", "--include-tag", nested_expression(1024)], tagged(part)),
        0,
    ),
    # words
    Case("a long word of an id", in_word("--select-unique-id", lambda size: "[engine:" + "a" * size + "]")),
    Case("a long word of an expression", in_word("--include-tag", lambda size: "a" * size)),
    Case("a long word of a class", in_word("--select-class", lambda size: "a" * size)),
    Case("a long word of a pattern", in_word("--include-name", lambda size: "*a" * (size // 2))),
    Case("a long word of a method", in_word("--select-method", lambda size: "a" * size + "#t")),
    Case("a long word of a configuration", in_word("--config", lambda size: "k=" + "a" * size)),
    Case("4,000 keys", many_words("--config", "k{0:04d}=v")),
    Case("4,000 ids", many_words("--select-unique-id", "[engine:e{0:04d}]")),
    Case("4,000 expressions", many_words("--include-tag", "a{0:04d} & !b")),
    # steps
    Case("steps that are not possible", replayed("w1:claim:4"), 0),
    Case("steps of the dispatcher", replayed("d:read"), 0),
    Case("blanks between steps", replayed(" "), 0),
    Case("a bad step at the end", replayed("d:read", "x")),
    Case("a megabyte of steps", replayed_in_memory("w1:claim:4"), 0, "program_tables"),
]
