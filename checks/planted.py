"""The reader itself is tested: lawful feeds are taken, and feeds with a mistake in them are refused by the rule that it breaks."""

from feeds import Refused, Run, judged
from plans import Plan
from suites import Node, Verdict

ENGINE = "[engine:e]"
A, B, C, D = (f"{ENGINE}/[class:{name}]" for name in "ABCD")
T, U, V, W = f"{A}/[method:t]", f"{A}/[method:u]", f"{B}/[method:v]", f"{C}/[method:w]"
FACTORY = f"{D}/[test-factory:f]"
FIRST, SECOND, THIRD = (f"{FACTORY}/[dynamic-test:#{number}]" for number in (1, 2, 3))

LAWFUL = f"""w1 plan started
w1 started {ENGINE}
w2 started {A}
w2 started {T}
w1 started {U}
w2 finished {T} SUCCESSFUL
w1 finished {U} FAILED boom
w1 finished {A} SUCCESSFUL
w1 started {B}
w1 started {V}
w1 finished {V} SUCCESSFUL
w1 finished {B} ABORTED late
w2 started {C}
w2 finished {C} FAILED
w2 started {D}
w2 started {FACTORY}
w2 registered {FIRST}
w1 skipped {FIRST} later
w2 registered {SECOND}
w1 started {SECOND}
w1 finished {SECOND} SUCCESSFUL
w2 finished {FACTORY} SUCCESSFUL
w2 finished {D} SUCCESSFUL
w2 finished {ENGINE} SUCCESSFUL
w2 plan finished
"""

CANCELLED = f"""w1 plan started
w1 started {ENGINE}
w1 started {A}
w1 started {U}
w1 finished {U} FAILED boom
w2 skipped {T} cancelled
w2 finished {A} SUCCESSFUL
w2 started {C}
w2 finished {C} FAILED
w2 skipped {B} cancelled
w1 skipped {D} cancelled
w1 finished {ENGINE} SUCCESSFUL
w1 plan finished
"""

TOLERATED = f"""w1 plan started
w1 started {ENGINE}
w1 started {A}
w1 started {U}
w1 finished {U} FAILED boom
w1 started {T}
w1 finished {T} SUCCESSFUL
w2 finished {A} SUCCESSFUL
w2 started {C}
w2 finished {C} FAILED
w2 skipped {B} cancelled
w1 skipped {D} cancelled
w1 finished {ENGINE} SUCCESSFUL
w1 plan finished
"""

LIMITED = f"""w2 plan started
w2 started {ENGINE}
w2 started {A}
w2 started {T}
w2 finished {T} SUCCESSFUL
w2 finished {A} SUCCESSFUL
w1 started {B}
w1 started {V}
w1 finished {V} FAILED
w1 finished {B} SUCCESSFUL
w2 finished {ENGINE} SUCCESSFUL
w2 plan finished
"""


def suite():
    """Two classes that write one key, a third that its before-body ends, and one with a factory that leaves a spare."""
    plan = Node("plan", "")
    engine = plan.add("engine", "e")
    first = engine.add("class", "A", locks=[("db", "r")])
    first.add("test", "t", verdict=Verdict("pass"))
    first.add("test", "u", verdict=Verdict("fail", "boom"))
    second = engine.add("class", "B", locks=[("db", "rw")], after=Verdict("abort", "late"))
    second.add("test", "v", verdict=Verdict("pass"))
    third = engine.add("class", "C", verdict=Verdict("fail"))
    third.add("test", "w", verdict=Verdict("pass"))
    fourth = engine.add("class", "D")
    factory = fourth.add("factory", "f", verdict=Verdict("pass"), pulls=2)
    factory.add("dyn", "one", verdict=Verdict("disabled", "later"))
    factory.add("dyn", "two", verdict=Verdict("pass"))
    factory.add("dyn", "three", verdict=Verdict("fail"))
    return plan


def limited_suite():
    """Two classes that read one lock, which one node may hold at once."""
    plan = Node("plan", "", limits={"db": 1})
    engine = plan.add("engine", "e")
    engine.add("class", "A", locks=[("db", "r")]).add("test", "t", verdict=Verdict("pass"))
    engine.add("class", "B", locks=[("db", "r")]).add("test", "v", verdict=Verdict("fail"))
    return plan


def same_thread(feed):
    """The feed of one worker that gets to everything itself."""
    return feed.replace("w2 ", "w1 ")


def moved(line, behind):
    """A change that puts a line behind another one."""

    def change(lines):
        lines.remove(line)
        lines.insert(lines.index(behind) + 1, line)

    return change


def dropped(*gone):
    """A change that drops lines."""

    def change(lines):
        for line in gone:
            lines.remove(line)

    return change


def put(line, behind):
    """A change that puts a new line behind another one."""
    return lambda lines: lines.insert(lines.index(behind) + 1, line)


def put_for(line, new):
    """A change that puts a new line in the place of one."""

    def change(lines):
        lines[lines.index(line)] = new

    return change


# What is wrong, the rule that has to refuse it, and the change that makes it of the lawful feed.
MISTAKES = [
    ("a finish before a child's", "finishes", moved(f"w1 finished {A} SUCCESSFUL", f"w2 finished {T} SUCCESSFUL")),
    ("a finish before a child's start", "finishes", moved(f"w2 finished {D} SUCCESSFUL", f"w2 started {D}")),
    ("a start behind a child's", "order", moved(f"w2 started {A}", f"w2 started {T}")),
    ("two writers at once", "locks", moved(f"w1 started {B}", f"w2 started {T}")),
    ("a missing finish", "finishes", dropped(f"w2 finished {T} SUCCESSFUL")),
    ("a missing test", "finishes", dropped(f"w2 started {T}", f"w2 finished {T} SUCCESSFUL")),
    ("a missing end", "complete", dropped("w2 plan finished")),
    ("a missing end of an engine", "finishes", dropped(f"w2 finished {ENGINE} SUCCESSFUL")),
    ("a start that stands twice", "once", put(f"w1 started {T}", f"w2 started {T}")),
    ("a finish that stands twice", "once", put(f"w2 finished {T} SUCCESSFUL", f"w2 finished {T} SUCCESSFUL")),
    ("a finish without a start", "once", dropped(f"w1 started {U}")),
    ("a start and a skip", "once", put(f"w1 skipped {T}", f"w2 started {T}")),
    ("a worker that is none", "once", put_for(f"w2 started {T}", f"w3 started {T}")),
    ("another status", "ends", put_for(f"w2 finished {T} SUCCESSFUL", f"w2 finished {T} ABORTED")),
    ("another text", "ends", put_for(f"w1 finished {U} FAILED boom", f"w1 finished {U} FAILED bang")),
    ("a before-body that was not heeded", "stops", put(f"w2 started {W}", f"w2 started {C}")),
    ("an after-body that was not run", "ends", put_for(f"w1 finished {B} ABORTED late", f"w1 finished {B} SUCCESSFUL")),
    ("a test that is skipped and not disabled", "skips", put_for(f"w2 started {T}", f"w2 skipped {T}")),
    ("a disabled test that is started", "skips", put_for(f"w1 skipped {FIRST} later", f"w1 started {FIRST}")),
    ("a reason that is another", "skips", put_for(f"w1 skipped {FIRST} later", f"w1 skipped {FIRST} soon")),
    ("a spare that nobody registered", "spares", dropped(f"w2 registered {SECOND}")),
    ("spares in another order", "spares", moved(f"w2 registered {FIRST}", f"w2 registered {SECOND}")),
    ("a spare too few", "finishes", dropped(*(line for line in LAWFUL.split("\n") if SECOND in line))),
    ("a spare behind its factory's finish", "order", put(f"w2 registered {THIRD}", f"w2 finished {FACTORY} SUCCESSFUL")),
    ("something behind the end", "order", put("w1 plan started", "w2 plan finished")),
    ("a node that is none", "lines", put_for(f"w2 started {T}", f"w2 started {T}x")),
    ("a line that is none", "lines", put_for(f"w2 started {T}", f"w2 begins {T}")),
    ("a line that is cut", "lines", lambda lines: lines.pop()),
]

# The same of a run in one thread, with a mode for each node.
THREAD_MISTAKES = [
    ("a younger sibling first", "thread", moved(f"w1 started {U}", f"w1 started {A}")),
    ("a worker that is not the parent's", "thread", put_for(f"w1 started {B}", f"w2 started {B}")),
]

# The same of a run that fails fast.
FAST_MISTAKES = [
    ("a start behind the worker's own failure", "skips", put_for(f"w1 skipped {D} cancelled", f"w1 started {D}")),
    ("a test that is cancelled before a failure", "skips", moved(f"w2 skipped {T} cancelled", f"w1 started {U}")),
    ("a cancelled test with another text", "skips", put_for(f"w2 skipped {T} cancelled", f"w2 skipped {T} late")),
]

# The same of a run that tolerates one failure.
TOLERATED_MISTAKES = [
    ("a start behind two failures that its worker knew of", "skips", put_for(f"w2 skipped {B} cancelled", f"w2 started {B}")),
    ("a test that is cancelled behind one failure", "skips", put_for(f"w1 started {T}", f"w1 skipped {T} cancelled")),
]

# The same where one node at most may hold a lock.
LIMITED_MISTAKES = [
    ("a holder too many", "limits", moved(f"w1 started {B}", f"w2 started {A}")),
    ("a test below a holder that another worker runs", "thread", put_for(f"w2 started {T}", f"w1 started {T}")),
]


def changed(feed, change):
    """A feed with a change of its lines."""
    lines = feed.split("\n")
    change(lines)
    return "\n".join(lines)


def complaint(plan, run, feed, status=1):
    """Why a feed is refused; nothing where it is taken."""
    try:
        judged(plan, run, feed, status)
    except Refused as why:
        return str(why)
    return ""


def cases():
    """Plan, run, feed and the rule that refuses it (none where it is lawful), each with what it is."""
    root = suite()
    free, thread = Plan(root, True, "concurrent", "concurrent"), Plan(root, False, "same_thread", "same_thread")
    two, one, fast, tolerant = Run(2), Run(2), Run(2, True), Run(2, True, 1)
    feed = same_thread(LAWFUL)
    in_turn = moved(f"w1 started {U}", f"w1 finished {T} SUCCESSFUL")
    ordered = changed(feed, in_turn)
    yield "a lawful feed of two workers", free, two, LAWFUL, ""
    yield "a lawful feed of one thread", thread, one, ordered, ""
    yield "a lawful feed of a run that fails fast", free, fast, CANCELLED, ""
    yield "a lawful feed of a run that tolerates a failure", free, tolerant, TOLERATED, ""
    yield "the same where none is tolerated", free, fast, TOLERATED, "skips"
    yield "the same where two are tolerated", free, Run(2, True, 2), TOLERATED, "skips"
    limited = Plan(limited_suite(), True, "concurrent", "concurrent")
    yield "a lawful feed of two holders of a limited lock", limited, two, LIMITED, ""
    for what, rule, change in LIMITED_MISTAKES:
        yield what, limited, two, changed(LIMITED, change), rule
    for what, rule, change in MISTAKES:
        yield what, free, two, changed(LAWFUL, change), rule
    for what, rule, change in THREAD_MISTAKES:
        yield what, thread, one, changed(ordered, change), rule
    for what, rule, change in FAST_MISTAKES:
        yield what, free, fast, changed(CANCELLED, change), rule
    for what, rule, change in TOLERATED_MISTAKES:
        yield what, free, tolerant, changed(TOLERATED, change), rule


def failures():
    """What the reader judges wrongly, and how many feeds it was given."""
    found, count = [], 0
    for what, plan, run, feed, rule in cases():
        count += 1
        said = complaint(plan, run, feed)
        if said.split(":")[0] != rule:
            found.append(f"{what}: {said or 'taken'}, and {rule or 'nothing'} is wanted")
    count += 1
    root = suite()
    if not complaint(Plan(root, True, "concurrent", "concurrent"), Run(2), LAWFUL, 0).startswith("status:"):
        found.append("another status of the program: taken")
    return found, count
