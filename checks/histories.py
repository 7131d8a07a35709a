#!/usr/bin/env python3
"""The lists of events by which the definitions of legal histories are tested, and what is to be said of each.

  checks/histories.py         compares the files that it writes with those in the tree
  checks/histories.py write   writes crates/event_history/proofs/Rows*.antt

The rows are checks/histories.txt, which says how to read them; to add one, add it there and write the files. What is
said of a row is found by history_rules.py. The prover finds by `refl` that the definitions say the same.
The last line is 'N passed, M failed': the files that are as they are written.
"""

import re
import sys
from pathlib import Path

sys.dont_write_bytecode = True

from history_rules import ABORTED, FAILED, PASSED, Event, Node, Plan, Reply, expected, judged, keeps_limits

HERE = Path(__file__).resolve().parent
PROOFS = HERE.parent / "crates" / "event_history" / "proofs"

VERDICTS = {"pass": PASSED, "abort": ABORTED, "fail": FAILED}
EVENTS = {
    "s": ("started", None),
    "k": ("skipped", None),
    "r": ("registered", None),
    "p": ("finished", PASSED),
    "a": ("finished", ABORTED),
    "f": ("finished", FAILED),
}
EVENT_WORDS = {
    ("started", None): "started",
    ("skipped", None): "skipped",
    ("registered", None): "registered",
    ("finished", PASSED): "finished",
    ("finished", ABORTED): "aborted",
    ("finished", FAILED): "failed",
}
KINDS = {"container": "Container", "test": "Test", "both": "ContainerAndTest"}
ROLES = {"": "Plain", "factory": "Factory", "spare": "Spare"}


# Reading the table.


def lines_of(text):
    """The lines that say something; one that begins with a space goes on with the line before it."""
    joined = []
    for line in text.splitlines():
        if line.startswith(" "):
            joined[-1] += " " + line.strip()
        elif line and not line.startswith("#"):
            joined.append(line)
    return [line.split(" ", 1) for line in joined]


def reply_of(word):
    """VERDICT, then ':TEXT' if it has one, then '*PULLS' if it asks for dynamic tests."""
    verdict, text, pulls = re.fullmatch(r"(pass|abort|fail)(?::(\w+))?(?:\*(\d+))?", word).groups()
    return Reply(VERDICTS[verdict], (text or "").replace("_", " "), int(pulls or 0))


def add_node(nodes, text):
    """PARENT KIND, then its role, jobs and marks, each a word."""
    parent, *words = text.split()
    node = Node(len(nodes), nodes[int(parent)])
    for word in words:
        name, _, value = word.partition("=")
        if name in KINDS:
            node.kind = name
        elif name in ("factory", "spare"):
            node.role = name
            node.kind = "test" if name == "spare" else node.kind
        elif name in ("body", "after"):
            setattr(node, name, [reply_of(reply) for reply in value.split("/")])
        elif name == "disabled":
            node.disabled = value
        elif name == "concurrent":
            node.concurrent = True
        elif name == "holds":
            node.holds = {key: mode == "rw" for key, _, mode in (lock.partition(":") for lock in value.split("/"))}
        else:
            raise SystemExit(f"no node has the word {word!r}")
    node.parent.children.append(node)
    nodes.append(node)


def event_of(word):
    """A letter, the node, and behind a dot the worker."""
    letter, node, worker = re.fullmatch(r"([skrpaf])(\d+)\.(\d+)", word).groups()
    kind, status = EVENTS[letter]
    return Event(kind, int(node), int(worker), status)


def row_of(text, feed):
    """A list of events, by parts of the feed and by single events."""
    events = []
    for word in text.split():
        first, dots, last = word.partition("..")
        events += feed[int(first or 1) - 1 : int(last)] if dots else [event_of(word)]
    return events


class Case:
    """A plan, with the lists of events that are judged by it."""

    def __init__(self, words):
        workers, *marks = words.split(", ")
        root = Node(0, None, concurrent="concurrent" in marks)
        tolerated = [int(mark.split()[1]) for mark in marks if mark.startswith("tolerates ")]
        limits = dict(mark.removeprefix("limit ").split("=") for mark in marks if mark.startswith("limit "))
        self.plan = Plan([root], int(workers.split()[0]), "fail fast" in marks, sum(tolerated))
        self.plan.limits = {key: int(limit) for key, limit in limits.items()}
        self.has_results = "results" in marks
        self.rows = []


def read_table(text):
    """The files, by name: what their plans are, and the cases."""
    files, feed = {}, []
    for word, rest in lines_of(text):
        if word == "file":
            name, about = rest.split(": ")
            files[name] = (about, [])
            continue
        cases = files[name][1]
        if word == "plan":
            cases.append(Case(rest))
        elif word == "tree":
            for node in rest.split(" | "):
                add_node(cases[-1].plan.nodes, node)
        elif word == "feed":
            feed = [event_of(event) for event in rest.split()]
        elif word == "rows":
            cases[-1].rows += [row_of(row, feed) for row in rest.split(" | ")]
        else:
            raise SystemExit(f"no line begins with {word!r}")
    return files


# Writing the files.


def listed(words):
    return " ∷ ".join([*words, "[]"])


def text_of(text):
    return f'(codes "{text}")' if text else "[]"


def optional(value):
    return "None" if value is None else f"(Some {value})"


def optional_text(text):
    return optional(None if text is None else text_of(text))


def reply_text(reply):
    return f"a_reply {reply.status} {text_of(reply.text)} {reply.pulls}"


def plan_text(plan, jobs):
    """The plan as a record; a job is named by its place in the list of all jobs."""
    numbers = {id(job): number for number, job in enumerate(jobs, 1)}
    nodes = [
        f"a_node {KINDS[node.kind]} {ROLES[node.role]} {optional(numbers.get(id(node.body)))}"
        f" {optional(numbers.get(id(node.after)))} {optional_text(node.disabled)}"
        for node in plan.nodes[1:]
    ]
    parents = [str(node.parent.number if node.parent else 0) for node in plan.nodes]
    modes = ["Concurrent" if node.concurrent else "SameThread" for node in plan.nodes]
    keys = sorted({key for node in plan.nodes for key in node.holds})
    held = [locks_text(node.holds) for node in plan.nodes] if keys else []
    limits = [str(plan.limits.get(key, 0)) for key in keys] if plan.limits else []
    return (
        f"record {{ tree = record {{ parents = {listed(parents)}; nodes = {listed(nodes)} }}; held = {listed(held)};"
        f" keys = {listed(map(text_of, keys))}; limits = {listed(limits)};"
        f" modes = {listed(modes)}; fail_fast = {str(plan.fail_fast).lower()}; tolerated = {plan.tolerated} }}"
    )


def locks_text(holds):
    """The locks that a node holds, in byte order of the keys."""
    locks = [f"a_lock {text_of(key)} {'ReadWrite' if holds[key] else 'Read'}" for key in sorted(holds)]
    return f"({listed(locks)})"


def end_text(end):
    """How a node is expected to end."""
    if isinstance(end, str):
        return end.capitalize()
    status, text = end
    return f"Finishes {status} {optional_text(text)}"


def answers(name, test, arguments, number, values):
    """The lemma that says what the test answers of each list."""
    wanted = listed([str(value).lower() for value in values])
    return f"{name}_{number} : map ({test} {arguments}) lists_{number} ≡ {wanted}\n{name}_{number} = refl\n"


def case_text(number, case):
    """A plan, the replies of its jobs, the lists, and what is said of each."""
    plan = case.plan
    jobs = [job for node in plan.nodes for job in (node.body, node.after) if job is not None]
    replies = [f"({job}, {listed(map(reply_text, these))})" for job, these in enumerate(jobs, 1)]
    rows = [
        "    (" + listed(f"{EVENT_WORDS[event.kind, event.status]} {event.node} {event.worker}" for event in row) + ")"
        for row in case.rows
    ]
    verdicts = [judged(plan, row) for row in case.rows]
    arguments = f"plan_{number} replies_{number} {plan.workers}"
    parts = [
        f"abbrev plan_{number} : PlanParts\nplan_{number} = {plan_text(plan, jobs)}\n",
        f"abbrev replies_{number} : ℕ → List Reply\nreplies_{number} = replies_in ({listed(replies)})\n",
        f"abbrev lists_{number} : List (List Event)\nlists_{number} =\n" + " ∷\n".join(rows) + " ∷ []\n",
        answers("in_order", "is_in_order", arguments, number, [in_order for _, in_order in verdicts]),
        answers("legal", "is_legal", arguments, number, [is_legal for is_legal, _ in verdicts]),
    ]
    if plan.limits:
        parts.append(answers("within", "is_within", f"plan_{number}", number, [keeps_limits(plan, row) for row in case.rows]))
    if case.has_results:
        nodes = listed([str(node.number) for node in plan.nodes])
        parts.append(
            f"expected_{number} : map (expected plan_{number} (λ job. first_of_all (replies_{number} job))) ({nodes})"
            f" ≡ {listed(map(end_text, expected(plan)))}\nexpected_{number} = refl\n"
        )
    return "\n".join(parts)


def head_text(about, cases):
    """What a file begins with: only the words that it uses."""
    has_factory = any(node.is_factory for case in cases for node in case.plan.nodes)
    has_results = any(case.has_results for case in cases)
    has_limits = any(case.plan.limits for case in cases)
    roles = "Plain, Factory, Spare" if has_factory else "Plain"
    of_expected = "use Rattle.event_history.specs.Expected.{Silent, Skips, Finishes, expected}\n" if has_results else ""
    words = "a_node, started, finished, aborted, failed, skipped, registered, a_reply, replies_in"
    words += ", first_of_all" if has_results else ""
    words += ", a_lock" if has_limits else ""
    of_locks = (
        "use Rattle.descriptor.specs.declared.lock_mode.LockMode.TheVariants.{Read, ReadWrite}\n" if has_limits else ""
    )
    of_limits = "use Rattle.event_history.proofs.DecidingLimits.{is_within}\n" if has_limits else ""
    says = f"What another writing of these definitions says of many lists of events on {about}: the tests agree."
    return f"""\
-- {says} Written by a program.
use Rattle.std.specs.Prelude.{{codes}}
use Rattle.std.specs.List.{{list_all}}
use Rattle.std.proofs.Common.{{◌≡◌, ℕ, true, false, List, [], ◌∷◌, Some, None, map, refl}}
use Rattle.descriptor.specs.declared.kind.Kind.TheVariants.{{Test, Container, ContainerAndTest}}
{of_locks}use Rattle.descriptor.specs.declared.mode.Mode.TheVariants.{{SameThread, Concurrent}}
use Rattle.descriptor.specs.declared.role.Role.TheVariants.{{{roles}}}
use Rattle.plan_events.specs.declared.event.Event.{{Event}}
use Rattle.plan_events.specs.declared.outcome.Reply.{{Reply}}
use Rattle.plan_events.specs.declared.status.Status.TheVariants.{{Successful, Aborted, Failed}}
use Rattle.resource_locks.specs.Plans.{{PlanParts}}
{of_expected}use Rattle.event_history.proofs.Deciding.{{is_legal}}
{of_limits}use Rattle.event_history.proofs.DecidingOrder.{{is_in_order}}
use Rattle.event_history.proofs.PlanTrees.{{is_plan_tree}}
use Rattle.event_history.proofs.RowWords.{{{words}}}
"""


def file_text(about, cases):
    plans = listed([f"plan_{number}" for number in range(1, len(cases) + 1)])
    trees = (
        "-- the trees are as asked of a plan, so that what the tests tell of legal histories holds of these\n"
        f"trees : list_all (λ (p : PlanParts). is_plan_tree p.tree) ({plans}) ≡ true\ntrees = refl\n"
    )
    texts = [case_text(number, case) for number, case in enumerate(cases, 1)]
    return "\n".join([head_text(about, cases), *texts, trees])


def main(words):
    if words not in ([], ["check"], ["write"]):
        raise SystemExit(__doc__)
    files = read_table((HERE / "histories.txt").read_text(encoding="utf-8"))
    passed = failed = 0
    for name, (about, cases) in files.items():
        path, wanted = PROOFS / f"Rows{name}.antt", file_text(about, cases)
        if words == ["write"]:
            path.write_text(wanted, encoding="utf-8")
        is_right = path.is_file() and path.read_text(encoding="utf-8") == wanted
        passed, failed = passed + is_right, failed + (not is_right)
        if not is_right:
            print(f"{path.name} is not what is written for it")
    print(f"{passed} passed, {failed} failed")
    return 1 if failed else 0


if __name__ == "__main__":
    sys.exit(main(sys.argv[1:]))
