"""A small reader of feeds: it judges one by the definitions of its plan, and by nothing that the program says of itself."""

import re
from collections import Counter
from dataclasses import dataclass

from plans import conflict

LINE = re.compile(
    r"w(?P<worker>[1-9][0-9]*) (?:"
    r"plan (?P<plan>started|finished)"
    r"|(?P<bare>started|registered) (?P<of>[^ ]+)"
    r"|skipped (?P<skipped>[^ ]+)(?: (?P<reason>.+))?"
    r"|finished (?P<finished>[^ ]+) (?P<status>SUCCESSFUL|ABORTED|FAILED)(?: (?P<text>.+))?"
    r")"
)


class Refused(Exception):
    """A feed that breaks a rule; its first word names the rule."""


@dataclass
class Event:
    kind: str
    node: object
    worker: int
    status: str = ""
    text: str = ""


@dataclass
class Run:
    """What was asked of a run: how many workers, whether it fails fast, and how many failures it then tolerates."""

    workers: int
    fail_fast: bool = False
    tolerated: int = 0


def event_of(plan, line):
    """The event of a line."""
    found = LINE.fullmatch(line)
    if not found:
        raise Refused(f"lines: {line!r} is no line of a feed")
    worker = int(found["worker"])
    if found["plan"]:
        status = "SUCCESSFUL" if found["plan"] == "finished" else ""
        return Event(found["plan"], plan.root, worker, status)
    name = found["of"] or found["skipped"] or found["finished"]
    node = plan.by_id.get(name)
    if node is None or node is plan.root:
        raise Refused(f"lines: the plan has no node {name}")
    if found["bare"]:
        return Event(found["bare"], node, worker)
    if found["skipped"]:
        return Event("skipped", node, worker, "", found["reason"] or "")
    return Event("finished", node, worker, found["status"], found["text"] or "")


def events_of(plan, feed):
    """The events of a feed, line by line."""
    if feed and not feed.endswith("\n"):
        raise Refused("lines: the last line has no end")
    return [event_of(plan, line) for line in feed.split("\n")[:-1]]


class Reader:
    """Reads the events of a feed in their order, and keeps what stands before each."""

    def __init__(self, plan, run):
        self.plan = plan
        self.run = run
        self.seen = {}
        self.running = {}
        # how many nodes hold each limited lock
        self.holders = Counter()
        # how many nodes failed; of how many of them the worker told more after; of each worker whether its last event is a
        # failure, and of how many it knew at that event
        self.failures = self.passed_failures = 0
        self.last_failed = {}
        self.known_to = Counter()

    def stands(self, kind, node):
        return (kind, node) in self.seen

    def settled(self, node):
        return self.stands("finished", node) or self.stands("skipped", node)

    def is_ended(self, node):
        """Whether a node is settled, or is a spare that nobody registered."""
        return self.settled(node) or (node.word == "dyn" and not self.stands("registered", node))

    def once(self, event):
        """Each kind once a node; a start or a skip, not both; a finish behind its start."""
        node = event.node
        if self.stands(event.kind, node):
            raise Refused(f"once: {event.kind} stands twice for {node.id or 'the plan'}")
        if event.kind in ("started", "skipped") and (self.stands("started", node) or self.settled(node)):
            raise Refused(f"once: {node.id} is both started and skipped")
        if event.kind == "finished" and not self.stands("started", node):
            raise Refused(f"once: {node.id} is finished without a start")
        if not 1 <= event.worker <= self.run.workers:
            raise Refused(f"once: there is no worker {event.worker}")

    def tree_order(self, event):
        """A start precedes, and a finish follows, all that stands for what is below."""
        for above in event.node.ancestors():
            if not self.stands("started", above):
                raise Refused(f"order: {event.node.id} is told of before {above.id or 'the plan'} starts")
            if self.stands("finished", above):
                raise Refused(f"order: {event.node.id} is told of behind the finish of {above.id or 'the plan'}")

    def spares(self, event):
        """A spare is registered first, and its factory's spares are registered in their order."""
        node = event.node
        if node.word != "dyn":
            if event.kind == "registered":
                raise Refused(f"spares: {node.id} is registered and is no spare")
            return
        if event.kind != "registered":
            if not self.stands("registered", node):
                raise Refused(f"spares: {node.id} is told of before it is registered")
            return
        for elder in node.parent.children[: node.parent.children.index(node)]:
            if not self.stands("registered", elder):
                raise Refused(f"spares: {node.id} is registered before {elder.id}")

    def skips(self, event):
        """Only disabled nodes are skipped, and in a run that fails fast what follows more failures than it tolerates."""
        node = event.node
        if event.kind == "skipped" and not node.disabled:
            if not self.run.fail_fast or self.failures <= self.run.tolerated:
                raise Refused(f"skips: {node.id} is skipped and is not disabled")
            if event.text != "cancelled":
                raise Refused(f"skips: {node.id} is cancelled with the text {event.text!r}")
        if event.kind == "skipped" and node.disabled and event.text != node.verdict.text:
            raise Refused(f"skips: {node.id} is skipped with the text {event.text!r}")
        if event.kind == "started" and node.disabled:
            raise Refused(f"skips: {node.id} is disabled and is started")
        knows_too_many = self.known_to[event.worker] > self.run.tolerated
        if event.kind == "started" and self.run.fail_fast and knows_too_many:
            raise Refused(f"skips: worker {event.worker} starts {node.id} behind too many failures that it knew of")
        for above in node.ancestors():
            if self.stands("skipped", above):
                raise Refused(f"skips: {node.id} is told of below the skipped {above.id}")

    def stops(self, event):
        """Nothing is told of what is below a container that its before-body ended."""
        for above in event.node.ancestors():
            if self.plan.is_stopped(above):
                raise Refused(f"stops: {event.node.id} is told of below {above.id}, whose before-body ends it")

    def finishes(self, event):
        """A container finishes once its children are settled."""
        node = event.node
        if event.kind != "finished" or self.plan.is_stopped(node):
            return
        for child in self.plan.children(node):
            if not self.is_ended(child):
                raise Refused(f"finishes: {node.id or 'the plan'} is finished before {child.id}")

    def registers_all(self, event):
        """A factory finishes once it has registered as many spares as it asks for, or all."""
        node = event.node
        if event.kind != "finished" or node.word != "factory":
            return
        wanted = min(self.plan.pulls(node), len(node.children))
        found = sum(1 for spare in node.children if self.stands("registered", spare))
        if found != wanted:
            raise Refused(f"finishes: {node.id} is finished with {found} spares, and {wanted} are asked for")

    def same_thread(self, event):
        """What runs in its parent's thread is begun by the parent's worker, behind its elder siblings."""
        node = event.node
        above = node.parent
        if above is None or self.plan.modes[node] != "same_thread":
            return
        if event.kind != "finished" and event.worker != self.seen[("started", above)].worker:
            raise Refused(f"thread: {node.id} is begun by worker {event.worker}, and not by its parent's")
        for elder in self.plan.children(above):
            if elder is node:
                break
            if self.plan.modes[elder] == "same_thread" and not self.settled(elder):
                raise Refused(f"thread: {node.id} is told of before {elder.id} is settled")

    def locks(self, event):
        """Nodes whose declared locks conflict never run at the same time, unless one is below the other."""
        node = event.node
        if event.kind == "finished":
            self.running.pop(node, None)
        if event.kind != "started":
            return
        above = set(node.ancestors())
        for other in self.running:
            if other not in above and self.excludes(node, other):
                raise Refused(f"locks: {node.id} starts while {other.id} runs")
        self.running[node] = True

    def limits(self, event):
        """No more nodes hold a lock at once than its limit says."""
        for key in self.plan.root.limits.keys() & self.plan.held[event.node].keys():
            self.holders[key] += {"started": 1, "finished": -1}.get(event.kind, 0)
            if self.holders[key] > self.plan.root.limits[key]:
                raise Refused(f"limits: {event.node.id} is one holder of {key} too many")

    def excludes(self, one, other):
        """Whether two nodes, neither above the other, may not overlap."""
        if conflict(self.plan.declared[one], self.plan.declared[other]):
            return True
        if "engine" not in (one.word, other.word):
            return False
        # An isolated node and another engine, since engines run one after the other.
        return one.isolated or other.isolated

    def ends(self, event):
        """A node that is finished has the status and the text that its replies give it."""
        if event.kind != "finished":
            return
        wanted = self.plan.ends[event.node]
        text = "" if wanted[0] == "SUCCESSFUL" else wanted[1]
        if (event.status, event.text) != (wanted[0], text):
            raise Refused(f"ends: {event.node.id} is {event.status} {event.text!r}, and not {wanted}")

    def take(self, event):
        """Judges an event by what stands before it."""
        if self.stands("finished", self.plan.root):
            raise Refused("order: something follows the plan's finish")
        for rule in (
            self.once,
            self.spares,
            self.tree_order,
            self.skips,
            self.stops,
            self.same_thread,
            self.finishes,
            self.registers_all,
            self.locks,
            self.limits,
            self.ends,
        ):
            rule(event)
        self.seen[(event.kind, event.node)] = event
        self.learn(event)

    def learn(self, event):
        """A worker that tells an event knows of its own failures, and of those after which their workers told more."""
        worker, fails = event.worker, event.status == "FAILED"
        self.failures += fails
        self.passed_failures += self.last_failed.get(worker, False)
        self.last_failed[worker] = fails
        self.known_to[worker] = self.passed_failures + fails

    def whole(self):
        """Whether all that had to be told was told, when the feed has ended."""
        if not self.stands("finished", self.plan.root):
            raise Refused("complete: the plan is not finished")
        for node in self.plan.nodes:
            above = list(node.ancestors())
            is_hidden = any(self.stands("skipped", at) or self.plan.is_stopped(at) for at in above)
            if not is_hidden and not self.is_ended(node):
                raise Refused(f"complete: {node.id} is not settled")
            if not self.run.fail_fast and self.plan.is_silent(node) != (not self.settled(node)):
                raise Refused(f"complete: {node.id} is settled and should be silent, or the other way round")


def judged(plan, run, feed, status):
    """Reads a feed and the exit status of its run; how many events there were. Raises Refused."""
    events = events_of(plan, feed)
    reader = Reader(plan, run)
    for event in events:
        reader.take(event)
    reader.whole()
    wanted = 1 if any(event.status == "FAILED" for event in events) else 0
    if status != wanted:
        raise Refused(f"status: the program ended with status {status}, and not {wanted}")
    return len(events)
