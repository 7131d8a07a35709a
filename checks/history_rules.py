"""Which lists of events are legal histories of a plan, in its order, and how each node is expected to end.

It is written a second time here, by looking at what stands before each event, and knows nothing of the definitions
of event_history but what they mean: docs/HEADLINE.md and crates/event_history/DEFINITIONS.md say it in words.
"""

from dataclasses import dataclass, field

PASSED, ABORTED, FAILED = "Successful", "Aborted", "Failed"
TOO_MANY = "too many dynamic tests"


@dataclass(frozen=True)
class Reply:
    """What a job may answer; pulls are how many dynamic tests a factory asks for."""

    status: str
    text: str = ""
    pulls: int = 0


@dataclass
class Node:
    """A node of a plan; body and after are the replies that the jobs may give, None if there is no such job. It holds keys,
    each with whether it writes it."""

    number: int
    parent: "Node | None"
    kind: str = "container"
    role: str = ""
    body: "list[Reply] | None" = None
    after: "list[Reply] | None" = None
    disabled: "str | None" = None
    concurrent: bool = False
    holds: "dict[str, bool]" = field(default_factory=dict)
    children: "list[Node]" = field(default_factory=list)

    def above(self):
        """The nodes that it lies below, from its parent up."""
        node = self.parent
        while node is not None:
            yield node
            node = node.parent

    @property
    def is_factory(self):
        return self.role == "factory"

    @property
    def is_spare(self):
        return self.role == "spare"

    @property
    def pulls_spares(self):
        return self.is_factory and self.body is not None

    @property
    def is_stoppable(self):
        """Whether a body of it is run before its children, and may end it before them."""
        return self.kind != "test" and not self.is_factory and self.body is not None

    @property
    def last_job(self):
        """The job whose answer a node that was not stopped ends with: an after-body is run behind children."""
        is_container = self.kind != "test" and not self.is_factory
        return self.after if is_container and self.children and self.after is not None else self.body

    def elders(self):
        """Its parent's children before it."""
        if self.parent is None:
            return []
        return self.parent.children[: self.parent.children.index(self)]

    def goes_first(self, younger):
        """Whether it has to be settled before a younger sibling is told of."""
        return not self.concurrent and (not younger.concurrent or (self.is_spare and younger.is_spare))


@dataclass
class Plan:
    nodes: "list[Node]"
    workers: int
    fail_fast: bool
    tolerated: int = 0
    limits: "dict[str, int]" = field(default_factory=dict)


@dataclass(frozen=True)
class Event:
    """What happened to a node, and the worker; only a finish has a status."""

    kind: str
    node: int
    worker: int
    status: "str | None" = None


class History:
    """A list of events, judged event by event by what stands before each."""

    def __init__(self, plan):
        self.plan = plan
        self.seen = {}
        self.told_below = set()
        self.events = []

    def stands(self, kind, node):
        return (kind, node.number) in self.seen

    def settled(self, node):
        return self.stands("finished", node) or self.stands("skipped", node)

    def registered_spares(self, factory):
        return sum(spare.is_spare and self.stands("registered", spare) for spare in factory.children)

    def failures(self):
        """How many nodes have failed."""
        return sum(event.status == FAILED for event in self.events)

    def known_to(self, worker):
        """How many failures a worker knew of at its last event: its own, and those after which their worker told more."""
        last = max((place for place, event in enumerate(self.events) if event.worker == worker), default=-1)
        told = self.events[: last + 1]
        return sum(
            event.status == FAILED
            and (event.worker == worker or any(later.worker == event.worker for later in told[place + 1 :]))
            for place, event in enumerate(told)
        )

    def is_lawful(self, event):
        """Workers are those of the run; the plan itself starts, and finishes successfully."""
        root_may = event.kind == "started" or (event.kind == "finished" and event.status == PASSED)
        return 1 <= event.worker <= self.plan.workers and (event.node > 0 or root_may)

    def comes_once(self, event, node):
        """Each kind stands once a node; it is started or skipped, and a finish follows its start."""
        other = {"started": "skipped", "skipped": "started"}.get(event.kind)
        is_new = not self.stands(event.kind, node) and not (other and self.stands(other, node))
        return is_new and (event.kind != "finished" or self.stands("started", node))

    def fits_tree(self, node):
        """What a node lies below was started, and was not skipped or finished."""
        return all(self.stands("started", above) and not self.settled(above) for above in node.above())

    def keeps_spares(self, event, node):
        """The spares of a factory with a job are registered in their order, each before all else of it."""
        if event.kind != "registered":
            return not node.is_spare or self.stands("registered", node)
        return node.is_spare and node.parent.pulls_spares and all(self.stands("registered", e) for e in node.elders())

    def may_skip_or_start(self, event, node):
        """A disabled node is skipped. Failing fast, so may others be after more failures than are tolerated, and who knew
        of these at its last event starts no more."""
        if event.kind == "skipped":
            return node.disabled is not None or (self.plan.fail_fast and self.failures() > self.plan.tolerated)
        if event.kind == "started":
            return node.disabled is None and not (
                self.plan.fail_fast and self.known_to(event.worker) > self.plan.tolerated
            )
        return True

    def may_finish(self, event, node):
        """A node finishes as its jobs answered, after its children unless its body stopped it before them."""
        if event.kind != "finished":
            return True
        if node.is_stoppable and event.status != PASSED and node.number not in self.told_below:
            return any(reply.status == event.status for reply in node.body)
        are_settled = all(
            self.settled(child) or (child.is_spare and not self.stands("registered", child)) for child in node.children
        )
        return are_settled and self.ends_last(event, node)

    def ends_last(self, event, node):
        """The status of a node that was not stopped is one that its last job may have answered."""
        job = node.last_job
        if job is None:
            return event.status == PASSED
        if node.is_factory:
            spares, found = sum(child.is_spare for child in node.children), self.registered_spares(node)
            asks_too_many = found == spares and any(reply.pulls > spares for reply in job)
            return (asks_too_many and event.status == FAILED) or any(
                reply.pulls == found and reply.status == event.status for reply in job
            )
        goes_on = not node.is_stoppable or any(reply.status == PASSED for reply in node.body)
        may_end_so = not node.is_stoppable or job is node.after or event.status == PASSED
        return goes_on and may_end_so and any(reply.status == event.status for reply in job)

    def is_legal_next(self, event):
        """Whether a legal history may go on with this event."""
        node = self.plan.nodes[event.node]
        return (
            self.is_lawful(event)
            and self.comes_once(event, node)
            and self.fits_tree(node)
            and self.keeps_spares(event, node)
            and self.may_skip_or_start(event, node)
            and self.may_finish(event, node)
        )

    def is_ordered_next(self, event):
        """A parent's thread begins its children itself, one after the other."""
        node = self.plan.nodes[event.node]
        if event.kind == "finished":
            return True
        has_turn = all(self.settled(elder) for elder in node.elders() if elder.goes_first(node))
        if node.parent is None or node.concurrent or not self.stands("started", node.parent):
            return has_turn
        return has_turn and self.seen["started", node.parent.number].worker == event.worker

    def take(self, event):
        self.seen[event.kind, event.node] = event
        self.told_below.update(above.number for above in self.plan.nodes[event.node].above())
        self.events.append(event)


def judged(plan, events):
    """Whether a list of events is a legal history, and whether it is one in the order of the plan."""
    history, is_ordered = History(plan), True
    for event in events:
        if not history.is_legal_next(event):
            return False, False
        is_ordered = is_ordered and history.is_ordered_next(event)
        history.take(event)
    return True, is_ordered


def keeps_limits(plan, events):
    """Whether after each event at most as many nodes hold a key as its limit says: those that started and did not finish."""
    started, finished = set(), set()
    for event in events:
        {"started": started, "finished": finished}.get(event.kind, set()).add(event.node)
        for key, limit in plan.limits.items():
            if sum(key in plan.nodes[node].holds for node in started - finished) > limit:
                return False
    return True


def expected(plan):
    """How each node ends if each job gives its first reply: 'silent', 'skips', or a status and a text."""
    ends = []
    for node in plan.nodes:
        ends.append("silent" if node.parent is not None and is_hidden(node, ends) else own_end(node))
    return ends


def is_hidden(node, ends):
    """Whether nothing is told of a node: so of what is below one that is skipped, hidden, or stopped by its body."""
    above = node.parent
    if ends[above.number] in ("silent", "skips") or (above.is_stoppable and above.body[0].status != PASSED):
        return True
    rank = sum(elder.is_spare for elder in node.elders())
    return node.is_spare and (not above.pulls_spares or above.body[0].pulls <= rank)


def own_end(node):
    """How a node ends that is told of."""
    if node.disabled is not None:
        return "skips"
    if node.pulls_spares and node.body[0].pulls > sum(child.is_spare for child in node.children):
        return FAILED, TOO_MANY
    stops = node.is_stoppable and node.body[0].status != PASSED
    job = node.body if stops else node.last_job
    return (PASSED, None) if job is None else (job[0].status, job[0].text)
