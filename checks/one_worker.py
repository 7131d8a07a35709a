"""The feed of one worker that runs a suite in its order, as docs/FORMATS.md has it."""

from reports import printed


class OneWorker:
    """Runs a plan, and stops after some failures, if a number of them is given."""

    def __init__(self, plan, most=None):
        self.plan = plan
        self.most = most
        self.failures = 0
        self.lines = []

    def tell(self, *words):
        """A line of the feed; an empty text is left out."""
        self.lines.append(" ".join(["w1", *(word for word in words if word)]))

    def skipped(self, node):
        """Whether a node is not run, and why."""
        if node.disabled:
            return True, printed(node.verdict.text)
        return self.most is not None and self.failures >= self.most, "cancelled"

    def run(self, node):
        """Runs a node and what is below it."""
        if node.word == "dyn":
            self.tell("registered", node.id)
        is_skipped, why = self.skipped(node)
        if is_skipped:
            self.tell("skipped", node.id, why)
            return
        self.tell("started", node.id)
        self.run_below(node)
        status, text = self.plan.ends[node]
        self.failures += status == "FAILED"
        self.tell("finished", node.id, status, printed(text) if status != "SUCCESSFUL" else "")

    def run_below(self, node):
        """Runs what is below a node, unless its before-body ends it."""
        if self.plan.is_stopped(node):
            return
        for child in self.plan.children(node):
            if child.word != "dyn" or self.plan.is_registered(child):
                self.run(child)


def feed_of(plan, most=None):
    """The feed of such a run."""
    worker = OneWorker(plan, most)
    worker.tell("plan started")
    for engine in plan.children(plan.root):
        worker.run(engine)
    worker.tell("plan finished")
    return "".join(f"{line}\n" for line in worker.lines)
