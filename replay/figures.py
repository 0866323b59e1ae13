"""Outside the proof. Measures a run: what each role holds and uses over time, and how long its tasks wait.

The figures of a role include those of the roles below it, as its share does in the allocator. The root, "", is the whole cluster."""
from bisect import bisect_right
from collections import defaultdict

ROOT = ""
# The picture shows a mean for each of this many equal parts of the time.
PARTS = 192


def roles_above(role):
    """Returns the role, the roles above it, and the root."""
    parts = role.split("/")
    return ["/".join(parts[:count]) for count in range(len(parts), 0, -1)] + [ROOT]


def dominant(amounts, totals):
    """Returns the greatest fraction of the totals that the amounts are of any scalar."""
    share = 0.0
    for name, amount in amounts.items():
        if amount:
            share = max(share, amount / totals[name])
    return share


class Node:
    """What a role holds (offers and tasks) and uses (tasks) now, and the sums of that over the time until `at`."""

    __slots__ = ("held", "used", "at", "share", "use", "used_sums", "parts")

    def __init__(self, at):
        self.held, self.used, self.at = defaultdict(int), defaultdict(int), at
        self.share = self.use = 0.0
        self.used_sums = {}
        self.parts = [0.0] * PARTS


class Account:
    """The resources of a cluster over the time from `start` to `end`, in milliseconds. Amounts are in thousandths."""

    def __init__(self, start, end):
        self.start, self.end = start, end
        self.step = (end - start) / PARTS or 1.0
        self.totals, self.total_sums, self.totals_at = {}, {}, start
        self.nodes = {ROOT: Node(start)}
        self.paths, self.changes, self.at = {}, {}, start

    def nodes_of(self, role):
        nodes = self.paths.get(role)
        if nodes is None:
            nodes = self.paths[role] = [self.nodes.setdefault(it, Node(self.start)) for it in roles_above(role)]
        return nodes

    def settle(self, node, at):
        """Adds what the node holds and uses from its last change until `at` to its sums."""
        since = at - node.at
        if since <= 0:
            return
        node.share += dominant(node.held, self.totals) * since
        use = dominant(node.used, self.totals)
        if use:
            node.use += use * since
            sums = node.used_sums
            for name, amount in node.used.items():
                sums[name] = sums.get(name, 0) + amount * since
            begin = node.at - self.start
            part, last = int(begin / self.step), min(int((begin + since) / self.step), PARTS - 1)
            while part <= last:
                inside = min(begin + since, (part + 1) * self.step) - max(begin, part * self.step)
                node.parts[part] += use * max(inside, 0.0)
                part += 1
        node.at = at

    def changes_of(self, role, at):
        """Returns the changes of a role at a time: of what it holds, and of what it uses."""
        if at > self.at:
            self.apply()
            self.at = at
        changes = self.changes.get(role)
        if changes is None:
            changes = self.changes[role] = defaultdict(int), defaultdict(int)
        return changes

    def change(self, role, at, held, used, sign):
        """Adds the pairs (name, amount) of scalars to what a role holds and uses, or with the sign -1 takes them away."""
        holds, uses = self.changes_of(role, at)
        for name, amount in held:
            holds[name] += sign * amount
        for name, amount in used:
            uses[name] += sign * amount

    def accept(self, role, at, rest, used):
        """Takes what an accept leaves over from what a role holds, and adds what its tasks use to what it uses."""
        holds, uses = self.changes_of(role, at)
        for name, amount in rest:
            holds[name] -= amount
        for name, amount in used:
            uses[name] += amount

    def apply(self):
        """Applies the changes of the time `at`. Until time goes on, they are only collected."""
        for role, (held, used) in self.changes.items():
            for node in self.paths.get(role) or self.nodes_of(role):
                self.settle(node, self.at)
                for name, amount in held.items():
                    node.held[name] += amount
                for name, amount in used.items():
                    node.used[name] += amount
        self.changes.clear()

    def change_total(self, at, scalars, sign):
        """Adds an agent's scalars to the totals, or with the sign -1 takes them away."""
        self.apply()
        self.at = max(self.at, at)
        for node in self.nodes.values():
            self.settle(node, at)
        if at > self.totals_at:
            for name, amount in self.totals.items():
                self.total_sums[name] = self.total_sums.get(name, 0) + amount * (at - self.totals_at)
            self.totals_at = at
        for name, amount in scalars:
            self.totals[name] = self.totals.get(name, 0) + sign * amount

    def close(self):
        """Completes the sums at the end of the time."""
        self.change_total(self.end, (), 1)


def place_of(count, percent):
    """Returns the place of the nearest rank in a sorted list: of its first value that at least this percentage does not exceed."""
    return -(-count * percent // 100) - 1


def waiting(waits, unfinished):
    """Returns the median and the 95th percentile of waiting times, or None if there are none.

    `waits` are over, and the `unfinished` ones will last longer than they are given. So from the first unfinished wait on, values are
    lower bounds. Of an even number of waits the median is the mean of the two in the middle."""
    count = len(waits) + len(unfinished)
    if not count:
        return None
    first = bisect_right(sorted(waits), min(unfinished)) if unfinished else count
    both = sorted(waits + unfinished)
    high, p95 = count // 2, place_of(count, 95)
    middle = both[high] + both[place_of(count, 50)]
    return {
        "median": middle // 2 if middle % 2 == 0 else middle / 2,
        "median_is_lower_bound": high >= first,
        "p95": both[p95],
        "p95_is_lower_bound": p95 >= first,
    }


class Outcome:
    """What became of the tasks of a role: the waits of those that started and, until the end, of those that did not; and counts."""

    __slots__ = ("waits", "unfinished", "finished", "lost")

    def __init__(self):
        self.waits, self.unfinished = [], []
        self.finished = self.lost = 0


def outcomes(tasks, results):
    """Returns the outcome of each role. `results` yields for each task (role, start or None, until when it waited if it did not start,
    whether it finished, whether it was lost)."""
    own, found = {}, {}
    for task, (role, start, until, is_finished, is_lost) in zip(tasks, results, strict=True):
        outcome = own.get(role)
        if outcome is None:
            outcome = own[role] = Outcome()
        if start is None:
            outcome.unfinished.append(max(until - task.arrival, 0))
        else:
            outcome.waits.append(start - task.arrival)
            outcome.finished += is_finished
            outcome.lost += is_lost
    for role, outcome in own.items():
        for path in roles_above(role):
            there = found.setdefault(path, Outcome())
            there.waits += outcome.waits
            there.unfinished += outcome.unfinished
            there.finished += outcome.finished
            there.lost += outcome.lost
    return found


def figures(account, found):
    """Returns the figures of each role of a closed account, by role."""
    time = account.end - account.start
    result = {}
    for role in sorted({*account.nodes, *found}):
        node, outcome = account.nodes.get(role) or Node(account.start), found.get(role) or Outcome()
        use = {
            name: {"mean": amount / time / 1000, "fraction": amount / account.total_sums[name]}
            for name, amount in sorted(node.used_sums.items()) if amount
        }
        result[role] = {
            "tasks": len(outcome.waits) + len(outcome.unfinished),
            "started": len(outcome.waits),
            "finished": outcome.finished,
            "lost": outcome.lost,
            "waiting_ms": waiting(outcome.waits, outcome.unfinished),
            "finished_per_hour": outcome.finished * 3_600_000 / time if time else 0.0,
            "share": node.share / time if time else 0.0,
            "use": {"share": node.use / time if time else 0.0, "resources": use},
        }
    return result


def series(account, role):
    """Returns the mean dominant fraction that the tasks of a role use, for each of the equal parts of the time."""
    node = account.nodes.get(role)
    return [it / account.step for it in node.parts] if node else [0.0] * PARTS
