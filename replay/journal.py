"""Outside the proof. Reads a journal, and takes the demand of each client out of it: the arrival, size and duration of its tasks, and how it
answers offers. README.md explains the model."""
import json
from bisect import bisect_right
from collections import defaultdict
from operator import itemgetter

from errors import BadInput
from figures import Account
from resources import fits, read, scalars_of

# How an offer ended in the journal: the framework answered it, it was rescinded, or something else ended it.
ANSWERED, RESCINDED, UNANSWERED = "answered", "rescinded", "unanswered"
# The order of events that happen at the same time, after the same number of cycles.
FINISH, EVENT, ANSWER, CYCLE = range(4)
LAST = 1 << 62
DEFAULT_REFUSE = 5000
TIMED = {"cycle", "accept", "decline"}
# This many lines of a journal are read at a time.
CHUNK = 20_000

# A key says when something happens: (time, cycles before it at this time, one of the ranks above, position).
BEGIN = (-1, 0, 0, 0)


def after_all(at):
    """Returns the key after everything that happens at a time."""
    return at, LAST, 0, 0


class Task:
    """A task that the journal starts. `finish` is (milliseconds after the start, cycles at that time), or None if the journal shows no
    finish; `ran` is how long it ran in the journal; `place` is the key of its arrival and `arrival` its time."""

    __slots__ = ("index", "client", "bundle", "use", "start", "phase", "agent", "finish", "ran", "is_lost", "place", "arrival")

    def __init__(self, index, client, use, start, phase, agent):
        self.index, self.client, self.bundle, self.use, self.start, self.phase, self.agent = index, client, read(use), use, start, phase, agent
        self.finish, self.ran, self.is_lost, self.place, self.arrival = None, None, False, None, None


class Habit:
    """How a client dealt with one offer of the journal: after how many milliseconds, after how many cycles of the same time, as which of
    all answers, and for how long it refuses what it declines or leaves over."""

    __slots__ = ("made", "delay", "phase", "order", "kind", "decline", "accept")

    def __init__(self, made):
        self.made, self.delay, self.phase, self.order, self.kind, self.decline, self.accept = made, None, 0, 0, UNANSWERED, None, None


class Client:
    """A framework in one of its roles: its habits in the order of its offers, and what the journal says of when it had nothing waiting."""

    def __init__(self, framework, role):
        self.framework, self.role = framework, role
        self.made, self.habits, self.log = [], [], []
        self.most_tasks, self.is_suppressed = 1, False
        self.decline, self.accept = None, None

    def habit(self, made):
        """Returns its habit at the last of its offers that was not made after `made`, or at its first one; None if it got none."""
        return self.habits[max(bisect_right(self.made, made) - 1, 0)] if self.habits else None

    def complete(self, end):
        """Fills in what the journal does not show: an offer that nobody answered is held longer than it was outstanding."""
        decline = next((it.decline for it in self.habits if it.decline is not None), DEFAULT_REFUSE)
        accept = next((it.accept for it in self.habits if it.accept is not None), DEFAULT_REFUSE)
        delay = 0
        for habit in self.habits:
            if habit.kind is UNANSWERED:
                was_open = end - habit.made[0] if habit.delay is None else habit.delay
                habit.delay, habit.phase = max(delay, was_open + 1), 0
            else:
                delay = habit.delay
            decline = habit.decline = decline if habit.decline is None else habit.decline
            accept = habit.accept = accept if habit.accept is None else habit.accept


class Offer:
    """An outstanding offer."""

    __slots__ = ("client", "habit", "agent", "bundle")

    def __init__(self, client, habit, agent, bundle):
        self.client, self.habit, self.agent, self.bundle = client, habit, agent, bundle


class State:
    """The rows of a saved state that a replay needs."""

    def __init__(self, path):
        self.clock, self.agents, self.frameworks, self.offers, self.tasks = 0, {}, {}, [], []
        if path is None:
            return
        with open(path, "rb") as lines:
            for line in lines:
                row = json.loads(line)
                match row["row"]:
                    case "state":
                        self.clock = row["clock"]
                    case "agent":
                        self.agents[row["agent"]] = row["total"]
                    case "framework":
                        self.frameworks[row["framework"]] = {it["role"]: it["suppressed"] for it in row["clients"]}
                    case "offer":
                        self.offers.append(row)
                    case "task":
                        self.tasks.append(row)


def accepted_events(lines, progress):
    """Yields the line number, the event and the reply of each event that the allocator accepted."""
    for begin in range(0, len(lines), CHUNK):
        progress(begin)
        replies = lines[begin + 1:begin + CHUNK:2]
        there = [place for place, reply in enumerate(replies) if not reply.startswith('{"name"')]
        # Parsing one text with many events is faster than parsing many texts.
        events = json.loads("[" + ",".join([lines[begin + 2 * place] for place in there]) + "]")
        for place, event in zip(there, events):
            yield begin + 2 * place + 1, event, replies[place]


class Journal:
    """The events of a journal, and the demand in it.

    `events` are (key, name, event, line number) of everything that is not an answer or a finish of a framework's task; `tasks` are in the
    order of their starts; `account` has measured the journal itself."""

    def __init__(self, name, lines, state, progress):
        """Reads the lines of a journal that `drf check` has found good. Raises BadInput if it has no cycle."""
        self.state, self.name = state, name
        self.clients, self.tasks, self.events = {}, [], []
        self.agents, self.frameworks = list(state.agents), set(state.frameworks)
        self._running, self._offers, self._ended = {}, {}, 0
        self._on_agent, self._of_framework, self._totals = defaultdict(dict), defaultdict(dict), {}
        self._roles = {}
        # The tasks in the state have no start in the journal.
        self._clock, self._cycles = state.clock, 0
        self.start = None
        waiting = []
        self.count = len(lines) // 2
        for number, event, reply in accepted_events(lines, progress):
            kind = event["event"]
            if kind in TIMED:
                at = event["at"]
                if at > self._clock:
                    self._clock, self._cycles = at, 0
                if self.start is None:
                    self.start = self._clock
                    self._begin()
                if waiting:
                    for it in waiting:
                        self._take(*it, None)
                    waiting.clear()
                self._take(number, event, reply)
            elif kind != "report":
                waiting.append((number, event))
        if self.start is None:
            raise BadInput(f"{name}: the journal has no cycle, so there is nothing to replay")
        for it in waiting:
            self._take(*it, None)
        self.end = self._clock
        self.account.end = self.end
        self.account.close()
        self._complete()

    def _begin(self):
        # The end is known only when everything is read; the parts of the picture are not measured for the journal itself.
        self.account = Account(self.start, LAST)
        for agent, total in self.state.agents.items():
            self._totals[agent] = read(total).scalars
            self.account.change_total(self.start, self._totals[agent], 1)
        for framework, roles in self.state.frameworks.items():
            self._register(framework, roles, BEGIN)
            for role, is_suppressed in roles.items():
                self.clients[framework, role].is_suppressed = is_suppressed
        for row in self.state.offers:
            self._offer(row, (self.state.clock, -1), 0)
        for row in self.state.tasks:
            task = Task(None, self.clients[row["framework"], row["role"]], row["use"], None, 0, row["agent"])
            self._run(row["framework"], row["task"], task)
            self.account.change(row["role"], self.start, task.bundle.scalars, task.bundle.scalars, 1)

    def _set_roles(self, framework, roles, place):
        """Registers a framework in the roles that it had not. In a role that it leaves, it has nothing waiting."""
        had = self._roles[framework]
        self._register(framework, [it for it in roles if it not in had], place)
        self._roles[framework] = set(roles)
        for role in had.difference(roles):
            self.clients[framework, role].log.append(("left", self._clock, None, 0))

    def _register(self, framework, roles, place):
        self.frameworks.add(framework)
        self._roles[framework] = set(roles)
        for role in roles:
            client = self.clients.setdefault((framework, role), Client(framework, role))
            client.is_suppressed = False
            client.log.append(("begin", place))

    def _offer(self, offer, made, place):
        client = self.clients[offer["framework"], offer["role"]]
        habit = Habit((*made, place))
        client.made.append(habit.made)
        client.habits.append(habit)
        bundle = read(offer["resources"])
        number = offer["offer"]
        self._offers[number] = Offer(client, habit, offer["agent"], bundle)
        self._on_agent[offer["agent"]][number] = None
        self._of_framework[offer["framework"]][number] = None
        self.account.change(client.role, max(made[0], self.start), bundle.scalars, (), 1)

    def _end_offer(self, number, kind):
        """Removes an outstanding offer, notes how it ended, and returns it."""
        offer = self._offers.pop(number)
        del self._on_agent[offer.agent][number]
        del self._of_framework[offer.client.framework][number]
        habit = offer.habit
        self._ended += 1
        habit.kind, habit.delay, habit.order = kind, self._clock - habit.made[0], self._ended
        habit.phase = self._cycles if habit.delay else self._cycles - habit.made[1] - 1
        return offer

    def _run(self, framework, name, task):
        self._running[framework, name] = task
        self._on_agent[task.agent][framework, name] = None
        self._of_framework[framework][framework, name] = None

    def _end_task(self, place, is_lost):
        task = self._running.pop(place)
        del self._on_agent[task.agent][place]
        del self._of_framework[place[0]][place]
        self.account.change(task.client.role, self._clock, task.bundle.scalars, task.bundle.scalars, -1)
        if task.start is not None:
            task.ran = self._clock - task.start
            task.is_lost = is_lost
            phase = self._cycles if task.ran else self._cycles - task.phase
            task.finish = None if is_lost else (task.ran, phase)
        return task

    def _lose(self, places):
        """Ends everything at these places: offers by number, tasks by framework and name."""
        for place in list(places):
            if isinstance(place, tuple):
                self._end_task(place, True)
            else:
                offer = self._end_offer(place, UNANSWERED)
                self.account.change(offer.client.role, self._clock, offer.bundle.scalars, (), -1)

    def _take(self, number, event, reply):
        """Takes in an accepted event at the time of the clock. Its line has this number."""
        kind, at = event["event"], self._clock
        key = (at, self._cycles, EVENT, number)
        match kind:
            case "accept":
                self._accept(event)
                return
            case "decline":
                offer = self._end_offer(event["offer"], ANSWERED)
                client = offer.client
                client.decline = offer.habit.decline = event.get("refuse_ms", DEFAULT_REFUSE)
                offer.habit.accept = client.accept
                client.log.append(("left", at, offer.bundle.amounts, 0))
                self.account.change(client.role, at, offer.bundle.scalars, (), -1)
                return
            case "rescind":
                offer = self._end_offer(event["offer"], RESCINDED)
                self.account.change(offer.client.role, at, offer.bundle.scalars, (), -1)
                return
            case "cycle":
                self._cycle(key, number, reply)
                return
            case "finish":
                task = self._end_task((event["framework"], event["task"]), False)
                if task.start is not None:
                    return
            case "add_agent" | "set_agent":
                agent = event["agent"]
                if kind == "add_agent" and agent not in self.agents:
                    self.agents.append(agent)
                self.account.change_total(at, self._totals.get(agent, ()), -1)
                self._totals[agent] = read(event["total"]).scalars
                self.account.change_total(at, self._totals[agent], 1)
            case "remove_agent":
                agent = event["agent"]
                self._lose(self._on_agent.get(agent, {}))
                self.account.change_total(at, self._totals.pop(agent), -1)
            case "deactivate_agent":
                self._lose([it for it in self._on_agent.get(event["agent"], {}) if not isinstance(it, tuple)])
            case "add_framework":
                self._register(event["framework"], event["roles"], (at, self._cycles, EVENT, number + 0.5))
            case "set_framework":
                self._set_roles(event["framework"], event["roles"], (at, self._cycles, EVENT, number + 0.5))
            case "remove_framework":
                self._lose(self._of_framework.get(event["framework"], {}))
            case "suppress":
                client = self.clients[event["framework"], event["role"]]
                client.is_suppressed = True
                client.log.append(("left", at, None, 0))
            case "revive":
                client = self.clients[event["framework"], event["role"]]
                client.log.append(("begin" if client.is_suppressed else "revive", (at, self._cycles, EVENT, number + 0.5)))
                client.is_suppressed = False
        self.events.append((key, kind, event, number))

    def _accept(self, event):
        at = self._clock
        offer = self._end_offer(event["offer"], ANSWERED)
        client = offer.client
        client.accept = offer.habit.accept = event.get("refuse_ms", DEFAULT_REFUSE)
        offer.habit.decline = client.decline
        started, used, bundle = [], {}, offer.bundle
        for it in event.get("tasks") or (event,):
            task = Task(len(self.tasks), client, it["use"], at, self._cycles, offer.agent)
            self._run(client.framework, it["task"], task)
            self.tasks.append(task)
            started.append(task)
            for key, amount in task.bundle.amounts.items():
                used[key] = used.get(key, 0) + amount
        rest = {key: amount - used.get(key, 0) for key, amount in bundle.amounts.items()}
        client.most_tasks = max(client.most_tasks, len(started))
        client.log.append(("start", started))
        client.log.append(("left", at, rest, len(started)))
        if bundle.is_plain:
            self.account.accept(client.role, at, rest.items(), used.items())
        else:
            self.account.accept(client.role, at, scalars_of(rest), scalars_of(used))

    def _cycle(self, key, number, reply):
        at = key[0]
        self.events.append(((at, self._cycles, CYCLE, number), "cycle", None, number))
        places = {}
        for offer in json.loads(reply)["offers"]:
            place = offer["framework"], offer["role"]
            count = places[place] = places.get(place, 0) + 1
            self._offer(offer, (at, self._cycles), count)
        self._cycles += 1

    def _complete(self):
        for task in self._running.values():
            if task.start is not None:
                task.ran = self.end - task.start
        for client in self.clients.values():
            client.complete(self.end)
        del self._running, self._offers, self._on_agent, self._of_framework


def find_arrivals(client, trusts_revives):
    """Sets the place of each task of a client: the last time at which the journal shows that the task was not waiting yet, because the
    client registered, was suppressed or revived, or declined or left over what the task needs although the task would have been next.
    A revive of a client that is not suppressed counts only if `trusts_revives`.

    What the client left over at the time of the start itself says nothing: a framework may choose among offers that it answers together.
    Nor does the rest of an accept with as many tasks as the client ever starts with one."""
    floor, left = BEGIN, []
    for kind, *more in client.log:
        if kind == "begin" or kind == "revive" and trusts_revives:
            floor, left = max(floor, more[0]), []
        elif kind == "left":
            at, amounts, count = more
            if count != client.most_tasks:
                left.append((at, amounts))
        elif kind == "start":
            for task in more[0]:
                for at, amounts in reversed(left):
                    if at < task.start and (amounts is None or fits(task.bundle.amounts, amounts)):
                        floor = max(floor, after_all(at))
                        break
                # Until this start, this task was the next one: what was left before says nothing of later tasks.
                left, task.place = [], floor


def set_arrivals(journal, how):
    """Sets when each task arrives, and returns the arrivals as events in order.

    A task arrives at the earliest time that the journal leaves open (`earliest`), the same with every revive taken as a sign that nothing
    was waiting before (`revive`), or at its start (`latest`). The tasks of a client keep their order."""
    for client in journal.clients.values():
        find_arrivals(client, how == "revive")
    last = {}
    for task in journal.tasks:
        place = max(task.place, (task.start, 0, -1, 0)) if how == "latest" else task.place
        task.place = last[task.client] = max(place, last.get(task.client, BEGIN))
        task.arrival = max(task.place[0], journal.start)
    return sorted(((task.place, "arrive", task, 0) for task in journal.tasks), key=itemgetter(0))
