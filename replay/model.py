"""Outside the proof. Runs the demand of a journal again: feeds the proved program with events, and plays the frameworks.

README.md states the model of frameworks that is played here."""
import json
from collections import Counter, defaultdict, deque
from functools import lru_cache
from heapq import heappop, heappush
from operator import itemgetter

from allocator import Allocator
from errors import BadInput, Failed
from figures import Account
from journal import ANSWER, DEFAULT_REFUSE, FINISH, RESCINDED, Habit, set_arrivals
from resources import fits, read, scalars_of, take, text_of

DEFAULT_HABIT = Habit((0, 0, 0))
DEFAULT_HABIT.delay, DEFAULT_HABIT.kind = 0, "answered"
DEFAULT_HABIT.decline = DEFAULT_HABIT.accept = DEFAULT_REFUSE


quoted = lru_cache(maxsize=1 << 16)(json.dumps)


class Actor:
    """A framework in one of its roles, as it is played: its waiting tasks, oldest first."""

    def __init__(self, framework, role):
        self.framework, self.role = framework, role
        self.sources, self.queue, self.open, self.most_tasks = [], deque(), 0, 1
        self.is_suppressed = self.wants_suppress = False

    def habit(self, made):
        for source in self.sources:
            if source.habits:
                return source.habit(made)
        return DEFAULT_HABIT


class Held:
    """An outstanding offer or a running task, until `is_over`."""

    __slots__ = ("actor", "agent", "bundle", "number", "habit", "task", "name", "is_over")

    def __init__(self, actor, agent, bundle, number=None, habit=None, task=None, name=None):
        self.actor, self.agent, self.bundle, self.number, self.habit, self.task, self.name = actor, agent, bundle, number, habit, task, name
        self.is_over = False


def compact(event):
    return json.dumps(event, separators=(",", ":"))


def unused_prefix(names):
    """Returns a prefix for names of tasks that no given name has."""
    number = 0
    while any(name.startswith(f"r{number}.") for name in names):
        number += 1
    return f"r{number}."


class Run:
    """What a replay came to. It does not refer to the journal, so that it can be sent from one process to another."""

    def __init__(self, replay):
        # Of each task: its start, or until when it has waited without one; and how it ended, "finished", "lost" or "released".
        self.starts, self.until, self.ends = replay.starts, replay.until, replay.ends
        self.refused, self.retried, self.account = replay.refused, replay.retried, replay.account

    def results(self, journal, policy):
        """Yields of each task, in order, what figures.outcomes wants; for a task of a framework that takes no part, None."""
        for task, start, until, how in zip(journal.tasks, self.starts, self.until, self.ends):
            framework, role = task.client.framework, task.client.role
            if framework in policy.gone_frameworks:
                yield None
            else:
                yield policy.role_of(framework, role), start, until, how == "finished", how == "lost"


class Replay:
    """One run of the demand of a journal, under the policy."""

    def __init__(self, journal, policy, state_path, arrivals, progress):
        self.journal, self.policy, self.progress = journal, policy, progress
        self.stream = sorted([*journal.events, *set_arrivals(journal, arrivals)], key=itemgetter(0))
        count = len(journal.tasks)
        self.starts, self.until, self.ends = [None] * count, [journal.end] * count, [None] * count
        self.refused, self.retried = Counter(), 0
        self.account = Account(journal.start, journal.end)
        self.on_agent, self.of_framework, self.roles_of = defaultdict(dict), defaultdict(dict), {}
        self.actors, self.totals, self.named = {}, {}, {}
        self.heap, self.serial, self.at, self.waiting_suppressed = [], 0, journal.start, set()
        self.prefix = unused_prefix([row["task"] for row in journal.state.tasks])
        self.allocator = Allocator(state_path, self.on_refusal)

    # Refusals of the allocator

    def on_refusal(self, line, reply):
        event = json.loads(line)
        if reply["name"] == "TooMany" and event["event"] in ("accept", "decline") and event["refuse_ms"]:
            # The table of filters is full. The offer is outstanding, so the same answer without a filter is accepted.
            event["refuse_ms"] = 0
            self.retried += 1
            if self.allocator.ask(compact(event)).startswith(b'{"ok"'):
                return
        raise Failed(f'the allocator refused an event of the replay with {reply["refused"]} {reply["name"]}: {line}')

    def is_accepted(self, event):
        """Asks an event of the journal, and returns whether the allocator accepts it. Counts the refusals."""
        reply = json.loads(self.allocator.ask(compact(event)))
        if "refused" in reply:
            self.refused[event["event"], reply["name"]] += 1
        return "refused" not in reply

    def demand(self, source, event, when, kind=None):
        """Asks an event of the policy. Raises BadInput if the allocator refuses it."""
        reply = json.loads(self.allocator.ask(compact(event)))
        if "refused" in reply:
            raise BadInput(f'{source}: {kind or event["event"]}: refused {reply["refused"]} {reply["name"]} {when}')

    # Held resources

    def hold(self, held):
        self.on_agent[held.agent][held] = None
        self.of_framework[held.actor.framework][held] = None

    def let_go(self, held):
        held.is_over = True
        del self.on_agent[held.agent][held]
        del self.of_framework[held.actor.framework][held]
        if held.number is not None:
            held.actor.open -= 1

    def end_task(self, held, how):
        self.let_go(held)
        scalars = held.bundle.scalars
        self.account.change(held.actor.role, self.at, scalars, scalars, -1)
        if held.task is not None:
            self.ends[held.task.index] = how
        else:
            del self.named[held.actor.framework, held.name]

    def end_offer(self, held):
        self.let_go(held)
        self.account.change(held.actor.role, self.at, held.bundle.scalars, (), -1)

    def lose(self, there):
        for held in list(there):
            if held.number is None:
                self.end_task(held, "lost")
            else:
                self.end_offer(held)

    def later(self, at, phase, rank, act, held, order=0):
        self.serial += 1
        heappush(self.heap, ((at, phase, rank, order, self.serial), act, held))

    # Actions of the frameworks

    def answer(self, held):
        """Accepts an offer if the oldest waiting task fits into it, with the next ones as long as each fits; else declines it."""
        actor = held.actor
        queue, amounts, at = actor.queue, held.bundle.amounts, self.at
        if not queue or not fits(queue[0].bundle.amounts, amounts):
            self.allocator.send(f'{{"event":"decline","framework":"{actor.framework}","offer":{held.number},"at":{at},"refuse_ms":{held.habit.decline}}}')
            self.end_offer(held)
        else:
            self.start(held, actor, queue)
        if actor.wants_suppress and not queue:
            self.suppress(actor)

    def start(self, held, actor, queue):
        at, bundle, most = self.at, held.bundle, actor.most_tasks
        rest, left = dict(bundle.amounts), None if bundle.is_plain else dict(bundle.pieces)
        used, texts = {}, []
        self.let_go(held)
        while queue and len(texts) < most and fits(queue[0].bundle.amounts, rest):
            task = queue.popleft()
            use = task.use
            if left is None and not task.bundle.is_plain:
                left = {(name, ""): amount for name, amount in rest.items() if amount}
            if left is not None:
                pieces = take(left, task.bundle)
                use = use if pieces == task.bundle.pieces else text_of(pieces)
            texts.append(f'{{"task":"{self.prefix}{task.index}","use":{quoted(use)}}}')
            for key, amount in task.bundle.amounts.items():
                rest[key] -= amount
                used[key] = used.get(key, 0) + amount
            running = Held(actor, held.agent, task.bundle, None, None, task)
            self.hold(running)
            self.starts[task.index] = at
            if task.finish is not None:
                after, phase = task.finish
                self.later(at + after, phase if after else phase + self.phase, FINISH, self.finish, running)
            elif task.is_lost:
                # It may have continued, but it is not known for how long, so here it ends after the time for which it ran.
                self.later(at + task.ran + 1, 0, FINISH, self.release, running)
        self.allocator.send(f'{{"event":"accept","framework":"{actor.framework}","offer":{held.number},"at":{at},"tasks":[{",".join(texts)}]'
                            f',"refuse_ms":{held.habit.accept}}}')
        if bundle.is_plain:
            self.account.accept(actor.role, at, rest.items(), used.items())
        else:
            self.account.accept(actor.role, at, scalars_of(rest), scalars_of(used))

    def finish(self, held):
        self.send_finish(held, "finished")

    def release(self, held):
        self.send_finish(held, "released")

    def send_finish(self, held, how):
        self.allocator.send(f'{{"event":"finish","framework":"{held.actor.framework}","task":"{self.prefix}{held.task.index}"}}')
        self.end_task(held, how)

    def rescind(self, held):
        self.allocator.send(f'{{"event":"rescind","offer":{held.number}}}')
        self.end_offer(held)

    def suppress(self, actor):
        actor.is_suppressed, actor.wants_suppress = True, False
        self.allocator.send(compact({"event": "suppress", "framework": actor.framework, "role": actor.role}))

    def revive(self, actor):
        actor.is_suppressed = actor.wants_suppress = False
        self.allocator.send(compact({"event": "revive", "framework": actor.framework, "role": actor.role}))

    # Events

    def take_offer(self, offer, made, phase):
        actor = self.actors[offer["framework"], offer["role"]]
        held = Held(actor, offer["agent"], read(offer["resources"]), offer["offer"], actor.habit(made))
        actor.open += 1
        self.hold(held)
        self.account.change(actor.role, max(made[0], self.journal.start), held.bundle.scalars, (), 1)
        habit = held.habit
        act = self.rescind if habit.kind is RESCINDED else self.answer
        self.later(made[0] + habit.delay, habit.phase if habit.delay else habit.phase + phase + 1, ANSWER, act, held, habit.order)

    def cycle(self, at, phase):
        for actor in list(self.waiting_suppressed):
            # The journal shows no revive, but the tasks that its client had at this time have not started here.
            if not actor.is_suppressed or not actor.queue:
                self.waiting_suppressed.discard(actor)
            elif not actor.open:
                self.revive(actor)
                actor.wants_suppress = True
        places = {}
        for offer in self.allocator.cycle(at):
            place = offer["framework"], offer["role"]
            count = places[place] = places.get(place, 0) + 1
            self.take_offer(offer, (at, phase, count), phase)

    def register(self, framework, roles):
        self.roles_of[framework] = set(roles)
        for role in roles:
            actor = self.actors.setdefault((framework, role), Actor(framework, role))
            actor.is_suppressed = actor.wants_suppress = False

    def arrive(self, task):
        client = task.client
        if client.framework in self.policy.gone_frameworks:
            return
        actor = self.actors[client.framework, self.policy.role_of(client.framework, client.role)]
        actor.queue.append(task)
        if actor.is_suppressed:
            self.waiting_suppressed.add(actor)

    def happen(self, kind, event):
        """Lets an event of the journal happen that is neither a cycle nor an arrival."""
        match kind:
            case "suppress" | "revive":
                actor = self.actors[event["framework"], event["role"]]
                if kind == "revive":
                    self.revive(actor)
                elif actor.queue:
                    actor.wants_suppress = True
                else:
                    self.suppress(actor)
                return
            case "finish":
                held = self.named.get((event["framework"], event["task"]))
                if held is not None:
                    self.allocator.send(compact(event))
                    self.end_task(held, None)
                return
        changed = self.policy.source_of(kind, event)
        if changed is not None:
            source, own = changed
            self.demand(source, event, f'when "{event.get("framework") or event["agent"]}" registers', own)
        elif not self.is_accepted(event):
            return
        self.follow(kind, event)
        if kind == "add_agent":
            for source, more in self.policy.at_agent.get(event["agent"], ()):
                self.demand(source, more, f'when agent "{event["agent"]}" registers')
                self.follow(more["event"], more)

    def follow(self, kind, event):
        """Follows what an accepted event does to what is held, and to the totals."""
        at = self.at
        match kind:
            case "add_agent" | "set_agent":
                agent = event["agent"]
                self.account.change_total(at, self.totals.get(agent, ()), -1)
                self.totals[agent] = read(event["total"]).scalars
                self.account.change_total(at, self.totals[agent], 1)
            case "remove_agent":
                self.lose(self.on_agent.get(event["agent"], ()))
                self.account.change_total(at, self.totals.pop(event["agent"]), -1)
            case "deactivate_agent":
                self.lose([it for it in self.on_agent.get(event["agent"], ()) if it.number is not None])
            case "add_framework":
                self.register(event["framework"], event["roles"])
            case "set_framework":
                framework, had = event["framework"], self.roles_of[event["framework"]]
                self.register(framework, [it for it in event["roles"] if it not in had])
                self.roles_of[framework] = set(event["roles"])
                for role in had.difference(event["roles"]):
                    self.give_up(self.actors[framework, role])
            case "remove_framework":
                framework = event["framework"]
                self.lose(self.of_framework.get(framework, ()))
                for (name, _), actor in self.actors.items():
                    if name == framework:
                        self.give_up(actor)

    def give_up(self, actor):
        """Ends the waiting of an actor's tasks: it gets no more offers."""
        for task in actor.queue:
            self.until[task.index] = self.at
        actor.queue.clear()

    def begin(self):
        """Takes in the state, and applies what the policy says of the start."""
        state = self.journal.state
        for (framework, role), client in self.journal.clients.items():
            role = self.policy.role_of(framework, role)
            actor = self.actors.setdefault((framework, role), Actor(framework, role))
            actor.sources.append(client)
            actor.most_tasks = max(actor.most_tasks, client.most_tasks)
        for agent, total in state.agents.items():
            self.follow("add_agent", {"agent": agent, "total": total})
        for framework, roles in state.frameworks.items():
            self.register(framework, roles)
            for role, is_suppressed in roles.items():
                self.actors[framework, role].is_suppressed = is_suppressed
        for row in state.offers:
            self.take_offer(row, (state.clock, -1, 0), -1)
        for row in state.tasks:
            held = Held(self.actors[row["framework"], row["role"]], row["agent"], read(row["use"]), name=row["task"])
            self.named[row["framework"], row["task"]] = held
            self.hold(held)
            self.account.change(row["role"], self.at, held.bundle.scalars, held.bundle.scalars, 1)
        for source, event in self.policy.start:
            self.demand(source, event, "at the start")
            self.follow(event["event"], event)

    def react(self):
        (at, self.phase, *_), act, held = heappop(self.heap)
        self.at = max(self.at, at)
        if not held.is_over:
            act(held)

    def run(self):
        """Runs the replay to the end of the journal, and returns what it came to."""
        try:
            self._run()
            self.allocator.close()
        finally:
            self.allocator.kill()
        self.account.close()
        return Run(self)

    def _run(self):
        heap, end = self.heap, self.journal.end
        self.begin()
        for number, (key, kind, event, _) in enumerate(self.stream):
            while heap and heap[0][0] < key:
                self.react()
            self.at = key[0] if key[0] > self.at else self.at
            if kind == "arrive":
                self.arrive(event)
            elif kind == "cycle":
                self.cycle(self.at, key[1])
                if number & 0x1F == 0:
                    self.progress(self.at)
            else:
                event = self.policy.changed(kind, event)
                if event is not None:
                    self.happen(kind, event)
        while heap and heap[0][0][0] <= end:
            self.react()

