"""Outside the proof. The policy of a replay: event lines that take the place of the journal's own events about the same thing."""
from errors import BadInput

WEIGHTS = {"set_weight": "weight", "set_limit": "limit"}
AGENTS = {"add_agent", "remove_agent", "set_agent", "activate_agent", "deactivate_agent", "reserve", "unreserve"}
FRAMEWORKS = {"add_framework", "remove_framework"}
KINDS = [*WEIGHTS, *sorted(AGENTS), *sorted(FRAMEWORKS)]


class Policy:
    """What a policy changes in the events of a journal.

    `start` has the (source, event) to apply at the start, `at_agent` those for each agent to apply whenever it registers."""

    def __init__(self, lines, journal):
        """Takes (source, event) in order. Raises BadInput where an event cannot be a policy for this journal."""
        self.lines = lines
        self.start, self.at_agent = [], {}
        self.own, self.gone_agents, self.added, self.totals, self.activity = set(), set(), set(), {}, set()
        self.reservations, self.roles, self.gone_frameworks = set(), {}, set()
        # For each event of the journal that the policy changes: the line of the policy, and its kind.
        self.sources = {}
        for source, event in lines:
            self._take(source, event, journal)

    def _take(self, source, event, journal):
        kind = event["event"]
        if kind in WEIGHTS:
            self.own.add((kind, event["role"]))
            self.start.append((source, event))
        elif kind in AGENTS:
            self._take_agent(source, event, kind, event["agent"], journal)
        elif kind in FRAMEWORKS:
            framework = event["framework"]
            if framework not in journal.frameworks:
                raise BadInput(f'{source}: no framework "{framework}" in {journal.name}; a new framework would have no demand')
            if kind == "remove_framework":
                self.gone_frameworks.add(framework)
                if framework in journal.state.frameworks:
                    self.start.append((source, event))
            elif framework in journal.state.frameworks:
                raise BadInput(f'{source}: framework "{framework}" is in the state that the replay starts from; its roles cannot change')
            elif not event["roles"]:
                raise BadInput(f'{source}: "roles" of "{framework}" is empty; expected at least one role')
            else:
                self.roles[framework] = event["roles"]
                self.sources["add_framework", framework] = source, kind
        else:
            raise BadInput(f'{source}: "{kind}" is no event of a policy; expected one of {", ".join(KINDS)}')

    def _take_agent(self, source, event, kind, agent, journal):
        is_there = (agent in journal.state.agents or agent in self.added) and agent not in self.gone_agents
        if kind == "add_agent":
            self.added.add(agent)
            self.start.append((source, event))
            return
        if agent not in journal.agents and agent not in self.added:
            raise BadInput(f'{source}: no agent "{agent}" in {journal.name}; the policy must add it first')
        if is_there:
            self.start.append((source, event))
        match kind:
            case "remove_agent":
                self.gone_agents.add(agent)
                return
            case "set_agent":
                self.totals[agent] = event["total"]
                self.sources["add_agent", agent] = source, kind
                return
            case "reserve" | "unreserve":
                self.reservations.add((agent, event["role"]))
            case _:
                self.activity.add(agent)
        self.at_agent.setdefault(agent, []).append((source, event))

    def changed(self, kind, event):
        """Returns an event of the journal as it happens under the policy, or None if it does not happen."""
        if "role" in event and (kind, event["role"]) in self.own:
            return None
        if "framework" in event:
            framework = event["framework"]
            if framework in self.gone_frameworks:
                return None
            if framework in self.roles:
                if kind == "add_framework":
                    return {**event, "roles": self.roles[framework]}
                if kind == "set_framework":
                    return None
                if "role" in event:
                    return {**event, "role": self.role_of(framework, event["role"])}
        elif "agent" in event:
            agent = event["agent"]
            if agent in self.gone_agents:
                return None
            if kind in ("reserve", "unreserve"):
                return None if (agent, event["role"]) in self.reservations else event
            if agent in self.added or kind in ("activate_agent", "deactivate_agent") and agent in self.activity:
                return None
            if agent in self.totals:
                if kind == "set_agent":
                    return None
                if kind == "add_agent":
                    return {**event, "total": self.totals[agent]}
        return event

    def source_of(self, kind, event):
        """Returns the (source, kind) of the policy's event that changed an event of the journal, or None."""
        return self.sources.get((kind, event.get("framework") or event.get("agent")))

    def role_of(self, framework, role):
        """Returns the role in which a framework has the demand that it had in `role` in the journal."""
        roles = self.roles.get(framework)
        return role if roles is None or role in roles else roles[0]
