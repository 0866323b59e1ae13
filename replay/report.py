"""Outside the proof. Compares the runs of a replay, and writes the comparison as a table and as JSON."""
import json

from figures import ROOT, figures, outcomes, place_of

ALL = "(all)"
CASES = ("journal", "before", "after")
# If the agreement is below this, the report warns about a role; it names at most this many.
LEAST_AGREEMENT, MOST_NAMED = 0.9, 6


def measured(account, tasks, results):
    """Returns the figures by role. A result of None leaves its task out."""
    pairs = [(task, result) for task, result in zip(tasks, results) if result is not None]
    return figures(account, outcomes([it for it, _ in pairs], [it for _, it in pairs]))


def of_journal(journal):
    """Returns the figures of the journal itself."""
    results = ((it.client.role, it.start, None, it.finish is not None, it.is_lost) for it in journal.tasks)
    return measured(journal.account, journal.tasks, results)


def of_run(journal, policy, run):
    """Returns the figures of a replay under the policy."""
    return measured(run.account, journal.tasks, run.results(journal, policy))


def agreement(tasks, starts, tolerance):
    """Returns how well replayed starts agree with the journal's: the number of tasks within the tolerance, and how far off they are."""
    off = sorted(abs(start - task.start) for task, start in zip(tasks, starts) if start is not None)
    within = sum(it <= tolerance for it in off)
    return {
        "tasks": len(tasks),
        "within": within,
        "fraction": within / len(tasks) if tasks else 1.0,
        "not_started": len(tasks) - len(off),
        "difference_ms": {"median": off[place_of(len(off), 50)], "p95": off[place_of(len(off), 95)], "greatest": off[-1]} if off else None,
    }


def agreements(journal, run, tolerance):
    """Returns the agreement of all tasks, with that of each role under `roles`."""
    result = {"tolerance_ms": tolerance, **agreement(journal.tasks, run.starts, tolerance), "roles": {}}
    by_role = {}
    for task in journal.tasks:
        by_role.setdefault(task.client.role, []).append(task)
    for role, tasks in sorted(by_role.items()):
        result["roles"][role] = agreement(tasks, [run.starts[it.index] for it in tasks], tolerance)
    return result


def duration(time):
    """Returns milliseconds as a short text: `350ms`, `12.5s`, `3m20s`, `2h05m`, `3d04h`."""
    if time < 1000:
        return f"{time:g}ms"
    if time < 60_000:
        return f"{time // 100 / 10:g}s"
    seconds = int(time // 1000)
    if seconds < 3600:
        return f"{seconds // 60}m{seconds % 60:02d}s"
    if seconds < 86_400:
        return f"{seconds // 3600}h{seconds // 60 % 60:02d}m"
    return f"{seconds // 86_400}d{seconds // 3600 % 24:02d}h"


def percent(fraction):
    return f"{100 * fraction:.1f}%"


def wait_text(waiting, which):
    if waiting is None:
        return "-"
    return (">=" if waiting[f"{which}_is_lower_bound"] else "") + duration(waiting[which])


def name_of(role):
    return role or ALL


def roles_of(document):
    """Returns the roles of a report that have tasks, then the whole cluster."""
    return [it for it in document["roles"] if it["role"] != ALL] + [it for it in document["roles"] if it["role"] == ALL]


def document(journal, policy, arrivals, figures_by_case, agreed, runs):
    """Returns the report as a value for JSON."""
    roles = sorted({role for found in figures_by_case.values() for role, it in found.items() if it["tasks"] or it["use"]["share"] or role == ROOT})
    return {
        "journal": {"name": journal.name, "events": journal.count, "tasks": len(journal.tasks), "from_ms": journal.start, "to_ms": journal.end},
        "policy": [event for _, event in policy.lines],
        "arrivals": arrivals,
        "agreement": agreed,
        "roles": [{"role": name_of(role), **{case: found.get(role) for case, found in figures_by_case.items()}} for role in roles],
        "refused": {case: [{"event": kind, "name": name, "count": count} for (kind, name), count in sorted(run.refused.items())]
                    for case, run in runs.items()},
    }


def notes(report):
    """Yields the sentences above the table."""
    journal, agreed = report["journal"], report["agreement"]
    yield (f'{journal["name"]}: {journal["events"]} events, {journal["tasks"]} tasks, '
           f'{duration(journal["to_ms"] - journal["from_ms"])}; waiting times with {report["arrivals"]} arrivals')
    gone = [it["agent"] for it in report["policy"] if it["event"] == "remove_agent"]
    for event in report["policy"]:
        if event["event"] != "remove_agent":
            yield "policy: " + json.dumps(event, separators=(",", ":"))
    if gone:
        yield f'policy: without {len(gone)} agents: {", ".join(gone if len(gone) <= 12 else [*gone[:5], "..", *gone[-5:]])}'
    text = (f'agreement: with nothing changed, {agreed["within"]} of {agreed["tasks"]} tasks ({percent(agreed["fraction"])}) start within '
            f'{duration(agreed["tolerance_ms"])} of the journal')
    if agreed["difference_ms"]:
        text += f'; 95% within {duration(agreed["difference_ms"]["p95"])}, the worst {duration(agreed["difference_ms"]["greatest"])} off'
    yield text
    poor = sorted((it["fraction"], role) for role, it in agreed["roles"].items() if it["fraction"] < LEAST_AGREEMENT)
    if poor:
        shown = [f"{role} {percent(fraction)}" for fraction, role in poor[:MOST_NAMED]] + [".."] * (len(poor) > MOST_NAMED)
        yield (f'warning: {len(poor)} of {len(agreed["roles"])} roles agree to less than {percent(LEAST_AGREEMENT)} ({", ".join(shown)}); '
               "their frameworks do not follow the model, so do not rely on their figures")
    for case, refusals in report["refused"].items():
        for it in refusals:
            yield f'note: {case}: {it["count"]} {it["event"]} events of the journal were refused with {it["name"]}'


def table(report):
    """Returns the report as text with aligned columns."""
    rows = [("ROLE", "CASE", "TASKS", "STARTED", "FINISHED", "LOST", "WAIT MEDIAN", "WAIT P95", "PER HOUR", "SHARE", "USE")]
    for role in roles_of(report):
        for case in CASES:
            it = role.get(case)
            if it is not None:
                rows.append((role["role"], case, str(it["tasks"]), str(it["started"]), str(it["finished"]), str(it["lost"]),
                             wait_text(it["waiting_ms"], "median"), wait_text(it["waiting_ms"], "p95"), f'{it["finished_per_hour"]:.1f}',
                             percent(it["share"]), percent(it["use"]["share"])))
    widths = [max(map(len, column)) for column in zip(*rows)]
    lines = [*notes(report), ""]
    for row in rows:
        cells = [cell.ljust(width) if place < 2 else cell.rjust(width) for place, (cell, width) in enumerate(zip(row, widths))]
        lines.append("  ".join(cells).rstrip())
    return "\n".join(lines) + "\n"


def as_json(report):
    return json.dumps(report, indent=2) + "\n"
