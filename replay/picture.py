"""Outside the proof. Draws a replay as SVG: what the tasks of each role use over time, and the figures of each role, before and after."""
import math
from xml.sax.saxutils import escape

from figures import ROOT, series
from report import ALL, duration, percent, roles_of, wait_text

WIDTH, LEFT, MIDDLE, RIGHT = 860, 20, 470, 840
HEAD, ROW, CHART, FOOT = 92, 150, 104, 34
# The whole cluster is drawn, and the roles with the most tasks.
MOST_ROLES = 12
BAR, LABEL = MIDDLE + 96, 96
STYLE = """
text{font:13px system-ui,-apple-system,"Segoe UI",Helvetica,Arial,sans-serif;fill:#24292f}
.page{fill:#ffffff}.soft{fill:#57606a}.head{font-weight:600;font-size:15px}.small{font-size:11px}
.grid{stroke:#d0d7de;stroke-width:1;fill:none}
.before{fill:#c4cbd3}.after{fill:#2563b8}
.line{fill:none;stroke-width:2;stroke-linejoin:round}.line.before{fill:#e3e7eb;stroke:#8b949e;stroke-width:1.2}.line.after{fill:none;stroke:#2563b8}
@media (prefers-color-scheme:dark){
text{fill:#e6edf3}.page{fill:#0d1117}.soft{fill:#9aa4af}.grid{stroke:#30363d}
.before{fill:#4b535d}.after{fill:#6aa8f5}
.line.before{fill:#21262d;stroke:#768390}.line.after{fill:none;stroke:#6aa8f5}}
"""


def text(x, y, words, kind="", anchor="start"):
    return f'<text x="{x:.0f}" y="{y:.0f}" class="{kind}" text-anchor="{anchor}">{escape(words)}</text>'


def steps(values, left, right, bottom, height, most):
    """Returns the path of a staircase over the width."""
    wide = (right - left) / len(values)
    points = []
    for place, value in enumerate(values):
        y = bottom - height * min(value / most, 1.0)
        x = left + place * wide
        points.append(f"{'L' if place else 'M'}{x:.1f} {y:.1f}")
        points.append(f"L{x + wide:.1f} {y:.1f}")
    return "".join(points)


def times(start, end):
    """Returns about six round times of a window, each with its label."""
    length = max(end - start, 1)
    sizes = [1, 2, 5, 10, 20, 50, 100, 200, 500] + [it * 1000 for it in (1, 2, 5, 10, 20, 30, 60, 120, 300, 600, 1200, 1800, 3600, 7200, 14_400, 21_600, 43_200)]
    size = next((it for it in sizes if length / it <= 7), None) or 86_400_000 * math.ceil(length / 86_400_000 / 7)
    return [(it, duration(it) if it else "0") for it in range(0, length + 1, size)]


def bars(lines, y, name, cases, value, label):
    """Draws a bar for each case under one name. `cases` has (case, figures, greatest value)."""
    lines.append(text(MIDDLE + LABEL - 8, y + 14, name, "soft", "end"))
    for place, (case, figures, most) in enumerate(cases):
        wide = (RIGHT - 96 - BAR) * value(figures) / most if most else 0
        top = y + 12 * place
        lines.append(f'<rect class="{case}" x="{BAR}" y="{top}" width="{max(wide, 1):.1f}" height="10" rx="1"/>')
        lines.append(text(BAR + max(wide, 1) + 6, top + 9, label(figures), "small"))


def wait_of(which):
    return lambda figures: figures["waiting_ms"][which] if figures["waiting_ms"] else 0


def draw(report, accounts):
    """Returns the picture of a report as SVG. `accounts` has the account of each replay, `before` and perhaps `after`."""
    cases = [case for case in ("before", "after") if case in accounts]
    roles = [it for it in roles_of(report) if it["role"] != ALL]
    roles.sort(key=lambda it: (-max((it[case] or {"tasks": 0})["tasks"] for case in cases), it["role"]))
    chosen = sorted(roles[:MOST_ROLES], key=lambda it: it["role"]) + [it for it in report["roles"] if it["role"] == ALL]
    height = HEAD + ROW * len(chosen) + FOOT
    start, end = report["journal"]["from_ms"], report["journal"]["to_ms"]
    title = f'Replay of {report["journal"]["name"]}'
    agreed = report["agreement"]
    lines = [
        f'<svg xmlns="http://www.w3.org/2000/svg" viewBox="0 0 {WIDTH} {height}" role="img" aria-labelledby="title desc">',
        f'<title id="title">{escape(title)}</title>',
        f'<desc id="desc">{escape(describe(report, chosen, cases))}</desc>',
        f"<style>{STYLE}</style>",
        '<rect class="page" width="100%" height="100%" rx="8"/>',
        text(LEFT, 28, title, "head"),
        text(LEFT, 48, f'With nothing changed, {percent(agreed["fraction"])} of {agreed["tasks"]} tasks start within '
             f'{duration(agreed["tolerance_ms"])} of the journal. Waiting times with {report["arrivals"]} arrivals.', "soft"),
        text(LEFT, 76, "Part of the cluster that tasks use", "soft"),
    ]
    for place, case in enumerate(cases):
        x = MIDDLE + LABEL + 92 * place
        lines.append(f'<rect class="{case}" x="{x}" y="66" width="12" height="12" rx="2"/>')
        lines.append(text(x + 18, 77, case))
    for place, role in enumerate(chosen):
        y = HEAD + ROW * place
        path = ROOT if role["role"] == ALL else role["role"]
        drawn = {case: series(accounts[case], path) for case in cases}
        most = top_of(max(max(it) for it in drawn.values()))
        bottom = y + 22 + CHART
        lines += [text(LEFT, y + 14, role["role"], "head"), f'<path class="grid" d="M{LEFT} {bottom}L{MIDDLE - 40} {bottom}M{LEFT} {y + 22}L{MIDDLE - 40} {y + 22}"/>',
                  text(MIDDLE - 34, y + 27, f"{100 * most:g}%", "soft small"), text(MIDDLE - 34, bottom + 4, "0", "soft small")]
        for case in cases:
            path_of = steps(drawn[case], LEFT, MIDDLE - 40, bottom, CHART, most)
            if case == "before":
                path_of = f"M{LEFT} {bottom}L{path_of[1:]}L{MIDDLE - 40} {bottom}Z"
            lines.append(f'<path class="line {case}" d="{path_of}"/>')
        there = [(case, role[case]) for case in cases if role[case]]
        for row, (name, value, label) in enumerate(MEASURES):
            greatest = max((value(it) for _, it in there), default=0)
            bars(lines, y + 20 + 30 * row, name, [(case, it, greatest) for case, it in there], value, label)
    axis = HEAD + ROW * len(chosen) + 4
    for at, label in times(start, end):
        x = LEFT + (MIDDLE - 40 - LEFT) * at / max(end - start, 1)
        lines.append(text(x, axis, label, "soft small", "start" if at == 0 else "middle"))
    if len(roles) > MOST_ROLES:
        lines.append(text(LEFT, height - 8, f"The {MOST_ROLES} of {len(roles)} roles with most tasks.", "soft small"))
    return "\n".join([*lines, "</svg>", ""])


MEASURES = (
    ("median wait", wait_of("median"), lambda it: wait_text(it["waiting_ms"], "median")),
    ("95% wait", wait_of("p95"), lambda it: wait_text(it["waiting_ms"], "p95")),
    ("finished", lambda it: it["finished_per_hour"], lambda it: f'{it["finished_per_hour"]:.1f} per hour'),
    ("share", lambda it: it["share"], lambda it: percent(it["share"])),
)


def top_of(value):
    """Returns the top of a scale for fractions up to a value."""
    return next((it for it in (0.01, 0.02, 0.05, 0.1, 0.2, 0.3, 0.4, 0.5, 0.6, 0.8) if value <= it), 1.0)


def describe(report, chosen, cases):
    parts = []
    for role in chosen:
        for case in cases:
            it = role[case]
            if it:
                parts.append(f'{role["role"]} {case}: median wait {wait_text(it["waiting_ms"], "median")}, 95th percentile '
                             f'{wait_text(it["waiting_ms"], "p95")}, {it["finished_per_hour"]:.1f} tasks finished per hour, share {percent(it["share"])}.')
    return " ".join(parts)
