#!/usr/bin/env python3
"""Outside the proof. Draws the day of examples/busy_day.jsonl as docs/day.svg: the cpus of each team in tasks and offered, which together with the free ones
are all cpus of the cluster, and the weighted shares of the teams. The values are means over quarters of an hour of what the program prints: the rows
of `save`, and the shares of a report.

    bench/tools/picture.py             runs ./drf
    bench/tools/picture.py PROGRAM     runs another program with the same arguments"""
import json
import os
import subprocess
import sys
import tempfile
from collections import Counter
from fractions import Fraction
from xml.sax.saxutils import escape

from common import ROOT

TEAMS = ("web", "ci", "data")
HOUR = 3_600_000
STEP = HOUR // 4
DAY = 24 * HOUR
REPORT = '{"event":"report"}\n'
# A team that starts this many tasks within an hour has a burst.
BURST = 30


# The output of the program


def moments(path):
    """The moments of the clock, each with its lines: one without a moment of its own stands with the next that has one."""
    found, lines = [], ""
    for line in open(path):
        lines += line
        at = json.loads(line).get("at")
        if at is None:
            continue
        if found and found[-1][0] == at:
            found[-1] = at, found[-1][1] + lines
        else:
            found.append((at, lines))
        lines = ""
    return found


def asked(program, words, lines):
    return subprocess.run([program, *words], input=lines, capture_output=True, text=True, check=True, cwd=ROOT).stdout.splitlines()


def cpus(resources):
    return sum(float(it.split(":")[1]) for it in resources.split(";") if it.startswith("cpus:"))


def parts_of(rows):
    """All cpus of a state's agents, and those of each team in tasks and in offers."""
    parts = Counter()
    for row in map(json.loads, rows):
        match row["row"]:
            case "agent":
                parts["total"] += cpus(row["total"])
            case "task":
                parts[row["role"], "used"] += cpus(row["use"])
            case "offer":
                parts[row["role"], "offered"] += cpus(row["resources"])
    return parts


def measured(program, told):
    """For each moment what is used, offered, in all, and the weighted share of each team."""
    replies = asked(program, ["run"], "".join(lines + REPORT for _, lines in told))
    reports = [json.loads(it)["nodes"] for it in replies if it.startswith('{"nodes"')]
    with tempfile.TemporaryDirectory() as room:
        before = []
        for number, ((at, lines), nodes) in enumerate(zip(told, reports, strict=True)):
            rows = asked(program, ["save", *before], lines)
            with open(f"{room}/{number}", "w") as state:
                state.writelines(f"{row}\n" for row in rows)
            before = ["--from", state.name]
            shares = {(node["path"], "share"): float(Fraction(node["weighted"])) for node in nodes if node["path"] in TEAMS}
            yield at, parts_of(rows) | Counter(shares)


def means(figures):
    """The means over each step of the day of figures that stand until the next moment."""
    ends = [at for at, _ in figures[1:]] + [DAY]
    kept = [Counter() for _ in range(DAY // STEP)]
    for (at, parts), end in zip(figures, ends):
        for step in range(at // STEP, min(-(-end // STEP), len(kept))):
            part = (min(end, (step + 1) * STEP) - max(at, step * STEP)) / STEP
            for key, amount in parts.items():
                kept[step][key] += amount * part
    return kept


def bursts(told):
    """For each team the hour in which it starts most tasks, where these are many."""
    started = []
    for at, lines in told:
        events = [it for it in map(json.loads, lines.splitlines()) if it["event"] == "accept"]
        started += [(at // STEP * STEP, it["framework"], len(it["tasks"])) for it in events]
    roles = {it["framework"]: it["roles"][0] for it in map(json.loads, told[0][1].splitlines()) if it["event"] == "add_framework"}
    for framework, role in roles.items():
        sums = {since: sum(n for at, name, n in started if name == framework and since <= at < since + HOUR) for since, _, _ in started if since}
        since = max(sums, key=sums.get)
        if sums[since] >= BURST:
            yield since, f"{role} starts {sums[since]} tasks in an hour", ""


def happenings(told):
    """Moments at which something happened, each with its name, long and, for a narrow picture, short or none."""
    marks = list(bursts(told))
    for at, lines in told[1:]:
        events = [json.loads(it) for it in lines.splitlines()]
        kinds = Counter(it["event"] for it in events)
        if kinds["remove_agent"]:
            marks.append((at, f"{kinds['remove_agent']} machines go", f"-{kinds['remove_agent']} machines"))
        if kinds["add_agent"]:
            marks.append((at, f"{kinds['add_agent']} machines come", f"+{kinds['add_agent']} machines"))
        for it in events:
            if it["event"] == "set_limit":
                most = f"{cpus(it['limit']):.0f} cpus" if it["limit"] else "no limit"
                marks.append((at, f"{it['role']}: at most {most}".replace("at most no", "no"), f"{it['role']}: {most}"))
    return sorted(marks)


# How the picture is drawn

WIDTH, HEIGHT = 800, 546
LEFT, RIGHT = 56, 728
# Rows of names over the bands, the bands, and the lines.
NAMES, BANDS, LINES = (40, 106), (114, 334), (378, 508)
# The letters of a wide picture, and of one of less than 560 pixels, which has fewer; STYLE has both.
SIZES = {"wide": 13, "slim": 22}
STYLE = """
text{font:13px system-ui,-apple-system,"Segoe UI",Helvetica,Arial,sans-serif;fill:#24292f}
.page{fill:#ffffff}.soft{fill:#57606a}.head{font-weight:600}text.on{fill:#ffffff;font-weight:600}
.grid{stroke:#d0d7de;stroke-width:1;fill:none}.axis{stroke:#57606a;stroke-width:1;fill:none}.mark{stroke:#57606a;stroke-width:1;stroke-dasharray:2 3;fill:none}
.free{fill:#eef1f4}.offered{fill-opacity:.42}.line{fill:none;stroke-width:2.4;stroke-linejoin:round}
.slim{display:none}
.web{fill:#2563b8}.ci{fill:#c9640b}.data{fill:#15805f}
.line.web{stroke:#2563b8;fill:none}.line.ci{stroke:#c9640b;fill:none}.line.data{stroke:#15805f;fill:none}
@media (max-width:560px){text{font-size:22px}.slim{display:inline}.wide{display:none}.line{stroke-width:3.4}}
@media (prefers-color-scheme:dark){
text{fill:#e6edf3}.page{fill:#0d1117}.soft{fill:#9aa4af}
.grid{stroke:#30363d}.axis,.mark{stroke:#9aa4af}.free{fill:#1c222a}
.web{fill:#2f6dc4}.ci{fill:#bd661d}.data{fill:#1f8061}.offered{fill-opacity:1}.web.offered{fill:#86b2ec}.ci.offered{fill:#eab27e}.data.offered{fill:#74c7ab}
.line.web{stroke:#6aa8f5}.line.ci{stroke:#f0a050}.line.data{stroke:#45c99c}
text.web{fill:#7db4f8}text.ci{fill:#f3ab63}text.data{fill:#58d3aa}}
"""


def across(at):
    return LEFT + (RIGHT - LEFT) * at / DAY


def text(x, y, said, kind="", anchor="start"):
    return f'<text x="{x:.0f}" y="{y:.0f}"' + (f' class="{kind}"' if kind else "") + (f' text-anchor="{anchor}"' if anchor != "start" else "") + f">{escape(said)}</text>"


def line(x, y, to_x, to_y, kind):
    return f'<path class="{kind}" d="M{x:.1f} {y:.1f}L{to_x:.1f} {to_y:.1f}"/>'


def stairs(values, height_of):
    """The points of a line that is level over each step of the day."""
    points = []
    for step, value in enumerate(values):
        points += [(across(step * STEP), height_of(value)), (across((step + 1) * STEP), height_of(value))]
    return points


def path(points, kind, end=""):
    return f'<path class="{kind}" d="M' + "L".join(f"{x:.1f} {y:.1f}" for x, y in points) + f'{end}"/>'


def thickest(heights):
    """The step in the middle of the two hours in which a band is never thin, and the least height there."""
    near = 4
    least = {step: min(heights[step - near : step + near + 1]) for step in range(near, len(heights) - near)}
    step = max(least, key=least.get)
    return step, least[step]


def bands(kept):
    """What each team has in tasks and offers, one over the other, before what there is in all."""
    top, bottom = BANDS
    most = max(it["total"] for it in kept)
    height_of = lambda value: bottom - (bottom - top) * value / most
    under, drawn, named = [0.0] * len(kept), [], []
    drawn.append(path([*stairs([it["total"] for it in kept], height_of), (RIGHT, bottom), (LEFT, bottom)], "free", "Z"))
    for team in TEAMS:
        base = under
        for part in ("used", "offered"):
            over = [low + it[team, part] for low, it in zip(under, kept)]
            drawn.append(path(stairs(over, height_of) + stairs(under, height_of)[::-1], f"{team} {part}", "Z"))
            under = over
        step, least = thickest([it[team, "used"] for it in kept])
        if least > most / 14:
            named.append(text(across((step + 0.5) * STEP), height_of(base[step] + kept[step][team, "used"] / 2) + 5, team, "on", "middle"))
    for value in (0, most / 2, most):
        drawn += [line(LEFT, height_of(value), RIGHT, height_of(value), "grid"), text(LEFT - 7, height_of(value) + 5, f"{value:.0f}", "soft", "end")]
    return drawn + [path(stairs([it["total"] for it in kept], height_of), "axis")] + named


def apart(places, least):
    """Heights for names beside their lines, so far from one another that they can be read."""
    order = sorted(places, key=places.get)
    heights = {}
    for number, name in enumerate(order):
        heights[name] = max(places[name], heights[order[number - 1]] + least) if number else places[name]
    over = max(0, max(heights.values()) - LINES[1])
    for number, name in enumerate(reversed(order)):
        heights[name] = min(heights[name], LINES[1] - number * least) if over else heights[name]
    return heights


def lines(kept):
    """The weighted shares, with the teams' names beside their ends."""
    top, bottom = LINES
    most = max(it[team, "share"] for it in kept for team in TEAMS)
    most = -(-most * 5 // 1) / 5
    height_of = lambda value: bottom - (bottom - top) * value / most
    drawn = []
    for value in (0, most / 2, most):
        drawn += [line(LEFT, height_of(value), RIGHT, height_of(value), "grid"), text(LEFT - 7, height_of(value) + 5, f"{value:.1f}" if value else "0", "soft", "end")]
    for team in TEAMS:
        drawn.append(path(stairs([it[team, "share"] for it in kept], height_of), f"line {team}"))
    for mode, size in SIZES.items():
        for team, height in apart({team: height_of(kept[-1][team, "share"]) for team in TEAMS}, size + 3).items():
            drawn.append(text(RIGHT + 7, height + size / 3, team, f"{team} head {mode}"))
    return drawn


def is_clear(one, other):
    """Whether two names, each with its row, the line down from there and the span of its letters, are clear of one another."""
    (row, x, left, right), (other_row, other_x, other_left, other_right) = one, other
    if row == other_row:
        return right < other_left or other_right < left
    crossed = (other_x, left, right) if row > other_row else (x, other_left, other_right)
    return not crossed[1] <= crossed[0] <= crossed[2]


def rows_of(marks, size, count, placed=()):
    """All ways to give each name one of so many rows and a side of its line, right of it first."""
    if len(placed) == len(marks):
        yield placed
        return
    at, said = marks[len(placed)]
    x, width = across(at), len(said) * size * 0.54 + 8
    for left, right in ((x - 4, x + width), (x - width, x + 4)):
        for row in range(count):
            one = row, x, left, right
            if left > 4 and right < WIDTH - 4 and all(is_clear(one, it) for it in placed):
                yield from rows_of(marks, size, count, (*placed, one))


def names(marks):
    drawn = []
    for mode, size in SIZES.items():
        said = [(at, long if mode == "wide" else short) for at, long, short in marks if short or mode == "wide"]
        # in as few rows as possible, and then with as many names as possible to the right of their lines
        count, ways = next((count, ways) for count in range(1, 9) if (ways := list(rows_of(said, size, count))))
        placed = min(ways, key=lambda way: sum(right - x == 4 for _, x, _, right in way))
        height = min((NAMES[1] - NAMES[0]) / count, size * 1.35)
        for (_, name), (row, x, left, right) in zip(said, placed):
            y = NAMES[1] - (count - row - 1) * height
            drawn.append(text(x + 5 if right > x + 4 else x - 5, y - 3, name, mode, "start" if right > x + 4 else "end"))
            # not through anything between bands and lines
            drawn += [line(x, y - size, x, BANDS[1], f"mark {mode}"), line(x, LINES[0], x, LINES[1], f"mark {mode}")]
    return drawn


def key():
    """What dark, light and blank are."""
    drawn = []
    for (mode, size), x in zip(SIZES.items(), (RIGHT, WIDTH - 10)):
        for said, kind in (("free", "free"), ("offered", "web offered"), ("in tasks", "web used")):
            x -= round(len(said) * size * 0.54)
            drawn.append(text(x, 25, said, mode))
            drawn.append(f'<rect class="{kind} {mode}" x="{x - size - 5}" y="{25 - round(size * 0.85)}" width="{size}" height="{size}"/>')
            x -= round(size * 2.3)
    return drawn


def hours():
    drawn = []
    for hour in range(0, 25, 3):
        x = across(hour * HOUR)
        drawn.append(line(x, LINES[1], x, LINES[1] + 5, "axis"))
        drawn.append(text(x, LINES[1] + 26, f"{hour}:00", "soft" if hour % 6 == 0 else "soft wide", "middle"))
    return drawn + [line(LEFT, LINES[1], RIGHT, LINES[1], "axis"), line(LEFT, BANDS[1], RIGHT, BANDS[1], "axis")]


def weighted(told):
    """What roles have weights, of the first moment's lines."""
    events = [json.loads(it) for it in told[0][1].splitlines()]
    return ", ".join(f"{it['role']} has weight {it['weight']}" for it in events if it["event"] == "set_weight")


def described(kept, marks):
    """The picture in words."""
    said = [f"Of {kept[0]['total']:.0f} cpus, by the hour of the day."]
    for team in TEAMS:
        held = [it[team, "used"] + it[team, "offered"] for it in kept]
        at = held.index(max(held)) * STEP
        said.append(f"{team} has most at {clock(at)}, {max(held):.0f} cpus, and a weighted share of at most {max(it[team, 'share'] for it in kept):.0%}.")
    return " ".join(said + [f"{clock(at)}: {name}." for at, name, _ in marks])


def clock(at):
    return f"{at // HOUR}:{at % HOUR // 60_000:02}"


def picture(kept, marks, weights):
    head = [text(LEFT, 24, "Cpus of the cluster", "head wide"), text(10, 26, "Cpus", "head slim")]
    head += [text(LEFT, LINES[0] - 14, "Weighted dominant share", "head"), text(RIGHT, LINES[0] - 14, weights, "soft wide", "end")]
    body = ['<rect class="page" width="100%" height="100%" rx="8"/>', *bands(kept), *lines(kept), *hours(), *names(marks), *head, *key()]
    about = f"<title>A day of three teams on one cluster</title>\n<desc>{escape(described(kept, marks))}</desc>"
    frame = f'<svg xmlns="http://www.w3.org/2000/svg" viewBox="0 0 {WIDTH} {HEIGHT}" role="img" aria-labelledby="title desc">'
    about = about.replace("<title>", '<title id="title">').replace("<desc>", '<desc id="desc">')
    return "\n".join([frame, about, f"<style>{STYLE}</style>", *body, "</svg>", ""])


def main(program="./drf"):
    told = moments(f"{ROOT}/examples/busy_day.jsonl")
    kept = means(list(measured(os.path.abspath(program) if os.path.exists(program) else program, told)))
    with open(f"{ROOT}/docs/day.svg", "w") as written:
        written.write(picture(kept, happenings(told), weighted(told)))


if __name__ == "__main__":
    if len(sys.argv) > 2 or sys.argv[1:2] == ["--help"]:
        sys.exit(__doc__)
    main(*sys.argv[1:])
