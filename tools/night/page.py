"""report.html: one file with no outside parts, which can be opened from the disk, on a phone, and printed."""
import html
import math
import re

from . import plots
from .report import COLUMNS, below, by_cabin, cells, clock, counts, days_of, failed_first, headline, many, places
from .verdict import Broken, parsed, worst_of

PLOTTED = 1000  # sessions with pictures, what failed first; more would make the page too large for a phone
DAYS_OPEN = 14
SIGNS = {"passed": "", "failed": "✗", "broken": "?"}  # so that a verdict is told without its colour
EVENTS = {"burn": "▲ a burn", "state": "■ a state", "refused": "× a refused record"}

STYLE = """
:root { color-scheme: light; }
body { font: 16px/1.4 system-ui, sans-serif; margin: 1rem auto; padding: 0 .75rem; max-width: 76rem; color: #111; background: #fff; }
h1 { font-size: 1.4rem; margin: 0 0 .25rem; } h2 { font-size: 1.15rem; margin: 1.5rem 0 .4rem; } h3 { font-size: 1rem; margin: 0; display: inline; }
.big { font-size: 1.2rem; font-weight: 600; margin: .25rem 0; } .small { font-size: .9rem; color: #444; margin: .25rem 0; }
nav a { margin-right: 1rem; }
table { border-collapse: collapse; } th, td { text-align: left; padding: .25rem .5rem; border-bottom: 1px solid #ccc; vertical-align: top; white-space: nowrap; }
.n { text-align: right; font-variant-numeric: tabular-nums; } .w { white-space: normal; overflow-wrap: anywhere; min-width: 6em; } .r { min-width: 13em; }
.failed, .broken, .passed { font-weight: 600; } .failed { color: #a40000; } .broken { color: #7a4b00; } .passed { color: #14601c; }
#days table { font-variant-numeric: tabular-nums; } #days td, #days thead th + th { text-align: center; min-width: 1.2rem; } #days .all { border-bottom: 2px solid #777; }
#days td.failed { background: #fbe3e3; } #days td.broken { background: #fdf0d5; } .scroll { overflow-x: auto; }
#sessions table { width: 100%; }
details { border-bottom: 1px solid #ccc; padding: .4rem 0; } summary { cursor: pointer; overflow-wrap: anywhere; }
.row { display: flex; flex-wrap: wrap; gap: .5rem 1.5rem; } figure { margin: .5rem 0; flex: 2 1 20rem; max-width: 44rem; } figure.o { flex: 1 1 14rem; max-width: 19rem; }
figcaption { font-size: .85rem; color: #333; } svg { width: 100%; height: auto; display: block; } svg text { font: 15px sans-serif; fill: #333; } svg .red { fill: #a40000; }
.axis { stroke: #555; } .grid { stroke: #ddd; } .midnight { stroke: #777; stroke-dasharray: 2 3; } .limit { stroke: #a40000; stroke-width: 1.5; stroke-dasharray: 7 4; }
.marks { stroke: #0b4f9e; stroke-width: 4; stroke-linecap: round; fill: none; } .over { fill: #c00000; } .worst { fill: none; stroke: #111; stroke-width: 1.5; }
.burn, .state { fill: #555; } path.refused { stroke: #c00000; stroke-width: 2.5; fill: none; }
.body { fill: #ddd; stroke: #aaa; } .orbit { stroke-width: 1.8; } .v0 { stroke: #0b4f9e; fill: #0b4f9e; } .v1 { stroke: #b45000; fill: #b45000; } path.v0, path.v1 { fill: none; } .at { stroke-width: 2; } .orbit.v1 { stroke-dasharray: 7 4; }
@media screen and (max-width: 44rem) {
  #days th, #days td { padding: .25rem .2rem; } #days td span { display: block; } #days thead th + th { writing-mode: vertical-rl; transform: rotate(180deg); text-align: left; max-height: 9rem; overflow: hidden; }
  #sessions thead { display: none; } #sessions table, #sessions tbody { display: block; }
  #sessions tr { display: flex; flex-wrap: wrap; gap: 0 .6rem; align-items: baseline; border-bottom: 1px solid #bbb; padding: .45rem 0; }
  #sessions td { border: 0; padding: 0; text-align: left; } #sessions td:empty:not(.r) { display: none; } #sessions [data-is="verdict"] { order: -1; } #sessions .r { flex-basis: 100%; }
  #sessions [data-is="day"]::before, #sessions .s::before { content: attr(data-is) " "; } #sessions .s { font-size: .85rem; } #sessions .s:not(.failed) { color: #444; }
  figure.o { display: flex; gap: .5rem; align-items: center; flex-basis: 100%; max-width: none; } figure.o svg { flex: 0 0 55%; min-width: 0; }
}
@media print {
  @page { margin: 12mm; } body { font-size: 9.5pt; max-width: none; margin: 0; padding: 0; } nav, details:not([open]) { display: none; } a { color: inherit; text-decoration: none; }
  tr, figure, .row, summary { break-inside: avoid; } h2, summary { break-after: avoid; } th, td { padding: .15rem .25rem; } .r { min-width: 9em; } [data-is="local time"] { white-space: normal; min-width: 7em; } .row { flex-wrap: nowrap; } figure { flex: 2.4; margin: .2rem 0; } figure.o { flex: 1; }
}
"""


def cell(words, kind="", column=""):
    """A cell, with the name of its column for where the table has no head."""
    kind = f' class="{kind}"' if kind else ""
    column = f' data-is="{column}"' if column else ""
    return f"<td{kind}{column}>{words}</td>"


def head(names, kinds=()):
    kinds = [f' class="{kind}"' if kind else "" for kind in kinds] or [""] * len(names)
    return "<thead><tr>" + "".join(f'<th scope="col"{kind}>{name}</th>' for name, kind in zip(names, kinds)) + "</tr></thead>"


# ---- cabins and days

def tally(results):
    """A cell with the counts of its verdicts, in the worst one's colour."""
    got = counts(results)
    parts = [f'<span class="{verdict}" title="{got[verdict]} {verdict}">{sign}{got[verdict]}</span>' for verdict, sign in SIGNS.items() if got[verdict]]
    return cell(" ".join(parts), next((verdict for verdict in ("failed", "broken") if got[verdict]), ""))


def day_row(name, own, names, kind=""):
    return f'<tr{kind}><th scope="row">{name}</th>{"".join(tally(own.get(name, [])) for name in names)}</tr>'


def days_part(told):
    """A row a local day and a column a cabin, above them the counts of all days."""
    every = dict(by_cabin(told))
    rows = [day_row("none" if day is None else day, own, every) for day, own in days_of(told.results)]
    top = head(("day", *map(html.escape, every)))
    table = lambda part: f'<div class="scroll"><table>{top}<tbody>{"".join(part)}</tbody></table></div>'
    older = f"<details><summary>{len(rows) - DAYS_OPEN} days before</summary>{table(rows[DAYS_OPEN:])}</details>" if len(rows) > DAYS_OPEN else ""
    key = '<p class="small">Sessions a local day: <span class="passed">2</span> passed, <span class="failed">✗2</span> failed, <span class="broken">?2</span> broken; an empty place: the cabin was not run.</p>'
    return f'<section id="days"><h2>Which cabins were run on which local day</h2>{key}{table([day_row("all", every, every, " class=all"), *rows[:DAYS_OPEN]])}{older}</section>'


# ---- sessions

KINDS = {"session": "w", "reason": "w r", "records": "n s", "marks": "n s", "worst m": "n s", "local time": "s"}


def session_row(k, one, limit):
    """A row of the table, with the words of report.txt; the name leads to the pictures."""
    over = " failed" if one["worst"] is not None and one["worst"] > limit else ""
    kinds = {**KINDS, "verdict": one["verdict"], "worst m": KINDS["worst m"] + over}
    parts = []
    for name, words in zip(COLUMNS, cells(one)):
        text = html.escape(words)
        if name == "session" and k < PLOTTED:
            text = f'<a href="#s{k}">{text}</a>'
        parts.append(cell(text, kinds.get(name, ""), name))
    return f"<tr>{''.join(parts)}</tr>"


def sessions_part(ordered, limit):
    rows = "".join(session_row(k, one, limit) for k, one in enumerate(ordered))
    return f'<section id="sessions"><h2>Sessions, what failed first</h2><table>{head(COLUMNS, [KINDS.get(name, "") for name in COLUMNS])}<tbody>{rows}</tbody></table></section>'


# ---- pictures

def figure(drawn, words, kind=""):
    return f'<figure{kind}>{drawn}<figcaption>{words}</figcaption></figure>'


def off_figure(got, marks, limit):
    worst, plot = worst_of(marks), plots.off_plot(marks, got.events, limit)
    words = [f"Computed minus recorded range in m, by the cabin's clock: {many(len(marks), 'mark')}, limit {limit} m",
             f"worst (in the circle) {places(worst.off)} m, record {worst.record}, day {worst.day}, {clock(worst.cs)}", *(words for what, words in EVENTS.items() if f'class="{what}"' in plot)]
    return figure(plot, "; ".join(words) + ".")


def orbit_figure(plot, times):
    large = f" Heights are drawn {times:.0f} times larger." if times > 1.5 else ""
    return figure(plot, f"Orbits at the end, in the plane of the first vehicle: 0 round and solid, 1 square and dashed.{large}", ' class="o"')


def pictures(one, store, limit, mu):
    """What can be drawn of a session's result, in words where it is nothing."""
    if one["verdict"] == "broken":
        return f"<p>It could not be run: {html.escape(one['reason'])}.</p>"
    try:
        got = parsed(store.place(one).read_text().rsplit("verdict ", 1)[0], limit)
    except (OSError, Broken):
        return "<p>The result has gone.</p>"
    marks = [mark for mark in got.marks if math.isfinite(mark.off)]
    drawn = [off_figure(got, marks, limit)] if marks else ["<p>No mark got a result.</p>"]
    drawn += [orbit_figure(*plot) for plot in plots.orbit_plots(got.vehicles, mu)]
    return f'<div class="row">{"".join(drawn)}</div>'


def session_part(k, one, store, limit, mu):
    cabin, day, name, verdict, reason, *_ = map(html.escape, cells(one))
    title = f'<h3>{cabin}/{name}</h3>, day {day}: <span class="{verdict}">{verdict}</span> {reason}'
    return f'<details{" open" if verdict == "failed" else ""}><summary>{title}</summary><div id="s{k}">{pictures(one, store, limit, mu)}</div></details>'


def coloured(words):
    """The headline, each verdict that came up in its colour, and cabins that are not in it as broken ones."""
    words = re.sub(r"\b([1-9]\d*) (passed|failed|broken)\b", r'<span class="\2">\1 \2</span>', html.escape(words))
    return re.sub(r"; (\d+ cabins? could .*)", r'; <span class="broken">\1</span>', words)


def as_html(told, store, limit, mu):
    ordered, mu, words = failed_first(told.results), plots.mu_of(mu), headline(told)
    lines = "".join(f'<p class="small">{html.escape(line)}</p>' for line in below(told))
    parts = [session_part(k, one, store, limit, mu) for k, one in enumerate(ordered[:PLOTTED])]
    more = f"<p>The other {len(ordered) - PLOTTED} have no pictures here; <code>./cabin replay</code> shows their lines.</p>" if len(ordered) > PLOTTED else ""
    return (
        '<!DOCTYPE html>\n<html lang="en"><head><meta charset="utf-8"><meta name="viewport" content="width=device-width, initial-scale=1">'
        f'<title>Night run: {html.escape(words)}</title><style>{STYLE}</style></head><body>\n'
        f'<h1>Night run</h1><p class="big">{coloured(words)}</p>{lines}'
        '<nav><a href="#days">Days</a><a href="#sessions">Sessions</a><a href="#pictures">Pictures</a></nav>\n'
        f"{days_part(told)}\n{sessions_part(ordered, limit)}\n"
        f'<section id="pictures"><h2>Pictures</h2>{"".join(parts)}{more}</section>\n</body></html>\n'
    )
