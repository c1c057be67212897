"""Makes one page of a plan, to be opened in a browser: what it costs, its picture, and a sheet for each vehicle.

The page is one HTML file that loads nothing. It has the verdict of `mdvsp check`, cost, bound and gap; the blocks over
the day by depot and group; vehicles out over the day; the figures of `summary`; and each vehicle's duty sheet, one page
a vehicle in print. Of a document without a plan it says why there is none. With --csv the duties also become a sheet
for a spreadsheet.

It ends with 0 where the page is written, 1 where it is written and shows that the document doesn't hold, 2 where the
arguments are wrong, 3 where a text has faults, 4 where it can't be read, 5 where the page can't be written and 6 where
the program failed. Where there is no program, the page says that nobody judged the plan.

This tool is no part of what is proved.
"""

from __future__ import annotations

import argparse
import os
import pkgutil
from dataclasses import dataclass, field
from html import escape
from typing import Dict, List, Optional, Sequence

from . import inputs, picture, run, texts
from .duties import Duty, Kind, Move, duties_of
from .errors import NoPlan
from .figures import Figures, Scope, figures_of_plan, most_out, scopes_of, united
from .plan import Plan
from .printed import clock, counted, hours, kilometres, per_cent, short_clock
from .reason import Reason, reason_of
from .run import Verdict
from .side import SideFile
from .summary import head_of, lines_of
from .timetable import Timetable

CSV_HEAD = ["vehicle", "group", "depot", "start", "end", "what", "trip", "line", "from", "to", "minutes", "metres"]
# Headings of the figures: what stands above them, and below that for the whole of it.
SHORT = {"hours out": "hours", "most out at once": "most out"}
WHOLES = {"hours out": "out", "kilometres": "all", "cost": "all"}
CLAIMS = {
    "optimal": "No plan costs less.",
    "open": "Every plan costs at least the bound; the gap is the most that a better plan can save.",
    "infeasible": "There is no plan.",
}


@dataclass
class Subject:
    """All that a page is about."""

    title: str
    timetable: Timetable
    plan: Plan
    names: SideFile
    verdict: Optional[Verdict]
    unjudged: str = ""
    faults: List[str] = field(default_factory=list)
    duties: List[Duty] = field(default_factory=list)

    @property
    def figures(self) -> Dict[str, Figures]:
        return figures_of_plan(self.timetable, self.duties)

    @property
    def holds(self) -> bool:
        return self.verdict is None or self.verdict.holds


def subject_of(title: str, timetable: Timetable, plan: Plan, names: SideFile, program: Optional[str]) -> Subject:
    """Returns what a page is about, with the verdict of the program where there is one."""
    subject = Subject(title, timetable, plan, names, None)
    try:
        subject.verdict = run.check(timetable, plan, program=program)
    except run.ProgramMissing as error:
        subject.unjudged = str(error)
    except run.Refused as error:
        subject.verdict = Verdict(False, (), str(error))
    if plan.cost is not None:
        try:
            subject.duties = duties_of(timetable, plan.blocks)
        except NoPlan as error:
            subject.faults = error.lines
    return subject


# --- Pieces of HTML --------------------------------------------------------------------------------------------------


def tag(name: str, content: str, **attributes: str) -> str:
    """Returns an element; `_` at the end of an attribute's name is left out, so that it can be `class_`."""
    written = "".join(f' {key.rstrip("_")}="{escape(value)}"' for key, value in attributes.items() if value)
    return f"<{name}{written}>{content}</{name}>"


def cells(texts_of_row: Sequence[str], figures: Sequence[bool], head: bool = False) -> str:
    """Returns the cells of a row; those of figures stand at the right."""
    name = "th" if head else "td"
    return "".join(tag(name, escape(text), class_="figure" if right else "")
                   for text, right in zip(texts_of_row, figures))


def card(what: str, value: str, more: str = "") -> str:
    inner = f"<span>{escape(what)}</span><b>{escape(value)}</b>" + (f"<span>{escape(more)}</span>" if more else "")
    return tag("div", inner, class_="card")


def money_or_none(names: SideFile, cost: Optional[int]) -> str:
    return "none" if cost is None else names.money(cost)


# --- The parts of the page -------------------------------------------------------------------------------------------


def verdict_part(subject: Subject) -> str:
    """Returns who judged the plan, and what came of it."""
    verdict = subject.verdict
    if verdict is None:
        return tag("div", f"<p><b>Not judged.</b> {escape(subject.unjudged)}</p>", class_="verdict")
    if verdict.holds:
        words = f"<b>Judged by <code>mdvsp check</code>: yes.</b> {escape(CLAIMS.get(subject.plan.claim, ''))}"
        return tag("div", f"<p>{words}</p>", class_="verdict yes")
    faults = "".join(tag("li", escape(text)) for text in subject.faults[:50])
    more = f"<li>and {len(subject.faults) - 50} more</li>" if len(subject.faults) > 50 else ""
    listed = f"<ul>{faults}{more}</ul>" if faults else ""
    return tag("div", f"<p><b>Judged by <code>mdvsp check</code>: no.</b> {escape(verdict.words)}</p>{listed}",
               class_="verdict no")


def cards_part(subject: Subject) -> str:
    """Returns cost, bound and gap, and how many vehicles there are."""
    plan, names = subject.plan, subject.names
    whole = united(subject.figures.values())
    cost = whole.cost if subject.duties else plan.cost
    shown = [card("claim", plan.claim), card("cost", money_or_none(names, cost)),
             card("bound", money_or_none(names, plan.bound), "no plan costs less" if plan.bound is not None else "")]
    if plan.cost is not None and plan.bound is not None:
        shown.append(card("gap", per_cent(plan.gap), f"{names.money(plan.cost - plan.bound)} at most to be saved"))
    if subject.duties:
        most, since, until = most_out(whole.spans)
        shown.append(card("vehicles", f"{whole.vehicles} of {whole.fleet}"))
        shown.append(card("most out at once", str(most), f"first from {clock(since)} to {clock(until)}"))
    return tag("div", "".join(shown), class_="cards")


def legend_part() -> str:
    """Returns what the shapes of the picture mean."""
    shapes = (
        ("trip", '<g class="trip"><rect x="1" y="3" width="34" height="16" rx="2"/><text x="18" y="15">12</text></g>'),
        ("empty drive", '<g class="empty"><rect x="1" y="8" width="34" height="6"/></g>'),
        ("wait", '<g class="wait"><path d="M1 11h34"/></g>'),
        ("rest in the depot",
         '<g class="rest"><rect x="1" y="4" width="34" height="14" rx="3"/><text x="18" y="15">rest</text></g>'),
    )
    items = "".join(f'<li><svg width="36" height="22" aria-hidden="true">{shape}</svg>{words}</li>'
                    for words, shape in shapes)
    return f'<ul class="legend">{items}</ul>'


def hours_row(axis: picture.Axis) -> str:
    return f'<div class="hours"><div class="labels"><span>&nbsp;</span></div>{axis.scale()}</div>'


def group_row(words: str) -> str:
    return f'<div class="group"><span>{escape(words)}</span></div>'


def group_words(subject: Subject, layer: str, count: int) -> str:
    depot = subject.timetable.layers[layer].depot
    fleet = subject.timetable.layers[layer].fleet
    return f"{subject.names.stop(depot)} · {subject.names.layer(layer)}: {count} of {counted(fleet, 'vehicle')}"


def layers_by_depot(timetable: Timetable) -> List[str]:
    """Returns the layers, those of one depot side by side, depots in the order of the stops."""
    places = {stop: place for place, stop in enumerate(timetable.stops)}
    return sorted(timetable.layers, key=lambda it: places[timetable.layers[it].depot])


def blocks_part(subject: Subject, axis: picture.Axis) -> str:
    """Returns the picture of the blocks, by depot and group."""
    rows = [hours_row(axis)]
    for layer in layers_by_depot(subject.timetable):
        own = [duty for duty in subject.duties if duty.layer.name == layer]
        rows.append(group_row(group_words(subject, layer, len(own))))
        if own:
            labels = "".join(f'<a href="#v{duty.number}">{duty.number}</a>' for duty in own)
            rows.append(f'<div><div class="labels">{labels}</div>{picture.bars(own, axis, subject.names)}</div>')
    return f'<div class="board" tabindex="0" role="region" aria-label="The blocks over the day">{"".join(rows)}</div>'


def curves_part(subject: Subject, axis: picture.Axis) -> str:
    """Returns how many vehicles are out over the day, all and by depot and group."""
    rows = [hours_row(axis)]
    for scope in scopes_of(subject.timetable, subject.figures):
        most = most_out(scope.figures.spans)[0]
        rows.append(group_row(f"{head_of(scope, subject.names)}: {most} out at most, {scope.figures.vehicles} of "
                              f"{counted(scope.figures.fleet, 'vehicle')} used"))
        labels = f'<div class="labels"><span>{most}</span></div>'
        rows.append(f"<div>{labels}{picture.curve(scope.figures, axis)}</div>")
    return f'<div class="board" tabindex="0" role="region" aria-label="Vehicles out over the day">{"".join(rows)}</div>'


def figures_row(scope: Scope, subject: Subject) -> str:
    """Returns the row of the figures of some vehicles."""
    values = [f"{scope.figures.vehicles} of {scope.figures.fleet}"]
    values += [line.printed(line.value(scope.figures)) for line in shown_lines(subject)[1:]]
    head = tag("th", escape(head_of(scope, subject.names)))
    return tag("tr", head + cells(values, [True] * len(values)), class_="" if scope.depot else "all")


def shown_lines(subject: Subject):
    """Returns the figures of `summary` that the page shows."""
    return [line for line in lines_of(subject.names.unit)
            if line.words != "hours resting" or subject.timetable.rests]


def figures_head(subject: Subject) -> str:
    """Returns the headings of the figures: what, and below it which part of that."""
    above: List[str] = []
    below: List[str] = []
    spans: List[int] = []
    for line in shown_lines(subject):
        part = line.words.startswith(" ") or line.words == "hours resting"
        if part:
            spans[-1] += 1
        else:
            above.append(SHORT.get(line.words, line.words))
            spans.append(1)
        below.append(line.words.split()[-1] if part else WHOLES.get(line.words, ""))
    groups = "".join(f'<th class="figure" colspan="{span}">{escape(words)}</th>' for words, span in zip(above, spans))
    return tag("tr", f"<th></th>{groups}") + tag("tr", "<th></th>" + cells(below, [True] * len(below), head=True))


def figures_part(subject: Subject) -> str:
    """Returns the figures of `summary`."""
    rows = "".join(figures_row(scope, subject) for scope in scopes_of(subject.timetable, subject.figures))
    return (f'<div class="scroll" tabindex="0" role="region" aria-label="Figures"><table class="figures">'
            f"<thead>{figures_head(subject)}</thead><tbody>{rows}</tbody></table></div>")


def what_of(move: Move, names: SideFile) -> str:
    """Returns what a move is called in a duty sheet."""
    return names.trip(move.trip.name) if move.trip is not None else move.kind.value


def duty_row(move: Move, names: SideFile) -> str:
    """Returns the row of a duty sheet for a move."""
    stays = move.kind in (Kind.WAIT, Kind.REST)
    origin, target = names.stop(move.origin), names.stop(move.target)
    texts_of_row = [f"{clock(move.start)}–{clock(move.end)}", what_of(move, names),
                    origin if stays else f"{origin} – {target}", hours(move.minutes),
                    "" if stays else kilometres(move.metres)]
    return tag("tr", cells(texts_of_row, [False, False, False, True, True]), class_=move.kind.name.lower())


def duty_part(duty: Duty, names: SideFile) -> str:
    """Returns the duty sheet of a vehicle."""
    layer = duty.layer
    metres = sum(move.metres for move in duty.moves)
    out = duty.back - duty.leaves - duty.minutes(Kind.REST)
    rested = f", {hours(duty.minutes(Kind.REST))} rested" if duty.minutes(Kind.REST) else ""
    head = f"Vehicle {duty.number} · {names.layer(layer.name)} · {names.stop(layer.depot)}"
    line = (f"out of the depot {clock(duty.leaves)}, back {clock(duty.back)}; {hours(out)} out{rested}, "
            f"{kilometres(metres)} km, cost {names.money(duty.cost)}")
    columns = tag("tr", cells(["time", "what", "where", "h:mm", "km"], [False, False, False, True, True], head=True))
    rows = "".join(duty_row(move, names) for move in duty.moves)
    return tag("section", f'<h3>{escape(head)}</h3><p class="quiet">{escape(line)}</p>'
                          f'<div class="scroll"><table><thead>{columns}</thead><tbody>{rows}</tbody></table></div>',
               class_="duty", id=f"v{duty.number}")


def reason_part(subject: Subject) -> str:
    """Returns why there is no plan."""
    reason = reason_of(subject.timetable, subject.plan)
    if subject.plan.claim == "open":
        return "<h2>No plan was found</h2><p>There may be one: search on with more nodes.</p>"
    if reason is None:
        return "<h2>Why there is no plan</h2><p>The document shows no reason.</p>"
    head = f"<h2>Why there is no plan</h2><p><b>{escape(reason.words(subject.names))}</b></p>"
    return head + (trips_table(reason, subject.names) + groups_table(reason, subject) if reason.trips else "")


def trips_table(reason: Reason, names: SideFile) -> str:
    """Returns the trips that can't be run together."""
    head = tag("tr", cells(["trip", "from", "start", "to", "end", "groups that may run it"], [False] * 6, head=True))
    rows = "".join(tag("tr", cells([names.trip(trip.name), names.stop(trip.origin), clock(trip.start),
                                    names.stop(trip.target), clock(trip.end),
                                    ", ".join(names.layer(it) for it in trip.layers)], [False] * 6))
                   for trip in reason.trips)
    return f'<div class="scroll"><table><thead>{head}</thead><tbody>{rows}</tbody></table></div>'


def groups_table(reason: Reason, subject: Subject) -> str:
    """Returns the groups that may run some of these trips, and their vehicles."""
    names, head = subject.names, tag("tr", cells(["group", "depot", "vehicles"], [False, False, True], head=True))
    layers = [subject.timetable.layers[it] for it in reason.layers]
    rows = "".join(tag("tr", cells([names.layer(it.name), names.stop(it.depot), str(it.fleet)], [False, False, True]))
                   for it in layers)
    return (f'<h3>Their groups</h3><div class="scroll"><table><thead>{head}</thead><tbody>{rows}</tbody></table></div>'
            "<p>More vehicles of these groups may mend it, other groups for one of the trips, or another time.</p>")


def plan_parts(subject: Subject) -> str:
    """Returns the parts that show a plan."""
    axis = picture.axis_of(subject.duties)
    duties = "".join(duty_part(duty, subject.names) for duty in subject.duties)
    return (f'<h2 id="blocks">The blocks over the day</h2>{legend_part()}{blocks_part(subject, axis)}'
            f'<h2 id="out">Vehicles out over the day</h2><p class="quiet">The dashed line is the fleet, of which each '
            f"block takes one vehicle for the day.</p>{curves_part(subject, axis)}"
            f'<h2 id="figures">Figures</h2>{figures_part(subject)}'
            f'<h2 id="duties">Duty sheets</h2><div class="duties">{duties}</div>')


def page(subject: Subject) -> str:
    """Returns the page."""
    style = pkgutil.get_data("mdvsp", "page.css").decode()
    policy = "default-src 'none'; style-src 'unsafe-inline'; img-src data:"
    head = (f'<meta charset="utf-8"><meta name="viewport" content="width=device-width, initial-scale=1">'
            f'<meta http-equiv="Content-Security-Policy" content="{policy}"><link rel="icon" href="data:,">'
            f"<title>{escape(subject.title)}</title><style>{style}</style>")
    links = "".join(f'<a href="#{place}">{words}</a>' for place, words in
                    (("blocks", "Blocks"), ("out", "Vehicles out"), ("figures", "Figures"), ("duties", "Duty sheets")))
    parts = plan_parts(subject) if subject.duties else reason_part(subject) if subject.plan.cost is None else ""
    trips, groups = len(subject.timetable.trips), len(subject.timetable.layers)
    size = f"{counted(trips, 'trip')}, {counted(groups, 'group')}, {counted(len(subject.timetable.stops), 'stop')}"
    unit = (f"Costs are in money; 1.00 is {subject.names.unit} cost units." if subject.names.unit != 1
            else "Costs are in cost units.")
    nav = f"<nav>{links}</nav>" if subject.duties else ""
    return (f'<!doctype html>\n<html lang="en"><head>{head}</head><body>{picture.SHAPES}'
            f'<header><h1>{escape(subject.title)}</h1><p class="quiet">{size}</p></header>{nav}'
            f"<main>{verdict_part(subject)}{cards_part(subject)}{parts}</main>"
            f"<footer>{unit} Made by <code>mdvsp-plan report</code>, which isn't proved; the verdict is that of "
            f"<code>mdvsp check</code>.</footer></body></html>\n")


def duties_sheet(duties: Sequence[Duty], names: SideFile) -> str:
    """Returns the duties as a sheet for a spreadsheet, a row for each move."""
    rows: List[List[object]] = [list(CSV_HEAD)]
    for duty in duties:
        own = [duty.number, names.layer(duty.layer.name), names.stop(duty.layer.depot)]
        for move in duty.moves:
            trip = [names.trip(move.trip.name), names.line(move.trip)] if move.trip else ["", ""]
            rows.append([*own, short_clock(move.start), short_clock(move.end), move.kind.value, *trip,
                         names.stop(move.origin), names.stop(move.target), move.minutes, move.metres])
    return texts.text_of_rows(rows)


# --- The command -----------------------------------------------------------------------------------------------------


def add_arguments(parser: argparse.ArgumentParser) -> None:
    inputs.add_timetable(parser)
    inputs.add_program(parser)
    parser.add_argument("plan", metavar="PLAN", help="the document of its plan")
    parser.add_argument("-o", "--output", metavar="PAGE", required=True, help="where the page is written")
    parser.add_argument("--csv", metavar="FILE", help="where the duties are written as a sheet")
    parser.add_argument("--title", metavar="TEXT", help="what stands above the page; the timetable's name else")


def command(arguments: argparse.Namespace, parser: argparse.ArgumentParser) -> int:
    """Writes the page of a plan, and its duties as a sheet."""
    given = inputs.read(arguments)
    title = arguments.title or os.path.splitext(os.path.basename(os.path.normpath(given.timetable_path)))[0]
    subject = subject_of(title, given.timetable, given.plan, given.names, arguments.program)
    texts.write_text(arguments.output, page(subject))
    if subject.unjudged:
        texts.note(f"the plan isn't judged: {subject.unjudged}")
    for text in subject.faults:
        texts.note(f"{given.plan_path}: {text}")
    if arguments.csv and subject.duties:
        texts.write_text(arguments.csv, duties_sheet(subject.duties, given.names), mark=True)
    return 0 if subject.holds and not subject.faults else 1
