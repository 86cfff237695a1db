"""The page of a run: what stands in it without a script, and the data that timeline.js draws."""

from __future__ import annotations

import json
from collections import Counter
from collections.abc import Iterator
from html import escape
from pathlib import Path
from typing import NamedTuple

from model_text import Place
from rules_report import Line
from shown_text import shown_column, shown_lines
from timeline_follow import Follower, Mark
from timeline_sites import Listed
from timeline_words import AGAIN, SENTENCES, sentence

HERE = Path(__file__).resolve().parent
MOST_GROUPS, MOST_BOOTS = 12, 400

LIGHT = {
    "page": "#ffffff", "panel": "#f5f6f8", "text": "#1b2130", "soft": "#596273", "line": "#d5d9e0", "band": "#eef2f7",
    "off": "#c9cfd8", "issue": "#1f5fbf", "again": "#c2410c", "kept": "#0b7a6b", "copy": "#6d3fc4", "drop": "#8a93a3",
    "lost": "#9b2c2c", "seal": "#596273", "look": "#8a93a3", "begin": "#596273", "commit": "#1b2130", "trap": "#c01818",
    "chosen": "#f2c94c", "link": "#1f5fbf",
}  # fmt: skip
DARK = {
    "page": "#14171d", "panel": "#1d2129", "text": "#e8ebf0", "soft": "#a5aebd", "line": "#363d49", "band": "#20262f",
    "off": "#4a5362", "issue": "#7db4ff", "again": "#ff9d5c", "kept": "#4fd1bd", "copy": "#c3a6ff", "drop": "#8b95a6",
    "lost": "#ff8f8f", "seal": "#a5aebd", "look": "#8b95a6", "begin": "#a5aebd", "commit": "#e8ebf0", "trap": "#ff6b6b",
    "chosen": "#8a6d1c", "link": "#8fbfff",
}  # fmt: skip

# Each mark's outline around 0 0, whether it is filled, and its words.
SHAPES = {
    "issue": ("M-6 0a6 6 0 1 0 12 0a6 6 0 1 0 -12 0z", True, "issued for the first time in its task's stay"),
    "again": ("M0 -8L8 0L0 8L-8 0z", True, "issued or copied again"),
    "kept": ("M-5.5 -5.5h11v11h-11z", False, "kept"),
    "copy": ("M-5 -6.5L7 0L-5 6.5z", True, "copied"),
    "lost": ("M-5 -5L5 5M5 -5L-5 5", False, "a record dropped"),
    "drop": ("M-3 -3L3 3M3 -3L-3 3", False, "a drop that found no record"),
    "look": ("M-2.5 0a2.5 2.5 0 1 0 5 0a2.5 2.5 0 1 0 -5 0z", False, "a look at the clock"),
    "seal": ("M-3 -6h6M0 -6v12M-3 6h6", False, "sealed: the record stands"),
    "begin": ("M-4 -6L5 0L-4 6z", False, "an attempt begins"),
    "commit": ("M-5 8V-8L7 -4L-5 0", True, "commit"),
    "trap": ("M-3 -7h6l4 4v6l-4 4h-6l-4 -4v-6z", True, "trap"),
}


class Group(NamedTuple):
    """What was done again in one way by the sites of one place in the text: its first mark, the sites, and how often it was."""

    first: Mark
    sites: list[int]
    count: int


def look_of(mark: Mark, line: Line) -> str:
    """The shape of a mark."""
    key = mark.note[0]
    if key in AGAIN:
        return "again"
    if key.startswith("drop"):
        return "drop" if key.endswith("none") else "lost"
    return str(line.event[0])


def groups(follower: Follower, sites: dict[tuple[int, int], Listed]) -> list[Group]:
    """The turns of an unrolled loop are one place."""
    found: dict[tuple[int, Place, str], Group] = {}
    for mark in follower.marks:
        key, values = mark.note
        if key not in AGAIN:
            continue
        place = (mark.task, sites[mark.task, values[0]].at, key)
        group = found.setdefault(place, Group(mark, [], 0))
        if values[0] not in group.sites:
            group.sites.append(values[0])
        found[place] = group._replace(count=group.count + 1)
    return list(found.values())


def plural(count: int, word: str) -> str:
    return f"{count:,} {word}" + ("" if count == 1 else "s")


def facts(lines: list[Line], follower: Follower) -> str:
    """What happened, in a few words."""
    kinds = Counter(line.event[0] for line in lines)
    again = sum(mark.note[0] in AGAIN for mark in follower.marks)
    outages = max(0, kinds["boot"] - 1)
    told = [off for off in follower.offs if off is not None]
    off = f" ({plural(sum(told), 'tick')} without power)" if outages and sum(told) else ""
    pieces = [
        f"{plural(lines[-1].step, 'step')} in {plural(kinds['boot'], 'boot')}",
        f"{plural(outages, 'outage')}{off}",
        f"{plural(kinds['begin'], 'attempt')}, {plural(kinds['commit'], 'commit')}",
        f"{kinds['issue']:,} issued, {again:,} done again, {kinds['kept']:,} kept",
    ]
    return "; ".join(pieces) + f". {sentence(follower.marks[-1].note)}"


# Pieces of the page


def snippet(source: bytes, site: Listed) -> str:
    """The statement of a site as it stands in its line."""
    row, _ = site.at
    text, column = shown_lines(source)[row - 1], shown_column(source, *site.at)
    start = text.rfind(";", 0, column - 1) + 1
    start = max(start, text.rfind("{", 0, column - 1) + 1)
    stop = min([at for at in (text.find(";", column - 1), text.find("{", column - 1)) if at >= 0], default=len(text))
    return " ".join(text[start:stop].split())


def mark_text(site: Listed) -> str:
    if site.ann is None:
        return "copy"
    return f"TIMELY({site.ann.ticks})" if site.ann.kind == "TIMELY" else site.ann.kind


def listed(numbers: list[int]) -> str:
    """Sites in words."""
    if len(numbers) > 2 and numbers[-1] - numbers[0] == len(numbers) - 1:
        return f"the sites {numbers[0]} to {numbers[-1]}"
    return "the sites " + ", ".join(map(str, numbers))


def again_items(follower: Follower, sites: dict[tuple[int, int], Listed]) -> Iterator[str]:
    names = [task.name for task in follower.computer.checked.tasks]
    for first, numbers, count in groups(follower, sites):
        of = f" at {listed(sorted(numbers))}" if len(numbers) > 1 else ""
        more = f" <span class=soft>({plural(count, 'time')} in this way{of})</span>" if count > 1 else ""
        where = f"<button type=button class=go data-line={first.line}>line {first.line + 1}</button>"
        yield f"<li><b>{escape(names[first.task - 1])}</b> {where} {escape(sentence(first.note))}{more}"


def again_section(follower: Follower, sites: dict[tuple[int, int], Listed]) -> str:
    items = list(again_items(follower, sites))
    if not items:
        return "<p>Nothing was done again.</p>"
    shown = f"<ul class=again>{''.join(items[:MOST_GROUPS])}</ul>"
    if len(items) > MOST_GROUPS:
        shown += f"<details><summary>{len(items) - MOST_GROUPS} more ways</summary><ul class=again>{''.join(items[MOST_GROUPS:])}</ul></details>"
    return shown


def count_rows(sites: dict[tuple[int, int], Listed], source: bytes, follower: Follower, lines: list[Line]) -> Iterator[str]:
    counts: Counter = Counter()
    for mark, line in zip(follower.marks, lines):
        if line.event[0] in ("issue", "kept", "drop", "copy"):
            counts[mark.task, line.event[1], line.event[0]] += 1
            counts[mark.task, line.event[1], look_of(mark, line)] += look_of(mark, line) in ("again", "lost")
    names = [task.name for task in follower.computer.checked.tasks]
    for (task, number), site in sites.items():
        numbers = [counts[task, number, what] for what in ("issue", "again", "kept", "copy", "drop", "lost")]
        cells = "".join(f"<td{' class=none' if not count else ''}>{count:,}" for count in numbers)
        place = f"{site.at[0]}:{site.at[1]}"
        text = escape(snippet(source, site))
        yield f"<tr><th scope=row>{escape(names[task - 1])}<td>{number}<td>{place}<td class=code>{text}<td>{escape(mark_text(site))}{cells}"


def boot_rows(lines: list[Line], follower: Follower) -> Iterator[str]:
    starts = [at for at, line in enumerate(lines) if line.event[0] == "boot"]
    for number, (start, stop) in enumerate(zip(starts, [*starts[1:], len(lines) - 1]), 1):
        inside = [line.event[0] for line in lines[start + 1 : stop]]
        off = follower.offs[number - 1]
        cells = [
            "" if number == 1 else "not told" if off is None else f"{off:,}",
            f"{lines[start].step:,}", f"{lines[stop].step - lines[start].step:,}", f"{len(inside):,}",
            f"{inside.count('begin'):,}", f"{inside.count('commit'):,}",
        ]  # fmt: skip
        where = f"<button type=button class=go data-line={start}>boot {number}</button>"
        yield f"<tr><th scope=row>{where}" + "".join(f"<td>{cell}" for cell in cells)


def boots_section(lines: list[Line], follower: Follower) -> str:
    rows = []
    for row in boot_rows(lines, follower):
        rows.append(row)
        if len(rows) == MOST_BOOTS:
            break
    more = len(follower.boots) - len(rows)
    note = f"<p class=soft>And {plural(more, 'boot')} more; the drawing has them all.</p>" if more > 0 else ""
    heads = ("Boot", "Ticks without power before", "Begins at step", "Steps", "Events", "Attempts", "Commits")
    head = "".join(f"<th scope=col>{text}" for text in heads)
    long = " long" if len(follower.boots) > 60 else ""
    return f"<div class='wide{long}'><table class='numbers all'><thead><tr>{head}<tbody>{''.join(rows)}</table></div>{note}"


def legend() -> str:
    items = []
    for name, (path, filled, words) in SHAPES.items():
        paint = f"fill:var(--{name});stroke:none" if filled else f"fill:none;stroke:var(--{name});stroke-width:2"
        items.append(f'<li><svg viewBox="-10 -10 20 20" aria-hidden=true><path d="{path}" style="{paint}"/></svg>{escape(words)}')
    return "".join(items)


def palette(colours: dict[str, str]) -> str:
    return "".join(f"--{name}:{colour};" for name, colour in colours.items())


def site_data(source: bytes, site: Listed) -> list[int | str]:
    column = shown_column(source, *site.at)
    return [site.task, site.number, site.at[0], column, site.kind, mark_text(site), snippet(source, site)]


def drawn(sites: dict[tuple[int, int], Listed], source: bytes, report: str, follower: Follower, lines: list[Line]) -> str:
    """What the script draws, as JSON that may stand in a page."""
    keys = list(SENTENCES)
    places = {key: at for at, key in enumerate(keys)}
    looks = list(SHAPES) + ["boot", "end"]
    data = {
        "report": report,
        "tasks": [task.name for task in follower.computer.checked.tasks],
        "sites": [site_data(source, site) for site in sites.values()],
        "source": shown_lines(source),
        "sentences": list(SENTENCES.values()),
        "notes": [[places[mark.note[0]], *mark.note[1]] for mark in follower.marks],
        "kinds": looks,
        "looks": [looks.index(look_of(mark, line)) for mark, line in zip(follower.marks, lines)],
        "of": [mark.task for mark in follower.marks],
        "attempts": [mark.attempt for mark in follower.marks],
        "offs": follower.offs,
        "shapes": {name: [path, filled] for name, (path, filled, _) in SHAPES.items()},
        "light": LIGHT,
        "dark": DARK,
    }
    return json.dumps(data, separators=(",", ":")).replace("<", "\\u003c")


def page(name: str, source: bytes, report: bytes, sites: dict[tuple[int, int], Listed], lines: list[Line], follower: Follower) -> str:
    """The whole page."""
    pieces = {
        "name": escape(name),
        "facts": escape(facts(lines, follower)),
        "again": again_section(follower, sites),
        "counts": "".join(count_rows(sites, source, follower, lines)),
        "boots": boots_section(lines, follower),
        "legend": legend(),
        "light": palette(LIGHT),
        "dark": palette(DARK),
        "style": (HERE / "timeline.css").read_text(),
        "script": (HERE / "timeline.js").read_text(),
        "data": drawn(sites, source, report.decode("ascii"), follower, lines),
    }
    shell = (HERE / "timeline.html").read_text()
    for piece, words in pieces.items():
        shell = shell.replace(f"<!--{piece}-->", words)
    return shell
