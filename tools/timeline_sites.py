"""The sites of a program, as `ease sites` writes them; where no built program knows that command, the model of the rules does."""

from __future__ import annotations

import subprocess
from collections.abc import Iterator
from pathlib import Path
from typing import NamedTuple

from model_text import Ann, Place, show
from rules_core import Checked, Site
from rules_flow import Account

EASE = Path(__file__).resolve().parent.parent / "crates/ease/out/ease"
SECONDS = 60


class Listed(NamedTuple):
    """A site with what stands behind it: the sites that it forces, or its members."""

    task: int
    number: int
    at: Place
    kind: str
    name: str
    ann: Ann | None
    others: list[int]


def sites_of(path: Path, checked: Checked) -> dict[tuple[int, int], Listed]:
    """The sites of a program by task and number."""
    return {(site.task, site.number): site for site in read_sites(sites_text(path, checked))}


def sites_text(path: Path, checked: Checked) -> str:
    """The lines of `ease sites PROGRAM`."""
    if EASE.exists():
        done = subprocess.run([EASE, "sites", path], capture_output=True, timeout=SECONDS, check=False)
        if done.returncode == 0:
            return done.stdout.decode()
    return "".join(f"{line}\n" for line in model_lines(checked))


def read_sites(text: str) -> Iterator[Listed]:
    task = 0
    for line in text.splitlines():
        words = line.split()
        if words[0] == "task":
            task = int(words[1])
        elif words[0] == "site":
            yield read_site(task, words)


def read_site(task: int, words: list[str]) -> Listed:
    number, at, kind, rest = int(words[1]), words[2], words[3], words[4:]
    line, column = map(int, at.split(":"))
    if kind == "copy":
        return Listed(task, number, (line, column), kind, "", None, [])
    name = rest.pop(0) if kind == "io" else ""
    mark = rest.pop(0).upper()
    ann = Ann(mark, int(rest.pop(0)) if mark == "TIMELY" else 0)
    return Listed(task, number, (line, column), kind, name, ann, [int(word) for word in rest[1:]])


# The same by the model


def model_lines(checked: Checked) -> Iterator[str]:
    arrays = list(checked.lengths)
    for task, account in zip(checked.tasks, checked.accounts):
        yield f"task {task.number} {task.name}"
        for site in task.sites:
            yield f"site {site.number} {show(site.at)} {kind_text(checked, account, site)}"
        yield f"regions {len(account.firsts)}"
        for region, names in enumerate(account.firsts):
            if names:
                yield " ".join([f"first {region}", *sorted(names, key=arrays.index)])
    yield "end"


def kind_text(checked: Checked, account: Account, site: Site) -> str:
    if site.kind == "copy":
        arrays = list(checked.lengths)
        to, source = (sorted(ends[site.number], key=arrays.index) for ends in (account.to, account.source))
        lengths = [max([checked.lengths[name] for name in names], default=0) for names in (to, source)]
        return " ".join(["copy to", *to, "from", *source, f"greatest {min(lengths)}"])
    mark = f"timely {site.ann.ticks}" if site.ann.kind == "TIMELY" else site.ann.kind.lower()
    if site.kind == "block":
        return " ".join([f"block {mark} members", *map(str, account.members[site.number])])
    forces = account.forces[site.number]
    return " ".join([f"io {site.name} {mark}", *(["forces", *map(str, forces)] if forces else [])])
