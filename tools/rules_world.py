"""World files for the model of the rules: power rows and readings. Worlds are taken to be accepted."""

from __future__ import annotations

import tomllib
from typing import NamedTuple


class Row(NamedTuple):
    on: int
    off: int = 0
    fill: int = 0


class World(NamedTuple):
    power: list[Row]
    readings: dict[str, list[int]]
    retained: list[int]


def read_world(text: str) -> World:
    tree = tomllib.loads(text)
    rows = [Row(row["on"], row.get("off", 0), row.get("fill", 0)) for row in tree.get("power", [])]
    return World(rows, tree.get("readings", {}), tree.get("retained", []))


def world_text(world: World) -> str:
    lines = [f"retained = {world.retained}"] if world.retained else []
    for row in world.power:
        lines += ["[[power]]", f"on = {row.on}", f"off = {row.off}", f"fill = {row.fill}"]
    if world.readings:
        lines += ["[readings]", *(f"{name} = {values}" for name, values in world.readings.items())]
    return "\n".join(lines) + "\n"
