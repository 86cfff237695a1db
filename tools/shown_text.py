"""Lines of a program as they are shown: read as UTF-8, with places in characters in place of bytes."""

from __future__ import annotations


def shown_lines(source: bytes) -> list[str]:
    return [line.decode("utf-8", "replace") for line in source.split(b"\n")]


def shown_column(source: bytes, line: int, column: int) -> int:
    """The character, from 1, at a place of bytes; places behind the end of a line count on."""
    text = source.split(b"\n")[line - 1]
    return len(text[: column - 1].decode("utf-8", "replace")) + 1 + max(0, column - 1 - len(text))
