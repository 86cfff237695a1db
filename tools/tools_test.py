"""Tests of tools/explain and tools/timeline without a browser; tools/check_tools runs them."""

from __future__ import annotations

import importlib.machinery
import importlib.util
import json
import re
import subprocess
import sys
import tempfile
from collections.abc import Iterator
from html import unescape
from pathlib import Path

from explain_slips import FORMS, SILENT, rows
from explain_words import LIMITS
from model import check
from model_text import NoTree, Parser, Refused, divide, read_program, show
from rules_cases import SENSE, SEND
from rules_flow import checked
from timeline_sites import model_lines, read_sites
from timeline_words import SENTENCES
from tools_cases import slips

HERE = Path(__file__).resolve().parent
DOCS = HERE.parent / "docs"

# A message that goes again though the reading on which it depends is kept; the steps are made up.
AGAIN = SENSE % "TIMELY(1000)"
AGAIN_REPORT = """0 boot 1
50 begin 1
100 look 1 99
103 drop 1
105 drop 2
107 issue 1 temp = 20
110 seal 1
150 look 2 149
152 drop 2
154 issue 2 radio 20 = 0
157 seal 2
157 boot 2
207 begin 1
257 look 1 2256
259 drop 1
261 drop 2
263 issue 1 temp = 21
266 seal 1
266 boot 3
316 begin 1
366 look 1 2365
370 kept 1 21
420 look 2 2419
422 drop 2
424 issue 2 radio 21 = 0
427 seal 2
450 commit 0
460 end halted
"""
WHY = (
    "Site 2 is issued again although site 1 is kept: it depends on site 1, and its record was dropped in boot 2, "
    "when site 1 was issued anew."
)
TURNS = """peripheral temp 0; peripheral radio 1; word v; word i; nv word n; nv word a[2]; word b[4]; word *p;
task t {
  for (i = 0; i < 2; i++) {
    IO_BLOCK(TIMELY(5)) {
      v = IO(temp, SINGLE);
      IO_BLOCK(ALWAYS) { IO(radio, SINGLE, v); }
    }
  }
  p = &b[0];
  DMA(p, a, 1);
  n = 1;
  IO_BLOCK(SINGLE) { }
  STOP;
}
"""
SITES = [
    (AGAIN, """task 1 a
site 1 1:61 io temp timely 1000 forces 2
site 2 1:85 io radio single
regions 1
end
"""),
    (TURNS, """task 1 t
site 1 4:5 block timely 5 members 2 3 4
site 2 5:11 io temp single forces 3 4 5 7 8
site 3 6:7 block always members 4
site 4 6:26 io radio single
site 5 4:5 block timely 5 members 6 7 8
site 6 5:11 io temp single forces 7 8
site 7 6:7 block always members 8
site 8 6:26 io radio single
site 9 10:3 copy to b from a greatest 2
site 10 12:3 block single members
regions 2
first 1 n
end
"""),
]  # fmt: skip


def program(name: str):
    """A tool as a module."""
    loader = importlib.machinery.SourceFileLoader(name, str(HERE / name))
    spec = importlib.util.spec_from_loader(name, loader)
    module = importlib.util.module_from_spec(spec)
    loader.exec_module(module)
    return module


EXPLAIN = program("explain")


# explain


def refusal_lines() -> Iterator[str]:
    """Every refusal line of docs/COMMANDS.md, with numbers for its capitals, and each limit of docs/LANGUAGE.md."""
    commands = (DOCS / "COMMANDS.md").read_text()
    lines = re.findall(r"^    ((?:source|world|image|script|report) .*|illegal .*)$", commands, re.MULTILINE)
    lines += [line for line in ("usage", "read fault", "too long") if f"`{line}`" in commands]
    limits = re.findall(r"^\| `([a-z-]+)` \|", (DOCS / "LANGUAGE.md").read_text().partition("### Limits")[2], re.MULTILINE)
    for line in lines:
        line = line.replace("L:C", "1:1")
        if "NAME" in line:
            yield from (line.replace("NAME", limit).replace("COUNT", "70") for limit in limits)
        else:
            yield re.sub(r"\b[NI]\b", "7", line)


def explain_lines() -> Iterator[str]:
    found = list(refusal_lines())
    if len(found) < 38:
        yield f"only {len(found)} refusal lines were found in the documents"
    for line in found:
        words = list(EXPLAIN.explained("file", b"task t { STOP; }\n", line))
        if not words or not words[0].startswith("file:") or re.search(r"\{\d", words[0]):
            yield f"`{line}` has no sentence: {words}"
    for line in ("", "source", "source 1:1 nothing", "source 1:1 limit nothing 3", "image bad-word", "legal", "world not-toml 5"):
        if list(EXPLAIN.explained("file", b"", line)):
            yield f"`{line}` is explained"
    unknown = set(LIMITS) - {line.split()[3] for line in found if " limit " in line}
    if unknown:
        yield f"sentences for limits that aren't there: {unknown}"


def refused_line(source: bytes) -> str | None:
    """The refusal of a program; where the tokens have no tree, at the token at which the reader stops."""
    try:
        tokens = divide(source)
        parser = Parser(tokens)
        read_program(source)
        check(read_program(source))
    except Refused as refused:
        return str(refused)
    except NoTree:
        try:
            parser.program()
        except NoTree:
            return f"source syntax at {show(parser.ahead.at)}"
    return None


def explain_slips() -> Iterator[str]:
    table = rows()
    if set(table) != set(FORMS) | set(SILENT):
        yield f"rows without a form, or forms without a row: {set(table) ^ (set(FORMS) | set(SILENT))}"
    tried = set()
    for row, source in slips():
        tried.add(row)
        line = refused_line(source)
        said = list(EXPLAIN.explained("file", source, line)) if line else []
        if not said or not said[-1].startswith("Coming from C") or table[row].instead not in said[-1]:
            yield f"{row}: {source.decode().splitlines()[-1]} {line} {said[-1:]}"
    if tried != set(FORMS):
        yield f"forms that no program tries: {set(FORMS) - tried}"


def explain_places() -> Iterator[str]:
    source = b"nv word samples[8];\ntask t {\n\tsamlpes[0] = 1;\n\tSTOP; }\n"
    said = list(EXPLAIN.explained("a.ease", source, "source 3:2 unknown-name"))
    wanted = ["    \tsamlpes[0] = 1;", "    \t^"]
    if said[1:] != wanted or not said[0].startswith("a.ease:3:2: ") or "Is `samples` meant?" not in said[0]:
        yield f"a place: {said}"
    said = list(EXPLAIN.explained("a.ease", b"task t {\n  x = 1\n  STOP;\n}\n", "source syntax at 3:3"))
    if "Perhaps a `;` is missing behind `1`." not in said[0]:
        yield f"a line left open: {said}"
    said = list(EXPLAIN.explained("a.ease", b"word *p; task t { p = 1; STOP; }", "source 1:19 wrong-kind"))
    if "`p` is a pointer" not in said[0]:
        yield f"a kind: {said}"
    said = list(EXPLAIN.explained("a.ease", "task t { /* ä */ x = 1; STOP; }".encode(), "source 1:19 unknown-name"))
    if said[2] != "    " + " " * 17 + "^":
        yield f"a place behind letters of two bytes: {said}"


# timeline


def timeline(source: str, report: str) -> tuple[int, str, str]:
    with tempfile.TemporaryDirectory() as folder:
        paths = [Path(folder) / "a.ease", Path(folder) / "a.report"]
        paths[0].write_text(source)
        paths[1].write_text(report)
        done = subprocess.run([HERE / "timeline", *paths], capture_output=True, text=True, timeout=60, check=False)
    return done.returncode, done.stdout, done.stderr


def page_faults() -> Iterator[str]:
    status, page, errors = timeline(AGAIN, AGAIN_REPORT)
    if status or errors:
        yield f"the page: status {status}, {errors}"
        return
    seen, _, scripted = page.partition("<script")
    if WHY not in unescape(seen):
        yield "the page doesn't say in words why site 2 is issued again although site 1 is kept"
    if re.search(r"""(?:src|href)=(?!["']?#)|url\(|@import|https?:""", page):
        yield "the page has something from elsewhere"
    if "<!--" in page:
        yield "a piece of the page is missing"
    data = json.loads(re.search(r'id="data">(.*?)</script>', scripted, re.DOTALL)[1])
    if data["report"] != AGAIN_REPORT or len(data["notes"]) != AGAIN_REPORT.count("\n"):
        yield "the page has another report"
    told = [data["sentences"][key].format(*values) for key, *values in data["notes"]]
    if not told[24].startswith(WHY) or data["offs"] != [0, 2000, 0]:
        yield f"the page tells otherwise: {told[24]}, {data['offs']}"
    counts = [re.sub(r"<[^>]*>", " ", row).split() for row in re.findall(r"<th scope=row>a(<td>.*?)(?=<tr>|</table>)", seen)]
    if [row[-6:] for row in counts] != [["2", "1", "1", "0", "2", "1"], ["2", "1", "0", "0", "4", "1"]]:
        yield f"the table counts {counts}"


def page_texts() -> Iterator[str]:
    """A program's comments are text in the page, whatever is in them."""
    nasty = "// </script><script>alert(1)</script> <!--data--> &amp; \u00e4\n"
    status, page, errors = timeline(nasty + AGAIN + nasty, AGAIN_REPORT)
    plain = timeline(AGAIN, AGAIN_REPORT)[1]
    if status or errors or page.count("<script") != plain.count("<script") or page.count("</script") != plain.count("</script"):
        yield f"a comment changes the page: {status}, {errors}"
    few = timeline("task t { STOP; }", "0 boot 1\n9 begin 1\n20 commit 0\n30 end halted\n")
    trapped = timeline("nv word a[1]; task t { a[1] = 1; STOP; }", "0 boot 1\n9 begin 1\n20 trap 1\n20 end trapped 1\n")
    dark = timeline("task t { STOP; }", "0 end power\n")
    for name, (status, page, errors), wanted in (("a short run", few, "program stopped"), ("a trap", trapped, "trap 1"), ("no boot", dark, "power ended")):
        if status or errors or wanted not in page.partition("<script")[0]:
            yield f"{name}: {status}, {errors}"


def page_refusals() -> Iterator[str]:
    """Reports that aren't this program's, and what is said of each."""
    lines = AGAIN_REPORT.splitlines(keepends=True)
    cases = [
        ("no report", "hello\n", "line 1 is no line of a full report"),
        ("an empty file", "", "line 1 is no line of a full report"),
        ("no end", "".join(lines[:-1]), "line 28 is no line"),
        ("a brief report", "boot 1\nend power\n", "line 1 is no line"),
        ("a line left out", "".join(lines[:3] + lines[4:]), "line 4 isn't one of this program's report; the rules give `drop 1` there"),
        ("another peripheral", AGAIN_REPORT.replace("radio", "lamp"), "line 10 isn't one"),
        ("a clock that falls", AGAIN_REPORT.replace("2365", "300"), "line 21 isn't one"),
        ("another end", AGAIN_REPORT.replace("end halted", "end trapped 1"), "line 28 isn't one"),
    ]
    for name, report, wanted in cases:
        yield from refusal(name, timeline(AGAIN, report), wanted)
    yield from refusal("another program", timeline(SEND, AGAIN_REPORT), "line 5 isn't one")
    yield from refusal("a program that is refused", timeline("task t { x = 1; STOP; }", AGAIN_REPORT), "source 1:10 unknown-name")


def refusal(name: str, answer: tuple[int, str, str], wanted: str) -> Iterator[str]:
    status, page, errors = answer
    if status != 1 or page or errors.count("\n") != 1 or wanted not in errors or not errors.startswith("timeline: "):
        yield f"{name}: status {status}, {len(page)} bytes, {errors!r}"


def sites_faults() -> Iterator[str]:
    for source, wanted in SITES:
        form = checked(source.encode())
        told = "".join(f"{line}\n" for line in model_lines(form))
        if told != wanted:
            yield f"the sites are {told}"
        listed = [(site.task, site.number, site.at, site.kind, site.ann) for site in read_sites(told)]
        if listed != [(task.number, site.number, site.at, site.kind, site.ann) for task in form.tasks for site in task.sites]:
            yield f"the sites are read as {listed}"


def sentences_faults() -> Iterator[str]:
    for key, text in SENTENCES.items():
        places = sorted(set(map(int, re.findall(r"\{(\d)\}", text))))
        if places != list(range(len(places))) or not text.endswith("."):
            yield f"the sentence {key} has the places {places}"


TESTS = (explain_lines, explain_slips, explain_places, page_faults, page_texts, page_refusals, sites_faults, sentences_faults)


def main() -> int:
    found = [f"{test.__name__}: {fault}" for test in TESTS for fault in test()]
    for fault in found:
        print(f"tools: {fault}", file=sys.stderr)
    if not found:
        lines, programs = len(list(refusal_lines())), len(slips())
        print(f"tools: {lines} refusal lines and {programs} slips explained, pages and their refusals as expected")
    return bool(found)


if __name__ == "__main__":
    sys.exit(main())
