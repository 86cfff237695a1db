"""What a page of a run says of each event, as sentences with places for numbers and names.

A note is the key of a sentence and what goes into its places; the page keeps the sentences once.
"""

from __future__ import annotations

from typing import Union

Note = tuple[str, tuple[Union[int, str], ...]]

TRAPS = {1: "an index isn't below its length", 2: "a divisor is 0", 3: "a pointer points to nothing", 4: "a copy runs past an array's end"}

SENTENCES = {
    "boot first": "Boot 1 begins.",
    "boot told": "Boot {0} begins. The power was away for {1} ticks.",
    "boot": "Boot {0} begins. How long the power was away shows at the next look.",
    "end halted": "The program stopped, and the machine halted.",
    "end power": "The world's power ended before the program did.",
    "end trapped": "The run ended by trap {0}.",
    "begin": "Task {0} begins.",
    "begin again": "Task {0} begins again, attempt {1}: the power failed before its commit, so its nonvolatile words are as they were.",
    "look none": "Site {0} looks at the clock, which shows {1}. It has no record.",
    "look": "Site {0} looks at the clock, which shows {1}. Its record is {2} ticks old.",
    "block own": "Block {0} begins at {1}. It has no record, so each site inside decides for itself.",
    "block always": "Block {0} begins at {1}. It is ALWAYS, so all calls inside are issued.",
    "block keep": "Block {0} begins at {1}. It was done as a whole {2} ticks ago, so the sites inside keep what they have.",
    "block old": "Block {0} begins at {1}. It was done {2} ticks ago, more than its TIMELY({3}), so all calls inside are issued anew.",
    "block inside": "Block {0} begins at {1}. It stands in a block that decides for it.",
    "kept single": "Site {0} keeps {1}, which it read in boot {2}: it is SINGLE, and its record stands.",
    "kept timely": "Site {0} keeps {1}, which it read in boot {2}: its record is {3} ticks old, and TIMELY({4}) allows {4}.",
    "kept block": "Site {0} keeps {1}, which it read in boot {2}: block {3} around it was done as a whole.",
    "kept copy": "Site {0} puts back the {1} words that its copy left in boot {2}; nothing is transferred.",
    "drop own": "Site {0} is about to be issued anew, so its record of boot {1} goes first.",
    "drop own none": "Site {0} is about to be issued. It had no record.",
    "drop dependent": "The record of site {0} goes, since it depends on site {1}, which is issued anew.",
    "drop dependent none": "Site {0} depends on site {1}, which is about to be issued. It had no record.",
    "drop block": "Block {0} is at its end, and its older record goes.",
    "drop block none": "Block {0} is at its end. It had no record.",
    "issue first": "Site {0} is issued and reads {1}.",
    "issue unsealed": "Site {0} is issued again and reads {1}: in boot {2} the power failed between its issue and its seal, so nothing tells that it was done.",
    "issue cut": "Site {0} is issued again and reads {1}: in boot {2} its record was dropped so that it could be issued anew, and the power failed before that was sealed.",
    "issue dropped kept": "Site {0} is issued again although site {2} is kept: it depends on site {2}, and its record was dropped in boot {3}, when site {2} was issued anew. It reads {1}.",
    "issue dropped": "Site {0} is issued again and reads {1}: it depends on site {2}, which was issued anew in this attempt, so its record was dropped.",
    "issue dropped before": "Site {0} is issued again and reads {1}: it depends on site {2}, and its record was dropped in boot {3}, when site {2} was issued anew.",
    "issue always": "Site {0} is issued again and reads {1}: it is ALWAYS, so each attempt issues it.",
    "issue old": "Site {0} is issued again and reads {1}: its record is {2} ticks old, and TIMELY({3}) allows {3}.",
    "issue block always": "Site {0} is issued again and reads {1}: block {2} around it is ALWAYS, so all calls inside are issued.",
    "issue block old": "Site {0} is issued again and reads {1}: the record of block {2} around it is older than its TIMELY({3}) allows, so all calls inside are issued anew.",
    "seal": "The record of site {0} stands from here on, with {1} and the time {2}.",
    "seal block": "Block {0} was done as a whole. Its record stands from here on, with the time {1} of its beginning.",
    "seal copy": "The record of site {0} stands from here on, with the words of its copy.",
    "copy": "Site {0} copies {1} words from {2} to {3}.",
    "copy each": "Site {0} copies {1} words from {2} to {3}, as in each attempt: it makes no record.",
    "copy unsealed": "Site {0} copies {1} words from {2} to {3} again: in boot {4} the power failed before its record was sealed.",
    "copy dropped kept": "Site {0} copies {1} words from {2} to {3} again although site {4} is kept: it depends on site {4}, and its record was dropped in boot {5}, when site {4} was issued anew.",
    "copy dropped": "Site {0} copies {1} words from {2} to {3} again: it depends on site {4}, which was issued anew in this attempt, so its record was dropped.",
    "copy dropped before": "Site {0} copies {1} words from {2} to {3} again: it depends on site {4}, and its record was dropped in boot {5}, when site {4} was issued anew.",
    "copy out": "Site {0} moves the {1} words that were set aside to {2}.",
    "copy recorded": "Site {0} moves the {1} words that were set aside in boot {3} to {2}; its source isn't read again.",
    "commit": "Task {0} commits: its nonvolatile words hold from here on, all its records go, and task {1} is next.",
    "commit stop": "Task {0} commits: its nonvolatile words hold from here on, and the program stops.",
    "trap": "A value traps with code {0}: {1}. The program is over.",
}  # fmt: skip

AGAIN = {key for key in SENTENCES if key.split()[0] in ("issue", "copy") and key not in ("issue first", "copy", "copy each", "copy out", "copy recorded")}


def sentence(note: Note) -> str:
    key, values = note
    return SENTENCES[key].format(*values)
