"""What a page says of the log that a boot came from, and of the modules that are not looked at. `report` uses it.

The log's part is in `log.json`, which `log-to-trace` writes next to the plan; the files of the plan's volumes say what is not looked at.
"""
import json
import os
import re
from collections.abc import Iterator
from html import escape
from typing import Any

from explained import CORE, PHASES, Boot
from log_story import counted, files_in
from volume_texts import NOT_LOOKED_AT

Story = dict[str, Any]
NEVER = re.compile(r'<(?:h2|section|details)\b[^>]* id="never"')  # where the page lists who never started


def read_story(plan: str, trace: str | None) -> Story:
    """What the log of a trace tells beside the starts; nothing if the trace is of no log."""
    path = os.path.join(os.path.dirname(os.path.abspath(plan)), "log.json")
    if not trace or not os.path.exists(path):
        return {}
    with open(path, encoding="utf-8") as file:
        return json.load(file)


def not_looked_at(plan: str) -> Iterator[str]:
    """The kind of each module in the plan's volumes that has no part for PEI or DXE."""
    with open(plan, encoding="utf-8") as file:
        names = [line.split()[2] for line in file if line.startswith("volume ")]
    for name in names:
        with open(os.path.join(os.path.dirname(os.path.abspath(plan)), name), "rb") as file:
            for kind, _, _ in files_in(memoryview(file.read())):
                if f"{kind:02x}" in NOT_LOOKED_AT:
                    yield NOT_LOOKED_AT[f"{kind:02x}"]


def give_to_core(boot: Boot, story: Story) -> None:
    """What the core installed before the first module of a phase is the core's, and not that module's, in whose script it is."""
    for phase in PHASES if story else []:
        first = next((start.module for start in boot.starts if start.phase == phase), None)
        guids = set(story["core"][phase])
        if first is None:
            continue
        for needs in [start.needs for start in boot.starts if start.phase == phase] + [wait.has for wait in boot.waits if wait.phase == phase]:
            needs[:] = [(guid, CORE if guid in guids and maker == str(first) else maker) for guid, maker in needs]
        gives = boot.modules[first].gives
        gives[phase] = [guid for guid in gives.get(phase, []) if guid not in guids]


def with_story(page: str, story: Story, kinds: list[str], names: dict[str, str]) -> str:
    """The page with a part on the log, before the list of those that never started."""
    parts = log_parts(story, names) if story else []
    if kinds:
        parts.append(f"<p>Not looked at: {escape(counted(kinds))}. Modules have a part for PEI or DXE, and these have none.</p>")
    found = NEVER.search(page)
    if not parts or found is None:
        return page
    text = f'<h2 id="log">{"What the log says besides" if story else "What is not looked at"}</h2>{"".join(parts)}'
    return page[: found.start()] + text + page[found.start() :]


def log_parts(story: Story, names: dict[str, str]) -> list[str]:
    """Why the boot failed, which module ran then, whose code has what lacks, and what the core installed."""
    def named(guid: str) -> str:
        return f"<b>{escape(names[guid])}</b> <code>{guid}</code>" if guid in names else f"<code>{guid}</code>"

    parts = [f"<p>Line {each['line']} of the log, in {escape(each['ran'])}: <code>{escape(each['text'])}</code></p>" for each in story["failed"]]
    last, ran = story["boot"]["last_line"], story["ran"]
    if parts or not story["boot"]["whole"]:
        parts.append(f"<p>The last line of the boot is line {last['line']}: <code>{escape(last['text'])}</code></p>")
        if ran:
            needs = ", ".join(f"{named(need['guid'])} of {escape(shown(need['giver'], names))}" for need in ran["needs"]) or "nothing"
            parts.append(f"<p>{escape(ran['name'])} ran then, in {ran['phase'].upper()}, from line {ran['line']} on; it had waited for {needs}.</p>")
    for guid, holders in story["holders"].items():
        if holders:
            parts.append(f"<p>No module of the log installs {named(guid)}. Its bytes are in this code: {', '.join(escape(each['name']) for each in holders)}.</p>")
    unheld = [named(guid) for guid, holders in story["holders"].items() if not holders]
    if unheld:
        parts.append(f"<p>No module of the log installs these, and no code of the volumes has their bytes: {', '.join(unheld)}.</p>")
    for phase in PHASES:
        if story["core"][phase]:
            parts.append(f"<p>The {phase.upper()} core installed itself: {', '.join(named(guid) for guid in story['core'][phase])}.</p>")
    return parts


def shown(giver: str | None, names: dict[str, str]) -> str:
    """Who had installed a GUID."""
    return "the core" if giver == CORE else names.get(giver, giver) if giver else "nobody"
