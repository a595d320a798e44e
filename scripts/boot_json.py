"""One boot as JSON: the form of docs/JSON.md. `json` prints it, and `report` writes it beside the page."""
from collections.abc import Iterable
from typing import Any

from explained import CORE, NOBODY, Boot, Module, Start, Wait
from guid_names import GUID

VERSION = 1


def as_json(boot: Boot, names: dict[str, str]) -> dict[str, Any]:
    """The boot, with the names that are known of its GUIDs."""
    data: dict[str, Any] = {
        "version": VERSION,
        "result": boot.result,
        "fuel": boot.fuel,
        "counts": boot.counts(),
        "moved": {"from": hex(boot.moved[0]), "to": hex(boot.moved[1])} if boot.moved else None,
        "heap": {word: boot.heap.get(word) for word in ("moved", "end")} | {"room": boot.heap_room()},
        "modules": [module_of(module) for module in boot.modules.values()],
        "starts": [start_of(boot, start) for start in boot.starts],
        "waits": [wait_of(wait) for wait in boot.waits],
        "marks": [{"line": mark.line, "kind": mark.kind, "words": mark.words} for mark in boot.marks],
        "map": {
            "ranges": [{"base": hex(each.base), "length": hex(each.length), "kind": each.kind, "state": each.state} for each in boot.map],
            "refused": boot.map_refused or None,
        },
        "trace": boot.trace,
    }
    return data | {"names": {guid: names[guid] for guid in sorted(guids_in(boot)) if guid in names}}


def module_of(module: Module) -> dict[str, Any]:
    return {
        "number": module.number,
        "volume": module.volume,
        "guid": module.guid,
        "type": module.kind,
        "name": None if module.name == NOBODY else module.name,
        "expressions": {phase: None if text == NOBODY else text for phase, text in module.expressions.items()},
        "gives": module.gives,
    }


def start_of(boot: Boot, start: Start) -> dict[str, Any]:
    return {
        "place": start.place,
        "module": start.module,
        "phase": start.phase,
        "why": start.why,
        "beside": start.beside,
        "line": start.line,
        "needed": [{"guid": guid, "from": giver_of(giver)} for guid, giver in start.needs],
        "installs": [{"guid": guid, "shown": is_shown} for guid, is_shown in boot.installed(start)],
        "notifications": [
            {"line": note.line, "kind": note.kind, "module": note.module, "guid": note.guid} for note in start.notifications
        ],
    }


def wait_of(wait: Wait) -> dict[str, Any]:
    return {
        "module": wait.module,
        "phase": wait.phase,
        "reason": wait.reason,
        "detail": wait.detail,
        "has": [{"guid": guid, "from": giver_of(giver)} for guid, giver in wait.has],
        "lacks": [
            {"guid": guid, "givers": [{"module": giver_of(giver), "state": state} for giver, state in givers], "more": guid in wait.more}
            for guid, givers in wait.lacks
        ],
        "would": wait.would,
        "unless": wait.unless,
    }


def giver_of(word: str) -> int | str | None:
    """A module's number, `core`, or nothing."""
    return CORE if word == CORE else None if word == NOBODY else int(word)


def guids_in(boot: Boot) -> set[str]:
    """The GUIDs of modules, and those that expressions, scripts and the trace name."""
    texts: Iterable[str] = (text for module in boot.modules.values() for text in (module.guid, *module.expressions.values(), *sum(module.gives.values(), [])))
    return {guid for text in [*texts, *boot.trace] for guid in GUID.findall(text)}
