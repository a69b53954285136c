"""The figures as tables, and as JSON."""
import json

from .figures import ClassFigures, Figures, OpenCall
from .trace_text import Call, Kind

_KINDS = tuple(Kind)


def call_text(call: Call) -> str:
    """The call as a trace spells it, without its thread and pool."""
    what = "null" if call.what is None else str(call.what)
    spelled = {Kind.MALLOC: f"{call.size}", Kind.ALIGNED: f"{call.size} {call.alignment}",
               Kind.REALLOC: f"{what} {call.size}", Kind.AREALLOC: f"{what} {call.size} {call.alignment}",
               Kind.EXIT: ""}.get(call.kind, what)
    name = f"{call.name} = " if call.name else ""
    return f"{name}{call.kind.value} {spelled}".rstrip()


def table(rows: list[list[str]]) -> str:
    """Columns side by side: the first to the left, the others to the right."""
    widths = [max(len(row[i]) for row in rows) for i in range(len(rows[0]))]
    return "\n".join("  ".join(cell.ljust(width) if i == 0 else cell.rjust(width)
                               for i, (cell, width) in enumerate(zip(row, widths))).rstrip() for row in rows) + "\n"


def share(part: int, whole: int) -> str:
    return f"{100 * part / whole:.1f} %" if whole else "-"


def as_text(figures: Figures) -> str:
    parts = [_calls(figures), _nulls(figures), _objects(figures), _freed(figures)]
    if figures.peak:
        parts += [_peak(figures), _moves(figures)]
    return "\n".join(part for part in parts if part)


def _calls(figures: Figures) -> str:
    kinds = [kind for kind in _KINDS if any(counts[kind] for counts in figures.calls.values())]
    rows = [["calls by thread", *(kind.value for kind in kinds), "all"]]
    for thread, counts in figures.calls.items():
        rows.append([thread, *(str(counts[kind]) for kind in kinds), str(sum(counts.values()))])
    every = [sum(counts[kind] for counts in figures.calls.values()) for kind in kinds]
    rows.append(["all", *map(str, every), str(sum(every))])
    not_run = "".join(f"lines not run, {word}: {count}\n" for word, count in sorted(figures.not_run.items()))
    return table(rows) + not_run


def _nulls(figures: Figures) -> str:
    if not figures.nulls:
        return "nulls by cause: none\n"
    rows = [[cause, str(count)] for cause, count in sorted(figures.nulls.items())]
    return table([["nulls by cause", "calls"], *rows])


def _objects(figures: Figures) -> str:
    rows = [["objects by class", "objects", "asked", "usable", "lost", "lost of usable"]]
    every = ClassFigures()
    for size_class, of in by_class(figures):
        rows.append(_class_row(str(size_class or "large"), of))
        every.objects += of.objects
        every.asked += of.asked
        every.usable += of.usable
    return table([*rows, _class_row("all", every)])


def _class_row(head: str, of: ClassFigures) -> list[str]:
    return [head, str(of.objects), str(of.asked), str(of.usable), str(of.lost), share(of.lost, of.usable)]


def by_class(figures: Figures) -> list[tuple[int | None, ClassFigures]]:
    """The classes in their order, and then the large objects."""
    return sorted(figures.classes.items(), key=lambda item: (item[0] is None, item[0] or 0))


def _freed(figures: Figures) -> str:
    every = sum(figures.freed.values())
    strange = figures.freed_by_strangers
    head = f"freed by a stranger: {strange} of {every} ({share(strange, every)})\n"
    rows = [[owner, freer, str(count)] for (owner, freer), count in sorted(figures.freed.items()) if owner != freer]
    return head + (table([["got by", "freed by", "objects"], *rows]) if rows else "")


def _peak(figures: Figures) -> str:
    peak = figures.peak
    regions = sum(peak.holders.values())
    cost = f"{regions / peak.objects:.2f}" if peak.objects else "-"
    rows = [["at the peak", "bytes", "of regions"],
            [f"objects, at move {peak.move}", str(peak.objects), share(peak.objects, regions)],
            ["regions then", str(regions), share(regions, regions)],
            ["a byte of object costs", cost, ""],
            [f"regions at most, at move {peak.regions_move}", str(peak.regions), ""]]
    for kind, count in peak.holders.items():
        if count:
            rows.append([f"held then by {kind}", str(count), share(count, regions)])
    return table(rows)


def _moves(figures: Figures) -> str:
    counts = figures.moves_a_call()
    if not counts:
        return ""
    head = f"moves a call: least {counts[0]}, middle {counts[1]}, most {counts[2]}\n"
    rows = [[f"line {call.line}: {call_text(call.call)}", str(call.moves)] for call in figures.most_moved()]
    return head + table([["the calls with most", "moves"], *rows])


def as_json(figures: Figures) -> str:
    value = {
        "calls": {thread: {kind.value: counts[kind] for kind in _KINDS} for thread, counts in figures.calls.items()},
        "not_run": dict(sorted(figures.not_run.items())),
        "nulls": dict(sorted(figures.nulls.items())),
        "objects": [_class_value(size_class, of) for size_class, of in by_class(figures)],
        "freed": [{"got_by": owner, "freed_by": freer, "objects": count}
                  for (owner, freer), count in sorted(figures.freed.items())],
        "freed_by_strangers": figures.freed_by_strangers,
        "moves": _moves_value(figures) if figures.peak else None,
    }
    return json.dumps(value, indent=2) + "\n"


def _class_value(size_class: int | None, of: ClassFigures) -> dict:
    return {"class": size_class, "objects": of.objects, "asked": of.asked, "usable": of.usable, "lost": of.lost}


def _moves_value(figures: Figures) -> dict:
    peak, counts = figures.peak, figures.moves_a_call()
    regions = sum(peak.holders.values())
    return {
        "peak": {"move": peak.move, "objects": peak.objects, "regions": regions,
                 "region_bytes_per_object_byte": regions / peak.objects if peak.objects else None,
                 "holders": peak.holders},
        "most_region_bytes": {"move": peak.regions_move, "regions": peak.regions},
        "moves_a_call": dict(zip(("least", "middle", "most"), counts)) if counts else None,
        "calls_with_most": [_call_value(call) for call in figures.most_moved()],
    }


def _call_value(call: OpenCall) -> dict:
    return {"line": call.line, "call": call_text(call.call), "moves": call.moves}
