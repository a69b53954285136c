"""Makes a trace of a recording. What goes past a limit is cut or left out, and one line tells it."""
from collections import Counter
from dataclasses import dataclass

from .recordings import Event, Recording
from .trace_builder import HEAD_LINES, Builder, Cut, Wanted, thread_name


@dataclass(frozen=True, slots=True)
class Made:
    """A trace, and the one line about it."""
    text: str
    note: str


def make_trace(recording: Recording, wanted: Wanted) -> Made:
    events = recording.events
    builder, why = _build(events, wanted)
    if why is None:
        return _made(recording, builder, None)
    # The line that tells of the cut needs room too. What was built past it is undone by building anew.
    at = builder.first_left_out(wanted.lines - HEAD_LINES - 1)
    builder, _ = _build(events[:at], wanted)
    return _made(recording, builder, f"cut at line {events[at].line} of the record, since {why}: "
                                     f"{len(events) - at} of {len(events)} events are left out")


def _build(events: list[Event], wanted: Wanted) -> tuple[Builder, str | None]:
    """The lines of these events, or of those before the first that goes past a limit, and which one that is."""
    builder = Builder(wanted)
    for at, event in enumerate(events):
        try:
            builder.add(at, event)
        except Cut as cut:
            return builder, str(cut)
    return builder, None


def _made(recording: Recording, builder: Builder, cut: str | None) -> Made:
    count = max(builder.threads.values(), default=0) + 1
    head = ["threads " + " ".join(map(thread_name, range(count))), " ".join(("pool P0", *builder.wanted.pool))]
    tail = [f"# {cut}"] if cut else []
    notes = [f"{len(builder.lines)} calls of {count} {'thread' if count == 1 else 'threads'}", *([cut] if cut else []),
             *_told("left out", builder.left_out), *_told("written", builder.written),
             *(f"not in the record: {what}" for what in recording.missing)]
    return Made("\n".join(head + builder.lines + tail) + "\n", "; ".join(notes))


def _told(head: str, counts: Counter[str]) -> list[str]:
    return [f"{head}: " + ", ".join(f"{number} {what}" for what, number in counts.items())] if counts else []
