"""One HTML page of one or two reports with moves. It holds its data, style and script, and asks for nothing."""
import html
import json
from dataclasses import dataclass, field
from enum import IntEnum
from pathlib import Path

from .faults import BadInput
from .holdings import Holdings
from .report_text import Answer, KeeperMove, Move, Report

MOST_POINTS = 800

# From the bottom of the stacked areas: what programs hold, then what it costs, then what is free.
STACK = ("object", "large-head", "head", "private", "public", "rest", "slab-cache", "cached", "hand", "queue", "waste",
         "bin")

_FOLDER = Path(__file__).parent


class Event(IntEnum):
    """What an event of the page's data does. The script has the same numbers."""
    MOVE = 0
    KEEPER = 1
    DESTROY = 2


@dataclass(slots=True)
class Words:
    """Words, each of which the data holds once."""
    numbers: dict[str, int] = field(default_factory=dict)

    def number(self, word: str) -> int:
        return self.numbers.setdefault(word, len(self.numbers))


@dataclass(slots=True)
class Film:
    """A report as the page's script reads it. A step is one move with all its parts, or the end of a pool."""
    name: str
    words: Words = field(default_factory=Words)
    events: list[list[int]] = field(default_factory=list)
    steps: list[list[int]] = field(default_factory=list)  # its first event, its move, its thread and its row
    lines: list[int] = field(default_factory=list)  # of each step, the trace's
    points: list[list[int]] = field(default_factory=list)  # a step, and then the bytes by holder after it

    def add_step(self, number: int, thread: str, row: str) -> None:
        self.steps.append([len(self.events), number, self.words.number(thread), self.words.number(row)])

    def value(self) -> dict:
        return {"name": self.name, "words": list(self.words.numbers), "events": self.events, "steps": self.steps,
                "lines": self.lines, "points": self.points}


def film_of(name: str, report: Report) -> Film:
    """The film of a report, which has moves."""
    film = Film(name)
    last_move, last_line, gone = 0, 0, set()
    for entry in report.run:
        if isinstance(entry, Answer):
            last_line = entry.line
            film.lines += [last_line] * (len(film.steps) - len(film.lines))
        elif isinstance(entry, (Move, KeeperMove)):
            if entry.number != last_move:
                last_move = entry.number
                film.add_step(last_move, entry.thread, entry.row)
            film.events.append(_event(film, entry))
        elif entry.place.pool not in gone:  # the regions of a destroyed pool stand behind the answer that says so
            gone.add(entry.place.pool)
            film.add_step(last_move, "", "destroy")
            film.events.append([Event.DESTROY, entry.place.pool, 0, 0, 0, 0, 0])
            film.lines.append(last_line)
    film.lines += [last_line] * (len(film.steps) - len(film.lines))
    _add_points(film, report)
    return film


def _event(film: Film, entry: Move | KeeperMove) -> list[int]:
    place = entry.place
    kind = Event.MOVE if isinstance(entry, Move) else Event.KEEPER
    size = entry.bytes if isinstance(entry, Move) else 0
    source, target = film.words.number(entry.source), film.words.number(entry.target)
    return [kind, place.pool, place.region, place.offset, size, source, target]


def _add_points(film: Film, report: Report) -> None:
    """The bytes by holder after the steps, or after each so many where there are more steps than points."""
    holdings = Holdings()
    moves = iter(entry for entry in report.run if isinstance(entry, (Move, KeeperMove)))
    stride = -(-len(film.steps) // MOST_POINTS) or 1
    film.points.append([0] * (len(STACK) + 1))
    for at, (first, *_) in enumerate(film.steps):
        end = film.steps[at + 1][0] if at + 1 < len(film.steps) else len(film.events)
        for event in film.events[first:end]:
            if event[0] == Event.DESTROY:
                holdings.destroy(event[1])
            elif isinstance(move := next(moves), Move):
                holdings.apply(move)
        if (at + 1) % stride == 0 or at + 1 == len(film.steps):
            sums = holdings.by_holder()
            film.points.append([at + 1, *(sums[kind] for kind in STACK)])
    holdings.check_totals(report)


def page_of(films: list[Film]) -> str:
    data = json.dumps({"stack": STACK, "films": [film.value() for film in films]}, separators=(",", ":"))
    title = " and ".join(film.name for film in films)
    page = (_FOLDER / "picture.html").read_text(encoding="utf-8")
    for mark, text in (("TITLE", html.escape(title)), ("STYLE", (_FOLDER / "picture.css").read_text(encoding="utf-8")),
                       ("SCRIPT", (_FOLDER / "picture.js").read_text(encoding="utf-8")),
                       ("DATA", data.replace("<", "\\u003c"))):
        page = page.replace(f"<!--{mark}-->", text, 1)
    return page


def require_moves(report: Report) -> Report:
    if not report.has_moves:
        at = report.run[-1].at if report.run else 1
        raise BadInput(at, "no move stands before this line, nor behind it: a report of `replay --moves` is wanted")
    return report
