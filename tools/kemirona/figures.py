"""The figures of a replay: what a trace asks and what its report answers, counted."""
from collections import Counter
from collections.abc import Iterator
from dataclasses import dataclass, field
from statistics import median_low

from .faults import BadInput
from .holdings import Holdings, steps
from .report_text import Answer, KeeperMove, Move, Report
from .sizes import LARGEST_SMALL
from .trace_text import BINDING, Act, Call, Kind, Line, Trace
from .words import Grant, Place

MOST_LISTED = 10

_REALLOCS = (Kind.REALLOC, Kind.AREALLOC)
_ANSWERS = {Kind.MALLOC: ("got", "null"), Kind.ALIGNED: ("got", "null"), Kind.REALLOC: ("got", "null", "not-held"),
            Kind.AREALLOC: ("got", "null", "not-held"), Kind.FREE: ("freed", "false", "not-held"),
            Kind.MSIZE: ("size", "not-held"), Kind.IDENTIFY: ("pool", "no-pool"), Kind.EXIT: ("exited",)}
_NO_END = frozenset(("begun", "stepped", "waits"))
_NOT_RUN = frozenset(("idle", "call-open", "gone"))


@dataclass(slots=True)
class Object:
    grant: Grant
    usable: int


@dataclass(slots=True)
class OpenCall:
    """A call that has no answer yet, and the object that stood at its place when it began."""
    line: int
    call: Call
    place: Place | None
    object: Object | None
    moves: int = 0
    last_move: int = 0


@dataclass(slots=True)
class ClassFigures:
    """The objects of one class, or the large ones."""
    objects: int = 0
    asked: int = 0
    usable: int = 0

    @property
    def lost(self) -> int:
        return self.usable - self.asked


@dataclass(slots=True)
class Peak:
    """The holders' bytes when the objects had the most, and the most that the regions ever had."""
    holders: dict[str, int] = field(default_factory=dict)
    objects: int = 0
    move: int = 0
    regions: int = 0
    regions_move: int = 0

    def see(self, holders: dict[str, int], move: int) -> None:
        regions = sum(holders.values())
        if holders["object"] > self.objects:
            self.holders, self.objects, self.move = holders, holders["object"], move
        if regions > self.regions:
            self.regions, self.regions_move = regions, move


@dataclass(slots=True)
class Figures:
    calls: dict[str, Counter[Kind]] = field(default_factory=dict)
    not_run: Counter[str] = field(default_factory=Counter)
    nulls: Counter[str] = field(default_factory=Counter)
    classes: dict[int | None, ClassFigures] = field(default_factory=dict)  # None stands for the large objects
    freed: Counter[tuple[str, str]] = field(default_factory=Counter)  # by whom it was got, and by whom freed
    peak: Peak | None = None
    moves: list[OpenCall] = field(default_factory=list)

    @property
    def freed_by_strangers(self) -> int:
        return sum(count for (owner, freer), count in self.freed.items() if owner != freer)

    def moves_a_call(self) -> tuple[int, int, int] | None:
        """The least, the middle and the most moves of a call."""
        counts = [call.moves for call in self.moves]
        return (min(counts), median_low(counts), max(counts)) if counts else None

    def most_moved(self) -> list[OpenCall]:
        return sorted(self.moves, key=lambda call: (-call.moves, call.line))[:MOST_LISTED]


def figures_of(trace: Trace, report: Report) -> Figures:
    figures = Figures({thread: Counter() for thread in trace.threads})
    if report.has_moves:
        figures.peak = _peak(trace, report)
    _Run(trace, figures, report.has_moves).run(report)
    return figures


def _peak(trace: Trace, report: Report) -> Peak:
    holdings, peak = Holdings(), Peak()
    for step in steps(report):
        if isinstance(step, Answer):
            if step.word == "destroyed" and step.line in trace.lines:
                holdings.destroy(trace.lines[step.line].pool)
            continue
        for part in step:
            holdings.apply(part)
        peak.see(holdings.by_holder(), step[0].number)
    holdings.check_totals(report)
    return peak


class _Run:
    """Goes through a trace and its report together."""

    def __init__(self, trace: Trace, figures: Figures, has_moves: bool):
        self.trace, self.figures, self.has_moves = trace, figures, has_moves
        self.waiting: list[Move | KeeperMove] = []  # moves whose line comes behind them
        self.open: dict[tuple[str, int], OpenCall] = {}
        self.places: dict[str, Place | None] = {}
        self.held: dict[Place, Object] = {}
        self.grants: set[tuple[int, Grant]] = set()

    def run(self, report: Report) -> None:
        unanswered = iter(self.trace.lines.values())
        for entry in report.run:
            if isinstance(entry, (Move, KeeperMove)):
                self.waiting.append(entry)
            elif isinstance(entry, Answer):
                self._answer(self._answered(entry, unanswered), entry)
        rest = next(unanswered, None)
        if rest:
            end = report.totals[0].at if report.totals else len(report.run) + 1
            raise BadInput(end, f"line {rest.number} of the trace has no answer before this line")

    def _answered(self, answer: Answer, unanswered: Iterator[Line]) -> Line:
        line = next(unanswered, None)
        if line is None or line.number != answer.line:
            wanted = f"the answer to line {line.number}" if line else "no further answer"
            raise BadInput(answer.at, f"{wanted} of the trace is wanted, not to line {answer.line}")
        return line

    def _answer(self, line: Line, answer: Answer) -> None:
        key = (line.thread or "", line.pool)
        is_begin = line.act in (Act.CALL, Act.BEGIN) and answer.word not in _NOT_RUN
        if answer.word in _NOT_RUN:
            self.figures.not_run[answer.word] += 1
        elif is_begin:
            self._begin(line, answer, key)
        self._give_moves(line, answer)
        if line.call and line.call.name and answer.word in _NOT_RUN:
            self.places[line.call.name] = None
        elif line.act in (Act.RESET, Act.DESTROY) and answer.word in ("reset", "destroyed"):
            self.held = {place: held for place, held in self.held.items() if place.pool != line.pool}
        elif line.thread and answer.word not in _NOT_RUN | _NO_END:
            self._end(key, answer)

    def _begin(self, line: Line, answer: Answer, key: tuple[str, int]) -> None:
        if key in self.open:
            raise BadInput(answer.at, f"{key[0]} has a call open in P{key[1]}, so that none can begin")
        what = line.call.what
        place = self.places.get(what) if isinstance(what, str) else what
        self.open[key] = OpenCall(line.number, line.call, place, self.held.get(place))
        self.figures.calls[line.thread][line.call.kind] += 1
        self.figures.moves.append(self.open[key])

    def _give_moves(self, line: Line, answer: Answer) -> None:
        """The moves before a line's answer are of the calls that their threads have open."""
        for move in self.waiting:
            call = self.open.get((move.thread, move.place.pool))
            if call:
                call.moves += move.number != call.last_move
                call.last_move = move.number
            elif line.act is not Act.RESET:
                raise BadInput(move.at, f"{move.thread} has no call open in P{move.place.pool}")
        self.waiting.clear()

    def _end(self, key: tuple[str, int], answer: Answer) -> None:
        call = self.open.pop(key, None)
        if call is None or answer.word not in _ANSWERS[call.call.kind]:
            raise BadInput(answer.at, f"{answer.word!r} answers no call that {key[0]} has open in P{key[1]}")
        if answer.word == "null":
            self.figures.nulls[answer.rest[0]] += 1
        if call.call.kind in BINDING:
            self.places[call.call.name] = answer.place
        is_freed = answer.word == "freed" or answer.word == "null" and answer.rest[0] == "freed"
        if answer.word == "got" and (key[1], answer.grant) not in self.grants:
            self._count_object(key[1], call, answer)
            is_freed = call.call.kind in _REALLOCS and call.place is not None
        if is_freed:
            self._count_free(key, call, answer)
        if answer.word == "got":
            self.held[answer.place] = Object(answer.grant, answer.usable)

    def _count_object(self, pool: int, call: OpenCall, answer: Answer) -> None:
        self.grants.add((pool, answer.grant))
        size_class = answer.usable if answer.usable <= LARGEST_SMALL else None
        of_class = self.figures.classes.setdefault(size_class, ClassFigures())
        of_class.objects += 1
        of_class.asked += call.call.size
        of_class.usable += answer.usable

    def _count_free(self, key: tuple[str, int], call: OpenCall, answer: Answer) -> None:
        """The object that was freed is the one that stood there when the call began, or came there since."""
        now = self.held.get(call.place)
        freed = call.object or now
        if freed is None:
            raise BadInput(answer.at, f"line {call.line} of the trace frees a place where no object was got")
        if now is freed:
            del self.held[call.place]
        self.figures.freed[freed.grant.thread, key[0]] += 1
