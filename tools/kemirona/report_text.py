"""The report of a replay: its entries, read line by line."""
import re
from dataclasses import dataclass, field

from . import words
from .faults import BadInput
from .words import Grant, Misspelled, Place

_REFUSED = re.compile(r"bad trace line [0-9]+ kind [0-9]+|steps out line [0-9]+|bad words")
_CACHE_WORDS = ("used", "items", "mean", "threshold", "get", "cleaned")


@dataclass(frozen=True, slots=True)
class Answer:
    """What a line of the trace was answered: a first word and the words behind it."""
    at: int  # the line of the report
    line: int  # the line of the trace
    word: str
    rest: tuple[str, ...] = ()
    place: Place | None = None  # the object, with what follows, where the word is `got`
    usable: int = 0
    grant: Grant | None = None


@dataclass(frozen=True, slots=True)
class Move:
    """One part of a move."""
    at: int
    number: int
    thread: str
    row: str
    place: Place
    bytes: int
    source: str
    target: str


@dataclass(frozen=True, slots=True)
class KeeperMove:
    """A slab that changes its keeper."""
    at: int
    number: int
    thread: str
    row: str
    place: Place
    source: str
    target: str


@dataclass(frozen=True, slots=True)
class RegionEnd:
    """A region that a destroyed pool had."""
    at: int
    place: Place
    base: int
    bytes: int
    word: str


@dataclass(frozen=True, slots=True)
class Total:
    at: int
    pool: int
    regions: int
    bytes: int
    holders: dict[str, int]


@dataclass(frozen=True, slots=True)
class CacheBin:
    at: int
    pool: int
    granules: int
    numbers: dict[str, int]


@dataclass(frozen=True, slots=True)
class Leak:
    at: int
    place: Place
    usable: int
    grant: Grant


@dataclass(slots=True)
class Report:
    """A report's entries: what stands before the totals, in order, and then the end's."""
    run: list[Answer | Move | KeeperMove | RegionEnd] = field(default_factory=list)
    totals: list[Total] = field(default_factory=list)
    cache: list[CacheBin] = field(default_factory=list)
    leaks: list[Leak] = field(default_factory=list)
    has_moves: bool = False


# The answers that are one word, and those with words behind it: how each of these is spelled.
_ONE_WORD = frozenset(("made", "invalid-policy", "unsupported-policy", "begun", "stepped", "idle", "call-open", "gone",
                       "reset", "freed", "false", "exited", "no-pool"))
_COUNT = "(?:0|[1-9][0-9]*)"
_THREAD = "[A-Z][A-Z0-9_]{0,7}"
_GRANT = f"{_THREAD}#[1-9][0-9]*"
_WITH_WORDS = re.compile(
    "bad-limits (?:seats|region|granularity|span)|waits (?:lock|office|mail|half)|call-open " + _THREAD
    + f"|destroyed returned {_COUNT} refused {_COUNT} kept {_COUNT} objects {_COUNT}"
    + "|null (?:bad-request|freed|numbers-spent|raw-failed"
    + f"|too-large {_COUNT}|span-full {_COUNT} {_COUNT}|regions-full {_COUNT} {_COUNT}"
    + f"|no-fit {_COUNT}\\.\\.{_COUNT} {_COUNT})"
    + f"|size {_COUNT}|pool P[0-7]|not-held (?:place|none|{_GRANT})")


def read_report(data: bytes) -> Report:
    """The report that the bytes spell."""
    lines = words.split_lines(data)
    if not data.endswith(b"\n") or lines[-1] != "end":
        _refuse_cut(lines)
    report = Report()
    for at, text in enumerate(lines[:-1], 1):
        line = text.split(" ")
        read = _ENTRIES.get(line[0], _read_answer)
        try:
            read(report, at, line)
        except Misspelled as fault:
            raise BadInput(at, str(fault)) from fault
    _check_order(report)
    return report


def _refuse_cut(lines: list[str]) -> None:
    if lines and _REFUSED.fullmatch(lines[0]):
        raise BadInput(1, f"no report, since the replay refused its input: {lines[0]}")
    raise BadInput(max(1, len(lines)), "the last line of a report is 'end'")


def _check_order(report: Report) -> None:
    """Lines of the trace rise, and so do the moves' numbers, in which the parts of one move stand together."""
    last_line, last_move = 0, 0
    for entry in report.run:
        if isinstance(entry, Answer):
            if entry.line <= last_line:
                raise BadInput(entry.at, f"line {entry.line} is answered behind line {last_line}")
            last_line = entry.line
        elif isinstance(entry, (Move, KeeperMove)):
            if not last_move <= entry.number <= last_move + 1 or entry.number == 0:
                raise BadInput(entry.at, f"the move {entry.number} stands behind the move {last_move}")
            last_move = entry.number


def _read_answer(report: Report, at: int, line: list[str]) -> None:
    if report.totals or report.leaks:
        raise Misspelled("an answer stands behind the totals")
    number = words.number(line[0], 65536, 1)
    rest = tuple(line[1:])
    text = " ".join(rest)
    if rest and rest[0] == "got":
        _count(line, 5)
        answer = Answer(at, number, "got", (), words.place(line[2]), words.number(line[3]), words.grant(line[4]))
    elif text in _ONE_WORD or _WITH_WORDS.fullmatch(text):
        answer = Answer(at, number, rest[0], rest[1:])
    else:
        raise Misspelled(f"{text!r} is no answer")
    report.run.append(answer)


def _read_move(report: Report, at: int, line: list[str]) -> None:
    _count(line, 8)
    report.run.append(Move(at, words.number(line[1]), words.thread_name(line[2]), words.row(line[3]),
                           words.place(line[4]), words.number(line[5], least=1), words.holder(line[6]),
                           words.holder(line[7])))
    report.has_moves = True


def _read_keeper(report: Report, at: int, line: list[str]) -> None:
    _count(line, 7)
    report.run.append(KeeperMove(at, words.number(line[1]), words.thread_name(line[2]), words.row(line[3]),
                                 words.place(line[4]), words.keeper(line[5]), words.keeper(line[6])))


def _read_region(report: Report, at: int, line: list[str]) -> None:
    _count(line, 5)
    if line[4] not in ("returned", "refused", "kept"):
        raise Misspelled(f"{line[4]!r} is not what becomes of a region")
    place = words.place(line[1] + "+0")
    report.run.append(RegionEnd(at, place, words.number(line[2]), words.number(line[3]), line[4]))


def _read_total(report: Report, at: int, line: list[str]) -> None:
    numbers = _pairs(line, 2, ("regions", "bytes", *words.HOLDERS))
    pool, regions, size = words.pool(line[1]), numbers.pop("regions"), numbers.pop("bytes")
    if sum(numbers.values()) != size:
        raise Misspelled(f"the holders have {sum(numbers.values())} bytes in all, and the regions {size}")
    report.totals.append(Total(at, pool, regions, size, numbers))


def _read_cache(report: Report, at: int, line: list[str]) -> None:
    numbers = _pairs(line, 3, _CACHE_WORDS)
    report.cache.append(CacheBin(at, words.pool(line[1]), words.number(line[2]), numbers))


def _read_leak(report: Report, at: int, line: list[str]) -> None:
    _count(line, 4)
    report.leaks.append(Leak(at, words.place(line[1]), words.number(line[2]), words.grant(line[3])))


def _pairs(line: list[str], at: int, keys: tuple[str, ...]) -> dict[str, int]:
    """The numbers behind these words, which stand in this order from that position on."""
    _count(line, at + 2 * len(keys))
    if tuple(line[at::2]) != keys:
        raise Misspelled(f"the words {' '.join(keys)} are wanted here")
    return {key: words.number(word) for key, word in zip(keys, line[at + 1::2])}


def _count(line: list[str], count: int) -> None:
    if len(line) != count:
        raise Misspelled(f"{count} words are wanted here, and the line has {len(line)}")


_ENTRIES = {"move": _read_move, "keeper": _read_keeper, "region": _read_region, "total": _read_total,
            "cache": _read_cache, "leak": _read_leak}
