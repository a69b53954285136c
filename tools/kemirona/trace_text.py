"""The trace language: what a trace says, read line by line, and the limits it keeps."""
import re
from dataclasses import dataclass, field
from enum import Enum

from . import words
from .faults import BadInput
from .words import Misspelled, Place

MOST_BYTES = 4194304
MOST_LINES = 65536
MOST_LINE_BYTES = 1024
MOST_THREADS = 64
MOST_TURNS = 1000000

_FLAGS = ("fixed", "keep", "noget", "nofree")
_BELOW_2_64 = ("gran", "region")
_BELOW_2_32 = ("span", "version", "reserved")
_NOT_PRINTABLE = re.compile(r"[^ -~]")


class Kind(Enum):
    MALLOC = "malloc"
    ALIGNED = "aligned"
    REALLOC = "realloc"
    AREALLOC = "arealloc"
    FREE = "free"
    MSIZE = "msize"
    IDENTIFY = "identify"
    EXIT = "exit"


BINDING = frozenset((Kind.MALLOC, Kind.ALIGNED, Kind.REALLOC, Kind.AREALLOC))
_WITH_WHAT = frozenset((Kind.REALLOC, Kind.AREALLOC, Kind.FREE, Kind.MSIZE, Kind.IDENTIFY))
_WITH_ALIGNMENT = frozenset((Kind.ALIGNED, Kind.AREALLOC))
_CALL_WORDS = {kind.value: kind for kind in Kind}


class Act(Enum):
    POOL = "pool"
    CALL = "call"
    BEGIN = "begin"
    STEP = "step"
    UPTO = "upto"
    FINISH = "finish"
    RESET = "reset"
    DESTROY = "destroy"


@dataclass(frozen=True, slots=True)
class Call:
    kind: Kind
    name: str | None = None
    what: str | Place | None = None  # a bound name, a place, or None for null
    size: int = 0
    alignment: int | None = None


@dataclass(frozen=True, slots=True)
class Line:
    """A line that the report answers."""
    number: int
    act: Act
    pool: int
    thread: str | None = None
    call: Call | None = None


@dataclass(slots=True)
class Trace:
    threads: list[str] = field(default_factory=list)
    lines: dict[int, Line] = field(default_factory=dict)
    pools: int = 0
    names: set[str] = field(default_factory=set)


def read_options(text: list[str]) -> dict[str, int | None]:
    """A pool's options; None stands for one without a number."""
    options: dict[str, int | None] = {}
    for word in text:
        key, equals, value = word.partition("=")
        if not equals and key in _FLAGS:
            number = None
        elif equals and key in _BELOW_2_64:
            number = words.number(value)
        elif equals and key in _BELOW_2_32:
            number = words.number(value, 2**32 - 1)
        else:
            raise Misspelled(f"{word!r} is no option of a pool")
        if key in options:
            raise Misspelled(f"the option {key} stands twice")
        options[key] = number
    return options


def read_trace(data: bytes) -> Trace:
    """The trace that the bytes spell."""
    if len(data) > MOST_BYTES:
        raise BadInput(0, f"{len(data)} bytes are more than the {MOST_BYTES} that a trace may have")
    trace = Trace()
    lines = words.split_lines(data)
    for number, text in enumerate(lines, 1):
        try:
            if number == len(lines) and not data.endswith(b"\n"):
                raise Misspelled("the last line has no newline")
            if len(text) > MOST_LINE_BYTES:
                raise Misspelled(f"more than {MOST_LINE_BYTES} bytes stand before the newline")
            if number > MOST_LINES:
                raise Misspelled(f"a trace has at most {MOST_LINES} lines")
            if text and not text.startswith("#"):
                _read_line(trace, number, text)
        except Misspelled as fault:
            raise BadInput(number, str(fault)) from fault
    return trace


def _read_line(trace: Trace, number: int, text: str) -> None:
    if _NOT_PRINTABLE.search(text):
        raise Misspelled("a byte is not from space to ~")
    line = text.split(" ")
    if "" in line:
        raise Misspelled("words are separated by exactly one space")
    read = _FORMS.get(line[0], _read_call_line)
    read(trace, number, line)


def _read_threads(trace: Trace, _number: int, line: list[str]) -> None:
    if trace.threads or trace.pools:
        raise Misspelled("threads are named once, before the first pool")
    if len(line) < 2:
        raise Misspelled("no thread is named")
    for word in line[1:]:
        if len(trace.threads) == MOST_THREADS:
            raise Misspelled(f"a trace has at most {MOST_THREADS} threads")
        name = words.thread_name(word)
        if name in trace.threads:
            raise Misspelled(f"the thread {name} is named twice")
        trace.threads.append(name)


def _read_pool(trace: Trace, number: int, line: list[str]) -> None:
    pool = words.pool(_word(line, 1))
    if pool != trace.pools:
        raise Misspelled(f"P{trace.pools} is the next pool, not P{pool}")
    read_options(line[2:])
    trace.pools += 1
    trace.lines[number] = Line(number, Act.POOL, pool)


def _read_raw(trace: Trace, _number: int, line: list[str]) -> None:
    _pool(trace, line, 1)
    answer = _word(line, 2)
    if answer == "get":
        words.number(_word(line, 3))
        words.number(_word(line, 4))
    elif answer not in ("getfail", "putok", "putfail"):
        raise Misspelled(f"{answer!r} is no answer of a callback")
    _ends(line, 5 if answer == "get" else 3)


def _read_begin(trace: Trace, number: int, line: list[str]) -> None:
    thread, pool = _thread(trace, line, 1), _pool(trace, line, 2)
    trace.lines[number] = Line(number, Act.BEGIN, pool, thread, _read_call(trace, line, 3))


def _read_turns(trace: Trace, number: int, line: list[str]) -> None:
    act = Act(line[0])
    thread, pool = _thread(trace, line, 1), _pool(trace, line, 2)
    if act is Act.STEP:
        words.number(_word(line, 3), MOST_TURNS, 1)
    elif act is Act.UPTO:
        words.row(_word(line, 3))
    _ends(line, 3 if act is Act.FINISH else 4)
    trace.lines[number] = Line(number, act, pool, thread)


def _read_end(trace: Trace, number: int, line: list[str]) -> None:
    pool = _pool(trace, line, 1)
    _ends(line, 2)
    trace.lines[number] = Line(number, Act(line[0]), pool)


def _read_call_line(trace: Trace, number: int, line: list[str]) -> None:
    thread, pool = _thread(trace, line, 0), _pool(trace, line, 1)
    trace.lines[number] = Line(number, Act.CALL, pool, thread, _read_call(trace, line, 2))


def _read_call(trace: Trace, line: list[str], at: int) -> Call:
    """The call whose first word stands at that position."""
    name = None
    if len(line) > at + 1 and line[at + 1] == "=":
        name = words.bound_name(line[at])
        if name in trace.names:
            raise Misspelled(f"the name {name} was bound before")
        at += 2
    kind = _CALL_WORDS.get(_word(line, at))
    if kind is None or (kind in BINDING) != (name is not None):
        raise Misspelled(f"{line[at]!r} is no call that can stand here")
    at += 1
    what, size, alignment = None, 0, None
    if kind in _WITH_WHAT:
        what, at = _what(trace, _word(line, at)), at + 1
    if kind in BINDING:
        size, at = words.number(_word(line, at)), at + 1
    if kind in _WITH_ALIGNMENT:
        alignment, at = words.number(_word(line, at)), at + 1
    _ends(line, at)
    if name is not None:
        trace.names.add(name)
    return Call(kind, name, what, size, alignment)


def _what(trace: Trace, word: str) -> str | Place | None:
    if word == "null":
        return None
    if not words.is_name(word):
        return words.place(word)
    if word not in trace.names:
        raise Misspelled(f"no earlier line binds the name {word}")
    return word


def _word(line: list[str], at: int) -> str:
    if at >= len(line):
        raise Misspelled("a word is missing at the line's end")
    return line[at]


def _ends(line: list[str], at: int) -> None:
    if at < len(line):
        raise Misspelled(f"{line[at]!r} is left over")


def _pool(trace: Trace, line: list[str], at: int) -> int:
    pool = words.pool(_word(line, at))
    if pool >= trace.pools:
        raise Misspelled(f"no earlier line makes the pool P{pool}")
    return pool


def _thread(trace: Trace, line: list[str], at: int) -> str:
    name = words.thread_name(_word(line, at))
    if name not in trace.threads:
        raise Misspelled(f"no thread is named {name}")
    return name


_FORMS = {"threads": _read_threads, "pool": _read_pool, "raw": _read_raw, "begin": _read_begin,
          "step": _read_turns, "upto": _read_turns, "finish": _read_turns, "reset": _read_end, "destroy": _read_end}
