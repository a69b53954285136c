"""What recorders write, read as events: valgrind's --trace-malloc=yes, glibc's mtrace, and tools/record's."""
import re
from dataclasses import dataclass, field
from enum import Enum

from . import words
from .faults import BadInput
from .words import Misspelled

ONE_THREAD = "1"


class Did(Enum):
    GOT = "got"
    MOVED = "moved"
    MOVES = "moves"
    FREED = "freed"
    ENDED = "ended"


@dataclass(frozen=True, slots=True)
class Event:
    """What a thread did. A realloc is MOVED; where the recorder tells when it began, MOVES stands before it."""
    line: int
    thread: str
    did: Did
    address: int = 0
    size: int = 0
    alignment: int | None = None
    old: int = 0


@dataclass(slots=True)
class Recording:
    events: list[Event] = field(default_factory=list)
    missing: list[str] = field(default_factory=list)  # what the recording says that it lacks


class Recorder(Enum):
    VALGRIND = "valgrind"
    MTRACE = "mtrace"
    RECORD = "record"


def read_recording(data: bytes, recorder: Recorder | None = None) -> Recording:
    """The events of a recording, in the order in which they happened."""
    lines = words.split_lines(data.replace(b"\0", b""))
    recorder = recorder or _recorder_of(lines)
    recording = _READERS[recorder](lines)
    if not recording.events:
        raise BadInput(max(1, len(lines)), f"no call of malloc or its kin stands in this record of {recorder.value}")
    return recording


def _recorder_of(lines: list[str]) -> Recorder:
    for text in lines:
        if text.startswith("kemirona-record "):
            return Recorder.RECORD
        if text == "= Start":
            return Recorder.MTRACE
        if _VALGRIND_LINE.match(text):
            return Recorder.VALGRIND
    raise BadInput(1, "no recorder is known by this line: a record of valgrind, mtrace or tools/record is wanted")


def _address(word: str) -> int:
    if word == "(nil)":
        return 0
    try:
        return int(word, 16)
    except ValueError:
        raise Misspelled(f"{word!r} is no address") from None


# ---- valgrind ----

_VALGRIND_LINE = re.compile(r"(--|==)[0-9]+(--|==) ")
_VALGRIND_CALL = re.compile(r"--([0-9]+)-- (\w+)\((.*)")
_HEX = "(0x[0-9A-Fa-f]+)"
_SIZED = re.compile(rf"([0-9]+)\) = {_HEX}")
_COUNTED = re.compile(rf"([0-9]+), ?([0-9]+)\) = {_HEX}")
_MOVED = re.compile(rf"{_HEX}, ?([0-9]+)\)(?:malloc\([0-9]+\))? = {_HEX}")
_MOVED_AWAY = re.compile(rf"{_HEX}, ?0\)(?:free\(0x[0-9A-Fa-f]+\)|(?: = 0x0)?)")
_ALIGNED = re.compile(rf"al ([0-9]+), size ([0-9]+)\) = {_HEX}")
_ALIGNED_NEW = re.compile(rf"size ([0-9]+), al ([0-9]+)\) = {_HEX}")
_GIVEN_BACK = re.compile(rf"{_HEX}(?:,[^)]*)?\)")
_NO_ALLOCATION = frozenset(("malloc_usable_size", "mallopt", "malloc_trim", "mallinfo", "mallinfo2"))


def _read_valgrind(lines: list[str]) -> Recording:
    recording = Recording()
    first, others = None, 0
    for at, text in enumerate(lines, 1):
        found = _VALGRIND_CALL.match(text)
        if not found or found[2] in _NO_ALLOCATION:
            continue
        first = first or found[1]
        if found[1] != first:
            others += 1
            continue
        event = _valgrind_event(at, found[2], found[3])
        if event is None:
            raise BadInput(at, f"{text.partition('-- ')[2]!r} is no call that valgrind traces")
        recording.events.append(event)
    if others:
        recording.missing.append(f"{others} events of other processes than {first}")
    return recording


def _valgrind_event(at: int, function: str, rest: str) -> Event | None:
    """The event of a call, or None where the line is none."""
    if function == "realloc":
        return _valgrind_realloc(at, rest)
    if function.startswith(("free", "_Zd", "__builtin_delete", "__builtin_vec_delete", "cfree")):
        found = _GIVEN_BACK.fullmatch(rest)
        return found and Event(at, ONE_THREAD, Did.FREED, _address(found[1]))
    if found := _SIZED.fullmatch(rest):
        return Event(at, ONE_THREAD, Did.GOT, _address(found[2]), int(found[1]))
    if function == "calloc" and (found := _COUNTED.fullmatch(rest)):
        return Event(at, ONE_THREAD, Did.GOT, _address(found[3]), int(found[1]) * int(found[2]))
    if found := _ALIGNED.fullmatch(rest):
        return Event(at, ONE_THREAD, Did.GOT, _address(found[3]), int(found[2]), int(found[1]))
    if found := _ALIGNED_NEW.fullmatch(rest):
        return Event(at, ONE_THREAD, Did.GOT, _address(found[3]), int(found[1]), int(found[2]))
    return None


def _valgrind_realloc(at: int, rest: str) -> Event | None:
    if found := _MOVED_AWAY.fullmatch(rest):
        return Event(at, ONE_THREAD, Did.MOVED, 0, 0, None, _address(found[1]))
    found = _MOVED.fullmatch(rest)
    return found and Event(at, ONE_THREAD, Did.MOVED, _address(found[3]), int(found[2]), None, _address(found[1]))


# ---- mtrace ----

_MTRACE_EVENT = re.compile(r"(?:@ .* )?([-+<>!]) (0x[0-9a-f]+|\(nil\))(?: (0x[0-9a-f]+|0))?")


def _read_mtrace(lines: list[str]) -> Recording:
    recording = Recording()
    old = None  # of a realloc, whose `<` stands before its `>`
    for at, text in enumerate(lines, 1):
        if text in ("= Start", "= End", ""):
            continue
        found = _MTRACE_EVENT.fullmatch(text)
        sign = found[1] if found else ""
        if not found or (sign in "+>!") != (found[3] is not None) or (sign == ">") != (old is not None):
            raise BadInput(at, f"{text[:80]!r} is no line that mtrace writes here")
        address, size = _address(found[2]), int(found[3] or "0", 16)
        if sign == "<":
            old = address
            continue
        if sign == "+":
            event = Event(at, ONE_THREAD, Did.GOT, address, size)
        elif sign == "-":
            event = Event(at, ONE_THREAD, Did.FREED, address)
        elif sign == "!":
            event = Event(at, ONE_THREAD, Did.MOVED, 0, size, None, address)
        else:
            event = Event(at, ONE_THREAD, Did.MOVED, address, size, None, old or 0)
        old = None
        recording.events.append(event)
    return recording


# ---- tools/record ----

@dataclass(slots=True)
class _Numbered:
    """Events by the numbers that they drew."""
    events: dict[int, Event] = field(default_factory=dict)

    def add(self, number: int, event: Event) -> None:
        if number in self.events:
            raise Misspelled(f"the number {number} stands twice")
        self.events[number] = event


def _read_record(lines: list[str]) -> Recording:
    numbered = _Numbered()
    for at, text in enumerate(lines, 1):
        try:
            if at == 1:
                _read_record_head(text)
            else:
                _read_record_line(numbered, at, text.split(" "))
        except Misspelled as fault:
            raise BadInput(at, str(fault)) from fault
    order = sorted(numbered.events)
    recording = Recording([numbered.events[number] for number in order])
    lost = order[-1] - len(order) if order else 0
    if lost:
        recording.missing.append(f"{lost} numbers of events, which the recorder could not write")
    return recording


def _read_record_head(text: str) -> None:
    line = text.split(" ")
    if line[:2] != ["kemirona-record", "1"] or len(line) != 3:
        raise Misspelled("'kemirona-record 1' and the process's number are wanted here")
    words.number(line[2])


_RECORD_LENGTHS = {"malloc": 5, "aligned": 6, "realloc": 7, "free": 4, "end": 3}


def _read_record_line(numbered: _Numbered, at: int, line: list[str]) -> None:
    if len(line) < 3 or _RECORD_LENGTHS.get(line[2]) != len(line):
        raise Misspelled(f"{' '.join(line)[:80]!r} is no event")
    number, thread, word = words.number(line[0], least=1), str(words.number(line[1], least=1)), line[2]
    if word == "malloc":
        event = Event(at, thread, Did.GOT, _address(line[4]), words.number(line[3]))
    elif word == "aligned":
        event = Event(at, thread, Did.GOT, _address(line[5]), words.number(line[3]), words.number(line[4]))
    elif word == "free":
        event = Event(at, thread, Did.FREED, _address(line[3]))
    elif word == "end":
        event = Event(at, thread, Did.ENDED)
    else:
        old = _address(line[4])
        numbered.add(words.number(line[3], number - 1, 1), Event(at, thread, Did.MOVES, old=old))
        event = Event(at, thread, Did.MOVED, _address(line[6]), words.number(line[5]), None, old)
    numbered.add(number, event)


_READERS = {Recorder.VALGRIND: _read_valgrind, Recorder.MTRACE: _read_mtrace, Recorder.RECORD: _read_record}
