"""The words that the trace language and the report share: numbers, names, places, grants, rows and holders."""
import re
from dataclasses import dataclass
from functools import lru_cache

MOST_NUMBER = 2**64 - 1
MOST_REGIONS = 4194304

_NUMBER = re.compile(r"0|[1-9][0-9]*")
_THREAD = re.compile(r"[A-Z][A-Z0-9_]{0,7}")
_NAME = re.compile(r"[a-z][a-z0-9_]{0,15}")
_PLACE = re.compile(r"P([0-7])\.R(0|[1-9][0-9]*)\+(0|[1-9][0-9]*)")
_GRANT = re.compile(r"([A-Z][A-Z0-9_]{0,7})#([1-9][0-9]*)")
_POOL = re.compile(r"P([0-7])")

# How many kinds of step each letter has.
_ROW_COUNTS = {"M": 8, "P": 6, "N": 7, "O": 8, "G": 8, "B": 6, "Q": 5, "C": 7, "F": 10, "J": 2}
ROWS = frozenset(f"{letter}{n}" for letter, count in _ROW_COUNTS.items() for n in range(1, count + 1))

# Every kind of holder, in the order of a report's totals.
HOLDERS = ("waste", "head", "rest", "private", "public", "object", "large-head", "slab-cache", "cached", "bin",
           "queue", "hand")
_PLAIN_HOLDERS = frozenset(("none", "waste", "head", "rest", "private", "public", "bin", "queue"))
_GRANT_HOLDERS = frozenset(("object", "large-head"))
_THREAD_HOLDERS = frozenset(("slab-cache", "hand"))


class Misspelled(ValueError):
    """A word that is not spelled as its place asks."""


@dataclass(frozen=True, slots=True)
class Place:
    pool: int
    region: int
    offset: int

    def __str__(self) -> str:
        return f"P{self.pool}.R{self.region}+{self.offset}"


@dataclass(frozen=True, slots=True)
class Grant:
    thread: str
    number: int

    def __str__(self) -> str:
        return f"{self.thread}#{self.number}"


def number(word: str, most: int = MOST_NUMBER, least: int = 0) -> int:
    if not _NUMBER.fullmatch(word):
        raise Misspelled(f"{word!r} is no number")
    # A long row of digits is out of range whatever it is, and is not worth reading.
    value = int(word) if len(word) <= 20 else MOST_NUMBER + 1
    if not least <= value <= most:
        raise Misspelled(f"the number {word[:24]} is not from {least} to {most}")
    return value


def thread_name(word: str) -> str:
    if not _THREAD.fullmatch(word):
        raise Misspelled(f"{word!r} is no name of a thread")
    return word


def bound_name(word: str) -> str:
    if not _NAME.fullmatch(word) or word == "null":
        raise Misspelled(f"{word!r} can't be bound as a name")
    return word


def is_name(word: str) -> bool:
    return _NAME.fullmatch(word) is not None and word != "null"


def pool(word: str) -> int:
    found = _POOL.fullmatch(word)
    if not found:
        raise Misspelled(f"{word!r} is no pool from P0 to P7")
    return int(found[1])


def place(word: str) -> Place:
    found = _PLACE.fullmatch(word)
    if not found:
        raise Misspelled(f"{word!r} is no place")
    return Place(int(found[1]), number(found[2], MOST_REGIONS - 1), number(found[3]))


def grant(word: str) -> Grant:
    found = _GRANT.fullmatch(word)
    if not found:
        raise Misspelled(f"{word!r} is no grant")
    return Grant(found[1], number(found[2]))


def row(word: str) -> str:
    if word not in ROWS:
        raise Misspelled(f"{word!r} is no kind of step")
    return word


@lru_cache(maxsize=65536)
def holder(word: str) -> str:
    """The holder as it is written, where it is one."""
    kind, colon, rest = word.partition(":")
    if not colon and kind in _PLAIN_HOLDERS:
        return word
    if colon and kind in _GRANT_HOLDERS and _GRANT.fullmatch(rest):
        return word
    if colon and kind in _THREAD_HOLDERS and _THREAD.fullmatch(rest):
        return word
    if colon and kind == "cached" and _NUMBER.fullmatch(rest):
        return word
    raise Misspelled(f"{word!r} is no holder")


def holder_kind(holder_word: str) -> str:
    return holder_word.partition(":")[0]


def keeper(word: str) -> str:
    """A slab's keeper as it is written: a thread, `orphan` or `hand:` and a thread."""
    if word != "orphan":
        thread_name(word.removeprefix("hand:"))
    return word


def split_lines(data: bytes) -> list[str]:
    """The lines of a text without their newlines; what stands behind the last newline is a line too."""
    lines = data.decode("latin-1").split("\n")
    if lines[-1] == "":
        lines.pop()
    return lines
