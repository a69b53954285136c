"""Builds the lines of a trace from events: addresses become names, each bound once."""
from collections import Counter
from dataclasses import dataclass, field

from . import sizes, trace_text
from .recordings import Did, Event
from .trace_text import read_options

HEAD_LINES = 2  # the threads' and the pool's
ROOM_FOR_HEAD = 1024  # bytes that are kept for these, and for the line that tells of a cut


@dataclass(frozen=True, slots=True)
class Wanted:
    """What the user asks of the trace."""
    pool: tuple[str, ...] = ()
    lines: int = trace_text.MOST_LINES
    threads: int | None = None  # folded to that many
    largest: int | None = None  # requests above it are left out
    is_plain: bool = False  # one thread, mallocs and frees alone


@dataclass(slots=True)
class Held:
    """An object that the program holds. One that is left out of the trace has no name."""
    name: str | None
    bytes: int = 0
    usable: int = 0


class Cut(Exception):
    """The trace ends before this event, and why."""


def pool_room(options: dict[str, int | None]) -> int:
    """The bytes that a pool with these options can hold at most."""
    room = min(options.get("span") or sizes.SPAN, sizes.SPAN) * sizes.GRANULE
    if "fixed" in options:
        region = options.get("region", sizes.DEFAULT_REGION) or 0
        room = min(room, sizes.round_up(region, options.get("gran") or sizes.GRANULE))
    return room


@dataclass(slots=True)
class Builder:
    """Adds the calls of one event after another, up to the first that would go past a limit."""
    wanted: Wanted
    lines: list[str] = field(default_factory=list)
    event_of_line: list[int] = field(default_factory=list)
    at: int = 0  # the event that is being added
    bytes: int = ROOM_FOR_HEAD
    room: int = 0
    held_bytes: int = 0
    bound: int = 0
    held: dict[int, Held] = field(default_factory=dict)
    moving: dict[str, Held | None] = field(default_factory=dict)  # by thread: what its open realloc moves
    threads: dict[str, int] = field(default_factory=dict)
    ended: set[str] = field(default_factory=set)
    left_out: Counter[str] = field(default_factory=Counter)
    written: Counter[str] = field(default_factory=Counter)  # otherwise than recorded

    def __post_init__(self) -> None:
        self.room = pool_room(read_options(list(self.wanted.pool)))

    # ---- events ----

    def add(self, at: int, event: Event) -> None:
        """Adds the event of that position. Raises Cut where it would go past a limit, and is then spent."""
        self.at = at
        self._add(event)
        if len(self.lines) + HEAD_LINES > self.wanted.lines:
            raise Cut(f"the trace would have more than {self.wanted.lines} lines")
        if self.bytes > trace_text.MOST_BYTES:
            raise Cut(f"the trace would have more than {trace_text.MOST_BYTES} bytes")

    def _add(self, event: Event) -> None:
        if event.did is Did.GOT:
            self._got(event)
        elif event.did is Did.FREED:
            self._freed(event)
        elif event.did is Did.MOVES:
            self.moving[event.thread] = self.held.pop(event.old, None)
        elif event.did is Did.MOVED:
            self._moved(event)
        else:
            self._ended(event)

    def _got(self, event: Event) -> None:
        if not event.address:
            self.left_out["calls that got nothing"] += 1
            return
        self._drop_stale(event)
        self.held[event.address] = self._ask(event)

    def _freed(self, event: Event) -> None:
        if not event.address:
            self.left_out["frees of null"] += 1
        elif event.address not in self.held:
            self.left_out["frees of what was got before the record began"] += 1
        else:
            self._free(event, self.held.pop(event.address))

    def _moved(self, event: Event) -> None:
        old = self.moving.pop(event.thread) if event.thread in self.moving else self.held.pop(event.old, None)
        if not event.address and event.size:
            self.left_out["calls that got nothing"] += 1
            if old:
                self.held[event.old] = old
        elif old is not None and old.name is not None:
            self._moved_from(event, old)
        elif event.address:
            if event.old and old is None:
                self.written["reallocs of what was got before the record began, as mallocs"] += 1
            self._drop_stale(event)
            self.held[event.address] = self._ask(event, is_realloc=not event.old)

    def _moved_from(self, event: Event, old: Held) -> None:
        if not event.address:
            self._move_to_nothing(event, old)
            return
        self._drop_stale(event)
        self.held[event.address] = self._move(event, old)

    def _ended(self, event: Event) -> None:
        self.ended.add(event.thread)
        if self.wanted.is_plain or event.thread not in self.threads:
            return
        slot = self.threads[event.thread]
        if all(thread in self.ended for thread, other in self.threads.items() if other == slot):
            self._line(f"{self._thread(event)} P0 exit")

    def _drop_stale(self, event: Event) -> None:
        """An address that comes again was given back, though no event says so."""
        stale = self.held.pop(event.address, None)
        if stale:
            self.written["frees that the record lacks, where an address comes again"] += 1
            self._free(event, stale)

    # ---- calls ----

    def _ask(self, event: Event, is_realloc: bool = False) -> Held:
        """The malloc or aligned call of an event, or, of null, its realloc."""
        size, alignment = asked(event)
        if self._is_left_out(size, alignment):
            return Held(None)
        if self.wanted.is_plain and alignment is not None:
            size, alignment = sizes.served(size, alignment).bytes, None
        served = self._take(size, alignment)
        name = self._name()
        if alignment is not None:
            call = f"aligned {size} {alignment}"
        elif is_realloc and not self.wanted.is_plain:
            call = f"realloc null {size}"
        else:
            call = f"malloc {size}"
        self._line(f"{self._thread(event)} P0 {name} = {call}")
        return Held(name, served, served)

    def _move(self, event: Event, old: Held) -> Held:
        """The realloc of an object, which keeps its place where its usable bytes suffice."""
        size = max(event.size, 1)
        if self._is_left_out(size, None):
            self._free(event, old)
            return Held(None)
        is_kept = size <= old.usable
        if self.wanted.is_plain:
            return old if is_kept else self._move_plainly(event, old, size)
        served = old.bytes
        if not is_kept:
            served = self._take(size, None)
            self.held_bytes -= old.bytes
        name = self._name()
        self._line(f"{self._thread(event)} P0 {name} = realloc {old.name} {size}")
        return Held(name, served, served)

    def _move_plainly(self, event: Event, old: Held, size: int) -> Held:
        served = self._take(size, None)
        name = self._name()
        self._line(f"{self._thread(event)} P0 {name} = malloc {size}")
        self._free(event, old)
        return Held(name, served, served)

    def _move_to_nothing(self, event: Event, old: Held) -> None:
        if self.wanted.is_plain:
            self._free(event, old)
            return
        self.held_bytes -= old.bytes
        self._line(f"{self._thread(event)} P0 {self._name()} = realloc {old.name} 0")

    def _free(self, event: Event, held: Held) -> None:
        if held.name is not None:
            self.held_bytes -= held.bytes
            self._line(f"{self._thread(event)} P0 free {held.name}")

    def _is_left_out(self, size: int, alignment: int | None) -> bool:
        if self.wanted.largest is not None and size > self.wanted.largest:
            self.left_out[f"requests above {self.wanted.largest} bytes, with what became of them"] += 1
            return True
        if self.wanted.is_plain and not sizes.served(size, alignment).is_small:
            self.left_out["requests that no class serves, with what became of them"] += 1
            return True
        return False

    def _take(self, size: int, alignment: int | None) -> int:
        served = sizes.served(size, alignment).bytes
        if self.held_bytes + served > self.room:
            raise Cut(f"the objects held would take {self.held_bytes + served} bytes, and the pool has at most "
                      f"{self.room}")
        self.held_bytes += served
        return served

    # ---- lines ----

    def _name(self) -> str:
        self.bound += 1
        return f"v{self.bound}"

    def _thread(self, event: Event) -> str:
        if event.thread not in self.threads:
            count = 1 if self.wanted.is_plain else self.wanted.threads
            slot = len(self.threads) % count if count else len(self.threads)
            if slot >= trace_text.MOST_THREADS:
                raise Cut(f"a thread more makes a call than the {trace_text.MOST_THREADS} that a trace may have")
            self.threads[event.thread] = slot
        return thread_name(self.threads[event.thread])

    def _line(self, text: str) -> None:
        self.lines.append(text)
        self.event_of_line.append(self.at)
        self.bytes += len(text) + 1

    def first_left_out(self, most_lines: int) -> int:
        """The first event that has no place among so many lines, or that was not added."""
        return self.event_of_line[most_lines] if len(self.lines) > most_lines else self.at


def thread_name(slot: int) -> str:
    return f"T{slot + 1}"


def asked(event: Event) -> tuple[int, int | None]:
    """The size and alignment to ask for: where a pool refuses what a C library serves, the next that it takes."""
    if event.alignment is None:
        return event.size, None
    alignment = 1 << max(0, event.alignment - 1).bit_length()
    return max(event.size, 1), alignment
