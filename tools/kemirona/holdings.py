"""How many bytes each kind of holder has in each pool, from move to move."""
from collections.abc import Iterator
from dataclasses import dataclass, field

from . import words
from .faults import BadInput
from .report_text import Answer, Move, Report


def no_bytes() -> dict[str, int]:
    return dict.fromkeys(words.HOLDERS, 0)


@dataclass(slots=True)
class Holdings:
    pools: dict[int, dict[str, int]] = field(default_factory=dict)

    def apply(self, move: Move) -> None:
        held = self.pools.setdefault(move.place.pool, no_bytes())
        source, target = words.holder_kind(move.source), words.holder_kind(move.target)
        if source != "none":
            held[source] -= move.bytes
            if held[source] < 0:
                raise BadInput(move.at, f"more bytes leave {source} than it has")
        if target != "none":
            held[target] += move.bytes

    def destroy(self, pool: int) -> None:
        self.pools.pop(pool, None)

    def by_holder(self) -> dict[str, int]:
        """The bytes of all pools."""
        sums = no_bytes()
        for held in self.pools.values():
            for kind, count in held.items():
                sums[kind] += count
        return sums

    def check_totals(self, report: Report) -> None:
        """The report's totals are those that its moves give."""
        for total in report.totals:
            held = self.pools.get(total.pool, no_bytes())
            for kind, count in total.holders.items():
                if held[kind] != count:
                    raise BadInput(total.at, f"the total of {kind} is {count}, and the moves give {held[kind]}")


def steps(report: Report) -> Iterator[list[Move] | Answer]:
    """The parts of each move together, and the answers, in their order."""
    parts: list[Move] = []
    for entry in report.run:
        if isinstance(entry, Move):
            if parts and parts[0].number != entry.number:
                yield parts
                parts = []
            parts.append(entry)
        elif isinstance(entry, Answer):
            if parts:
                yield parts
                parts = []
            yield entry
    if parts:
        yield parts
