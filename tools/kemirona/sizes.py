"""The size classes, and what a request is served as."""
from bisect import bisect_left
from dataclasses import dataclass

CLASSES = (8, 16, 32, 48, 64, 80, 96, 112, 128, 160, 192, 224, 256, 320, 384, 448, 512, 640, 768, 896, 1024,
           1792, 2688, 4032, 5376, 8128)
LARGEST_SMALL = CLASSES[-1]
GRANULE = 8192
SLAB = 2 * GRANULE
SPAN = 1024
DEFAULT_REGION = 1048576


@dataclass(frozen=True, slots=True)
class Served:
    """The bytes that a request takes of a pool, and whether an object of a slab serves it."""
    bytes: int
    is_small: bool


def round_up(size: int, unit: int) -> int:
    return -(-size // unit) * unit


def class_of(size: int) -> int:
    """The first class that is not smaller, for a size that has one."""
    return CLASSES[bisect_left(CLASSES, size)]


def is_power_of_two(number: int) -> bool:
    return number > 0 and number & (number - 1) == 0


def served(size: int, alignment: int | None = None) -> Served | None:
    """What a malloc or, with an alignment, an aligned request is served as; None where it is refused as bad."""
    if alignment is None:
        return _served_at(size, 64, size <= LARGEST_SMALL, size)
    if size == 0 or not is_power_of_two(alignment):
        return None
    if size <= 1024 and alignment <= 1024:
        return _served_at(size, alignment, True, round_up(size, alignment))
    return _served_at(size, max(64, alignment), alignment <= 64 and size <= LARGEST_SMALL, size)


def _served_at(size: int, head: int, is_small: bool, class_size: int) -> Served:
    if is_small:
        return Served(class_of(class_size), True)
    return Served(round_up(size + head, GRANULE), False)
