"""Reports of many moves, made for the tests: a pool whose slabs fill and whose objects come and go."""
GRANULE, SLAB, REGION = 8192, 16384, 1048576
CLASS = 128
OBJECTS = 127
THREADS = ("A", "B", "C", "D")


class Filler:
    def __init__(self):
        self.lines = ["2 made"]
        self.moves = 0
        self.line = 2
        self.grants = dict.fromkeys(THREADS, 0)
        self.held: list[tuple[str, str]] = []  # a place and its grant

    def step(self, thread: str, row: str, *parts: tuple[str, int, str, str]) -> None:
        self.moves += 1
        for place, size, source, target in parts:
            self.lines.append(f"move {self.moves} {thread} {row} {place} {size} {source} {target}")

    def answer(self, text: str) -> None:
        self.line += 1
        self.lines.append(f"{self.line} {text}")

    def slab(self, thread: str, region: int, at: int) -> None:
        """A new slab, behind which the region's last block stays in a bin."""
        hand, rest = f"hand:{thread}", REGION - at
        if at == 0:
            self.step(thread, "F3", (f"P0.R{region}+0", REGION, "none", hand))
        else:
            self.step(thread, "G2", (f"P0.R{region}+{at}", rest, "bin", hand))
        if rest > SLAB:
            self.step(thread, "G4", (f"P0.R{region}+{at + SLAB}", rest - SLAB, hand, "bin"))
        head = SLAB - OBJECTS * CLASS
        self.step(thread, "F8", (f"P0.R{region}+{at}", head, hand, "head"),
                  (f"P0.R{region}+{at + head}", SLAB - head, hand, "rest"))

    def get(self, thread: str, place: str, row: str, source: str) -> None:
        self.grants[thread] += 1
        grant = f"{thread}#{self.grants[thread]}"
        self.step(thread, row, (place, CLASS, source, f"object:{grant}"))
        self.answer(f"got {place} {CLASS} {grant}")
        self.held.append((place, grant))

    def again(self, at: int) -> None:
        """An object is freed by the thread that got it, which gets it again."""
        place, grant = self.held[at]
        thread = grant.split("#")[0]
        self.step(thread, "M4", (place, CLASS, f"object:{grant}", "private"))
        self.answer("freed")
        self.get(thread, place, "M3", "private")
        self.held[at] = self.held.pop()


def filled(moves: int, regions: int = 7, objects: int = 40) -> str:
    """A report of so many moves, in whose end each slab of the regions has so many objects. It has no totals."""
    filler, draw = Filler(), 1
    for slab in range(regions * REGION // SLAB):
        region, at = divmod(slab * SLAB, REGION)
        thread = THREADS[slab % len(THREADS)]
        filler.slab(thread, region, at)
        for i in range(objects):
            filler.get(thread, f"P0.R{region}+{at + SLAB - (i + 1) * CLASS}", "M2", "rest")
    while filler.moves < moves:
        draw = (draw * 6364136223846793005 + 1442695040888963407) % 2**64
        filler.again((draw >> 33) % len(filler.held))
    return "\n".join([*filler.lines, "end", ""])
