"""Which definitions the headline leads to by its imports, and the table of `docs/assurance.md` that lists them."""
import re
from dataclasses import dataclass
from pathlib import Path

from .faults import BadInput

ROOT = Path(__file__).resolve().parent.parent.parent
PAGE = ROOT / "docs" / "assurance.md"
HEADLINE = ("poolreplay", "Replay")

_HEAD = "| In the order of reading "
_IMPORT = re.compile(r"^\s*(?:pub )?use Rattle\.(\w+)\.specs\.([\w.]+?)(?:\.\{.*| as .*)?$", re.MULTILINE)
_GROUP = re.compile(r"`(\w+)`: ([^;]+)")
_FILE = re.compile(r"(\w+) (\d+)")

File = tuple[str, str]


@dataclass(frozen=True)
class Row:
    """A row of the table: what it is about, its files and their lines by crate, and their sum."""
    about: str
    files: list[tuple[File, int]]
    sum: int

    def text(self) -> str:
        groups: dict[str, list[str]] = {}
        for (crate, name), lines in self.files:
            groups.setdefault(crate, []).append(f"{name} {lines}")
        listed = "; ".join(f"`{crate}`: {', '.join(names)}" for crate, names in groups.items())
        return f"| {self.about} | {listed} | {self.sum} |"


def file_of(crate: str, name: str) -> Path:
    return ROOT / "crates" / crate / "specs" / f"{name}.antt"


def files_from(start: File) -> dict[File, int]:
    """The files that this one leads to, with their lines. What mirrors the types of a crate is no file of it."""
    found: dict[File, int] = {}
    left = [start]
    while left:
        at = left.pop()
        if at in found or not file_of(*at).exists():
            continue
        text = file_of(*at).read_text(encoding="utf-8")
        found[at] = text.count("\n")
        left += [(crate, name) for crate, name in _IMPORT.findall(text)]
    return found


def table(page: str) -> list[str]:
    lines = page.split("\n")
    heads = [number for number, line in enumerate(lines) if line.startswith(_HEAD)]
    if len(heads) != 1:
        raise BadInput(0, "there is not one table of what has to be read")
    rows = lines[heads[0] + 2:]
    ends = [number for number, line in enumerate(rows) if not line.startswith("|")]
    return rows[:ends[0]]


def read_row(line: str) -> Row:
    about, listed, total = (cell.strip() for cell in line.strip("|").split("|"))
    files = [((crate, name), int(lines))
             for crate, names in _GROUP.findall(listed) for name, lines in _FILE.findall(names)]
    return Row(about, files, int(total))


def counted_anew(row: Row, found: dict[File, int]) -> Row:
    files = [(file, found[file]) for file, _ in row.files if file in found]
    return Row(row.about, files, sum(lines for _, lines in files))


def table_anew(page: str) -> list[str]:
    """The rows of the table as they should be; a file that is in no row is refused."""
    found = files_from(HEADLINE)
    rows = [counted_anew(read_row(line), found) for line in table(page)[:-1]]
    listed = [file for row in rows for file, _ in row.files]
    missing = sorted(set(found) - set(listed))
    if missing:
        files = ", ".join(f"{crate}: {name} {found[crate, name]}" for crate, name in missing)
        raise BadInput(0, f"no row lists {files}")
    if len(listed) != len(set(listed)):
        raise BadInput(0, "a file is listed twice")
    return [row.text() for row in rows] + [f"| all | {len(found)} files | {sum(found.values())} |"]


def page_anew(page: str) -> str:
    return page.replace("\n".join(table(page)), "\n".join(table_anew(page)))
