"""What the tests share: where things lie, and how a tool is run."""
import subprocess
import sys
from dataclasses import dataclass
from pathlib import Path

TOOLS = Path(__file__).resolve().parent.parent
DATA = TOOLS / "tests" / "data"
EXAMPLES = TOOLS.parent / "examples"


@dataclass(frozen=True)
class Ran:
    status: int
    out: str
    err: str


def run(tool: str, *words: str | Path, text: str | None = None) -> Ran:
    done = subprocess.run([sys.executable, "-B", TOOLS / tool, *words], input=text, capture_output=True, text=True,
                          check=False)
    return Ran(done.returncode, done.stdout, done.stderr)


def data(name: str) -> bytes:
    return (DATA / name).read_bytes()


def reports_of_traces(folder: Path) -> list[Path]:
    """The reports that a trace stands beside: those of generated traces have none."""
    return [path for path in sorted(folder.glob("*.report")) if path.with_suffix(".trace").exists()]
