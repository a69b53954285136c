"""Input that a tool refuses, and the one line that says so."""
import sys
from collections.abc import Callable
from pathlib import Path
from typing import TypeVar

REFUSED = 2
Read = TypeVar("Read")


class BadInput(Exception):
    """A line of an input that can't be read, and what is wrong with it. Line 0 stands for the whole file."""

    def __init__(self, line: int, what: str):
        super().__init__(what)
        self.line = line
        self.what = what
        self.path: str | None = None


def read_bytes(path: str) -> bytes:
    """The bytes of a file; `-` is standard input."""
    try:
        return sys.stdin.buffer.read() if path == "-" else Path(path).read_bytes()
    except OSError as error:
        raise in_file(path, BadInput(0, f"can't be read: {error.strerror}")) from error


def in_file(path: str, fault: BadInput, stream: str = "standard input") -> BadInput:
    """The fault, told of the file of that path, or of the stream that `-` stands for."""
    fault.path = stream if path == "-" else path
    return fault


def read_as(path: str, read: Callable[[bytes], Read]) -> Read:
    """What `read` makes of the file's bytes; a fault names the file."""
    data = read_bytes(path)
    try:
        return read(data)
    except BadInput as fault:
        raise in_file(path, fault)


def write_text(path: str, text: str) -> None:
    """Writes the whole text; `-` is standard output."""
    try:
        with open(sys.stdout.fileno() if path == "-" else path, "wb", closefd=path != "-") as file:
            file.write(text.encode("utf-8"))
    except OSError as error:
        fault = BadInput(0, f"can't be written: {error.strerror}")
        raise in_file(path, fault, "standard output") from error


def run_tool(name: str, work: Callable[[], None]) -> int:
    """Does the work; a fault becomes one line on standard error and the status 2."""
    try:
        work()
    except BadInput as fault:
        where = f"line {fault.line}: " if fault.line else ""
        print(f"{name}: {fault.path}: {where}{fault.what}", file=sys.stderr)
        return REFUSED
    return 0
