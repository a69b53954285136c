"""Reads the colours of a screenshot: a PNG of 8 bits a channel without interlacing."""
import struct
import zlib


class Png:
    def __init__(self, data: bytes):
        kinds = {2: 3, 6: 4}
        self.rows: list[bytes] = []
        at, packed = 8, b""
        while at < len(data):
            length, kind = struct.unpack(">I4s", data[at:at + 8])
            body = data[at + 8:at + 8 + length]
            if kind == b"IHDR":
                self.width, self.height, depth, colours, _, _, interlaced = struct.unpack(">IIBBBBB", body)
                if depth != 8 or interlaced or colours not in kinds:
                    raise ValueError("a kind of PNG that is not read here")
                self.channels = kinds[colours]
            elif kind == b"IDAT":
                packed += body
            at += length + 12
        self._unfilter(zlib.decompress(packed))

    def _unfilter(self, raw: bytes) -> None:
        stride, before = self.width * self.channels, bytes(self.width * self.channels)
        for y in range(self.height):
            start = y * (stride + 1)
            before = self._row(raw[start], bytearray(raw[start + 1:start + 1 + stride]), before)
            self.rows.append(before)

    def _row(self, kind: int, row: bytearray, up: bytes) -> bytes:
        step = self.channels
        if kind == 2:
            return bytes(a + b & 255 for a, b in zip(row, up))
        for i in range(len(row) if kind else 0):
            left = row[i - step] if i >= step else 0
            corner = up[i - step] if i >= step else 0
            guess = {1: left, 3: (left + up[i]) // 2, 4: paeth(left, up[i], corner)}[kind]
            row[i] = row[i] + guess & 255
        return bytes(row)

    def count(self, colour: str) -> int:
        """How many pixels have the colour, written as #rrggbb."""
        wanted = bytes.fromhex(colour[1:])
        return sum(row[x:x + 3] == wanted for row in self.rows for x in range(0, len(row), self.channels))


def paeth(left: int, up: int, corner: int) -> int:
    guess = left + up - corner
    return min((left, up, corner), key=lambda value: abs(guess - value))
