"""Lines and words on a white picture, written as PNG."""

import struct
import zlib
from math import hypot

import font


class Canvas:
    def __init__(self, width, height):
        self.width, self.height = width, height
        self.pixels = bytearray(b"\xff" * (3 * width * height))

    def blend(self, x, y, colour, share):
        """So much of the colour over what is there."""
        if not (0 <= x < self.width and 0 <= y < self.height):
            return
        at = 3 * (y * self.width + x)
        for channel, value in enumerate(colour, at):
            self.pixels[channel] += round(share * (value - self.pixels[channel]))

    def line(self, start, end, colour, thickness=1.0):
        """A line with round ends, each pixel by how much of it is covered."""
        reach = thickness / 2 + 1
        (left, right), (top, bottom) = (sorted(pair) for pair in zip(start, end))
        columns = range(int(left - reach), int(right + reach) + 1)
        rows = range(int(top - reach), int(bottom + reach) + 1)
        for x, y in ((x, y) for y in rows for x in columns):
            share = thickness / 2 + 0.5 - distance((x, y), start, end)
            if share > 0:
                self.blend(x, y, colour, min(share, 1.0))

    def disc(self, centre, colour, diameter):
        self.line(centre, centre, colour, diameter)

    def words(self, place, text, colour, size=2, align=0.0, upward=False):
        """Text whose part `align` stands before the place: 0 starts there, 1 ends there. `upward` turns it to the left."""
        start = -align * (len(text) * font.ADVANCE - 1) * size
        inked = ((font.ADVANCE * index + column, row) for index, letter in enumerate(text) for column, row in font.dots(letter))
        for column, row in inked:
            along, down = start + column * size, row * size
            self.dot(place, (down, -along - size) if upward else (along, down), colour, size)

    def dot(self, place, offset, colour, size):
        x, y = (round(a + b) for a, b in zip(place, offset))
        for step in range(size * size):
            self.blend(x + step % size, y + step // size, colour, 1.0)

    def png(self):
        rows = (self.pixels[3 * self.width * y : 3 * self.width * (y + 1)] for y in range(self.height))
        header = struct.pack(">IIBBBBB", self.width, self.height, 8, 2, 0, 0, 0)
        body = zlib.compress(b"".join(b"\0" + row for row in rows), 9)
        return b"\x89PNG\r\n\x1a\n" + chunk(b"IHDR", header) + chunk(b"IDAT", body) + chunk(b"IEND", b"")


def chunk(name, content):
    return struct.pack(">I", len(content)) + name + content + struct.pack(">I", zlib.crc32(name + content))


def distance(point, start, end):
    """From a point to the nearest one of a line."""
    (x, y), (from_x, from_y), (to_x, to_y) = point, start, end
    across, down = to_x - from_x, to_y - from_y
    length = across * across + down * down
    along = ((x - from_x) * across + (y - from_y) * down) / length if length else 0.0
    along = min(max(along, 0.0), 1.0)
    return hypot(x - from_x - along * across, y - from_y - along * down)
