#!/usr/bin/env python3
"""model_view.py N: what `ddup view --frame N` has to write of the record on standard input.

As tools/model.py, this is a second reading, of docs/RECORD.md and crates/dd_pointer/README.md, which shares nothing
with the program. The input is taken to be a record with so many frames: the rules of its fields aren't tested.
numpy is wanted."""
import struct, sys
import numpy as np


class Reader:
    def __init__(self, data):
        self.data, self.at = data, 0

    def take(self, form):
        values = struct.unpack_from("<" + form, self.data, self.at)
        self.at += struct.calcsize("<" + form)
        return values

    def bytes(self, count):
        self.at += count
        return self.data[self.at - count:self.at]


def channels(colour):
    return [colour >> 16 & 255, colour >> 8 & 255, colour & 255]


def monochrome(shape, x, y, screen):
    kind, width, height, data = shape
    pitch, half = (width + 7) // 8, height // 2
    bit = [data[(y + rows) * pitch + x // 8] >> 7 - x % 8 & 1 for rows in (0, half)]
    return [255 * bit[1]] * 3 if not bit[0] else [255 - s if bit[1] else s for s in screen]


def coloured(shape, x, y, screen):
    kind, width, height, data = shape
    blue, green, red, last = data[4 * (y * width + x):][:4]
    pairs = list(zip((red, green, blue), screen))
    if kind == 2:
        return [(last * c + (255 - last) * s + 127) // 255 for c, s in pairs]
    return [c ^ s if last else c for c, s in pairs]


def compose(surface, shape, left, top):
    """The surface with the shape drawn on it, its top left corner at (left, top), cut where the surface ends."""
    shown, (kind, width, height, _) = surface.copy(), shape
    rule = monochrome if kind == 1 else coloured
    for y in range(height // 2 if kind == 1 else height):
        for x in range(width):
            if 0 <= left + x < shown.shape[1] and 0 <= top + y < shown.shape[0]:
                red, green, blue = rule(shape, x, y, channels(int(surface[top + y, left + x])))
                shown[top + y, left + x] = red << 16 | green << 8 | blue
    return shown


def play(reader, asked):
    """The picture that is shown after a frame, and its mode's rotation."""
    assert reader.bytes(4) == b"DDR1"
    frames = 0
    while frames < asked:
        (tag,) = reader.take("B")
        if tag == 1:
            width, height, rotation = reader.take("III")
            surface, shape = np.zeros((height, width), np.uint32), None
            continue
        assert tag == 2
        *_, x, y, visible, meta, size, move_count, rect_count = reader.take("QQIBBiiBIIBB")
        moves = [reader.take("6i") for _ in range(move_count)]
        rects = [reader.take("4i") for _ in range(rect_count)]
        for from_x, from_y, left, top, right, bottom in moves:
            moved = surface[from_y:from_y + bottom - top, from_x:from_x + right - left].copy()
            surface[top:bottom, left:right] = moved
        for left, top, right, bottom in rects:
            pixels = np.frombuffer(reader.bytes(4 * (right - left) * (bottom - top)), "<u4") & 0xFFFFFF
            surface[top:bottom, left:right] = pixels.reshape(bottom - top, right - left)
        if size:
            kind, wide, high, *_ = reader.take("IIIii")
            shape = (kind, wide, high, reader.bytes(size))
        frames += 1
    return compose(surface, shape, x, y) if visible and shape else surface, rotation


def text(record, asked):
    """The text of the picture after a frame, as its viewer sees it."""
    shown, rotation = play(Reader(record), asked)
    quarters = max(0, rotation - 1)  # clockwise
    turned = np.rot90(shown, -quarters)
    lines = ["P3", "%d %d" % turned.shape[::-1], "255"]
    lines += ["%d %d %d" % tuple(channels(int(colour))) for colour in turned.reshape(-1)]
    return "\n".join(lines) + "\n"


def main():
    if len(sys.argv) != 2:
        sys.exit(__doc__)
    sys.stdout.write(text(sys.stdin.buffer.read(), int(sys.argv[1])))


if __name__ == "__main__":
    main()
