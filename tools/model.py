#!/usr/bin/env python3
"""model.py [--counts | --record N]: what `ddup replay` has to answer to the script on standard input; with --counts the
line of counts that `ddup sum` has to write of it; with --record what `ddup record --client N` has to write.

This is a second reading of docs/FORMATS.md, docs/RECORD.md and docs/DEFINITIONS.md, which shares no line and no method
with the program. A picture is an array of colours and one of hidden points. What is dirty is found by following each
point of the screen backward through all that was drawn, where the program carries areas forward. Of each frame it is
looked, too, whether its moves and its dirty rectangles lead from the surface before to the new one. The input is taken
to be a script: its form isn't tested. numpy is wanted; Debian has it as python3-numpy."""
import json, struct, sys
from dataclasses import dataclass
import numpy as np

MAX_MOVES, MAX_RECTS, BEFORE = 16, 64, 0xEE
CODES = {"AccessLost": "887a0026", "InvalidCall": "887a0001", "WaitTimeout": "887a0027", "MoreData": "887a0003",
         "AccessDenied": "80070005", "AlreadyDuplicating": "80070057", "NotAvailable": "887a0022",
         "SessionDisconnected": "887a0028", "BadRect": "80070057", "BadMode": "80070057"}
CAUSES_OF_LOSS, BEGINNINGS = ("mode", "switch", "disconnect"), ("mode", "switch")


def refused(name, **more):
    code = {"code": CODES[name]} if name in CODES else {}
    return {"refused": name, **code, **more}


# --- pictures ------------------------------------------------------------------------------------


def inside(rect, width, height):
    left, top, right, bottom = rect
    return 0 <= left < right <= width and 0 <= top < bottom <= height


def source_of(op):
    """The rectangle from which a scroll copies."""
    (x, y), (left, top, right, bottom) = op["from"], op["scroll"]
    return [x, y, x + right - left, y + bottom - top]


def fits(op, width, height):
    if "scroll" in op:
        return inside(op["scroll"], width, height) and inside(source_of(op), width, height)
    if "fill" in op:
        return inside(op["fill"], width, height)
    rect = op.get("blit", op.get("cover"))
    points = (rect[2] - rect[0]) * (rect[3] - rect[1])
    return inside(rect, width, height) and len(op["colours"]) == 6 * points


def part(rect):
    return slice(rect[1], rect[3]), slice(rect[0], rect[2])


def draw(picture, hidden, op):
    """Draws one operation on the colours of a picture and on its hidden points."""
    if "scroll" in op:
        for cells in (picture, hidden):
            cells[part(op["scroll"])] = cells[part(source_of(op))].copy()
    elif "fill" in op:
        picture[part(op["fill"])], hidden[part(op["fill"])] = int(op["colour"], 16), False
    else:
        rect = op.get("blit", op.get("cover"))
        digits = op["colours"]
        colours = [int(digits[i:i + 6], 16) for i in range(0, len(digits), 6)]
        picture[part(rect)] = np.array(colours, np.uint32).reshape(rect[3] - rect[1], rect[2] - rect[0])
        hidden[part(rect)] = "cover" in op


def digits_of(row):
    return "".join("%06x" % colour for colour in row)


# --- what is dirty -------------------------------------------------------------------------------


def effects_of(presents):
    """Of each present what its operations do: ("drawn", rectangle) or ("moved", scroll); and the moves of all."""
    moves, all_effects = [], []
    for operations in presents:
        effects = []
        for op in operations:
            if "scroll" in op and len(moves) < MAX_MOVES:
                moves.append(op["from"] + op["scroll"])
                effects.append(("moved", op))
            else:
                effects.append(("drawn", next(op[key] for key in ("fill", "blit", "cover", "scroll") if key in op)))
        all_effects.append(effects)
    return all_effects, moves


def touched(dirty, effects):
    """The points that were drawn, or come from a dirty one: each is followed backward through the effects."""
    height, width = dirty.shape
    place = np.arange(height * width)  # where the point was then; -1 once it is known to be drawn
    for kind, what in reversed(effects):
        rect = what if kind == "drawn" else what["scroll"]
        there = np.zeros((height, width), bool)
        there[part(rect)] = True
        there = (place >= 0) & there.reshape(-1)[place]
        if kind == "drawn":
            place[there] = -1
        else:
            place[there] += (what["from"][1] - rect[1]) * width + what["from"][0] - rect[0]
    return ((place < 0) | dirty.reshape(-1)[place]).reshape(height, width)


def canonical(dirty):
    """Bands of equal rows, and in each the maximal runs of columns."""
    height = dirty.shape[0]
    tops = [0] + [y for y in range(1, height) if (dirty[y] != dirty[y - 1]).any()]
    rects = []
    for top, bottom in zip(tops, tops[1:] + [height]):
        edges = np.flatnonzero(np.diff(dirty[top].astype(np.int8), prepend=0, append=0))
        rects += [[int(left), top, int(right), bottom] for left, right in zip(edges[::2], edges[1::2])]
    return rects


def tiles(dirty, side):
    """All points whose tile of side by side points, counted from the corner, has a dirty one."""
    height, width = dirty.shape
    whole = np.zeros((-(-height // side) * side, -(-width // side) * side), bool)
    whole[:height, :width] = dirty
    some = whole.reshape(whole.shape[0] // side, side, whole.shape[1] // side, side).any(axis=(1, 3))
    return some.repeat(side, axis=0).repeat(side, axis=1)[:height, :width]


def rounded(dirty):
    """The dirty points at the least power of two at which the list is short enough; whether it is above 1."""
    power = 0
    while len(canonical(tiles(dirty, 2**power))) > MAX_RECTS:
        power += 1
    return tiles(dirty, 2**power), power > 0


def rebuilt(surface, moves, rects, new):
    """The surface before, its moves drawn in order, and then the dirty rectangles copied from the new one."""
    surface = surface.copy()
    for x, y, left, top, right, bottom in moves:
        moved = surface[y:y + bottom - top, x:x + right - left].copy()
        surface[top:bottom, left:right] = moved
    for rect in rects:
        surface[part(rect)] = new[part(rect)]
    return surface


# --- a duplicator --------------------------------------------------------------------------------


@dataclass
class Dup:
    opened: int  # the place of its opening
    mode: list
    slot: int
    mark: int  # the picture is new to it from this place on, the pointer from the next
    pointer_mark: int
    surface: np.ndarray
    frame: dict = None
    shape: dict = None
    lost: bool = False


def part_bytes(dup, call):
    """The bytes of a part of the frame that is held."""
    if call == "shape":
        return bytes.fromhex(dup.shape["bytes"]) if dup.shape else b""
    numbers = sum(dup.frame[call], [])
    return b"".join(number.to_bytes(4, "little", signed=True) for number in numbers)


def shape_info(shape):
    if shape is None:
        return None
    pitch = -(-shape["width"] // 8) if shape["shape"] == 1 else 4 * shape["width"]
    return {"height": shape["height"], "hot": shape["hot"], "kind": shape["shape"], "pitch": pitch,
            "width": shape["width"]}


# --- the run -------------------------------------------------------------------------------------


class Run:
    def __init__(self, script):
        self.script, self.list, self.dups = script, [], {}
        self.secure, self.connected, self.pointer, self.visible = False, True, [0, 0], False
        self.slots = {}  # the application of each open duplicator
        self.begin(script["modes"][0])

    def begin(self, mode):
        self.mode, (width, height, _) = mode, mode
        self.picture, self.hidden = np.zeros((height, width), np.uint32), np.zeros((height, width), bool)

    def is_full(self):
        return len(self.list) == self.script["capacity"] - 1

    def enter(self, event):
        self.list.append(event)
        return {"entry": len(self.list)}

    def last(self, keys, mark):
        """The number of the last event from a mark on that has one of the keys; 0 where there is none."""
        return next((n for n in range(len(self.list), mark, -1) if set(keys) & set(self.list[n - 1])), 0)

    def step(self, step):
        if "call" not in step:
            return self.draw(step)
        client, call = step["client"], step["call"]
        if call == "duplicate":
            return self.duplicate(client, self.script["clients"][client - 1])
        if client not in self.dups:
            return refused("NoDuplicator")
        if call == "close":
            return self.close(client)
        dup = self.dups[client]
        if call == "surface":
            return {"surface": [digits_of(row) for row in dup.surface] if dup.frame else None}
        if call == "desc":
            return dict(zip(("width", "height", "rotation"), dup.mode))
        return self.ask(dup, call, step.get("buffer"))

    def draw(self, step):
        if self.is_full():
            return refused("Full")
        if "mode" in step and step["mode"] >= len(self.script["modes"]):
            return refused("BadMode")
        for number, op in enumerate(step.get("present", [])):
            if not fits(op, *self.mode[:2]):
                return refused("BadRect", op=number)
        if "mode" in step:
            self.begin(self.script["modes"][step["mode"]])
        elif "switch" in step:
            self.secure = step["switch"]
            self.begin(self.mode)
        elif "pointer" in step:
            self.pointer, self.visible = step["pointer"], step["visible"]
        elif "disconnect" in step or "reconnect" in step:
            self.connected = "reconnect" in step
        for op in step.get("present", []):
            draw(self.picture, self.hidden, op)
        return self.enter(step)

    def duplicate(self, client, application):
        if not self.connected:
            return refused("SessionDisconnected")
        if self.secure and application not in self.script["privileged"]:
            return refused("AccessDenied")
        if application in self.slots.values():
            return refused("AlreadyDuplicating")
        if len(self.slots) == 4:
            return refused("NotAvailable")
        if self.is_full():
            return refused("Full")
        slot = min({0, 1, 2, 3} - set(self.slots))
        mark, black = self.last(BEGINNINGS, 0), np.zeros_like(self.picture)
        self.slots[slot] = application
        self.dups[client] = Dup(len(self.list), self.mode, slot, mark, 0, black)
        return {**self.enter({"opened": slot}), "slot": slot}

    def close(self, client):
        if self.is_full():
            return refused("Full")
        slot = self.dups.pop(client).slot
        del self.slots[slot]
        return self.enter({"closed": slot})

    def ask(self, dup, call, size):
        buffer = {} if size is None else {"buffer": bytes([BEFORE] * size).hex()}
        if dup.lost or self.last(CAUSES_OF_LOSS, dup.opened + 1):
            dup.lost, dup.frame, dup.shape = True, None, None
            return refused("AccessLost", **buffer)
        if (call == "acquire") == (dup.frame is not None):
            return refused("InvalidCall", **buffer)
        if call == "acquire":
            return self.acquire(dup)
        if call == "release":
            dup.frame, dup.shape = None, None
            return {"released": True}
        told = part_bytes(dup, call)
        if size < len(told):
            return refused("MoreData", required=len(told), **buffer)
        info = {"info": shape_info(dup.shape)} if call == "shape" else {}
        return {"buffer": (told + bytes([BEFORE] * (size - len(told)))).hex(), "size": len(told), **info}

    def acquire(self, dup):
        present, mouse = self.last(["present"], dup.mark), self.last(["pointer", "shape"], dup.pointer_mark)
        if not present and not mouse:
            return refused("WaitTimeout")
        presents = [event["present"] for event in self.list[dup.mark:] if "present" in event]
        effects, moves = effects_of(presents)
        dirty, coalesced = np.zeros(dup.surface.shape, bool), False
        for each in effects:
            dirty, was_rounded = rounded(touched(dirty, each))
            coalesced |= was_rounded
        rects = canonical(dirty)
        new = np.where(self.hidden, 0, self.picture).astype(np.uint32)
        if not np.array_equal(rebuilt(dup.surface, moves, rects, new), new):
            sys.exit("model: the frame of event %d doesn't rebuild the surface" % len(self.list))
        shape = self.last(["shape"], dup.pointer_mark)
        dup.shape = self.list[shape - 1] if shape else None
        info = {"accumulated": len(presents), "present": present, "mouse": mouse, "coalesced": coalesced,
                "pointer": self.pointer, "visible": self.visible, "protected": bool(self.hidden.any()),
                "meta": 24 * len(moves) + 16 * len(rects), "shape": len(dup.shape["bytes"]) // 2 if shape else 0}
        dup.frame = {"frame": info, "moves": moves, "dirty": rects}
        dup.mark = dup.pointer_mark = len(self.list)
        dup.surface = new
        return dup.frame


def counts_of(answers):
    frames = [answer for answer in answers if "frame" in answer]
    return {"acquired": len(frames), "steps": len(answers),
            "coalesced": sum(answer["frame"]["coalesced"] for answer in frames),
            "entries": sum("entry" in answer for answer in answers),
            "frames": sum(answer["frame"]["accumulated"] for answer in frames),
            "moves": sum(len(answer["moves"]) for answer in frames),
            "rects": sum(len(answer["dirty"]) for answer in frames),
            "refused": sum("refused" in answer for answer in answers)}


def line(tree):
    return json.dumps(tree, sort_keys=True, separators=(",", ":")) + "\n"


# --- records -------------------------------------------------------------------------------------


def frame_chunk(dup):
    """The chunk of the frame that a duplicator has just acquired."""
    told, moves, rects = dup.frame["frame"], dup.frame["moves"], dup.frame["dirty"]
    chunk = struct.pack("<BQQIBB", 2, told["present"], told["mouse"], told["accumulated"], told["coalesced"],
                        told["protected"])
    chunk += struct.pack("<iiBIIBB", *told["pointer"], told["visible"], told["meta"], told["shape"], len(moves),
                         len(rects))
    chunk += part_bytes(dup, "moves") + part_bytes(dup, "dirty")
    for rect in rects:
        chunk += (dup.surface[part(rect)] | 0xFF000000).astype("<u4").tobytes()
    if dup.shape:
        size = (dup.shape["shape"], dup.shape["width"], dup.shape["height"])
        chunk += struct.pack("<IIIii", *size, *dup.shape["hot"]) + part_bytes(dup, "shape")
    return chunk


def chunk_of(answer, dup):
    """What an answer to the client leaves in its record."""
    if "slot" in answer:
        return struct.pack("<BIII", 1, *dup.mode)
    return frame_chunk(dup) if "frame" in answer else b""


def main():
    words = sys.argv[1:]
    client = int(words[1]) if len(words) == 2 and words[0] == "--record" else None
    if words not in ([], ["--counts"]) and client is None:
        sys.exit(__doc__)
    script = json.load(sys.stdin)
    run, answers, record = Run(script), [], b"DDR1"
    for step in script["steps"]:
        answers.append(run.step(step))
        if not words:
            sys.stdout.write(line(answers[-1]))
        elif client and step.get("client") == client:
            record += chunk_of(answers[-1], run.dups.get(client))
    if client:
        sys.stdout.buffer.write(record + b"\0")
    elif words:
        sys.stdout.write(line(counts_of(answers)))


if __name__ == "__main__":
    main()
