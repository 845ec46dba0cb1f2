"""How a plan, page tables and an image are put together, for the example's script and the tests."""
import struct

V, R, W, X, U, A, D = 1, 2, 4, 8, 16, 64, 128
FRAME_WORDS = 1024


def leaf(frame, permissions):
    return frame << 10 | V | U | A | D | permissions


def pointer(frame):
    return frame << 10 | V


def frame(words):
    """A frame from {index: word}."""
    return struct.pack("<1024I", *(words.get(k, 0) for k in range(FRAME_WORDS)))


def plan(partitions, slots, channels, budget):
    out = struct.pack("<BBBI", len(partitions), len(slots), len(channels), budget)
    for root, start in partitions:
        out += struct.pack("<HI", root, start)
    for partition, length in slots:
        out += struct.pack("<BI", partition, length)
    for sender, receiver, source, target in channels:
        out += struct.pack("<BBII", sender, receiver, source, target)
    return out


def image(frames):
    return struct.pack("<H", len(frames)) + b"".join(frames)


# the first address of page 16, where the programs of the example begin
START = 16 * 4096
