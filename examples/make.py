#!/usr/bin/env python3
"""Writes the example beside this script: lock.plan, lock.image and lock.slots. `make.py DIR` writes into another folder.

A lock of a canal, driven by three programs that take turns: the gates, the pumps and the toll meter (gates.s, pumps.s, toll.s).

- The gates begin with a boat in the full chamber. They ask for draining, wait until the level is 0, let the boat out and report it to the toll meter, ask
  for filling, wait until the level is 4, let the next boat in, and begin again.
- The pumps raise or lower the water step by step as they are asked, and tell the level.
- The toll meter writes a line for each boat into its ledger. Its supplier made a mistake, so the second boat stops it with a store fault (cause 7). The
  gates and the pumps go on, and nothing that they can see tells them of it: no channel leads from the meter to them.

Three channels: gates to pumps, pumps to gates, gates to toll meter. What the gates write in a slot, the others see in their next slot, and not before.
A page is sent over one channel only, so the gates have a page for each. lock.expected is what 15 slots print, as the second implementation in bench/
computes it.

Each program has a root page table, a second-level table and its pages, of which page 16 is its code:

    frame 0  gates: root                  frame 6   pumps: root                   frame 11  toll meter: root
    frame 1  gates: table                 frame 7   pumps: table                  frame 12  toll meter: table
    frame 2  page 16, code                frame 8   page 16, code                 frame 13  page 16, code
    frame 3  page 17, to the pumps        frame 9   page 17, to the gates         frame 14  page 17, ledger
    frame 4  page 18, from the pumps      frame 10  page 18, from the gates       frame 15  page 18, from the gates
    frame 5  page 19, to the toll meter
"""
import os
import struct
import sys

HERE = os.path.dirname(os.path.abspath(__file__))
sys.dont_write_bytecode = True
from assembler import assemble  # noqa: E402
from layout import R, START, W, X, frame, image, leaf, plan, pointer  # noqa: E402

GATES, PUMPS, TOLL = 0, 1, 2
CODE_PAGE = START // 4096
FULL = 4


def program(root, name, pages):
    """The frames of a program from its root on: root, table, code, and the pages after the code as (permissions, words)."""
    with open(os.path.join(HERE, name)) as source:
        words = assemble(source.read())
    table = {CODE_PAGE: leaf(root + 2, R | X)}
    for k, (permissions, _) in enumerate(pages, 1):
        table[CODE_PAGE + k] = leaf(root + 2 + k, permissions)
    return [frame({0: pointer(root + 1)}), frame(table), frame(dict(enumerate(words))), *(frame(words) for _, words in pages)]


PLAN = plan(
    partitions=[(0, START), (6, START), (11, START)],
    slots=[(GATES, 400), (PUMPS, 800), (TOLL, 300)],
    channels=[(GATES, PUMPS, 17, 18), (PUMPS, GATES, 17, 18), (GATES, TOLL, 19, 18)],
    budget=2800,
)
IMAGE = image(
    program(0, "gates.s", [(R | W, {}), (R, {0: FULL}), (R | W, {})])
    + program(6, "pumps.s", [(R | W, {0: FULL}), (R, {})])
    + program(11, "toll.s", [(R | W, {}), (R, {})])
)
SLOTS = struct.pack("<I", 15)

for name, content in (("lock.plan", PLAN), ("lock.image", IMAGE), ("lock.slots", SLOTS)):
    with open(os.path.join(sys.argv[1] if len(sys.argv) > 1 else HERE, name), "wb") as file:
        file.write(content)
