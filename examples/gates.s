# The gates. They ask the pumps to drain or to fill the chamber, wait until they see the level that they need, and let boats through.
# x2: page to the pumps (0: what is asked for, 1 fill, 2 drain); x3: page from the pumps (0: the level); x4: page to the toll meter (0: boats, 4: when)
        lui     x2, 17
        lui     x3, 18
        lui     x4, 19
        addi    x7, x0, 4           # the level of a full chamber
        addi    x8, x0, 0           # boats so far
        # a boat is in the full chamber, both gates are shut
drain:  addi    x5, x0, 2
        sw      x5, 0(x2)
until_empty:
        lw      x6, 0(x3)
        bne     x6, x0, until_empty
        # the lower gate opens, the boat leaves
        addi    x8, x8, 1
        rdcycle x9
        sw      x9, 4(x4)
        sw      x8, 0(x4)
        addi    x5, x0, 1
        sw      x5, 0(x2)
until_full:
        lw      x6, 0(x3)
        bne     x6, x7, until_full
        # the upper gate opens, the next boat comes in
        jal     x0, drain
