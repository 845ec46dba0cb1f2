# The pumps. They raise or lower the water by one step after the other, as the gates ask, and tell the level after each step.
# x2: page to the gates (0: the level); x3: page from the gates (0: what is asked for, 1 fill, 2 drain)
        lui     x2, 17
        lui     x3, 18
        addi    x10, x0, 1
        addi    x11, x0, 2
        addi    x7, x0, 4           # the level of a full chamber
        addi    x8, x7, 0           # the level: full at the start
work:   sw      x8, 0(x2)
        lw      x5, 0(x3)
        beq     x5, x10, fill
        beq     x5, x11, drain
        jal     x0, work
fill:   bge     x8, x7, work
        addi    x9, x0, 20
        jal     x1, pump
        addi    x8, x8, 1
        jal     x0, work
drain:  bge     x0, x8, work
        addi    x9, x0, 10          # water runs out faster than it is pumped in
        jal     x1, pump
        addi    x8, x8, -1
        jal     x0, work
pump:   addi    x9, x9, -1          # pumping takes a while
        bne     x9, x0, pump
        jalr    x0, 0(x1)
