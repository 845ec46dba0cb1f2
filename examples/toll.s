# The toll meter, by another supplier. It writes a line into its ledger for each boat: number, time, toll. It has a fault: a line is taken to be as long
# as a page, so the second one lies outside of its memory. The store faults and the meter is stopped; gates and pumps do not notice.
# x2: the ledger; x3: page from the gates (0: boats, 4: when)
        lui     x2, 17
        lui     x3, 18
        lui     x4, 1               # the length of a line, wrongly
        addi    x8, x0, 0           # boats seen
wait:   lw      x5, 0(x3)
        beq     x5, x8, wait
        addi    x8, x5, 0
        lw      x6, 4(x3)
        slli    x7, x8, 3
        add     x7, x7, x8          # nine coins a boat
        sw      x8, 0(x2)
        sw      x6, 4(x2)
        sw      x7, 8(x2)
        add     x2, x2, x4
        jal     x0, wait
