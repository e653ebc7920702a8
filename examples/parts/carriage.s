# The carriage: steps along the needle bed, and reverses at its ends.
#
# One needle in a turn. At an end of the bed it stands until the next needle
# is selected. Within a row it does not stand: a needle that it passes before
# it was selected is a hole in the panel, and is counted.
#
#   s0  the row
#   s1  the needle
#   s2  the direction, 1 or -1

carriage:
    li      s0, 0
    li      s1, 0
    li      s2, 1

carriage_row:                       # at an end of the bed
    lw      t0, PASSED(zero)
    lw      t1, CHOSEN(zero)
    bltu    t0, t1, carriage_needle # the next needle is selected
    jal     yield
    j       carriage_row

carriage_needle:
    sw      s1, POSITION(zero)
    lw      t0, PASSED(zero)
    lw      t1, CHOSEN(zero)
    bltu    t0, t1, 1f
    lw      t1, HOLES(zero)         # too late
    addi    t1, t1, 1
    sw      t1, HOLES(zero)
1:  addi    t0, t0, 1
    sw      t0, PASSED(zero)

    li      t1, 1                   # the selector of this needle
    sll     t1, t1, s1
    lw      t2, SELECTORS(zero)
    and     t3, t2, t1
    li      t4, MISS_YARN
    beqz    t3, 2f
    xor     t2, t2, t1              # it knits, and its selector falls back
    sw      t2, SELECTORS(zero)
    slli    t5, s0, 2
    lw      t6, FABRIC(t5)
    or      t6, t6, t1
    sw      t6, FABRIC(t5)
    li      t4, KNIT_YARN
2:  lw      t5, DRAWN(zero)
    add     t5, t5, t4
    sw      t5, DRAWN(zero)

    andi    t0, t0, REPORT - 1
    bnez    t0, 3f
    li      a0, CARRIAGE            # tell the motor where the carriage is
    mv      a1, s1
    jal     bus_send
3:  jal     yield

    add     s1, s1, s2              # the next needle
    li      t0, NEEDLES
    bltu    s1, t0, carriage_needle # -1 is a large unsigned number
    sub     s1, s1, s2              # off the bed: back, and the other way
    neg     s2, s2
    addi    s0, s0, 1
    li      t0, ROWS
    bltu    s0, t0, carriage_row
    j       task_end
