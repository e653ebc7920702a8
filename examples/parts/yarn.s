# The yarn feed: keeps the tension of the yarn, and counts what it feeds.
#
# Yarn that is drawn and not yet fed pulls at the sensor: that is the reading,
# in millimetres. A quarter of it is fed in each turn, so that the feed runs
# smoothly while the needles draw in jerks. The tension that is watched is the
# reading behind a filter, which goes a quarter of the way in each turn:
#
#       tension = tension + (16 * reading - tension) / 4
#
# It is kept in sixteenths of a millimetre, so that little is lost. Quotients
# are rounded down, by arithmetic shifts.
#
#   s0  turns until the next report

yarn:
    li      s0, FEED_REPORT

yarn_turn:
    lw      t0, DRAWN(zero)
    lw      t1, FED(zero)
    sub     t0, t0, t1              # the reading

    slli    t2, t0, 4               # the filter
    lw      t3, TENSION(zero)
    sub     t2, t2, t3
    srai    t2, t2, 2
    add     t3, t3, t2
    sw      t3, TENSION(zero)
    lw      t2, TIGHTEST(zero)
    bge     t2, t3, 1f
    sw      t3, TIGHTEST(zero)

1:  srai    t0, t0, 2               # feed a quarter of the reading
    add     a1, t1, t0
    sw      a1, FED(zero)
    bnez    t0, 2f
    lw      t0, PASSED(zero)        # nothing to feed: is the panel done?
    li      t1, PANEL
    bgeu    t0, t1, yarn_last

2:  addi    s0, s0, -1
    bnez    s0, 3f
    li      s0, FEED_REPORT
    li      a0, YARN                # tell the feed's motor: a1 is what it has fed
    jal     bus_send
3:  jal     yield
    j       yarn_turn

yarn_last:
    li      a0, YARN
    jal     bus_send
    j       task_end
