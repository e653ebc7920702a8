# The carriage alone. All needles are selected before it begins, so it knits
# the whole of row 0; no selector is set again, so the other rows are empty.

    .option norelax
    .include "parts/layout.s"
    .text
start:
    li      sp, STACKS
    li      t0, BUS
    sw      t0, BUS_NEXT(zero)
    li      t0, PANEL
    sw      t0, CHOSEN(zero)
    li      t0, (1 << NEEDLES) - 1
    sw      t0, SELECTORS(zero)

    li      a0, CARRIAGE
    lla     a1, carriage
    jal     task_add
    j       dispatch

    .include "parts/dispatcher.s"
    .include "parts/lock.s"
    .include "parts/bus.s"
    .include "parts/carriage.s"
