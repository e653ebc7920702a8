# Needle selection alone. The carriage counts as having passed all needles,
# so selection never has to stay behind it, and no selector falls back: in the
# end they show all rows laid over one another.

    .option norelax
    .include "parts/layout.s"
    .text
start:
    li      sp, STACKS
    li      t0, BUS
    sw      t0, BUS_NEXT(zero)
    li      t0, PANEL
    sw      t0, PASSED(zero)

    li      a0, SELECTION
    lla     a1, selection
    jal     task_add
    j       dispatch

    .include "parts/dispatcher.s"
    .include "parts/lock.s"
    .include "parts/bus.s"
    .include "parts/selection.s"
