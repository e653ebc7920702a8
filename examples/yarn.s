# The yarn feed alone. At the beginning 200 mm are drawn at once and the panel
# is done: one sees the filter come to rest.

    .option norelax
    .include "parts/layout.s"
    .text
start:
    li      sp, STACKS
    li      t0, BUS
    sw      t0, BUS_NEXT(zero)
    li      t0, PANEL
    sw      t0, PASSED(zero)
    li      t0, 200
    sw      t0, DRAWN(zero)

    li      a0, YARN
    lla     a1, yarn
    jal     task_add
    j       dispatch

    .include "parts/dispatcher.s"
    .include "parts/lock.s"
    .include "parts/bus.s"
    .include "parts/yarn.s"
