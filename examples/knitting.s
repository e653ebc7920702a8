# Knitting: carriage, needle selection and yarn feed, on one core, with one
# lock. It knits a panel of 24 needles and 4 rows, and ends with ecall.

    .option norelax
    .include "parts/layout.s"
    .text
start:                              # address 0, all registers zero
    li      sp, STACKS
    li      t0, BUS
    sw      t0, BUS_NEXT(zero)

    li      a0, CARRIAGE
    lla     a1, carriage
    jal     task_add
    li      a0, SELECTION
    lla     a1, selection
    jal     task_add
    li      a0, YARN
    lla     a1, yarn
    jal     task_add
    j       dispatch                # the one that was added first begins

    .include "parts/dispatcher.s"
    .include "parts/lock.s"
    .include "parts/bus.s"
    .include "parts/carriage.s"
    .include "parts/selection.s"
    .include "parts/yarn.s"
