# The dispatcher: tasks take turns on one core.
#
# There are no interrupts, so a task runs until it yields. The tasks stand in
# a ring, each with a pointer to the next, and a yield goes on to the next
# one: round robin. The register tp, the thread pointer, has the control block
# of the task that runs.
#
# A task that does not run has its registers on its own stack, and its stack
# pointer in its block. Only ra and s0 to s3 are kept: the tasks use no others
# across a yield.
#
#       sp ->  0  ra, where the task goes on
#              4  s0
#              8  s1
#             12  s2
#             16  s3
    .equ    FRAME, 20

# task_add: puts a task at the end of the ring; for the start only
#   a0  its number, 1 to 3
#   a1  the address of its first instruction
#   tp  the block of the first task, or 0 as long as there is none
#   a2  the block of the last one
task_add:
    addi    t0, a0, -1
    slli    t1, t0, 5               # its block: BLOCKS + 32 * (number - 1)
    addi    t1, t1, BLOCKS
    slli    t2, t0, 8               # its stack: STACKS - 256 * (number - 1)
    li      t3, STACKS
    sub     t2, t3, t2
    addi    t2, t2, -FRAME          # with the frame from which it begins
    sw      a1, 0(t2)
    sw      t2, TASK_SP(t1)
    sw      a0, TASK_NUMBER(t1)
    bnez    tp, 1f
    mv      tp, t1                  # the first: it comes after itself
    mv      a2, t1
1:  sw      t1, TASK_NEXT(a2)
    sw      tp, TASK_NEXT(t1)
    mv      a2, t1
    ret

# yield: lets the other tasks have a turn each, then returns
#   keeps s0 to s3, sp and tp; alters the others
yield:
    addi    sp, sp, -FRAME
    sw      ra, 0(sp)
    sw      s0, 4(sp)
    sw      s1, 8(sp)
    sw      s2, 12(sp)
    sw      s3, 16(sp)
    sw      sp, TASK_SP(tp)
    lw      tp, TASK_NEXT(tp)       # whose turn it is now

# dispatch: gives the task in tp its turn
dispatch:
    lw      t0, TASK_TURNS(tp)
    addi    t0, t0, 1
    sw      t0, TASK_TURNS(tp)
    lw      sp, TASK_SP(tp)
    lw      ra, 0(sp)
    lw      s0, 4(sp)
    lw      s1, 8(sp)
    lw      s2, 12(sp)
    lw      s3, 16(sp)
    addi    sp, sp, FRAME
    ret

# task_end: the task that runs is done; it jumps here
# It is taken out of the ring. The last one ends the run.
task_end:
    lw      t0, TASK_NEXT(tp)
    beq     t0, tp, all_done        # alone in the ring
    mv      t1, t0                  # look for the task before this one
1:  lw      t2, TASK_NEXT(t1)
    beq     t2, tp, 2f
    mv      t1, t2
    j       1b
2:  sw      t0, TASK_NEXT(t1)
    mv      tp, t0
    j       dispatch
all_done:
    # Nobody prints the data memory, but the log of a run has each value that
    # is loaded: so the last lines of what retired are the results.
    lw      a0, HOLES(zero)
    lw      a1, DRAWN(zero)
    lw      a2, FED(zero)
    lw      a3, BLOCKS + TASK_WORST(zero)
    lw      a4, BLOCKS + BLOCK_SIZE + TASK_WORST(zero)
    lw      a5, BLOCKS + 2 * BLOCK_SIZE + TASK_WORST(zero)
    lw      s0, FABRIC(zero)
    lw      s1, FABRIC + 4(zero)
    lw      s2, FABRIC + 8(zero)
    lw      s3, FABRIC + 12(zero)
    ecall                           # the machine stops here, with cause 11
