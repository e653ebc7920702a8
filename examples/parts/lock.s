# The lock: one word, for the one bus that the three tasks share.
#
# RV32I has no atomic instructions, and none is needed here: between two
# yields nobody else runs, so that reading the word as free and writing it is
# one step for all the others.
#
# Who waits looks once in each of its turns. Nobody waits for ever: who
# releases the lock yields before it takes it again, and the tasks behind it
# in the ring look first. So each of the two others has the lock at most once
# before the one that waits.

# lock_take: waits until the lock is free, and takes it
#   keeps s0 to s3; yields while it waits
# It counts the turns waited: in all, and the most for one take.
lock_take:
    addi    sp, sp, -8
    sw      ra, 0(sp)
    sw      s0, 4(sp)
    li      s0, 0                   # turns waited
lock_look:
    lw      t0, LOCK(zero)
    beqz    t0, lock_free
    addi    s0, s0, 1
    jal     yield
    j       lock_look
lock_free:
    lw      t0, TASK_NUMBER(tp)
    sw      t0, LOCK(zero)          # it is ours
    lw      t0, TASK_TAKES(tp)
    addi    t0, t0, 1
    sw      t0, TASK_TAKES(tp)
    lw      t0, TASK_WAITED(tp)
    add     t0, t0, s0
    sw      t0, TASK_WAITED(tp)
    lw      t0, TASK_WORST(tp)
    bgeu    t0, s0, 1f
    sw      s0, TASK_WORST(tp)
1:  lw      ra, 0(sp)
    lw      s0, 4(sp)
    addi    sp, sp, 8
    ret

# lock_release: the lock is free again
lock_release:
    sw      zero, LOCK(zero)
    ret
