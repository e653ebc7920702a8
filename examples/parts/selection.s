# Needle selection: sets the selectors ahead of the carriage.
#
# The motif is 8 needles wide and 4 rows high, and is repeated over the bed.
# The needles are selected in groups of 8, in the order in which the carriage
# comes to them, at most two groups ahead of it. A row is begun when the
# carriage has done the row before: until then its selectors are in use.
#
#       row 0   XX......        byte 03, bit 0 is the needle on the left
#       row 1   .XXX....             0e
#       row 2   ...XXX..             38
#       row 3   X....XXX             e1
#
#   s0  the row
#   s1  the needle on the left of the group
#   s2  from group to group, GROUP or -GROUP
#   s3  the selectors of the group that are to be set

    .equ    MOTIF_ROWS, 0xe1380e03  # row 0 in the lowest byte

selection:
    # The image cannot be loaded from, so code makes the table.
    li      t0, MOTIF_ROWS
    li      t1, 0
1:  sb      t0, MOTIF(t1)
    srli    t0, t0, 8
    addi    t1, t1, 1
    bnez    t0, 1b
    li      s0, 0
    li      s1, 0
    li      s2, GROUP

selection_row:                      # has the carriage done the row before?
    lw      t0, PASSED(zero)
    lw      t1, CHOSEN(zero)
    bgeu    t0, t1, selection_group
    jal     yield
    j       selection_row

selection_group:                    # is the carriage near enough?
    lw      t0, PASSED(zero)
    lw      t1, CHOSEN(zero)
    addi    t0, t0, LEAD
    bltu    t1, t0, 1f
    jal     yield
    j       selection_group

1:  lbu     t0, MOTIF(s0)           # this row of the motif
    li      t1, 1                   # the selector of the group's left needle
    sll     t1, t1, s1
    li      s3, 0
2:  andi    t2, t0, 1               # needle by needle
    beqz    t2, 3f
    or      s3, s3, t1
3:  slli    t1, t1, 1
    srli    t0, t0, 1
    bnez    t0, 2b                  # no more needles of it knit

    li      a0, SELECTION           # tell the needle bed
    mv      a1, s3
    jal     bus_send

    # The carriage had its turns meanwhile and took selectors back, so the
    # word is read only now; no yield stands between reading and writing.
    lw      t0, SELECTORS(zero)
    or      t0, t0, s3
    sw      t0, SELECTORS(zero)
    lw      t0, CHOSEN(zero)
    addi    t0, t0, GROUP
    sw      t0, CHOSEN(zero)
    jal     yield

    add     s1, s1, s2              # the next group
    li      t0, NEEDLES
    bltu    s1, t0, selection_group # -8 is a large unsigned number
    sub     s1, s1, s2              # off the bed: the next row, the other way
    neg     s2, s2
    addi    s0, s0, 1
    li      t0, ROWS
    bltu    s0, t0, selection_row
    j       task_end
