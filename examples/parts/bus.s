# The bus: messages of three words to the motors and to the needle bed.
#
# The bus takes one word in a turn, so a message takes three turns, with two
# yields between. Without the lock two tasks would mix their words. The
# model has no bus, so that the words are put down in the data memory, one
# after the other from BUS on, where one can see that none are mixed.
#
#       head    the number of the task
#       value   what it has to say
#       check   head xor value

# bus_send: sends one message
#   a0  head
#   a1  value
#   keeps s0 to s3; yields
bus_send:
    addi    sp, sp, -12
    sw      ra, 0(sp)
    sw      s0, 4(sp)
    sw      s1, 8(sp)
    mv      s0, a0
    mv      s1, a1
    jal     lock_take
    mv      a0, s0
    jal     bus_word
    jal     yield
    mv      a0, s1
    jal     bus_word
    jal     yield
    xor     a0, s0, s1
    jal     bus_word
    jal     lock_release
    lw      ra, 0(sp)
    lw      s0, 4(sp)
    lw      s1, 8(sp)
    addi    sp, sp, 12
    ret

# bus_word: one word, a0
bus_word:
    lw      t0, BUS_NEXT(zero)
    sw      a0, 0(t0)
    addi    t0, t0, 4
    sw      t0, BUS_NEXT(zero)
    ret
