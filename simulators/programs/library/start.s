# The first instructions of a program that checks itself: a stack, what the thread has of its own, main; then ecall where
# main returned 0, and ebreak where not.
        .section .text.start
        .globl _start
_start: lui     sp, %hi(MEMORY)
        addi    sp, sp, %lo(MEMORY)
        lui     tp, %hi(_thread)
        addi    tp, tp, %lo(_thread)
        call    main
        bne     a0, zero, 1f
        ecall
1:      ebreak
