# The first instructions of a program in C: a stack, main, and a stop with what main returned in a0.
        .section .text.start
        .globl _start
_start: lui     sp, %hi(MEMORY)
        addi    sp, sp, %lo(MEMORY)
        call    main
        ecall
