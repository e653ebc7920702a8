# Each of the forty instructions, on operands at the ends of their ranges. Each result is stored.
        .option norvc
        .section .text.start
        .globl _start
_start: lui     x31, %hi(out)
        addi    x31, x31, %lo(out)
        lui     x1, 0x80000
        addi    x2, x1, -1
        addi    x3, x0, -1
        addi    x4, x0, 1
        addi    x5, x0, 31
        addi    x6, x0, 33
        .macro keep r
        sw      \r, 0(x31)
        addi    x31, x31, 4
        .endm
        .macro both op
        \op     x10, x1, x2
        keep    x10
        \op     x10, x2, x1
        keep    x10
        \op     x10, x3, x4
        keep    x10
        \op     x10, x4, x3
        keep    x10
        \op     x10, x1, x5
        keep    x10
        \op     x10, x3, x6
        keep    x10
        \op     x10, x10, x10
        keep    x10
        \op     x0, x1, x3
        keep    x0
        .endm
        both    add
        both    sub
        both    sll
        both    slt
        both    sltu
        both    xor
        both    srl
        both    sra
        both    or
        both    and
        .macro ends op
        \op     x11, x1, -2048
        keep    x11
        \op     x11, x2, 2047
        keep    x11
        \op     x11, x3, -1
        keep    x11
        \op     x11, x0, 0
        keep    x11
        \op     x0, x3, 1
        keep    x0
        .endm
        ends    addi
        ends    slti
        ends    sltiu
        ends    xori
        ends    ori
        ends    andi
        .macro shifts op
        \op     x12, x1, 0
        keep    x12
        \op     x12, x1, 1
        keep    x12
        \op     x12, x1, 31
        keep    x12
        \op     x12, x3, 31
        keep    x12
        \op     x12, x2, 17
        keep    x12
        .endm
        shifts  slli
        shifts  srli
        shifts  srai
        lui     x13, 0
        keep    x13
        lui     x13, 0xfffff
        keep    x13
        lui     x0, 1
        auipc   x13, 0
        keep    x13
        auipc   x13, 0xfffff
        keep    x13
        auipc   x13, 0x7ffff
        keep    x13
        auipc   x0, 1
# loads and stores, of each byte and half
        lui     x14, %hi(word)
        addi    x14, x14, %lo(word)
        .macro load op, at
        \op     x15, \at(x14)
        keep    x15
        .endm
        load    lb, 0
        load    lb, 1
        load    lb, 2
        load    lb, 3
        load    lbu, 0
        load    lbu, 1
        load    lbu, 2
        load    lbu, 3
        load    lh, 0
        load    lh, 2
        load    lhu, 0
        load    lhu, 2
        load    lw, 0
        load    lw, -4
        lw      x0, 0(x14)
        keep    x0
        addi    x16, x14, 2047
        lw      x15, -2047(x16)
        keep    x15
        addi    x16, x14, -2047
        lb      x15, 2047(x16)
        keep    x15
        sb      x3, 4(x14)
        sb      x4, 7(x14)
        sh      x2, 10(x14)
        sh      x1, 12(x14)
        sw      x2, 16(x14)
        sb      x2, -1(x14)
        load    lw, 4
        load    lw, 8
        load    lw, 12
# branches, taken and not, forward and backward
        addi    x20, x0, 0
        .macro try op
        \op     x1, x2, 1f
        addi    x20, x20, 1
1:      \op     x2, x1, 1f
        addi    x20, x20, 2
1:      \op     x3, x3, 1f
        addi    x20, x20, 4
1:      \op     x0, x3, 1f
        addi    x20, x20, 8
1:      keep    x20
        slli    x20, x20, 1
        .endm
        try     beq
        try     bne
        try     blt
        try     bge
        try     bltu
        try     bgeu
        addi    x21, x0, 3
1:      addi    x21, x21, -1
        bne     x21, x0, 1b
# jumps
        jal     x22, 1f
        keep    x3
1:      keep    x22
        jal     x0, 1f
        keep    x3
1:      auipc   x23, 0
        jalr    x24, 13(x23)
        keep    x3
        keep    x24
        auipc   x23, 0
        jalr    x23, 12(x23)
        keep    x3
        keep    x23
        jal     x1, routine
        keep    x1
        fence
        fence   rw, w
        fence.tso
        ebreak
routine: addi   x25, x1, 0
        jalr    x0, 0(x1)
        .data
        .balign 16
before: .word   0x01020304
word:   .word   0x80f17f82
        .zero   24
        .balign 16
out:    .zero   800
