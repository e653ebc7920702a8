# Starts in the middle of the largest image, and goes to both of its ends.
        .option norvc
        .section .text.start
        .globl _start
        addi    a0, a0, 1
        lui     t0, 0x10
        lw      a1, -4(t0)
        sw      a1, -16(t0)
        lb      a2, -1(t0)
        lhu     a3, -2(t0)
        jalr    ra, -8(t0)
        ecall
        .zero   0x8000 - 32
_start: addi    a0, zero, 2
        auipc   t1, 0xffff8
        jalr    ra, -4(t1)
        .zero   0x8000 - 12 - 8
        jalr    s0, 0(ra)
        .word   0x89abcdef
