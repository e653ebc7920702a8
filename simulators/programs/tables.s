# A table of addresses, of which the program jumps to one after another by jalr, forward and backward.
        .option norvc
        .section .text.start
        .globl _start
_start: lui     s0, %hi(table)
        addi    s0, s0, %lo(table)
        addi    s1, zero, 0
        addi    a0, zero, 0
next:   slli    t0, s1, 2
        add     t0, t0, s0
        lw      t1, 0(t0)
        beq     t1, zero, done
        addi    s1, s1, 1
        jalr    ra, 0(t1)
        jal     zero, next
double: slli    a0, a0, 1
        jalr    zero, 0(ra)
add5:   addi    a0, a0, 5
        jalr    zero, 0(ra)
negate: sub     a0, zero, a0
        jalr    t2, 0(ra)
twice:  addi    sp, ra, 0
        auipc   t3, 0
        jalr    ra, -28(t3)
        auipc   t3, 0
        jalr    ra, -36(t3)
        jalr    zero, 0(sp)
done:   ecall
        .data
        .balign 16
table:  .word   add5, double, add5, negate, twice, double, add5, negate, twice, add5, 0
