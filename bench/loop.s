# Adds 1 to each of the 1,024 words of a table, 10,000 times, and exits with 0.
    .globl _start
_start:
    lui s0, 0x20            # the table begins at 00020000
    lui s1, 0x21            # and ends at 00021000: 64 lines
    lui t0, 2
    addi t0, t0, 1808       # 10,000 rounds
round:
    addi a0, s0, 0
word:
    lw a1, 0(a0)
    addi a1, a1, 1
    sw a1, 0(a0)
    addi a0, a0, 4
    bne a0, s1, word
    addi t0, t0, -1
    bne t0, zero, round
    addi a0, zero, 0
    addi a7, zero, 93
    ecall
