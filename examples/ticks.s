# Prints three ticks by the clock, and then makes a system call, which a trap handler of its own answers.
# A host's console is the byte at 0x10000000, the word at 0x10000004 halts it, and the word at 0x10000008 counts its
# instructions.

start:  la t0, handler
        csrrw zero, mtvec, t0
        li s0, 0x10000000
        li s1, 3                # how many ticks are left
        lw s2, 8(s0)            # when the next tick is
tick:   addi s2, s2, 100
wait:   lw t0, 8(s0)
        bltu t0, s2, wait
        la a0, text
        jal ra, print
        addi s1, s1, -1
        bne s1, zero, tick
        li a0, 41
        ecall                   # the handler adds 1 to a0
        sw a0, 4(s0)            # halts with it

print:  lbu a2, 0(a0)           # prints the text at a0 up to a zero
        beq a2, zero, back
        sb a2, 0(s0)
        addi a0, a0, 1
        j print
back:   ret

handler:
        addi a0, a0, 1
        csrrs t0, mepc, zero    # goes on after the instruction that trapped
        addi t0, t0, 4
        csrrw zero, mepc, t0
        mret

text:   .byte 116               # t
        .byte 105               # i
        .byte 99                # c
        .byte 107               # k
        .byte 10
        .byte 0
