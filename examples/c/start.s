# Makes a stack, clears the variables that begin as zeros, and halts with what main returns.
        .option arch, +zicsr
        .section .text.start
        .globl _start
_start: la sp, __stack
        la t0, trapped
        csrw mtvec, t0
        la t0, __bss_start
        la t1, __bss_end
clear:  bgeu t0, t1, run
        sw zero, 0(t0)
        addi t0, t0, 4
        j clear
run:    call main
        li t0, 0x10000004
        sw a0, 0(t0)

# A trap that nobody expects ends the host with its cause.
        .balign 4
trapped:
        csrr a0, mcause
        li t0, 0x10000004
        sw a0, 0(t0)
