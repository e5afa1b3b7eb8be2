# Writes four numbers into a memory device, reads them back, and halts with their sum.
# The first memory port's window is at 0x60000000, where there is no PCIe port before it.

        li s0, 0x60000000
        li s1, 4                # how many numbers
        li t0, 10
        mv t1, s0
write:  sw t0, 0(t1)
        addi t0, t0, 10
        addi t1, t1, 4
        addi s1, s1, -1
        bne s1, zero, write
        li s1, 4
        li a0, 0
        mv t1, s0
read:   lw t0, 0(t1)
        add a0, a0, t0
        addi t1, t1, 4
        addi s1, s1, -1
        bne s1, zero, read
        li t1, 0x10000004
        sw a0, 0(t1)            # 10 + 20 + 30 + 40
