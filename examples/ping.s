# A driver for an adapter of the 8254x family. Two hosts answer each other's frames: the one with hart 0 begins, and each
# halts with how many frames came to it, which are three. A host waits for its adapter with WFI.
#
# RAM: 0x80004000 the receive ring, 0x80004080 the transmit ring, eight descriptors of 16 bytes each; 0x80004100 the frame
# that is sent; from 0x80008000 on eight buffers of 2,048 bytes.

        li s0, 0x40000000       # the adapter's registers
        li s1, 0x80004000       # the receive ring
        li s2, 0x80004080       # the transmit ring
        li s3, 0x80004100       # the frame
        li s4, 0                # how many frames came
        li s5, 0                # the receive descriptor that is filled next
        li s6, 0                # the transmit descriptor that is used next
        csrrs s7, mhartid, zero
        li s8, 0x40002800       # the receive ring's registers
        li s9, 0x40003800       # the transmit ring's registers

# Each receive descriptor gets the address of its buffer.
        mv t0, s1
        li t1, 0x80008000
        li t2, 2048
        li t3, 8
buffer: sw t1, 0(t0)
        add t1, t1, t2
        addi t0, t0, 16
        addi t3, t3, -1
        bne t3, zero, buffer

# The frame: to the other host, from this one, of a type for experiments. Hart 0 has the address 02:00:00:00:00:0a, hart 1
# 02:00:00:00:00:0b; RAM is zeros at first.
        li t0, 2
        sb t0, 0(s3)
        sb t0, 6(s3)
        li t0, 0x0b
        sub t0, t0, s7
        sb t0, 5(s3)
        addi t0, s7, 0x0a
        sb t0, 11(s3)
        li t0, 0x88
        sb t0, 12(s3)
        li t0, 0xb5
        sb t0, 13(s3)

# The rings are opened.
        li t0, 0x40
        sw t0, 0x00(s0)         # CTRL: SLU, the link is up
        li t1, 128              # eight descriptors
        sw s1, 0x00(s8)         # RDBAL
        sw zero, 0x04(s8)       # RDBAH
        sw t1, 0x08(s8)         # RDLEN
        sw zero, 0x10(s8)       # RDH
        li t0, 7
        sw t0, 0x18(s8)         # RDT: seven descriptors are the adapter's
        sw s2, 0x00(s9)         # TDBAL
        sw zero, 0x04(s9)       # TDBAH
        sw t1, 0x08(s9)         # TDLEN
        sw zero, 0x10(s9)       # TDH
        sw zero, 0x18(s9)       # TDT: none is the adapter's
        li t0, 0x80
        sw t0, 0xd0(s0)         # IMS: RXT0, an interrupt for each frame that comes
        li t0, 0x02
        sw t0, 0x100(s0)        # RCTL: EN
        li t0, 0x0a
        sw t0, 0x400(s0)        # TCTL: EN, and PSP, short frames are padded
        li t0, 0x800
        csrrs zero, mie, t0     # WFI waits for the adapter's interrupt

        bne s7, zero, look
        jal ra, send            # hart 0 begins

# The next receive descriptor: if the adapter has filled it, its DD is set. Else the host sleeps.
look:   slli t1, s5, 4
        add t1, t1, s1
        lbu t0, 12(t1)
        andi t0, t0, 1
        bne t0, zero, came
        wfi
        lw t0, 0xc0(s0)         # ICR: to read it clears the causes, and the interrupt line falls
        j look

came:   addi s4, s4, 1
        sb zero, 12(t1)
        sw s5, 0x18(s8)         # RDT: one descriptor more is the adapter's
        addi s5, s5, 1
        andi s5, s5, 7
        li t0, 3
        sub t0, t0, s4
        or t0, t0, s7
        beq t0, zero, done      # hart 0 doesn't answer the third frame
        jal ra, send
        li t0, 3
        bne s4, t0, look

done:   li t0, 0x10000004
        sw s4, 0(t0)            # halts

# Sends the frame, and waits until it is sent.
send:   sb s4, 14(s3)           # the frame says how many came
        slli t1, s6, 4
        add t1, t1, s2
        sw s3, 0(t1)            # the address of the data
        li t0, 0x0900000f       # 15 bytes; CMD: EOP, the frame ends here, and RS, tell when it is sent
        sw t0, 8(t1)
        sw zero, 12(t1)
        addi s6, s6, 1
        andi s6, s6, 7
        sw s6, 0x18(s9)         # TDT: the descriptor is the adapter's
sent:   lbu t0, 12(t1)
        andi t0, t0, 1          # DD
        beq t0, zero, sent
        ret
