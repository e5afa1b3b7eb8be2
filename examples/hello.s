# Prints a line on the console of a host, and halts with 0.
# A host's console is the byte at 0x10000000, and the word at 0x10000004 halts it.

start:  la a0, text             # the next byte of the text
        li a1, 0x10000000
next:   lbu a2, 0(a0)
        beq a2, zero, done      # a zero ends the text
        sb a2, 0(a1)
        addi a0, a0, 1
        j next
done:   sw zero, 4(a1)

text:   .byte 104               # h
        .byte 101               # e
        .byte 108               # l
        .byte 108               # l
        .byte 111               # o
        .byte 10                # the line feed that ends the line
        .byte 0
