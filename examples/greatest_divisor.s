# The greatest common divisor of two numbers by Euclid's algorithm. The host halts with it: 21.

        li a0, 1071
        li a1, 462
turn:   beq a1, zero, done
        remu t0, a0, a1         # what is left of the one after division by the other
        mv a0, a1
        mv a1, t0
        j turn
done:   li t1, 0x10000004
        sw a0, 0(t1)
