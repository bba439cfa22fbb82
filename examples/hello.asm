# Writes a line three times, and exits with status 0. `ascend asm` assembles it.
        li s0, 3
again:  li a0, 1                # standard output
        la a1, text
        li a2, 13               # bytes
        li a7, 64               # write
        ecall
        addi s0, s0, -1
        bne s0, zero, again
        li a0, 0
        li a7, 93               # exit
        ecall
text:   .ascii "hello, world\n"
