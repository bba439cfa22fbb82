# Where a program begins: the machine has set sp to the end of its memory. What main answers is the status of the exit,
# host call 93.
        .section .text.start, "ax"
        .globl _start
_start: call    main
        li      a7, 93
        ecall
