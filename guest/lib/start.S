# Sets the stack, calls main, and halts with what it returns as the exit code.
    .section .text.start
    .globl _start
_start:
    lui     sp, %hi(__stack_end)
    call    main
    li      a7, 93
    ecall
