# A program on Linux for riscv32 without a C library: its first instructions, and the three system calls that linux.c uses.
    .text
    .globl  _start, read, write, _exit
_start:
    call    main
_exit:
    li      a7, 93
    ecall
read:
    li      a7, 63
    ecall
    ret
write:
    li      a7, 64
    ecall
    ret
