# A program that asks for an interpreter, as those linked with a shared library do.
    .section .interp, "a"
    .asciz  "/lib/ld.so.1"
    .text
    .globl _start
_start:
    li      a7, 93
    ecall
