# Where a program begins, with or without a C library.
#
# The machine starts here with x2 (sp) = 0x7FFFF000 and all other registers 0, and the stack grows down from there. Memory is
# zero wherever the file loads nothing, so .bss needs no loop that clears it, which would cost three steps a word.

    .section .text.start, "ax", @progbits
    .globl _start
    .type _start, @function
_start:
    .option push
    .option norelax                     # the linker shortens addresses by gp, which isn't set yet
    la      gp, __global_pointer$
    .option pop
    la      tp, __tls_base              # the one thread's own variables, as errno
    andi    sp, sp, -16

    la      s0, __preinit_array_start   # constructors
    la      s1, __init_array_end
1:  bgeu    s0, s1, 2f
    lw      t0, 0(s0)
    jalr    t0
    addi    s0, s0, 4
    j       1b

2:  li      a0, 0                       # argc; argv and envp are a list whose first pointer is null
    la      a1, no_words
    mv      a2, a1
    call    main
    call    exit
    .size _start, . - _start

    .section .rodata.no_words, "a", @progbits
    .balign 4
no_words:
    .word   0
