/* Where the parts of a program lie, for GNU ld and lld: code and constants from 0x10000 on; on the pages behind them data, then
   zeroes, then the heap. Everything is loaded at the address at which it is used. */

ENTRY(_start)

PHDRS
{
    code PT_LOAD FILEHDR PHDRS FLAGS(5);
    data PT_LOAD FLAGS(6);
    thread PT_TLS FLAGS(4);
}

SECTIONS
{
    . = 0x10000 + SIZEOF_HEADERS;

    .text : { *(.text.start) *(.text .text.*) } :code
    .rodata : { *(.rodata .rodata.* .srodata .srodata.*) } :code
    .eh_frame : { *(.eh_frame .eh_frame.*) } :code

    . = ALIGN(16) + 0x1000; /* the next page, and the file's next byte */

    /* functions to call before main, in this order, and after it, the last one first */
    .init_array : {
        __preinit_array_start = .;
        KEEP(*(.preinit_array))
        __preinit_array_end = .;
        __init_array_start = .;
        KEEP(*(SORT_BY_INIT_PRIORITY(.init_array.*)))
        KEEP(*(.init_array))
        __init_array_end = .;
        __fini_array_start = .;
        KEEP(*(SORT_BY_INIT_PRIORITY(.fini_array.*)))
        KEEP(*(.fini_array))
        __fini_array_end = .;
    } :data

    .data : {
        *(.data .data.*)
        *(.got .got.*)
        . = ALIGN(8);
        __global_pointer$ = . + 0x800;
        *(.sdata .sdata.*)
    } :data

    /* The variables of the one thread: tp is their first byte. .tbss takes no room of its own, so .bss begins with as much. */
    . = ALIGN(16);
    __tls_base = .;
    .tdata : { *(.tdata .tdata.*) } :data :thread
    .tbss : { *(.tbss .tbss.*) *(.tcommon) } :data :thread

    .bss : {
        . += SIZEOF(.tbss);
        *(.sbss .sbss.*)
        *(.bss .bss.*)
        *(COMMON)
        . = ALIGN(16);
        _end = .;
        PROVIDE(end = .);
        __heap_start = .;
        . += DEFINED(_sbrk) ? (DEFINED(__heap_size) ? __heap_size : 0x4000000) : 0;
        __heap_end = .;
    } :data
}
