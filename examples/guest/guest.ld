/* Where the parts of a guest program stand.

   Two parts are loaded: code with constants, and data.  The ELF header and the
   program headers are loaded with the code, and the data have in their page the
   place that they have in the file; so the file needs no padding, and each
   page has the rights of one part alone.  mssp asks for neither, a Linux does: in
   mssp every byte may be read, written and executed.

   The heap begins where the parts end, rounded up to a multiple of 4,096: the
   first break.  The stack is no part: x2 is 0x7FFFFFC0 at the start. */

OUTPUT_ARCH(riscv)
ENTRY(_start)

PHDRS
{
        /* read and execute; also write, where the program defines `writable_code` */
        code PT_LOAD FILEHDR PHDRS FLAGS(DEFINED(writable_code) ? 7 : 5);
        /* read and write */
        data PT_LOAD FLAGS(6);
}

SECTIONS
{
        . = 0x00010000 + SIZEOF_HEADERS;

        .text : { *(.text.start) *(.text .text.*) } :code
        .rodata : { *(.rodata .rodata.* .srodata .srodata.*) } :code

        . = ALIGN(0x1000) + (. & 0xFFF);

        .data : {
                *(.data .data.*)
                . = ALIGN(8);
                PROVIDE(__global_pointer$ = . + 0x800);
                *(.sdata .sdata.*)
        } :data

        /* The variables of the one thread, such as a C library's errno.  tp (x4)
           points to their start: one thread needs no copy of them. */
        . = ALIGN(8);
        .tdata : { PROVIDE(__thread_start = .); *(.tdata .tdata.*) } :data
        . = ALIGN(8);
        .tbss : { *(.tbss .tbss.*) } :data

        /* Memory that the file doesn't hold.  It is zero at the start.  A linker gives
           .tbss no room, so it stands here. */
        .bss : {
                . = . + SIZEOF(.tbss);
                *(.sbss .sbss.*) *(.bss .bss.*) *(COMMON)
        } :data

        /DISCARD/ : { *(.comment) *(.eh_frame .eh_frame.*) *(.note .note.*) }
}
