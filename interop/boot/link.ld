/* The kernel lies at 1 MiB in memory; all but its first steps is linked into the top 2 GiB. */
BASE = 0xffffffff80000000;
ENTRY(start)
SECTIONS
{
    . = 0x100000;
    .boot : { *(.boot) }
    .boot_tables ALIGN(4096) : { *(.boot_tables) }
    . = ALIGN(4096) + BASE;
    .text : AT(ADDR(.text) - BASE) {
        *(EXCLUDE_FILE(*.a:*) .text EXCLUDE_FILE(*.a:*) .text.*)
        archive_text = .;
        *(.text .text.*)
        archive_text_end = .;
    }
    .rodata ALIGN(4096) : AT(ADDR(.rodata) - BASE) { *(.rodata .rodata.*) }
    .data ALIGN(4096) : AT(ADDR(.data) - BASE) { *(.data .data.*) LONG(0) } /* never empty: the image ends here */
    load_end = . - BASE;
    .bss : AT(ADDR(.bss) - BASE) { *(.bss .bss.* COMMON) }
    bss_end = . - BASE;
    /DISCARD/ : { *(.comment .note .note.* .eh_frame) }
}
