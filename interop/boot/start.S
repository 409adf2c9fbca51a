# From a multiboot loader to kmain: long mode, the kernel in the top 2 GiB as kernels have it, and neither x87 nor MMX
# nor SSE to be had.
    .set MAGIC, 0x1BADB002
    .set FLAGS, 1 << 16                 # the addresses below are the loader's guide, not a file format

    .section .boot, "ax"
    .code32
header:
    .balign 4
    .long MAGIC, FLAGS, -(MAGIC + FLAGS)
    .long header, header, load_end, bss_end, start

    .globl start
start:
    cli
    # One GiB in pages of 2 MiB, seen at 0 and in the top 2 GiB.
    mov $low_table + 3, %eax
    mov %eax, top_table
    mov $high_table + 3, %eax
    mov %eax, top_table + 511 * 8
    mov $pages + 3, %eax
    mov %eax, low_table
    mov %eax, high_table + 510 * 8
    mov $0x83, %eax
    xor %ecx, %ecx
1:  mov %eax, pages(, %ecx, 8)
    add $0x200000, %eax
    inc %ecx
    cmp $512, %ecx
    jne 1b
    mov $top_table, %eax
    mov %eax, %cr3
    mov $1 << 5, %eax                   # PAE, and no OSFXSR: an SSE instruction is an invalid opcode
    mov %eax, %cr4
    mov $0xC0000080, %ecx
    rdmsr
    or $1 << 8, %eax                    # EFER.LME
    wrmsr
    mov $1 << 31 | 1 << 16 | 0xF, %eax  # PG, WP, and TS, EM, MP beside PE: x87, MMX and wait fault as well
    mov %eax, %cr0
    lgdt gdt_at
    ljmp $8, $long_mode

    .code64
long_mode:
    mov $16, %eax
    mov %eax, %ds
    mov %eax, %es
    mov %eax, %ss
    mov $stack_top, %rsp
    xor %ebp, %ebp
    mov $kmain, %rax
    call *%rax
2:  hlt
    jmp 2b

    .balign 8
gdt:
    .quad 0
    .quad 0x00AF9A000000FFFF            # code, 64 bits
    .quad 0x00CF92000000FFFF            # data
gdt_at:
    .word . - gdt - 1
    .long gdt

    .section .boot_tables, "aw", @nobits
    .balign 4096
top_table:  .skip 4096
low_table:  .skip 4096
high_table: .skip 4096
pages:      .skip 4096

    .section .bss
    .balign 16
    .skip 16384
stack_top:

    .section .note.GNU-stack, "", @progbits
