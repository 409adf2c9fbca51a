# Where interrupts and faults enter, all of them on the stack of whoever was interrupted, as in a kernel that has no
# stacks for them.

# Writes over all that lies below the stack pointer of whom it interrupts, for more than the 128 bytes of a red zone:
# the 8 bytes that the processor leaves free where it aligns the stack first, then, below its frame and one register,
# 256.
    .macro litter
    lea 48(%rsp), %rax
    cmp %rax, 32(%rsp)
    je 1f
    movq $0x5A5A5A5A, (%rax)
1:
    .rept 32
    push $0x5A5A5A5A
    .endr
    add $32 * 8, %rsp
    .endm

# Counts an interrupt, and apart those that came while an instruction of the archive was next.
    .macro count all, inside
    incq \all(%rip)
    cmpq $archive_text, 8(%rsp)
    jb 1f
    cmpq $archive_text_end, 8(%rsp)
    jae 1f
    incq \inside(%rip)
1:
    .endm

    .text
    .globl timer_entry
timer_entry:
    push %rax
    litter
    count ticks, ticks_inside
    mov $0x20, %al                      # end of interrupt
    out %al, $0x20
    pop %rax
    iretq

    .globl step_entry
step_entry:
    push %rax
    litter
    count steps, steps_inside
    pop %rax
    iretq

# red_zone_left(counter, shift): how many of the 16 quadwords below rsp, lowered by shift, outlive an interrupt that is
# counted there. It has to be none, or a red zone would go unnoticed.
    .globl red_zone_left
red_zone_left:
    sub %rsi, %rsp
    mov $16, %ecx
1:  lea 0x7000000(%rcx), %rdx
    mov %rdx, -136(%rsp, %rcx, 8)
    dec %ecx
    jnz 1b
    mov (%rdi), %rdx
2:  cmp %rdx, (%rdi)
    je 2b
    xor %eax, %eax
    mov $16, %ecx
3:  lea 0x7000000(%rcx), %rdx
    cmp %rdx, -136(%rsp, %rcx, 8)
    jne 4f
    inc %eax
4:  dec %ecx
    jnz 3b
    add %rsi, %rsp
    ret

# The 32 faults; each leaves its vector and, where the processor gave none, an error code of 0.
    .set WITH_CODE, 0x60227D00          # 8, 10 to 14, 17, 21, 29 and 30
    .balign 16
    .globl fault_entries
fault_entries:
    .set vector, 0
    .rept 32
    .balign 16
    .if (WITH_CODE >> vector & 1) == 0
    push $0
    .endif
    push $vector
    jmp common
    .set vector, vector + 1
    .endr

common:
    pop %rdi                            # vector
    pop %rsi                            # error code
    pop %rdx                            # where
    and $-16, %rsp
    call fault

# Anything else that comes: an interrupt nobody asked for.
    .globl stray_entry
stray_entry:
    mov $255, %edi
    xor %esi, %esi
    pop %rdx
    and $-16, %rsp
    call fault

    .section .note.GNU-stack, "", @progbits
