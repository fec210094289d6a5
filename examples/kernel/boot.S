# Multiboot, then 64 bits with the first GB mapped one to one in pages of 2 MB; the same for the second processor; the
# entries of traps, and the script.
.section .multiboot, "a"
.align 4
.long 0x1badb002, 0, -0x1badb002

.section .bss
.align 4096
level4: .skip 4096
level3: .skip 4096
.globl level2
level2: .skip 2 * 4096              # of the second GB nothing is mapped: what lies there faults
stack: .skip 65536
stack_end: .skip 65536              # interrupts and faults have a stack each: compiled code may keep values below
interrupts_end: .skip 65536         # the one that it runs on
faults_end: .skip 65536             # and so has the second processor
other_end: .skip 4096
own_end: .skip 4096
other_own_end: .skip 64
traps: .skip 37 * 16
task: .skip 104

.section .text
.code32
.globl _start
_start:
    cli
    mov $stack_end, %esp
    movl $level3 + 3, level4
    movl $level2 + 3, level3
    movl $level2 + 4096 + 3, level3 + 8
    xor %ecx, %ecx
1:  mov %ecx, %eax
    shl $21, %eax
    or $0x83, %eax
    mov %eax, level2(, %ecx, 8)
    inc %ecx
    cmp $512, %ecx
    jne 1b
    movl $0xc0000093, level3 + 24   # by its fourth GB one processor starts another, which begins at 0x8000
    mov $wake, %esi
    mov $0x8000, %edi
    mov $wake_end - wake, %ecx
    rep movsb
    xor %ebp, %ebp
paging:
    mov $level4, %eax
    mov %eax, %cr3
    mov %cr4, %eax
    or $0x620, %eax                 # PAE, and the instructions of SSE
    mov %eax, %cr4
    mov $0xc0000080, %ecx
    rdmsr
    or $0x100, %eax                 # long mode
    wrmsr
    mov %cr0, %eax
    and $0xfffffffb, %eax
    or $0x80010002, %eax            # paging, and the kernel too may not write to what is read-only
    mov %eax, %cr0
    lgdt gdt_is
    ljmp $8, $long
.code16
wake:
    cli
    xor %ax, %ax
    mov %ax, %ds
    lgdtl 0x8000 + wake_gdt - wake
    mov %cr0, %eax
    or $1, %eax
    mov %eax, %cr0
    ljmpl $40, $other
wake_gdt: .word 47
    .long gdt
wake_end:
.code32
other:
    mov $16, %ax
    mov %ax, %ds
    mov %ax, %es
    mov %ax, %ss
    mov $1, %ebp
    jmp paging
.code64
.macro KEEPS_OWN end                # what a thread keeps of its own lies before the address in fs
    mov $own_start, %esi
    mov $\end, %edi
    sub $own_size, %rdi
    mov $own_length, %ecx
    rep movsb
    mov $\end, %eax
    mov %rax, \end
    mov $0xc0000100, %ecx
    xor %edx, %edx
    wrmsr
.endm
long:
    mov $16, %ax
    mov %ax, %ds
    mov %ax, %es
    mov %ax, %ss
    test %ebp, %ebp
    jnz 2f
    mov $stack_end, %rsp
    KEEPS_OWN own_end
    mov $task, %eax                 # the stacks of interrupts and of faults
    movq $interrupts_end, 36(%rax)
    movq $faults_end, 44(%rax)
    mov %ax, gdt + 26
    shr $16, %eax
    mov %al, gdt + 28
    mov %ah, gdt + 31
    mov $24, %ax
    ltr %ax
    lidt traps_is
    mov $trap_list, %esi
1:  lodsl                           # a trap's number with its stack, and its entry
    mov %eax, %edx
    movzbl %al, %ebx
    shl $4, %ebx
    lodsl
    mov %ax, traps(%rbx)
    movw $8, traps + 2(%rbx)
    mov %dh, traps + 4(%rbx)
    movb $0x8e, traps + 5(%rbx)
    shr $16, %eax
    mov %ax, traps + 6(%rbx)
    cmp $trap_list_end, %esi
    jne 1b
    call kernel
2:  mov $other_end, %rsp
    KEEPS_OWN other_own_end
    call other_processor
1:  hlt
    jmp 1b

.section .data
.align 16
gdt: .quad 0, 0x00af9a000000ffff, 0x00cf92000000ffff, 0x0000890000000067, 0, 0x00cf9a000000ffff
gdt_is: .word 47
    .quad gdt
traps_is: .word 37 * 16 - 1
    .quad traps

.section .rodata
.globl script
script: .incbin "kernel.spin"
    .byte 0
.section .rodata.traps
.align 4
trap_list:

.macro TRAP number, stack, has_error
.section .rodata.traps
    .long \number | \stack << 8, trap\number
.section .text
trap\number:
    .if \has_error == 0
    pushq $0
    .endif
    pushq $\number
    jmp all_traps
.endm
TRAP 3 2 0
TRAP 6 2 0
TRAP 8 2 1
TRAP 13 2 1
TRAP 14 2 1
TRAP 32 1 0
TRAP 36 1 0
.section .rodata.traps
trap_list_end:
.section .text
all_traps:
    push %rax; push %rcx; push %rdx; push %rsi; push %rdi; push %r8; push %r9; push %r10; push %r11
    push %rbx; push %rbp; push %r12; push %r13; push %r14; push %r15
    mov %rsp, %rbp
    sub $512, %rsp
    and $-16, %rsp
    fxsave (%rsp)
    cld
    mov %rbp, %rdi
    call trap
    fxrstor (%rsp)
    mov %rbp, %rsp
    pop %r15; pop %r14; pop %r13; pop %r12; pop %rbp; pop %rbx
    pop %r11; pop %r10; pop %r9; pop %r8; pop %rdi; pop %rsi; pop %rdx; pop %rcx; pop %rax
    add $16, %rsp
    iretq

.section .note.GNU-stack, "", @progbits
