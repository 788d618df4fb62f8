# What the processor executes first: it goes into protected mode with flat segments, as Linux's boot protocol for 32 bits wants them,
# and jumps to the address that port e0 answers (processor.cc loads the kernel meanwhile).
#
# The ROM is 64 KB at f0000, and the processor begins at fff0 of it.
        .set ZERO_PAGE, 0x10000
        .code16
start:
        cli
        cld
        lgdtl   %cs:(table - start)
        movl    %cr0, %eax
        orb     $1, %al
        movl    %eax, %cr0
        ljmpl   $0x10, $(0xf0000 + flat - start)
        .code32
flat:
        movl    $0x18, %eax
        movl    %eax, %ds
        movl    %eax, %es
        movl    %eax, %fs
        movl    %eax, %gs
        movl    %eax, %ss
        movl    $0x8000, %esp
        movl    $ZERO_PAGE, %esi
        xorl    %ebp, %ebp
        xorl    %edi, %edi
        xorl    %ebx, %ebx
        movl    $0xe0, %edx
        inl     %dx, %eax
        jmp     *%eax
        .balign 8
segments:
        .quad   0, 0
        .quad   0x00cf9b000000ffff      # 10: code, 4 GB from 0 on
        .quad   0x00cf93000000ffff      # 18: data
table:
        .word   table - segments - 1
        .long   0xf0000 + segments - start
        .org    0xfff0
        .code16
        jmp     start
        .org    0xffff
        .byte   0
