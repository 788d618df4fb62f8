# A file of the form of a Linux kernel (bzImage), which tells what the boot protocol gave it: the command line, the bytes of the
# initramfs, and the end of the RAM. Then it halts for good.

        .set    SERIAL, 0x3f8
        .set    ENTRY, 0x100000

# The first two sectors: what a loader reads of them is the header at 0x1f1.
        .globl  _start
_start: .org    0x1f1
        .byte   1                       # setup_sects: one more sector before the code
        .org    0x1fe
        .word   0xaa55
        .org    0x201
        .byte   header_end - 0x202 - (_start - 0)
        .ascii  "HdrS"
        .word   0x20c                   # version of the protocol
        .org    0x211
        .byte   1                       # loaded high
        .org    0x258
        .quad   ENTRY                   # pref_address
        .long   0x10000                 # init_size: the code and what it needs after it
        .long   0
header_end:
        .org    0x400

        .code32
        movl    %esi, %ebp              # struct boot_params
        movl    $(command - code + ENTRY), %esi
        call    say
        movl    0x228(%ebp), %esi
        call    say
        movl    $(initramfs - code + ENTRY), %esi
        call    say
        movl    0x218(%ebp), %esi
        movl    0x21c(%ebp), %edi
1:      testl   %edi, %edi
        jz      2f
        lodsb
        call    put
        decl    %edi
        jmp     1b
2:      movl    $(memory - code + ENTRY), %esi
        call    say
        movl    0x2d0 + 20(%ebp), %eax  # the second range: its start and its length
        addl    0x2d0 + 28(%ebp), %eax
        shrl    $20, %eax
        call    number
        movl    $(newline - code + ENTRY), %esi
        call    say
3:      movl    $(SERIAL + 5), %edx     # until all has left
        inb     %dx, %al
        testb   $0x40, %al
        jz      3b
        cli
        hlt

# Sends the text at esi, which a zero ends.
say:    lodsb
        testb   %al, %al
        jz      1f
        call    put
        jmp     say
1:      ret

# Sends the number in eax, in decimal.
number: xorl    %edx, %edx
        movl    $10, %ecx
        divl    %ecx
        pushl   %edx
        testl   %eax, %eax
        jz      1f
        call    number
1:      popl    %eax
        addb    $'0', %al

# Sends the byte in al.
put:    movb    %al, %bl
        movl    $(SERIAL + 5), %edx
1:      inb     %dx, %al
        testb   $0x20, %al
        jz      1b
        movb    %bl, %al
        movl    $SERIAL, %edx
        outb    %al, %dx
        ret

        .set    code, _start + 0x400
command: .asciz "kernel: the command line is: "
initramfs: .asciz "\r\nkernel: the initramfs is: "
memory: .asciz  "kernel: the RAM ends at MiB "
newline: .asciz "\r\n"
