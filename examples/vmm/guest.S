# A small guest in real mode: interrupts of the timer and of the serial port, and nothing else of a PC.
#
# It echoes what is typed. At the end of each line it says how long the line was, and how many ticks of the timer have come so far. A
# byte 4 (Ctrl-D) ends it: it then waits for OUT of counter 2 by port 61, counts ten ticks more, and halts for good.
#
# What is to be sent waits in a ring. The serial port's interrupt takes it from there.

        .code16
        .set    SERIAL, 0x3f8
        .set    TICK, 0x20              # vectors: the master's inputs from 0x20 on
        .set    TYPED, 0x24
        .set    COUNT, 11932            # 100 ticks a second of 1,193,182 clocks
        .set    ring, 0x2000            # 8,192 bytes, below the stack

        .globl  _start
_start: xorw    %ax, %ax
        movw    %ax, %ds
        movw    %ax, %es
        movw    %ax, %ss
        movw    $_start, %sp
        movw    $tick, TICK * 4
        movw    %ax, TICK * 4 + 2
        movw    $serial, TYPED * 4
        movw    %ax, TYPED * 4 + 2

        movw    $writes, %si            # the devices, port by port
1:      lodsw
        movw    %ax, %dx
        lodsb
        outb    %al, %dx
        cmpw    $writes_end, %si
        jb      1b
        movw    $hello, %si
        call    say
        sti

wait:   hlt                             # interrupts do all else
        cmpb    $0, is_over
        je      wait

# Counter 2 counts 1193 clocks, a millisecond; its output is bit 5 of port 61.
        movw    $bye, %si
        call    say
        movb    $0xb0, %al
        outb    %al, $0x43
        movb    $1193 & 255, %al
        outb    %al, $0x42
        movb    $1193 >> 8, %al
        outb    %al, $0x42
        xorw    %cx, %cx
2:      incw    %cx
        inb     $0x61, %al
        testb   $0x20, %al
        jz      2b
        movw    $counted, %si
        call    say
        movw    ticks, %bx              # ten more ticks
        addw    $10, %bx
3:      hlt
        movw    ticks, %ax
        cmpw    %bx, %ax
        js      3b
        movw    $end, %si
        call    say
4:      hlt                             # until all has left
        movw    head, %ax
        cmpw    tail, %ax
        jne     4b
        movw    $SERIAL + 5, %dx
5:      inb     %dx, %al
        testb   $0x40, %al
        jz      5b
        cli
        hlt

# A tick of the timer.
tick:   pushw   %ax
        incw    ticks
        movb    $0x20, %al
        outb    %al, $0x20
        popw    %ax
        iretw

# The serial port: a byte has come, or the last byte has left.
serial: pushaw
6:      movw    $SERIAL + 2, %dx        # which interrupt is pending
        inb     %dx, %al
        testb   $1, %al
        jnz     9f
        andb    $0x0e, %al
        cmpb    $2, %al
        je      8f
7:      movw    $SERIAL, %dx            # received data, or the timeout of a character
        inb     %dx, %al
        call    typed
        jmp     6b
8:      call    send
        jmp     6b
9:      movb    $0x20, %al
        outb    %al, $0x20
        popaw
        iretw

# A byte was typed.
typed:  cmpb    $4, %al
        je      1f
        cmpb    $'\r', %al
        je      2f
        cmpb    $'\n', %al
        je      2f
        incw    length
        jmp     put
1:      movb    $1, is_over
        ret
2:      movw    $line, %si
        call    say
        movw    length, %ax
        call    number
        movw    $at, %si
        call    say
        movw    ticks, %ax
        call    number
        movw    $0, length
        movw    $newline, %si

# Puts the text at si, which a zero ends, into the ring.
say:    lodsb
        testb   %al, %al
        jz      1f
        call    put
        jmp     say
1:      ret

# Puts the number in ax, in decimal, into the ring.
number: xorw    %dx, %dx
        movw    $10, %cx
        divw    %cx
        pushw   %dx
        testw   %ax, %ax
        jz      1f
        call    number
1:      popw    %ax
        addb    $'0', %al

# Puts the byte in al into the ring, and sends it if nothing is on its way. Interrupts are off meanwhile.
put:    pushfw
        cli
        movw    head, %bx
        movb    %al, ring(%bx)
        incw    %bx
        andw    $8191, %bx
        movw    %bx, head
        cmpb    $0, is_sending
        jne     1f
        call    send
1:      popfw
        ret

# Gives the serial port the next byte of the ring.
send:   movw    tail, %bx
        movb    $0, is_sending
        cmpw    head, %bx
        je      1f
        movb    ring(%bx), %al
        incw    %bx
        andw    $8191, %bx
        movw    %bx, tail
        movb    $1, is_sending
        movw    $SERIAL, %dx
        outb    %al, %dx
1:      ret

        .macro  write port, value
        .word   \port
        .byte   \value
        .endm
writes: write   0x20, 0x11              # master: ICW1 to ICW4, then all masked but timer and serial port
        write   0x21, TICK
        write   0x21, 4
        write   0x21, 1
        write   0x21, 0xee
        write   0xa0, 0x11              # slave: the same, all masked
        write   0xa1, 0x28
        write   0xa1, 2
        write   0xa1, 1
        write   0xa1, 0xff
        write   0x43, 0x34              # counter 0: mode 2
        write   0x40, COUNT & 255
        write   0x40, COUNT >> 8
        write   SERIAL + 3, 0x80        # serial port: 115,200 baud, 8 bits, FIFOs, both interrupts
        write   SERIAL, 1
        write   SERIAL + 1, 0
        write   SERIAL + 3, 3
        write   SERIAL + 2, 7
        write   SERIAL + 4, 11
        write   SERIAL + 1, 3
writes_end:
hello:  .asciz  "guest: type lines, and Ctrl-D at the end\r\n"
line:   .asciz  "\r\nguest: "
at:     .asciz  " bytes by tick "
newline: .asciz "\r\n"
bye:    .asciz  "guest: the end\r\n"
counted: .asciz "guest: OUT of counter 2 rose\r\n"
end:    .asciz  "guest: ten ticks, halting\r\n"
ticks:  .word   0
length: .word   0
head:   .word   0
tail:   .word   0
is_over: .byte  0
is_sending: .byte 0
