# SPDX-License-Identifier: Apache-2.0 OR BSD-3-Clause
# A guest in real mode, for the tests of the monitor. It prints 'ready', and then echoes what is typed, by interrupts
# and as Linux's 8250 driver does: it reads IIR, then bytes for as long as LSR shows data ready, but at most 256, and
# then IIR again, until that says that nothing is pending. At Ctrl-T it takes no more until an alarm two seconds later,
# at which it prints 'alarm'. At Ctrl-D it resets the machine.
        .code16
        .set COM1, 0x3F8; .set IER, COM1 + 1; .set IIR, COM1 + 2; .set LCR, COM1 + 3; .set MCR, COM1 + 4
        .set LSR, COM1 + 5
        .set MASTER, 0x20; .set SLAVE, 0xA0     # the interrupt controllers
        .set CLOCK, 0xD000                      # the clock's segment
        .set RTCDR, 0x000; .set RTCMR, 0x004
        .set RTCIMSC, 0x010; .set RTCRIS, 0x014; .set RTCMIS, 0x018; .set RTCICR, 0x01C

        .macro outb port, values:vararg
        mov $\port, %dx
        .irp value, \values
        mov $\value, %al
        out %al, %dx
        .endr
        .endm
        .globl _start
_start: xor %ax, %ax                            # interrupts are disabled, and the stack is below
        mov %ax, %ds
        mov %ax, %ss
        mov $CLOCK, %ax
        mov %ax, %fs
        movl $serial, 0x24 * 4                  # the vector of IRQ 4, in segment 0
        movl $alarm, 0x28 * 4                   # and of IRQ 8
        outb MASTER, 0x11                       # ICW1, then ICW2 to ICW4 and the mask: IRQ 4, 2 and 8
        outb MASTER + 1, 0x20, 0x04, 0x01, 0xEB
        outb SLAVE, 0x11
        outb SLAVE + 1, 0x28, 0x02, 0x01, 0xFE
        outb LCR, 0x03
        outb MCR, 0x0B                          # DTR, RTS, OUT2
        mov $ready, %si
        call print
        outb IER, 0x01
        sti
sleep:  hlt
        jmp sleep

serial: mov $IIR, %dx
        in %dx, %al
        cmpb $1, awaits                         # an interrupt that came before IER disabled it
        je done
        test $0x01, %al                         # nothing is pending
        jnz done
        mov $256, %cx
next:   mov $LSR, %dx
        in %dx, %al
        test $0x01, %al                         # data ready
        jz serial
        mov $COM1, %dx
        in %dx, %al
        cmp $0x04, %al
        je reset
        cmp $0x14, %al
        je await
        out %al, %dx
        loop next
        jmp serial

reset:  outb 0x64, 0xFE
        hlt

await:  movb $1, awaits
        outb IER, 0x00
        movl $1, %fs:RTCIMSC
later:  mov %fs:RTCDR, %eax
        add $2, %eax
        mov %eax, %fs:RTCMR
        cmp %eax, %fs:RTCDR                     # if the guest stood still for two seconds, the moment may have
        js done                                 # passed before it was set: then there is no alarm
        testb $1, %fs:RTCRIS
        jz later
done:   outb MASTER, 0x20                       # end of interrupt
        iret

alarm:  cmpb $1, %fs:RTCMIS
        jne 1f
        movl $1, %fs:RTCICR
        mov $alarmed, %si
        call print
        movb $0, awaits
        outb IER, 0x01                          # raises RDA for the bytes that came
1:      outb SLAVE, 0x20
        jmp done

print:  mov $COM1, %dx
        lodsb
        out %al, %dx
        cmpb $0, (%si)
        jne print
        ret

awaits: .byte 0                                 # the alarm
ready:  .asciz "ready\r\n"
alarmed: .asciz "alarm\r\n"
