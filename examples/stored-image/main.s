# Hangs with the watchdog armed where it is started for the first time since power-on. Where the watchdog has reset the chip it says so over
# UART0 as the boot monitor leaves it: enabled, at the monitor's rate.

        .globl  _start
_start: lui     x10, 0xfffb0            # WDT
        lw      x11, 8(x10)             # CAUSE: 1 after a watchdog reset
        bnez    x11, say
        li      x12, 0x101              # enable, a timeout of 256 cycles
        sw      x12, 0(x10)             # CTRL
hang:   j       hang

say:    lui     x10, 0xfff50            # UART0
        la      x11, text
        lbu     x12, 0(x11)
send:   lw      x13, 0(x10)             # CTRL
        slli    x13, x13, 10            # bit 21, transmit full, as the sign
        bltz    x13, send
        sw      x12, 4(x10)             # DATA
        addi    x11, x11, 1
        lbu     x12, 0(x11)
        bnez    x12, send
stay:   j       stay

        .section .rodata
text:   .asciz  "again\n"
