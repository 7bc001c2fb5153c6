# Says hello over UART0 as the boot monitor leaves it: enabled, at the monitor's rate. So it sets nothing up.

        .globl  _start
_start: lui     x10, 0xfff50            # UART0
        la      x11, text
        lbu     x12, 0(x11)
send:   lw      x13, 0(x10)             # CTRL
        slli    x13, x13, 10            # bit 21, transmit full, as the sign
        bltz    x13, send
        sw      x12, 4(x10)             # DATA
        addi    x11, x11, 1
        lbu     x12, 0(x11)
        bnez    x12, send
stay:   j       stay

        .section .rodata
text:   .asciz  "hello\n"
