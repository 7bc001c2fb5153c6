# Sends "Hi" and a line feed over UART0, and then stays where it is.

        .option norvc                   # each instruction a word of its own
        .globl  _start
_start: lui     x1, 0xfff50
        addi    x2, x0, 1               # enable, prescaler 2, two cycles a bit
        sw      x2, 0(x1)
        addi    x2, x0, 'H'
        sw      x2, 4(x1)
        addi    x2, x0, 'i'
        sw      x2, 4(x1)
        addi    x2, x0, '\n'
        sw      x2, 4(x1)
stay:   jal     x0, stay
