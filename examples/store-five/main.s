# Stores the word 5 at the first address of DMEM, and then stays where it is.

        .option norvc                   # each instruction a word of its own
        .globl  _start
_start: addi    x1, x0, 5
        lui     x2, 0x80000
        sw      x1, 0(x2)
stay:   jal     x0, stay
