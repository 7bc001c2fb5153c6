# Clears GPIO's PENDING in cycle 12. By the script pin 3's rise reaches PENDING in that very cycle and is cleared with the rest; pin 5's
# rise comes a cycle later and stays. x3 is PENDING then, and x4 is IN.

        .option norvc                   # each instruction a word of its own
        .globl  _start
_start: lui     x1, 0xfffc0
        addi    x2, x0, -1
        addi    x0, x0, 0
        addi    x0, x0, 0
        addi    x0, x0, 0
        addi    x0, x0, 0
        sw      x2, 12(x1)              # issued and granted in cycle 12
        lw      x3, 12(x1)
        lw      x4, 0(x1)
stay:   jal     x0, stay
