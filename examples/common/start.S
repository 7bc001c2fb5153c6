# Start-up of hart 0: the stack, the handlers of traps, the data, and then main. What main returns stands in a0 (x10) at the end.
# Memory that the image doesn't fill is zero at power-on, so .bss isn't cleared. A watchdog reset begins here again with both memories as
# they were: .bss keeps what the program left in it, and .data gets its initial values again.

        .section .text.start
        .globl  _start
_start: la      sp, _stack
        la      t0, trap_vectors + 1            # bit 0: each interrupt has an entry of its own
        csrw    mtvec, t0
        la      t0, _data
        la      t1, _data_end
        la      t2, _data_image
1:      bgeu    t0, t1, 2f
        lw      t3, 0(t2)
        sw      t3, 0(t0)
        addi    t0, t0, 4
        addi    t2, t2, 4
        j       1b
2:      call    main
main_returned:
        j       main_returned

# Where traps go: exceptions to the first entry, and interrupt N to entry N. A program defines the handlers that it wants, by these names.
        .balign 4
        .option push
        .option norvc
        .globl  trap_vectors
trap_vectors:
        j       trap_stop
        j       trap_stop
        j       trap_stop
        j       on_software                     # 3
        j       trap_stop
        j       trap_stop
        j       trap_stop
        j       on_timer                        # 7
        .rept   8
        j       trap_stop
        .endr
        j       on_dma                          # 16
        j       on_uart0                        # 17
        j       on_uart1                        # 18
        j       on_spi                          # 19
        j       on_gpio                         # 20
        j       trap_stop
        j       on_slink                        # 22
        .option pop

        .weak   on_software, on_timer, on_dma, on_uart0, on_uart1, on_spi, on_gpio, on_slink
        .set    on_software, trap_stop
        .set    on_timer, trap_stop
        .set    on_dma, trap_stop
        .set    on_uart0, trap_stop
        .set    on_uart1, trap_stop
        .set    on_spi, trap_stop
        .set    on_gpio, trap_stop
        .set    on_slink, trap_stop

# An exception, or an interrupt without a handler. The hart stops here, asleep with no interrupt enabled, and the report shows the trap:
# x28 mcause, x29 mepc, x30 mtval, and x31 0000dead, which says that the three stand for a trap. The other registers stay.
trap_stop:
        csrr    x28, mcause
        csrr    x29, mepc
        csrr    x30, mtval
        li      x31, 0xdead
        csrw    mie, zero
trap_stopped:
        wfi
        j       trap_stopped
