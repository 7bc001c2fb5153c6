/* Hart 1 is started twice. The second software interrupt doesn't start it again; it only wakes it from its sleep. */
#include "chip.h"

static volatile uint32_t starts;
static volatile uint32_t wakes;
static uint32_t stack[64];

static void second_hart(void)
{
    use_trap_vectors();
    starts++;
    MSIP(1) = 0;
    set_csr(mie, SOFTWARE_INTERRUPT);
    for (;;) {
        wait_for_interrupt();
        wakes++;
        MSIP(1) = 0;
    }
}

int main(void)
{
    start_hart1(second_hart, stack + 64);
    while (!starts || MSIP(1)) { }
    for (volatile int i = 0; i < 20; i++) { }
    MSIP(1) = 1;
    while (!wakes) { }
    return (int)(0x10 * starts + wakes);
}
