/* Counts five timer interrupts, one every 400 cycles, and sleeps in between. */
#include "chip.h"

#define PERIOD 400

static volatile uint32_t ticks;
static uint64_t due;

INTERRUPT_HANDLER void on_timer(void)
{
    ticks++;
    due += PERIOD;
    set_mtimecmp(0, due);
}

int main(void)
{
    due = read_mtime() + PERIOD;
    set_mtimecmp(0, due);
    set_csr(mie, TIMER_INTERRUPT);
    enable_interrupts();
    sleep_until(ticks >= 5);
    write_csr(mie, 0);
    return (int)ticks;
}
