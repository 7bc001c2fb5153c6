/* Hart 0 starts hart 1 through the mailbox; each sums half of the numbers below 100, and hart 0 adds the sums up. */
#include "chip.h"

static volatile uint32_t upper_sum;
static volatile uint32_t upper_done;
static uint32_t upper_stack[64];

static uint32_t sum(uint32_t from, uint32_t to)
{
    uint32_t total = 0;
    for (uint32_t n = from; n < to; n++) { total += n; }
    return total;
}

static void second_hart(void)
{
    use_trap_vectors();
    upper_sum = sum(50, 100);
    upper_done = 1;
    MSIP(1) = 0;
    for (;;) { wait_for_interrupt(); }
}

int main(void)
{
    start_hart1(second_hart, upper_stack + 64);
    uint32_t lower_sum = sum(0, 50);
    while (!upper_done) { }
    return (int)(lower_sum + upper_sum);
}
