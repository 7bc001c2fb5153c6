/* Both harts and the DMA use the bus at once: hart 0 fills one table, hart 1 another, and the DMA copies a third. Each check that holds
   sets a bit of what is returned. */
#include "chip.h"

#define COUNT 24

static volatile uint32_t first[COUNT], second[COUNT], from[COUNT], to[COUNT];
static volatile uint32_t second_done;
static uint32_t stack[64];

static void second_hart(void)
{
    use_trap_vectors();
    for (uint32_t i = 0; i < COUNT; i++) { second[i] = 2 * i + 1; }
    second_done = 1;
    MSIP(1) = 0;
    for (;;) { wait_for_interrupt(); }
}

int main(void)
{
    int held = 0;
    uint32_t sums[3] = {0, 0, 0};
    for (uint32_t i = 0; i < COUNT; i++) { from[i] = i * i; }
    DMA_SRC = (uint32_t)from;
    DMA_DST = (uint32_t)to;
    DMA_COUNT = COUNT;
    start_hart1(second_hart, stack + 64);
    DMA_CTRL = DMA_START;
    for (uint32_t i = 0; i < COUNT; i++) { first[i] = 3 * i; }
    while (!second_done || (DMA_CTRL & DMA_BUSY)) { }
    for (uint32_t i = 0; i < COUNT; i++) {
        sums[0] += first[i];
        sums[1] += second[i];
        sums[2] += to[i];
    }
    if (sums[0] == 828) { held |= 1; }
    if (sums[1] == 576) { held |= 2; }
    if (sums[2] == 4324) { held |= 4; }
    return held;
}
