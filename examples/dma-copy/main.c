/* Copies words by DMA, sleeps until its interrupt, and returns the sum of the copy. The input pins tell how many words: sixteen where all
   are low. */
#include "chip.h"

#define MOST 40

static uint32_t from[MOST];
static uint32_t to[MOST];
static volatile uint32_t done;

INTERRUPT_HANDLER void on_dma(void)
{
    done++;
    DMA_CTRL = 0;
}

int main(void)
{
    uint32_t count = GPIO_IN;
    if (count == 0) { count = 16; }
    if (count > MOST) { return -1; }
    for (uint32_t i = 0; i < count; i++) { from[i] = 3 * i + 1; }
    set_csr(mie, DMA_LINE);
    enable_interrupts();
    DMA_SRC = (uint32_t)from;
    DMA_DST = (uint32_t)to;
    DMA_COUNT = count;
    DMA_CTRL = DMA_START | DMA_INTERRUPT;
    sleep_until(done);
    uint32_t total = 0;
    for (uint32_t i = 0; i < count; i++) { total += to[i]; }
    return (int)total;
}
