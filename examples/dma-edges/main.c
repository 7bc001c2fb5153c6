/* Edges of the DMA: no words, a fixed source, a fixed destination that is a device's register, and a refused access. Each check that
   holds sets a bit of what is returned. */
#include "chip.h"

static uint32_t words[4] = {1, 2, 4, 8};
static uint32_t copy[4];

static uint32_t run(uint32_t from, uint32_t to, uint32_t count, uint32_t how)
{
    DMA_SRC = from;
    DMA_DST = to;
    DMA_COUNT = count;
    DMA_CTRL = DMA_START | how;
    while (DMA_CTRL & DMA_BUSY) { }
    return DMA_CTRL;
}

int main(void)
{
    int held = 0;
    uint32_t pins = (uint32_t)&GPIO_OUT;

    /* nothing is moved, and the copy is done at once */
    if ((run((uint32_t)words, (uint32_t)copy, 0, 0) & DMA_DONE) && copy[0] == 0) { held |= 1; }

    /* four times the same word */
    run((uint32_t)&words[2], (uint32_t)copy, 4, DMA_SOURCE_FIXED);
    if (copy[0] == 4 && copy[3] == 4 && DMA_SRC == (uint32_t)&words[2]) { held |= 2; }

    /* four words to the pins, one after another */
    run((uint32_t)words, pins, 4, DMA_DESTINATION_FIXED);
    if (GPIO_OUT == 8 && DMA_DST == pins) { held |= 4; }

    /* the second load finds nothing, after one word was moved */
    if ((run(0x8000fffc, (uint32_t)copy, 2, 0) & DMA_FAULTED) && DMA_FAULT == 0x80010000 && DMA_COUNT == 1) { held |= 8; }

    return held;
}
