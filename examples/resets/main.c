/* Has something under way when the watchdog resets the chip. Pins 0 to 2 tell what; where all three are low the program looks instead at
   what a reset left. The boot monitor starts it, and the scripts ask the monitor afterwards. */
#include "chip.h"

#define STORED      0x400000u       /* where the monitor stores an image in the flash */
#define LATE        240             /* a copy begins so many cycles and a few more after the watchdog was armed */
#define WORDS       64

enum { LOOK, ERASE, PROGRAM, UNENDED, COPY, LIGHTS, LIGHTS_LATER, HANG };

/* What is looked at in the report's memory. */
static volatile struct {
    uint32_t cause, open, watchdog, dma, source, count, in, out, pending;
} seen;
static volatile uint32_t stores[2];     /* by each hart */
static volatile uint32_t from[WORDS];
static volatile uint32_t to[WORDS];
static uint32_t stack[64];              /* hart 1's */

static void look(void)
{
    seen.cause = WDT_CAUSE;
    seen.open = SYSINFO_OPEN;
    seen.watchdog = WDT_CTRL;
    seen.dma = DMA_CTRL;
    seen.source = DMA_SRC;
    seen.count = DMA_COUNT;
    seen.in = GPIO_IN;
    seen.out = GPIO_OUT;
    seen.pending = GPIO_PENDING;
}

/* Enables writes, and sends a command with its address. The flash does it at the deselect, which isn't here. */
static void send_command(uint8_t command, uint32_t address)
{
    SPI_CTRL = SPI_ENABLE;
    SPI_CS = SPI_SELECT;
    spi_exchange(FLASH_WRITE_ENABLE);
    SPI_CS = SPI_DESELECT;
    SPI_CS = SPI_SELECT;
    spi_exchange(command);
    spi_exchange((uint8_t)(address >> 16));
    spi_exchange((uint8_t)(address >> 8));
    spi_exchange((uint8_t)address);
}

static void start_dma(volatile uint32_t *destination, uint32_t fixed)
{
    DMA_SRC = (uint32_t)from;
    DMA_DST = (uint32_t)destination;
    DMA_COUNT = WORDS;
    DMA_CTRL = DMA_START | fixed;
}

static void fill(void)
{
    for (uint32_t i = 0; i < WORDS; i++) { from[i] = i + 1; }
}

/* The reset comes 256 cycles and twice the watchdog's delay after the store. */
static void arm(void) { WDT_CTRL = WDT_ENABLE | WDT_TIMEOUT(1); }

static void arm_and_wait(void)
{
    arm();
    uint32_t armed = MTIME_LOW;
    while (MTIME_LOW - armed < LATE) { }
}

static void store_on_hart1(void)
{
    for (;;) { stores[1]++; }
}

int main(void)
{
    uint32_t what = GPIO_IN & 7;
    switch (what) {
    case LOOK:
        look();
        return 1;
    case ERASE:
        send_command(FLASH_ERASE_4K, STORED);
        arm();
        SPI_CS = SPI_DESELECT;
        break;
    case PROGRAM:
        send_command(FLASH_PROGRAM, STORED);
        spi_exchange(0);
        spi_exchange(0);
        arm();
        SPI_CS = SPI_DESELECT;
        break;
    case UNENDED:
        send_command(FLASH_ERASE_4K, STORED);
        arm();
        break;
    case COPY:
        fill();
        arm_and_wait();
        start_dma(to, 0);
        break;
    case LIGHTS:
    case LIGHTS_LATER:
        fill();
        start_hart1(store_on_hart1, stack + 64);
        arm_and_wait();
        if (what == LIGHTS_LATER) { __asm__ volatile("slli x0, x0, 2"); }   /* five cycles */
        start_dma(&GPIO_OUT, DMA_DESTINATION_FIXED);
        break;
    case HANG:
        arm();
        break;
    }
    for (;;) { stores[0]++; }
}
