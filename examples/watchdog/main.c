/* Is watched. It feeds the watchdog as long as its work goes on, and then hangs on purpose; so the watchdog resets the chip, and the
   program starts again. It finds the cause, says so, and returns how many starts it counted: 2. */
#include "chip.h"

/* In .bss, which is zero at power-on and which a watchdog reset keeps. Volatile, since for the compiler it is 0 at every start. */
static volatile uint32_t starts;

static void work(void)
{
    uint32_t begun = MTIME_LOW;
    while (MTIME_LOW - begun < 300) { }
}

int main(void)
{
    starts++;
    uint32_t was_reset = WDT_CAUSE & WDT_RESET;     /* CAUSE is given also while the watchdog is closed */
    wait_until_open(OPEN_UART0 | OPEN_WDT);         /* at once at power-on, and some cycles after a reset */
    UART0_CTRL = UART_ENABLE;                       /* the reset has disabled it */
    if (was_reset) {
        put_text("reset by the watchdog\n");
        return (int)starts;
    }
    put_text("start\n");
    WDT_CTRL = WDT_ENABLE | WDT_TIMEOUT(2);         /* 512 cycles: less than two rounds of work */
    for (int round = 0; round < 3; round++) {
        work();
        feed_watchdog();
    }
    for (;;) { }                                    /* hangs, and feeds it no more */
}
