/* Lets the watchdog reset the chip twice, the second time before UART1 has answered the first reset. UART1 opens when it has answered both.
   The third start waits for that, says so over UART1, and returns the time since the second reset: twice UART1's delay and a few cycles. */
#include "chip.h"

#define DEVICES     (OPEN_UART0 | OPEN_UART1 | OPEN_SPI | OPEN_GPIO | OPEN_PWM | OPEN_WDT)

static volatile uint32_t starts;
static volatile uint32_t open_at_start[3];
static volatile uint32_t open_at_end;

int main(void)
{
    open_at_start[starts] = SYSINFO_OPEN & DEVICES;
    starts++;
    if (starts < 3) {
        wait_until_open(OPEN_WDT);
        WDT_CTRL = WDT_ENABLE | WDT_TIMEOUT(1);
        for (;;) { }
    }
    wait_until_open(OPEN_UART1);
    uint32_t time = MTIME_LOW;
    open_at_end = SYSINFO_OPEN & DEVICES;
    UART1_CTRL = UART_ENABLE;
    UART1_DATA = '!';
    return (int)time;
}
