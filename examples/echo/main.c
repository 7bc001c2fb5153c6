/* Echoes what UART0 receives, in capital letters, from its interrupt; a pin counts the bytes. The main loop sleeps. */
#include "chip.h"

static volatile uint32_t received;

INTERRUPT_HANDLER void on_uart0(void)
{
    while (UART0_CTRL & UART_RECEIVED) {
        char c = (char)UART0_DATA;
        if (c >= 'a' && c <= 'z') { c = (char)(c - 'a' + 'A'); }
        put(c);
        received++;
        GPIO_OUT = received;
    }
}

int main(void)
{
    UART0_CTRL = UART_ENABLE | UART_INTERRUPT;
    set_csr(mie, UART0_LINE);
    enable_interrupts();
    put_text("> ");
    sleep_until(received >= 6);
    while (UART0_CTRL & UART_BUSY) { }
    return (int)received;
}
