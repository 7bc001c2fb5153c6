/* Walks a light over four pins, and dims a channel of the PWM in three steps. */
#include "chip.h"

int main(void)
{
    for (uint32_t pin = 0; pin < 4; pin++) { GPIO_OUT = 1u << pin; }
    GPIO_OUT = 0;
    PWM_DUTY(0) = 0x40;
    PWM_DUTY(1) = 0xff;
    PWM_CTRL = PWM_ENABLE | PWM_PRESCALER(PRESCALER_2);
    for (volatile int i = 0; i < 60; i++) { }
    PWM_DUTY(0) = 0x20;
    for (volatile int i = 0; i < 60; i++) { }
    PWM_CTRL = 0;
    return 0;
}
