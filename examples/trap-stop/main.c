/* How a crash looks: a load of an address where nothing lies stops the hart, and the report shows the trap in x28 to x31. */
#include "chip.h"

int main(void)
{
    return (int)REGISTER(0x40000000);
}
