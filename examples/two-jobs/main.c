/* Hart 1 does two jobs. The chip parks it only until its first start; between the jobs it sleeps with MIE clear until hart 0 sets its
   software interrupt again. */
#include "chip.h"

static uint32_t (*volatile job)(void);
static volatile uint32_t result;
static volatile uint32_t jobs_done;
static uint32_t stack[64];

static uint32_t add_up(void)
{
    uint32_t total = 0;
    for (uint32_t n = 1; n <= 20; n++) { total += n; }
    return total;
}

static uint32_t multiply(void)
{
    uint32_t product = 1;
    for (uint32_t n = 1; n <= 6; n++) { product *= n; }
    return product;
}

static void second_hart(void)
{
    use_trap_vectors();
    set_csr(mie, SOFTWARE_INTERRUPT);
    for (;;) {
        MSIP(1) = 0;
        result = job();
        jobs_done++;
        wait_for_interrupt();
    }
}

int main(void)
{
    job = add_up;
    start_hart1(second_hart, stack + 64);
    while (jobs_done < 1) { }
    uint32_t total = result;

    job = multiply;
    MSIP(1) = 1;
    while (jobs_done < 2) { }
    return (int)(total + result);
}
