/* The chip's registers, their bits, and what a program needs around them. docs/PROFILE.md says what each does. */
#ifndef CHIP_H
#define CHIP_H

#include <stdint.h>

#define REGISTER(address) (*(volatile uint32_t *)(address))

/* SLINK, the stream link: passes words to a part on the bench, and the part's replies back. */
#define SLINK_CTRL              REGISTER(0xffec0000)
#define SLINK_DATA              REGISTER(0xffec0004)
#define SLINK_LAST              REGISTER(0xffec0008) /* as DATA, for the last word of a packet */
/* of CTRL */
#define SLINK_ENABLE            (1u << 0)
#define SLINK_RECEIVED          (1u << 16) /* read only */
#define SLINK_FULL              (1u << 21) /* read only */
#define SLINK_INTERRUPT         (1u << 22)
#define SLINK_OVERRUN           (1u << 30) /* read only */
#define SLINK_BUSY              (1u << 31) /* read only */

/* DMA: copies words. */
#define DMA_CTRL                REGISTER(0xffed0000)
#define DMA_SRC                 REGISTER(0xffed0004)
#define DMA_DST                 REGISTER(0xffed0008)
#define DMA_COUNT               REGISTER(0xffed000c)
#define DMA_FAULT               REGISTER(0xffed0010)
/* of CTRL */
#define DMA_START               (1u << 0) /* stored */
#define DMA_BUSY                (1u << 0) /* loaded */
#define DMA_INTERRUPT           (1u << 1)
#define DMA_SOURCE_FIXED        (1u << 2)
#define DMA_DESTINATION_FIXED   (1u << 3)
#define DMA_DONE                (1u << 8)
#define DMA_FAULTED             (1u << 9)

/* PWM: channels 0 to 3. */
#define PWM_CTRL                REGISTER(0xfff00000)
#define PWM_DUTY(channel)       REGISTER(0xfff00004 + 4 * (channel))
/* of CTRL */
#define PWM_ENABLE              (1u << 0)
#define PWM_PRESCALER(code)     ((uint32_t)(code) << 3)

/* The codes of the prescalers of PWM, UARTs and SPI. */
#define PRESCALER_2             0u
#define PRESCALER_4             1u
#define PRESCALER_8             2u
#define PRESCALER_64            3u
#define PRESCALER_128           4u
#define PRESCALER_1024          5u
#define PRESCALER_2048          6u
#define PRESCALER_4096          7u

/* CLINT: the software interrupts and the timer of harts 0 and 1. */
#define MSIP(hart)              REGISTER(0xfff40000 + 4 * (hart))
#define MTIMECMP_LOW(hart)      REGISTER(0xfff44000 + 8 * (hart))
#define MTIMECMP_HIGH(hart)     REGISTER(0xfff44004 + 8 * (hart))
#define MTIME_LOW               REGISTER(0xfff4bff8)
#define MTIME_HIGH              REGISTER(0xfff4bffc)

/* UART0 and UART1. */
#define UART0_CTRL              REGISTER(0xfff50000)
#define UART0_DATA              REGISTER(0xfff50004)
#define UART1_CTRL              REGISTER(0xfff60000)
#define UART1_DATA              REGISTER(0xfff60004)
/* of CTRL */
#define UART_ENABLE             (1u << 0)
#define UART_PRESCALER(code)    ((uint32_t)(code) << 3)
#define UART_BAUD(baud)         ((uint32_t)(baud) << 6)
#define UART_RECEIVED           (1u << 16) /* read only */
#define UART_FULL               (1u << 21) /* read only */
#define UART_INTERRUPT          (1u << 22)
#define UART_OVERRUN            (1u << 30) /* read only */
#define UART_BUSY               (1u << 31) /* read only */

/* SPI, with the flash behind it. */
#define SPI_CTRL                REGISTER(0xfff80000)
#define SPI_DATA                REGISTER(0xfff80004)
#define SPI_CS                  REGISTER(0xfff80008)
/* of CTRL */
#define SPI_ENABLE              (1u << 0)
#define SPI_PRESCALER(code)     ((uint32_t)(code) << 3)
#define SPI_DIVIDER(divider)    ((uint32_t)(divider) << 6)
#define SPI_RECEIVED            (1u << 16) /* read only */
#define SPI_FULL                (1u << 21) /* read only */
#define SPI_INTERRUPT           (1u << 22)
#define SPI_OVERRUN             (1u << 30) /* read only */
#define SPI_BUSY                (1u << 31) /* read only */
/* of CS */
#define SPI_SELECT              1u
#define SPI_DESELECT            0u

/* The flash's commands, and the bits of its status. */
#define FLASH_PROGRAM           0x02
#define FLASH_READ              0x03
#define FLASH_WRITE_DISABLE     0x04
#define FLASH_STATUS            0x05
#define FLASH_WRITE_ENABLE      0x06
#define FLASH_ERASE_4K          0x20
#define FLASH_IDENTITY          0x9f
#define FLASH_ERASE_64K         0xd8
/* of the status */
#define FLASH_BUSY              (1u << 0)
#define FLASH_WRITABLE          (1u << 1)

/* WDT, the watchdog. Where it isn't fed in time it resets the harts and every device; the memories and the flash keep what they hold. */
#define WDT_CTRL                REGISTER(0xfffb0000)
#define WDT_FEED                REGISTER(0xfffb0004)
#define WDT_CAUSE               REGISTER(0xfffb0008) /* read only */
/* of CTRL */
#define WDT_ENABLE              (1u << 0)
#define WDT_TIMEOUT(units)      ((uint32_t)(units) << 8) /* in units of 256 cycles; 0 disables it */
/* the only word that feeds it */
#define WDT_FOOD                0x0000feedu
/* of CAUSE */
#define WDT_RESET               (1u << 0) /* it has reset the chip since power-on */

/* GPIO: 32 inputs and 32 outputs, a bit each. */
#define GPIO_IN                 REGISTER(0xfffc0000) /* read only */
#define GPIO_OUT                REGISTER(0xfffc0004)
#define GPIO_ENABLE             REGISTER(0xfffc0008)
#define GPIO_PENDING            REGISTER(0xfffc000c)

/* SYSINFO, read only. */
#define SYSINFO_CLK             REGISTER(0xfffe0000)
#define SYSINFO_IMEM            REGISTER(0xfffe0004)
#define SYSINFO_DMEM            REGISTER(0xfffe0008)
#define SYSINFO_OPEN            REGISTER(0xfffe000c)
/* of OPEN */
#define OPEN_UART0              (1u << 1)
#define OPEN_UART1              (1u << 2)
#define OPEN_SPI                (1u << 3)
#define OPEN_GPIO               (1u << 4)
#define OPEN_PWM                (1u << 5)
#define OPEN_SLINK              (1u << 6)
#define OPEN_WDT                (1u << 7)

/* The mailbox: where hart 1 starts, and its stack pointer. */
#define MAILBOX_PC              REGISTER(0xfffe0100)
#define MAILBOX_SP              REGISTER(0xfffe0104)

/* The interrupts, as bits of mie and mip. As a cause each is 0x80000000 and the number of its bit. */
#define SOFTWARE_INTERRUPT      (1u << 3)
#define TIMER_INTERRUPT         (1u << 7)
#define DMA_LINE                (1u << 16)
#define UART0_LINE              (1u << 17)
#define UART1_LINE              (1u << 18)
#define SPI_LINE                (1u << 19)
#define GPIO_LINE               (1u << 20)
#define SLINK_LINE              (1u << 22)

/* of mstatus */
#define MSTATUS_MIE             (1u << 3)
#define MSTATUS_MPIE            (1u << 7)

#define read_csr(name)          ({ uint32_t value_; __asm__ volatile("csrr %0, " #name : "=r"(value_) :: "memory"); value_; })
#define write_csr(name, value)  __asm__ volatile("csrw " #name ", %0" :: "r"((uint32_t)(value)) : "memory")
#define set_csr(name, value)    __asm__ volatile("csrs " #name ", %0" :: "r"((uint32_t)(value)) : "memory")
#define clear_csr(name, value)  __asm__ volatile("csrc " #name ", %0" :: "r"((uint32_t)(value)) : "memory")

/* An interrupt handler saves the registers that it uses and ends with mret. start.S calls one that the program defines under its name; an
   interrupt without a handler, and every exception, stops the hart there, with the trap in x28 to x31. */
#define INTERRUPT_HANDLER       __attribute__((interrupt("machine")))
INTERRUPT_HANDLER void on_software(void);
INTERRUPT_HANDLER void on_timer(void);
INTERRUPT_HANDLER void on_dma(void);
INTERRUPT_HANDLER void on_uart0(void);
INTERRUPT_HANDLER void on_uart1(void);
INTERRUPT_HANDLER void on_spi(void);
INTERRUPT_HANDLER void on_gpio(void);
INTERRUPT_HANDLER void on_slink(void);

/* The traps of the hart that calls this go where start.S says. For hart 0 start.S does so; hart 1's mtvec is 0 when it starts. */
extern char trap_vectors[];
static inline void use_trap_vectors(void) { write_csr(mtvec, (uint32_t)trap_vectors | 1); }

static inline void enable_interrupts(void) { __asm__ volatile("csrsi mstatus, 8" ::: "memory"); }

static inline void disable_interrupts(void) { __asm__ volatile("csrci mstatus, 8" ::: "memory"); }

/* Sleeps until an interrupt that mie enables is pending, whatever MIE is; doesn't sleep where one is pending already. */
static inline void wait_for_interrupt(void) { __asm__ volatile("wfi" ::: "memory"); }

/* Sleeps until the condition holds, which an interrupt handler makes true. It is tested with MIE clear: an interrupt that comes between the
   test and the sleep stays pending, so the sleep ends at once, and the handler runs where MIE is set for a moment. With MIE set at the test
   the handler could run between the two, and the hart would sleep though there is nothing left to wait for. MIE is set at the end. */
#define sleep_until(condition)          \
    do {                                \
        disable_interrupts();           \
        while (!(condition)) {          \
            wait_for_interrupt();       \
            enable_interrupts();        \
            disable_interrupts();       \
        }                               \
        enable_interrupts();            \
    } while (0)

/* The time in cycles since power-on or the last watchdog reset: the low word is taken again where the high word changed meanwhile. */
static inline uint64_t read_mtime(void)
{
    for (;;) {
        uint32_t high = MTIME_HIGH;
        uint32_t low = MTIME_LOW;
        if (high == MTIME_HIGH) { return (uint64_t)high << 32 | low; }
    }
}

/* The time at which a hart's timer interrupt comes. No interrupt comes while only one of its two words is stored. */
static inline void set_mtimecmp(uint32_t hart, uint64_t time)
{
    MTIMECMP_HIGH(hart) = 0xffffffff;
    MTIMECMP_LOW(hart) = (uint32_t)time;
    MTIMECMP_HIGH(hart) = (uint32_t)(time >> 32);
}

/* Starts hart 1, which is parked at power-on and by a watchdog reset, with a stack that ends there. A second call doesn't start it again. */
static inline void start_hart1(void (*entry)(void), uint32_t *stack_end)
{
    MAILBOX_PC = (uint32_t)entry;
    MAILBOX_SP = (uint32_t)stack_end;
    MSIP(1) = 1;
}

/* Waits for devices, given by bits of OPEN. A watchdog reset closes each device for twice its delay; meanwhile stores to it are ignored, and
   loads of it give 0 (but not of CAUSE). So a program that may start after such a reset waits before it sets a device up. At power-on all are open. */
static inline void wait_until_open(uint32_t devices)
{
    while ((SYSINFO_OPEN & devices) != devices) { }
}

/* Gives the watchdog its whole timeout anew. */
static inline void feed_watchdog(void) { WDT_FEED = WDT_FOOD; }

/* Sends a byte over UART0. */
static inline void put(char c)
{
    while (UART0_CTRL & UART_FULL) { }
    UART0_DATA = (uint8_t)c;
}

static inline void put_text(const char *text)
{
    while (*text) { put(*text++); }
}

/* Exchanges a byte with the flash, which must be selected, and waits for the answer. */
static inline uint8_t spi_exchange(uint8_t byte)
{
    SPI_DATA = byte;
    while (!(SPI_CTRL & SPI_RECEIVED)) { }
    return (uint8_t)SPI_DATA;
}

#endif
