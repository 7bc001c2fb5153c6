/* Keeps a log in the flash. It erases a block of 4 KiB, appends three records of 100 bytes, and reads them back. The third record
   crosses the border of a page, so it takes two programs. Each answer of the flash comes by SPI's receive interrupt; meanwhile the hart
   sleeps. Returns how many records were found whole: 3, and 0 where no flash is fitted. */
#include "chip.h"

#define LOG         0x012000u   /* where the log's block begins in the flash */
#define PAGE        256u        /* bytes that one program can reach */
#define RECORDS     3u

struct record {
    uint32_t number;
    uint32_t time;              /* in cycles since power-on */
    uint32_t samples[22];
    uint32_t sum;               /* of the words before it */
};

static volatile uint8_t answer;
static volatile int has_answer;

INTERRUPT_HANDLER void on_spi(void)
{
    answer = (uint8_t)SPI_DATA;     /* the last received byte is taken, so the interrupt ends */
    has_answer = 1;
}

/* Sends a byte, sleeps until it is exchanged, and gives the flash's answer. At most this byte and two stores to CS are on their way at
   once, so there is always a credit. */
static uint8_t exchange(uint8_t byte)
{
    has_answer = 0;
    SPI_DATA = byte;
    sleep_until(has_answer);
    return answer;
}

static void begin(uint8_t command)
{
    SPI_CS = SPI_SELECT;
    exchange(command);
}

static void begin_at(uint8_t command, uint32_t address)
{
    begin(command);
    exchange((uint8_t)(address >> 16));
    exchange((uint8_t)(address >> 8));
    exchange((uint8_t)address);
}

static void end(void) { SPI_CS = SPI_DESELECT; }

static uint32_t read_identity(void)
{
    begin(FLASH_IDENTITY);
    uint32_t identity = (uint32_t)exchange(0) << 16;
    identity |= (uint32_t)exchange(0) << 8;
    identity |= exchange(0);
    end();
    return identity;
}

static void write_enable(void)
{
    begin(FLASH_WRITE_ENABLE);
    end();
}

/* While the flash is selected each further byte is answered the status anew. */
static void wait_while_busy(void)
{
    begin(FLASH_STATUS);
    while (exchange(0) & FLASH_BUSY) { }
    end();
}

static void erase_block(uint32_t address)
{
    write_enable();
    begin_at(FLASH_ERASE_4K, address);
    end();
    wait_while_busy();
}

/* Bytes of one page. */
static void program_page(uint32_t address, const uint8_t *bytes, uint32_t count)
{
    write_enable();
    begin_at(FLASH_PROGRAM, address);
    for (uint32_t i = 0; i < count; i++) { exchange(bytes[i]); }
    end();
    wait_while_busy();
}

/* A program goes on at the beginning of its page, so what crosses a border is split there. */
static void write(uint32_t address, const void *from, uint32_t count)
{
    const uint8_t *bytes = from;
    while (count > 0) {
        uint32_t room = PAGE - address % PAGE;
        uint32_t now = count < room ? count : room;
        program_page(address, bytes, now);
        address += now;
        bytes += now;
        count -= now;
    }
}

static void read(uint32_t address, void *to, uint32_t count)
{
    uint8_t *bytes = to;
    begin_at(FLASH_READ, address);
    for (uint32_t i = 0; i < count; i++) { bytes[i] = exchange(0); }
    end();
}

static uint32_t sum_of(const struct record *record)
{
    uint32_t sum = record->number + record->time;
    for (uint32_t i = 0; i < 22; i++) { sum += record->samples[i]; }
    return sum;
}

static void append(uint32_t number)
{
    struct record record;
    record.number = number;
    record.time = MTIME_LOW;
    for (uint32_t i = 0; i < 22; i++) { record.samples[i] = 1000 * number + i; }
    record.sum = sum_of(&record);
    write(LOG + number * sizeof record, &record, sizeof record);
}

static int is_whole(uint32_t number)
{
    struct record record;
    read(LOG + number * sizeof record, &record, sizeof record);
    return record.number == number && record.sum == sum_of(&record);
}

int main(void)
{
    int whole = 0;
    SPI_CTRL = SPI_ENABLE | SPI_PRESCALER(PRESCALER_4) | SPI_DIVIDER(1) | SPI_INTERRUPT;     /* 64 cycles a byte */
    set_csr(mie, SPI_LINE);
    enable_interrupts();
    if (read_identity() != 0xef4017) { return 0; }
    erase_block(LOG);
    for (uint32_t number = 0; number < RECORDS; number++) { append(number); }
    for (uint32_t number = 0; number < RECORDS; number++) { whole += is_whole(number); }
    return whole;
}
