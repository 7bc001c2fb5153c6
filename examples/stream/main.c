/* Sends packets of words over the stream link, and takes the replies of the part behind it from the link's interrupt. A first packet tells
   which of the parts that come with neo it is. The replies to three more are compared with what that part is to reply, and the result is
   printed over UART0. Returns how many of the three had the right replies: 3, and 0 where there is no part, or another one. */
#include "chip.h"

#define LONGEST     20u     /* words of a packet */

enum part { NONE, LOOP, COUNTER, SCRAMBLE, ANOTHER };

static const char *const names[] = { "none", "loop", "counter", "scramble", "another" };

static const struct { const char *name; uint32_t length; } packets[] = {
    { "one word", 1 },
    { "three words", 3 },
    { "twenty words", LONGEST },
};

static volatile uint32_t replies[LONGEST];
static volatile uint32_t received;      /* how many of them came */

INTERRUPT_HANDLER void on_slink(void)
{
    while (SLINK_CTRL & SLINK_RECEIVED) {   /* where none waits any more the interrupt ends */
        uint32_t reply = SLINK_DATA;
        if (received < LONGEST) { replies[received] = reply; }
        received++;
    }
}

/* The link has room for sixteen words. */
static void send(const uint32_t *words, uint32_t length)
{
    received = 0;
    for (uint32_t i = 0; i < length; i++) {
        while (SLINK_CTRL & SLINK_FULL) { }
        if (i + 1 < length) {
            SLINK_DATA = words[i];
        } else {
            SLINK_LAST = words[i];
        }
    }
}

static uint32_t scrambled(uint32_t word) { return (word << 7 | word >> 25) ^ 0x5a5a5a5a; }

/* What a part is to reply to a packet; gives the number of these replies. */
static uint32_t expect(enum part part, const uint32_t *words, uint32_t length, uint32_t *expected)
{
    if (part == COUNTER) {
        expected[0] = length;
        return 1;
    }
    for (uint32_t i = 0; i < length; i++) { expected[i] = part == LOOP ? words[i] : scrambled(words[i]); }
    return length;
}

static int are_right(const uint32_t *expected, uint32_t count)
{
    if (received != count) { return 0; }
    for (uint32_t i = 0; i < count; i++) {
        if (replies[i] != expected[i]) { return 0; }
    }
    return 1;
}

/* A reply comes back together with the credit of its word: where the link isn't busy any more, all replies have come. */
static enum part find_part(void)
{
    static const uint32_t words[] = { 1, 7 };
    uint32_t expected[2];
    send(words, 2);
    while (SLINK_CTRL & SLINK_BUSY) { }
    if (received == 0) { return NONE; }
    for (enum part part = LOOP; part <= SCRAMBLE; part++) {
        if (are_right(expected, expect(part, words, 2, expected))) { return part; }
    }
    return ANOTHER;
}

static void put_word(uint32_t word)
{
    for (int shift = 28; shift >= 0; shift -= 4) { put("0123456789abcdef"[word >> shift & 15]); }
}

int main(void)
{
    static uint32_t words[LONGEST], expected[LONGEST];
    int right = 0;
    UART0_CTRL = UART_ENABLE;
    SLINK_CTRL = SLINK_ENABLE | SLINK_INTERRUPT;
    set_csr(mie, SLINK_LINE);
    enable_interrupts();

    enum part part = find_part();
    put_text("part ");
    put_text(names[part]);
    put('\n');
    if (part == NONE || part == ANOTHER) { return 0; }

    for (uint32_t n = 0; n < sizeof packets / sizeof packets[0]; n++) {
        uint32_t length = packets[n].length;
        for (uint32_t i = 0; i < length; i++) { words[i] = 0x80000001u * length + i; }
        uint32_t count = expect(part, words, length, expected);
        send(words, length);
        sleep_until(received >= count);
        put_text(packets[n].name);
        put_text(", last reply ");
        put_word(replies[count - 1]);
        if (are_right(expected, count)) {
            put_text(": right\n");
            right++;
        } else {
            put_text(": wrong\n");
        }
    }
    return right;
}
