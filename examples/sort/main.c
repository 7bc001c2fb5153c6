/* Sorts some words by insertion, and returns the median. */
#include <stdint.h>

static int32_t words[] = {41, -7, 1000, 3, 3, -250, 77, 12, 0, 5, 999, -1, 64, 8, 23};
#define COUNT (sizeof words / sizeof words[0])

int main(void)
{
    for (unsigned i = 1; i < COUNT; i++) {
        int32_t word = words[i];
        unsigned at = i;
        while (at > 0 && words[at - 1] > word) {
            words[at] = words[at - 1];
            at--;
        }
        words[at] = word;
    }
    return words[COUNT / 2];
}
