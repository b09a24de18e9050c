// Fills 128 KiB with the words of a linear congruential generator, folds them four times, and prints what comes out.
#include "calls.h"
#include "print.h"

enum { COUNT = 32768, FOLDS = 4 };

static unsigned words[COUNT];

int main(void) {
    unsigned seed = 1, sum = 0;
    for (unsigned at = 0; at < COUNT; at++) {
        seed = seed * 1664525 + 1013904223;
        words[at] = seed;
    }
    for (unsigned fold = 0; fold < FOLDS; fold++) {
        for (unsigned at = 0; at < COUNT; at++) sum = 33 * sum ^ words[at];
    }
    print_number(sum);
    write_bytes("\n", 1);
    return 0;
}
