// Four quarters of 96 KiB hold words of four kinds: small numbers, noise, numbers near each other, and zeros with noise among
// them. In each phase the kinds move on by one quarter, so some pages grow while others shrink. Prints a sum of each phase.
#include "calls.h"
#include "print.h"

enum { COUNT = 24576, KINDS = 4, PHASES = 8 };

static unsigned words[COUNT];

static unsigned word_of(unsigned kind, unsigned at, unsigned noise) {
    switch (kind) {
    case 0: return noise >> 29;
    case 1: return noise;
    case 2: return 0x20000000 + 8 * at;
    default: return at % 256 == 0 ? noise : 0;
    }
}

int main(void) {
    unsigned seed = 1;
    for (unsigned phase = 0; phase < PHASES; phase++) {
        unsigned sum = 0;
        for (unsigned at = 0; at < COUNT; at++) {
            seed = seed * 1664525 + 1013904223;
            words[at] = word_of((phase + at / (COUNT / KINDS)) % KINDS, at, seed);
        }
        for (unsigned at = 0; at < COUNT; at++) sum = 33 * sum ^ words[at];
        print_number(sum);
        write_bytes("\n", 1);
    }
    return 0;
}
