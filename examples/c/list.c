// Walks a list of 8,192 records eight times, and exits with a sum of what they hold modulo 64. The records are linked in
// a scattered order: each pointer leads anywhere in their 128 KiB, and what stands beside it is small.
#include "calls.h"

enum { COUNT = 8192, WALKS = 8 };

struct record {
    struct record *next;
    unsigned weight, level, marked;
};

static struct record records[COUNT];

static void link_all(void) {
    unsigned seed = 1;
    for (unsigned at = 0; at < COUNT; at++) {
        records[at] = (struct record){&records[at], at % 7, at & 3, at & 1};
    }
    // Each record is a ring of its own at first. A swap joins it to the ring of another, so in the end all are in one.
    for (unsigned at = COUNT - 1; at > 0; at--) {
        seed = seed * 1664525 + 1013904223;
        unsigned other = (seed >> 8) % at;
        struct record *next = records[at].next;
        records[at].next = records[other].next;
        records[other].next = next;
    }
}

int main(void) {
    unsigned sum = 0;
    link_all();
    struct record *at = records;
    for (unsigned step = 0; step < WALKS * COUNT; step++) {
        sum = 3 * sum + (at->marked ? at->weight : at->level);
        at = at->next;
    }
    return sum % 64;
}
