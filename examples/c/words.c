// Counts the words of its input on a heap that grows, and prints the longest one and the number of all.
#include "calls.h"
#include "print.h"

static char *text;
static unsigned length;

static void read_all(void) {
    text = set_break(0);
    for (;;) {
        char *end = text + length;
        if (set_break(end + 64) != end + 64) break;
        long count = read_bytes(end, 64);
        if (count <= 0) break;
        length += count;
    }
}

int main(void) {
    read_all();
    unsigned words = 0, longest = 0, longest_at = 0, begin = 0;
    for (unsigned at = 0; at <= length; at++) {
        if (at < length && text[at] > ' ') continue;
        if (at > begin) {
            words++;
            if (at - begin > longest) {
                longest = at - begin;
                longest_at = begin;
            }
        }
        begin = at + 1;
    }
    write_bytes(text + longest_at, longest);
    write_bytes("\n", 1);
    print_number(words);
    write_bytes("\n", 1);
    return 0;
}
