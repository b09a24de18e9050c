// Writes 64 KiB of prose, sentence by sentence, into memory, and prints how many words it has and how many letters e.
#include "calls.h"
#include "print.h"

static const char *const sentences[8] = {
    "The river rose in the night and carried the bridge away. ", "Nobody in the village had seen such a flood before. ",
    "By morning the water stood between the houses. ", "A boat went from door to door and brought bread. ",
    "The miller had moved his grain to the loft in time. ", "Children sat at the windows and counted the ducks. ",
    "On the third day the sun came out, and the mud began to dry. ", "They built the new bridge of stone. "};

static char prose[65536];

static void write_prose(void) {
    unsigned seed = 1;
    const char *from = "";
    for (unsigned at = 0; at < sizeof prose; at++) {
        if (*from == 0) {
            seed = seed * 1664525 + 1013904223;
            from = sentences[seed >> 29];
        }
        prose[at] = *from++;
    }
}

int main(void) {
    unsigned words = 0, letters = 0;
    write_prose();
    for (unsigned at = 0; at < sizeof prose; at++) {
        if (prose[at] > ' ' && (at == 0 || prose[at - 1] <= ' ')) words++;
        if (prose[at] == 'e') letters++;
    }
    print_number(words);
    write_bytes(" ", 1);
    print_number(letters);
    write_bytes("\n", 1);
    return 0;
}
