/* Calls every function of the library with empty lists whose pointers are NULL, and prints the answers. */
#include <stdio.h>

#include "hedravos.h"

static uint32_t answer[8];

static void show(const char *name, size_t numbers) {
    size_t i;
    printf("%s", name);
    for (i = 0; i < numbers; i++) printf(" %u", (unsigned)answer[i]);
    printf("\n");
}

int main(void) {
    hedravos_count(HEDRAVOS_MIN, 256, NULL, 0, answer, 8);
    show("count", 3);
    hedravos_plan(HEDRAVOS_LRU, 1, NULL, 0, NULL, 0, answer, 8);
    show("plan", 3);
    hedravos_check(257, NULL, 0, NULL, 0, answer, 8);
    show("check", 3);
    hedravos_better(1, NULL, 0, NULL, 0, NULL, 0, answer, 8);
    show("better", 4);
    hedravos_better_words(1, NULL, 0, NULL, 0, NULL, 0, NULL, 0, answer, 8);
    show("better_words", 1);
    hedravos_fresh(HEDRAVOS_FIFO, 3, NULL, 0, answer, 8);
    show("fresh", 2);
    hedravos_sound(NULL, 0, answer, 8);
    show("sound", 1);
    hedravos_feed(NULL, 0, 5, NULL, 0, answer, 8);
    show("feed", 4);
    hedravos_feed_own(NULL, 0, 5, answer, 8);
    show("feed_own", 4);
    hedravos_frame(NULL, 0, 5, answer, 8);
    show("frame", 4);
    hedravos_read(NULL, 0, NULL, 0, NULL, 0, answer, 8);
    show("read", 6);
    hedravos_write(3, 2, NULL, 0, NULL, 0, NULL, 0, answer, 8);
    show("write", 3);
    hedravos_report(NULL, 0, NULL, 0, answer, 8);
    show("report", 1);
    /* Without room for an answer nothing is told, and nothing goes wrong. */
    hedravos_count(HEDRAVOS_LRU, 0, NULL, 0, NULL, 0);
    hedravos_frame(NULL, 0, HEDRAVOS_MARK, NULL, 0);
    hedravos_report(NULL, 0, NULL, 0, NULL, 0);
    return 0;
}
