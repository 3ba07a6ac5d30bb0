/* Keeps tiles in places of its own, one for each frame, as a front end does: which frame a tile is in, or goes to, the library says.
 * The record can be written only while it is fed. Prints each request with its frame, and stops where something is wrong. */
#define _GNU_SOURCE
#include <stdio.h>
#include <stdlib.h>
#include <sys/mman.h>

#include "hedravos.h"

enum { FRAMES = 3, BYTES = 4 * HEDRAVOS_RECORD_WORDS };

static const uint32_t trace[] = {5, 6, 7, 5, 8, 6, 5, 7};
static uint32_t *record;

static void hold(const char *what, int fine) {
    if (!fine) fprintf(stderr, "wrong: %s\n", what);
    if (!fine) exit(1);
}

/* The frame that holds a page, or FRAMES where none does. */
static uint32_t frame_of(uint32_t page) {
    uint32_t answer[] = {9, 9, 9, 9, 9};
    hedravos_frame(record, HEDRAVOS_RECORD_WORDS, page, answer, 5);
    hold("an answer", answer[0] == 0 && answer[1] == 0 && answer[2] <= 1 && answer[4] == 9);
    hold("a frame", answer[2] == 1 ? answer[3] < FRAMES : answer[3] == 0);
    return answer[2] == 1 ? answer[3] : FRAMES;
}

static void guard(int protection) { hold("mprotect", mprotect(record, BYTES, protection) == 0); }

int main(void) {
    uint32_t tiles[FRAMES], answer[4];
    record = mmap(NULL, BYTES, PROT_READ | PROT_WRITE, MAP_PRIVATE | MAP_ANONYMOUS, -1, 0);
    hold("mmap", record != MAP_FAILED);
    hedravos_fresh(HEDRAVOS_LRU, FRAMES, record, HEDRAVOS_RECORD_WORDS, answer, 4);
    hold("a fresh record", answer[0] == 0);
    for (size_t i = 0; i < sizeof trace / sizeof *trace; i++) {
        guard(PROT_READ);
        uint32_t page = trace[i], before = frame_of(page);
        guard(PROT_READ | PROT_WRITE);
        hedravos_feed_own(record, HEDRAVOS_RECORD_WORDS, page, answer, 4);
        guard(PROT_READ);
        uint32_t frame = frame_of(page), kind = answer[2], dropped = answer[3];
        hold("a request", answer[0] == 0 && frame < FRAMES);
        hold("held before exactly at a hit", (before < FRAMES) == (kind == HEDRAVOS_HIT));
        if (kind == HEDRAVOS_HIT) hold("the tile where it was", frame == before && tiles[frame] == page);
        if (kind == HEDRAVOS_DROPPED) hold("in place of the one dropped", tiles[frame] == dropped && frame_of(dropped) == FRAMES);
        tiles[frame] = page;
        printf("%u %s %u\n", (unsigned)page, kind == HEDRAVOS_HIT ? "in" : "into", (unsigned)frame);
    }
    hedravos_frame(record, HEDRAVOS_RECORD_WORDS, HEDRAVOS_MARK, answer, 4);
    hold("the mark", answer[0] == HEDRAVOS_MARK_REQUESTED && answer[1] == 0 && answer[2] == 0 && answer[3] == 0);
    hedravos_frame(record, HEDRAVOS_RECORD_WORDS - 1, 5, answer, 4);
    hold("too few words", answer[0] == HEDRAVOS_UNSOUND_RECORD && answer[1] == 0 && answer[2] == 0 && answer[3] == 0);
    return 0;
}
