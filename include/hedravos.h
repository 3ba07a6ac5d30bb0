/*
 * Hedravos for callers in C: counts of cache faults, eviction plans, a cache record, bundle files and their report.
 * docs/REFERENCE.md tells it all at length; tools/library makes the library to link with.
 *
 * Lists. A list is a pointer and its length in elements, words of 32 bits or bytes. Behind the pointer stand as many
 * elements as told, words at multiples of 4. A list that is written may not overlap another one; and before the call
 * returns nobody else may write to a list, or read one that is written. An empty list may come with any pointer, NULL too.
 *
 * Answers. A function lays its numbers over the front of `answer`, in the order told here. Where `answer` is shorter,
 * the last ones are left out; where it is longer, its other words stay as they were.
 *     number   0, or the refusal's number
 *     place    where it was found: a moment, a byte, or 0
 * A refusal has 0 for every other number, the mark for a page, and changes no list but `answer`; hedravos_fresh and
 * hedravos_feed also write the record that it hands back, where it fits. With several causes, the one that comes first in
 * the order told is given.
 *
 * Nothing is kept between calls: several threads may call at once, each with lists of its own.
 */
#ifndef HEDRAVOS_H
#define HEDRAVOS_H

#include <stddef.h>
#include <stdint.h>

#ifdef __cplusplus
extern "C" {
#endif

/* "No page" in a plan, "no moment" in a record. Pages are 0 to HEDRAVOS_MARK - 1. */
#define HEDRAVOS_MARK UINT32_C(4294967295)

/* Limits and sizes. */
enum {
    HEDRAVOS_FRAMES = 256,        /* most frames of a cache */
    HEDRAVOS_REQUESTS = 8000,     /* most requests of a trace */
    HEDRAVOS_RECORD_WORDS = 1035, /* words of a cache record */
    HEDRAVOS_FILE_BYTES = 64020,  /* bytes of the largest bundle file */
    HEDRAVOS_REPORT_BYTES = 256   /* no report is longer */
};

/* Rules. */
enum {
    HEDRAVOS_LRU = 1,
    HEDRAVOS_FIFO = 2,
    HEDRAVOS_MIN = 3,
    HEDRAVOS_LRU2 = 4
};

/* Kinds: what a request that was fed came to. A refusal has kind 0 beside its number. */
enum {
    HEDRAVOS_HIT = 0,
    HEDRAVOS_LOADED = 1,
    HEDRAVOS_DROPPED = 2
};

/* Refusals. */
enum {
    HEDRAVOS_UNKNOWN_RULE = 1,       /* the rule isn't 1 to 4; for hedravos_fresh, 1, 2 or 4 */
    HEDRAVOS_FRAMES_OUTSIDE = 2,     /* the frames aren't 1 to 256 */
    HEDRAVOS_TRACE_TOO_LONG = 3,     /* more than 8,000 requests */
    HEDRAVOS_MARK_REQUESTED = 4,     /* a request, or a page asked about, is the mark */
    HEDRAVOS_UNSOUND_RECORD = 5,     /* the record isn't sound */
    HEDRAVOS_LENT_TOO_SHORT = 6,     /* a lent list is too short */
    HEDRAVOS_PLAN_BROKEN = 7,        /* a plan's entry breaks the plan rule */
    HEDRAVOS_CLOCK_FULL = 8,         /* the record has served 8,000 requests */
    HEDRAVOS_FILE_CUT = 9,           /* the file ends too early */
    HEDRAVOS_COUNT_NOT_ALLOWED = 10, /* a section's count isn't allowed */
    HEDRAVOS_BYTES_LEFT_OVER = 11,   /* bytes after the last section */
    HEDRAVOS_PLAN_ABOVE_CACHE = 12   /* m is above n */
};

/*
 * Counts the faults of a rule with n frames over the trace, from an empty cache.
 * answer: number, place, faults. Refusals: 1, 2, 3, 4.
 */
void hedravos_count(uint32_t rule, uint32_t n,
                    const uint32_t *trace, size_t trace_length,
                    uint32_t *answer, size_t answer_length);

/*
 * The same, and writes the rule's plan into the first words, one for each request: the page dropped, or the mark.
 * answer: number, place, faults. Refusals: 1, 2, 3, 4, 6 (fewer words than requests).
 */
void hedravos_plan(uint32_t rule, uint32_t n,
                   const uint32_t *trace, size_t trace_length,
                   uint32_t *words, size_t words_length,
                   uint32_t *answer, size_t answer_length);

/*
 * Checks anybody's plan for m frames and counts its faults. Words past the trace's length are not read.
 * answer: number, place, faults. Refusals: 2, 3, 4, 6, 7 (the moment of the first entry that breaks the plan rule).
 */
void hedravos_check(uint32_t m,
                    const uint32_t *trace, size_t trace_length,
                    const uint32_t *words, size_t words_length,
                    uint32_t *answer, size_t answer_length);

/*
 * Says which of two plans for m frames has fewer faults: 1 or 2, the first where they are equal, the accepted one
 * where one is refused; where both are, the first plan's refusal.
 * answer: number, place, which, faults. Refusals: 2, 3, 4, then 6 and 7 of each plan by itself.
 */
void hedravos_better(uint32_t m,
                     const uint32_t *trace, size_t trace_length,
                     const uint32_t *first, size_t first_length,
                     const uint32_t *second, size_t second_length,
                     uint32_t *answer, size_t answer_length);

/*
 * Copies that plan's words, one for each request, to the front of `words`, as many as there is room for.
 * Where hedravos_better refuses, there are none.
 * answer: the trace's length, whatever there was room for; 0 where hedravos_better refuses.
 */
void hedravos_better_words(uint32_t m,
                           const uint32_t *trace, size_t trace_length,
                           const uint32_t *first, size_t first_length,
                           const uint32_t *second, size_t second_length,
                           uint32_t *words, size_t words_length,
                           uint32_t *answer, size_t answer_length);

/*
 * A cache record is 1,035 words: rule, frames, clock; the map of occupied frames in words 3 to 10, where bit b of word
 * 3 + k (bit 0 is worth 1) is that of frame 32 k + b; then page, loaded, last, earlier of frame i from word 11 + 4 i on.
 * In a sound record exactly the lowest bits of the map are set; the reference shows how to read one.
 */

/*
 * Writes an empty cache record of rule 1, 2 or 4 with n frames; refused with 1 or 2, the blank record. Where `cache` has
 * fewer than 1,035 words it stays as it was.
 * answer: number, place. Refusals: 1, 2, 6 (fewer than 1,035 words).
 */
void hedravos_fresh(uint32_t rule, uint32_t n,
                    uint32_t *cache, size_t cache_length,
                    uint32_t *answer, size_t answer_length);

/*
 * Says whether a record is sound; one in fewer than 1,035 words isn't.
 * answer: 1 or 0.
 */
void hedravos_sound(const uint32_t *cache, size_t cache_length,
                    uint32_t *answer, size_t answer_length);

/*
 * Serves one request: takes a record and writes the next one into other words; where it refuses with 5, 4 or 8, the
 * record that it got. Where `cache` or `next` has fewer than 1,035 words, `next` stays as it was.
 * answer: number, place, kind, page dropped (the mark where none was).
 * Refusals: 5 (also fewer than 1,035 words), 4 (place 0), 8, 6 (`next` has fewer than 1,035).
 */
void hedravos_feed(const uint32_t *cache, size_t cache_length,
                   uint32_t page,
                   uint32_t *next, size_t next_length,
                   uint32_t *answer, size_t answer_length);

/*
 * The same, with the record updated where it stands.
 * answer: number, place, kind, page dropped (the mark where none was).
 * Refusals: 5 (also fewer than 1,035 words), 4 (place 0), 8.
 */
void hedravos_feed_own(uint32_t *cache, size_t cache_length,
                       uint32_t page,
                       uint32_t *answer, size_t answer_length);

/*
 * Says which frame holds a page, or that none does. In a sound record at most one does, so the answer is the only one.
 * The frame told is below the number of occupied frames, and its entry has the page. The record is only read.
 * answer: number, place, held (1 where a frame holds the page, else 0), frame (its number; 0 where none holds it).
 * Refusals: 5 (also fewer than 1,035 words), 4 (place 0).
 */
void hedravos_frame(const uint32_t *cache, size_t cache_length,
                    uint32_t page,
                    uint32_t *answer, size_t answer_length);

/*
 * Reads a bundle file: its requests and its plan go to the front of two lists, whose other words stay.
 * answer: number, place, n, m, requests, plan's words (0 where no plan came).
 * Refusals: 9, 10, 11 (the first from the front), 2 (byte 4 or 8), 12, 4 (its byte), 6 (a list shorter than its section).
 */
void hedravos_read(const uint8_t *bytes, size_t bytes_length,
                   uint32_t *requests, size_t requests_length,
                   uint32_t *plan, size_t plan_length,
                   uint32_t *answer, size_t answer_length);

/*
 * Writes a bundle file to the front of `room`; a plan of length 0 is no plan. The plan rule isn't checked.
 * answer: number, place, bytes. Refusals: 2, 12, 3, 4, 10 (a plan of another length than 0 or the trace's), 6.
 */
void hedravos_write(uint32_t n, uint32_t m,
                    const uint32_t *trace, size_t trace_length,
                    const uint32_t *plan, size_t plan_length,
                    uint8_t *room, size_t room_length,
                    uint32_t *answer, size_t answer_length);

/*
 * Puts the report on a bundle file to the front of `room`, as much of its text as there is room for. A refused file
 * has a report too: the line that says so. No zero byte is put behind the text.
 * answer: how many bytes were put.
 */
void hedravos_report(const uint8_t *file, size_t file_length,
                     uint8_t *room, size_t room_length,
                     uint32_t *answer, size_t answer_length);

#ifdef __cplusplus
}
#endif

#endif
