// The proved library for x86-64 behind a socket, for callers on another machine; client.c asks it.
// A call is a head, then its numbers, then for each list its bytes, the bytes of one element and whether it is lent to
// be written, all as words; behind them comes what the lists hold. An answer is a head and what the written lists hold.

#include "../../include/hedravos.h"

typedef uint8_t u8;
typedef uint32_t u32;
typedef size_t size;

// The kit's compiler comes without the C library's headers.
long read(int file, void *to, size bytes);
long write(int file, const void *from, size bytes);
void *realloc(void *old, size bytes);
void *memcpy(void *to, const void *from, size bytes);
void *memset(void *to, int value, size bytes);
int memcmp(const void *one, const void *other, size bytes);
int strcmp(const char *one, const char *other);

enum { FIRST = 1 << 16, GUARD = 64, LISTS = 5 };

// The bytes in all come first, and a function's name ends in zeros.
static struct call {
    u32 bytes;
    char function[16];
    u32 numbers;
    u32 lists;
    u32 rest[];
} *call;

// Touched is 0, or which list, counted from 1, was changed where it may not be.
static struct answer {
    u32 bytes;
    u32 touched;
    u8 rest[];
} *answer;

static struct list {
    void *start;
    size length;
    u32 bytes;
    u32 written;
    const u8 *sent;
} lists[LISTS];

// Room for the lists of the call, each with its guards and begun at a whole word.
static u8 *lent;
static u8 guard[GUARD];

// Room for a call of so many bytes, for its answer and for its lists between guards.
static int make_room(size bytes) {
    call = realloc(call, bytes);
    answer = realloc(answer, sizeof *answer + bytes);
    lent = realloc(lent, bytes + LISTS * (2 * GUARD + sizeof(u32)));
    return call && answer && lent;
}

// Reads a whole call; 0 where there is none.
static int take_call(void) {
    static size room;
    size have = 0;
    size wanted = room > FIRST ? room : FIRST;
    do {
        if (wanted > room && !make_room(room = wanted)) return 0;
        long more = read(0, (u8 *)call + have, room - have);
        if (more <= 0) return 0;
        have += more;
        if (have >= sizeof call->bytes) wanted = call->bytes;
    } while (have < sizeof *call || have < wanted);
    return have == wanted && call->lists <= LISTS;
}

// Copies each list to a place of its own, with guards on both sides.
static void lend(void) {
    const u32 *about = call->rest + call->numbers;
    const u8 *sent = (const u8 *)(about + 3 * call->lists);
    u8 *place = lent;
    for (u32 i = 0; i < call->lists; i++, about += 3) {
        u32 bytes = about[0];
        lists[i] = (struct list){place + GUARD, bytes / about[1], bytes, about[2], sent};
        memcpy(place, guard, GUARD);
        memcpy(place + GUARD, sent, bytes);
        memcpy(place + GUARD + bytes, guard, GUARD);
        sent += bytes;
        place += 2 * GUARD + (bytes + 3) / 4 * 4;
    }
}

static int is(const char *function) { return strcmp(call->function, function) == 0; }

#define NUMBER(i) call->rest[i]
#define LIST(i) lists[i].start, lists[i].length

// Whether there is such a function.
static int called(void) {
    if (is("count")) return hedravos_count(NUMBER(0), NUMBER(1), LIST(0), LIST(1)), 1;
    if (is("plan")) return hedravos_plan(NUMBER(0), NUMBER(1), LIST(0), LIST(1), LIST(2)), 1;
    if (is("check")) return hedravos_check(NUMBER(0), LIST(0), LIST(1), LIST(2)), 1;
    if (is("better")) return hedravos_better(NUMBER(0), LIST(0), LIST(1), LIST(2), LIST(3)), 1;
    if (is("better_words")) return hedravos_better_words(NUMBER(0), LIST(0), LIST(1), LIST(2), LIST(3), LIST(4)), 1;
    if (is("fresh")) return hedravos_fresh(NUMBER(0), NUMBER(1), LIST(0), LIST(1)), 1;
    if (is("sound")) return hedravos_sound(LIST(0), LIST(1)), 1;
    if (is("feed")) return hedravos_feed(LIST(0), NUMBER(0), LIST(1), LIST(2)), 1;
    if (is("feed_own")) return hedravos_feed_own(LIST(0), NUMBER(0), LIST(1)), 1;
    if (is("frame")) return hedravos_frame(LIST(0), NUMBER(0), LIST(1)), 1;
    if (is("read")) return hedravos_read(LIST(0), LIST(1), LIST(2), LIST(3)), 1;
    if (is("write")) return hedravos_write(NUMBER(0), NUMBER(1), LIST(0), LIST(1), LIST(2), LIST(3)), 1;
    if (is("report")) return hedravos_report(LIST(0), LIST(1), LIST(2)), 1;
    return 0;
}

static int touched(const struct list *list) {
    const u8 *start = list->start;
    if (memcmp(start - GUARD, guard, GUARD) != 0) return 1;
    if (memcmp(start + list->bytes, guard, GUARD) != 0) return 1;
    return !list->written && memcmp(start, list->sent, list->bytes) != 0;
}

static void fill_answer(void) {
    u8 *place = answer->rest;
    answer->touched = 0;
    for (u32 i = 0; i < call->lists; i++) {
        if (answer->touched == 0 && touched(&lists[i])) answer->touched = i + 1;
        if (!lists[i].written) continue;
        memcpy(place, lists[i].start, lists[i].bytes);
        place += lists[i].bytes;
    }
    answer->bytes = place - (u8 *)answer;
}

static int give_answer(void) {
    for (size gone = 0; gone < answer->bytes;) {
        long more = write(1, (u8 *)answer + gone, answer->bytes - gone);
        if (more <= 0) return 0;
        gone += more;
    }
    return 1;
}

int main(void) {
    memset(guard, 0xBD, GUARD);
    while (take_call()) {
        lend();
        if (!called()) return 1;
        fill_answer();
        if (!give_answer()) return 1;
    }
    return 0;
}
