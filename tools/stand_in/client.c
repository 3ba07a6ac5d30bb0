// Stands in for the proved library on a machine that isn't x86-64: each function asks a server (server.c) that is linked
// with the library and runs under the kit's emulator. Calls take turns. Where the server can't be relied on, the
// program stops: no answer is made up.

#define _GNU_SOURCE
#include "../../include/hedravos.h"

#include <errno.h>
#include <fcntl.h>
#include <pthread.h>
#include <stdio.h>
#include <stdlib.h>
#include <string.h>
#include <sys/socket.h>
#include <sys/wait.h>
#include <unistd.h>

#if __BYTE_ORDER__ != __ORDER_LITTLE_ENDIAN__
#error "lists go over as they lie in memory, and on x86-64 a word's lowest byte comes first"
#endif

struct list {
    void *start;
    size_t length;
    size_t element;
    uint32_t written;
};

struct head {
    uint32_t bytes;
    char function[16];
    uint32_t numbers;
    uint32_t lists;
};

static pthread_mutex_t turn = PTHREAD_MUTEX_INITIALIZER;
static pid_t owner;
static int server;

// A call and its answer go over whole: many small parts would take longer than the call.
static char *message;

static _Noreturn void stop(const char *function, const char *what) {
    fprintf(stderr, "hedravos_%s: the library under the emulator %s\n", function, what);
    abort();
}

// A program that has forked gets a server of its own, whatever its other threads were doing.
static void forget_server(void) {
    if (owner != 0) close(server);
    owner = 0;
    message = NULL;
    turn = (pthread_mutex_t)PTHREAD_MUTEX_INITIALIZER;
}

// Becomes the server, out of reach of the program's own children and of what is typed at its terminal.
static void serve(int socket) {
    int end = fcntl(socket, F_DUPFD, 3);
    if (setsid() < 0 || fork() != 0) _exit(0);
    dup2(end, 0);
    dup2(end, 1);
    // What the program has open is not for the server to keep.
    for (int other = 3; other < 65536; other++) close(other);
    execl(TOOLS "/bin/qemu-x86_64", "qemu-x86_64", "-cpu", "qemu64", TOOLS "/lib/ld-linux-x86-64.so.2", "--library-path",
          TOOLS "/lib", SERVER, (char *)NULL);
    _exit(127);
}

static void start_server(const char *function) {
    static int watched;
    int ends[2];
    if (owner == getpid()) return;
    if (!watched && pthread_atfork(NULL, NULL, forget_server) != 0) stop(function, "can't be started");
    watched = 1;
    if (socketpair(AF_UNIX, SOCK_STREAM | SOCK_CLOEXEC, 0, ends) != 0) stop(function, "can't be reached");
    pid_t child = fork();
    if (child < 0) stop(function, "can't be started");
    if (child == 0) serve(ends[1]);
    while (waitpid(child, NULL, 0) < 0 && errno == EINTR) {}
    close(ends[1]);
    server = ends[0];
    owner = getpid();
}

static void give(const char *function, const char *from, size_t bytes) {
    while (bytes > 0) {
        ssize_t gone = send(server, from, bytes, MSG_NOSIGNAL);
        if (gone < 0 && errno == EINTR) continue;
        if (gone <= 0) stop(function, "takes no call");
        from += gone;
        bytes -= gone;
    }
}

static char *append(char *end, const void *from, size_t bytes) {
    if (bytes > 0) memcpy(end, from, bytes);
    return end + bytes;
}

static void send_call(const char *function, const uint32_t *numbers, uint32_t how_many, const struct list *lists, uint32_t count) {
    size_t bytes = sizeof(struct head) + 4 * how_many + 12 * count;
    for (uint32_t i = 0; i < count; i++) {
        if (lists[i].length > (UINT32_C(1) << 28)) stop(function, "takes no list so long");
        bytes += lists[i].length * lists[i].element;
    }
    if (bytes > (UINT32_C(1) << 31)) stop(function, "takes no lists so long");
    message = realloc(message, bytes);
    if (!message) stop(function, "finds no room for the call");
    struct head head = {bytes, "", how_many, count};
    strncpy(head.function, function, sizeof head.function - 1);
    char *end = append(append(message, &head, sizeof head), numbers, 4 * how_many);
    for (uint32_t i = 0; i < count; i++) {
        uint32_t about[] = {lists[i].length * lists[i].element, lists[i].element, lists[i].written};
        end = append(end, about, sizeof about);
    }
    for (uint32_t i = 0; i < count; i++) end = append(end, lists[i].start, lists[i].length * lists[i].element);
    give(function, message, bytes);
}

// The answer has a head of two words and what the written lists hold, which was sent too: there is room for it.
static void take_answer(const char *function, const struct list *lists, uint32_t count) {
    uint32_t head[2] = {0, 0};
    size_t awaited = sizeof head;
    for (uint32_t i = 0; i < count; i++) awaited += lists[i].written * lists[i].length * lists[i].element;
    for (size_t have = 0; have < awaited;) {
        ssize_t come = recv(server, message + have, awaited - have, 0);
        if (come < 0 && errno == EINTR) continue;
        if (come <= 0) stop(function, "gives no answer");
        have += come;
        if (have < sizeof head) continue;
        memcpy(head, message, sizeof head);
        if (head[0] != awaited) stop(function, "answers by too few or too many bytes");
    }
    if (head[1] != 0) stop(function, "sees it write where it may not, in or around a list");
    const char *place = message + sizeof head;
    for (uint32_t i = 0; i < count; i++) {
        size_t bytes = lists[i].written * lists[i].length * lists[i].element;
        if (bytes > 0) memcpy(lists[i].start, place, bytes);
        place += bytes;
    }
}

static void ask(const char *function, const uint32_t *numbers, uint32_t how_many, const struct list *lists, uint32_t count) {
    pthread_mutex_lock(&turn);
    start_server(function);
    send_call(function, numbers, how_many, lists, count);
    take_answer(function, lists, count);
    pthread_mutex_unlock(&turn);
}

#define KEPT(list) {(void *)list, list##_length, sizeof *list, 0}
#define WRITTEN(list) {list, list##_length, sizeof *list, 1}
#define LISTS(...) (struct list[]){__VA_ARGS__}, sizeof((struct list[]){__VA_ARGS__}) / sizeof(struct list)
#define NUMBERS(...) (uint32_t[]){__VA_ARGS__}, sizeof((uint32_t[]){__VA_ARGS__}) / sizeof(uint32_t)
#define NO_NUMBERS NULL, 0

void hedravos_count(uint32_t rule, uint32_t n, const uint32_t *trace, size_t trace_length, uint32_t *answer, size_t answer_length) {
    ask("count", NUMBERS(rule, n), LISTS(KEPT(trace), WRITTEN(answer)));
}

void hedravos_plan(uint32_t rule, uint32_t n, const uint32_t *trace, size_t trace_length, uint32_t *words, size_t words_length,
                   uint32_t *answer, size_t answer_length) {
    ask("plan", NUMBERS(rule, n), LISTS(KEPT(trace), WRITTEN(words), WRITTEN(answer)));
}

void hedravos_check(uint32_t m, const uint32_t *trace, size_t trace_length, const uint32_t *words, size_t words_length,
                    uint32_t *answer, size_t answer_length) {
    ask("check", NUMBERS(m), LISTS(KEPT(trace), KEPT(words), WRITTEN(answer)));
}

void hedravos_better(uint32_t m, const uint32_t *trace, size_t trace_length, const uint32_t *first, size_t first_length,
                     const uint32_t *second, size_t second_length, uint32_t *answer, size_t answer_length) {
    ask("better", NUMBERS(m), LISTS(KEPT(trace), KEPT(first), KEPT(second), WRITTEN(answer)));
}

void hedravos_better_words(uint32_t m, const uint32_t *trace, size_t trace_length, const uint32_t *first, size_t first_length,
                           const uint32_t *second, size_t second_length, uint32_t *words, size_t words_length,
                           uint32_t *answer, size_t answer_length) {
    ask("better_words", NUMBERS(m), LISTS(KEPT(trace), KEPT(first), KEPT(second), WRITTEN(words), WRITTEN(answer)));
}

void hedravos_fresh(uint32_t rule, uint32_t n, uint32_t *cache, size_t cache_length, uint32_t *answer, size_t answer_length) {
    ask("fresh", NUMBERS(rule, n), LISTS(WRITTEN(cache), WRITTEN(answer)));
}

void hedravos_sound(const uint32_t *cache, size_t cache_length, uint32_t *answer, size_t answer_length) {
    ask("sound", NO_NUMBERS, LISTS(KEPT(cache), WRITTEN(answer)));
}

void hedravos_feed(const uint32_t *cache, size_t cache_length, uint32_t page, uint32_t *next, size_t next_length,
                   uint32_t *answer, size_t answer_length) {
    ask("feed", NUMBERS(page), LISTS(KEPT(cache), WRITTEN(next), WRITTEN(answer)));
}

void hedravos_feed_own(uint32_t *cache, size_t cache_length, uint32_t page, uint32_t *answer, size_t answer_length) {
    ask("feed_own", NUMBERS(page), LISTS(WRITTEN(cache), WRITTEN(answer)));
}

void hedravos_frame(const uint32_t *cache, size_t cache_length, uint32_t page, uint32_t *answer, size_t answer_length) {
    ask("frame", NUMBERS(page), LISTS(KEPT(cache), WRITTEN(answer)));
}

void hedravos_read(const uint8_t *bytes, size_t bytes_length, uint32_t *requests, size_t requests_length,
                   uint32_t *plan, size_t plan_length, uint32_t *answer, size_t answer_length) {
    ask("read", NO_NUMBERS, LISTS(KEPT(bytes), WRITTEN(requests), WRITTEN(plan), WRITTEN(answer)));
}

void hedravos_write(uint32_t n, uint32_t m, const uint32_t *trace, size_t trace_length, const uint32_t *plan, size_t plan_length,
                    uint8_t *room, size_t room_length, uint32_t *answer, size_t answer_length) {
    ask("write", NUMBERS(n, m), LISTS(KEPT(trace), KEPT(plan), WRITTEN(room), WRITTEN(answer)));
}

void hedravos_report(const uint8_t *file, size_t file_length, uint8_t *room, size_t room_length, uint32_t *answer, size_t answer_length) {
    ask("report", NO_NUMBERS, LISTS(KEPT(file), WRITTEN(room), WRITTEN(answer)));
}
