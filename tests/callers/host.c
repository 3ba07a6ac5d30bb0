/* Calls the library as programs do that have threads, children, signals of their own or closed streams. Prints what is wrong, if anything. */
#define _GNU_SOURCE
#include <pthread.h>
#include <signal.h>
#include <stdio.h>
#include <stdlib.h>
#include <sys/time.h>
#include <sys/wait.h>
#include <unistd.h>

#include "hedravos.h"

static const uint32_t trace[] = {5, 6, 7, 5, 8, 6, 5, 7};
static volatile sig_atomic_t ticks;

/* Whether every rule's count is right, so often. */
static int right(int times) {
    static const uint32_t faults[] = {6, 5, 5, 6};
    for (int i = 0; i < times; i++)
        for (uint32_t rule = 1; rule <= 4; rule++) {
            uint32_t answer[] = {9, 9, 9};
            hedravos_count(rule, 3, trace, 8, answer, 3);
            if (answer[0] != 0 || answer[1] != 0 || answer[2] != faults[rule - 1]) return 0;
        }
    return 1;
}

static void *in_a_thread(void *none) { return right(200) ? none : (void *)trace; }

static void tick(int number) { ticks += number > 0; }

static void hold(const char *what, int fine) {
    if (!fine) fprintf(stderr, "wrong: %s\n", what);
    if (!fine) exit(1);
}

/* Whether a child that answers this ends well. */
static int child(int (*body)(void)) {
    int status;
    pid_t made = fork();
    if (made == 0) _exit(body() ? 0 : 1);
    return made > 0 && waitpid(made, &status, 0) == made && status == 0;
}

static int plainly(void) { return right(20); }

static int with_closed_streams(void) {
    close(0);
    close(1);
    return right(20);
}

int main(void) {
    pthread_t threads[8];
    struct sigaction action = {.sa_handler = tick};
    struct itimerval often = {{0, 200}, {0, 200}}, never = {{0, 0}, {0, 0}};
    hold("a child that calls first", child(with_closed_streams));
    hold("calls", right(20));
    hold("a child of a program that has called", child(plainly) && right(20));
    for (int i = 0; i < 8; i++) pthread_create(&threads[i], NULL, in_a_thread, NULL);
    for (int i = 0; i < 20; i++) hold("a child made while others call", child(plainly));
    for (int i = 0; i < 8; i++) {
        void *wrong;
        pthread_join(threads[i], &wrong);
        hold("threads", wrong == NULL);
    }
    sigaction(SIGALRM, &action, NULL);
    setitimer(ITIMER_REAL, &often, NULL);
    for (int i = 0; i < 1000000 && ticks < 9; i++) hold("signals", right(1));
    setitimer(ITIMER_REAL, &never, NULL);
    hold("signals came", ticks > 0);
    hold("no child is left to wait for", wait(NULL) < 0);
    puts("fine");
    return 0;
}
