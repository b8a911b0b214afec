/* Two threads of an engine, each with a handle of one table: a grant, a refusal with its holder, an escalation, and asks side by side. */
#include "leddonchi.h"

#include <inttypes.h>
#include <pthread.h>
#include <sched.h>
#include <stdio.h>
#include <string.h>

enum { KEYS = 500, ROOM = 4 };

static struct lt_handle handles[2];
static pthread_mutex_t gate = PTHREAD_MUTEX_INITIALIZER;
static pthread_cond_t moved = PTHREAD_COND_INITIALIZER;
static int turn;

static void wait_for(int mine) {
    pthread_mutex_lock(&gate);
    while (turn != mine) pthread_cond_wait(&moved, &gate);
    pthread_mutex_unlock(&gate);
}

static void next_turn(void) {
    pthread_mutex_lock(&gate);
    turn++;
    pthread_cond_broadcast(&moved);
    pthread_mutex_unlock(&gate);
}

/* Asks until the table is not busy. */
static struct lt_answer ask(struct lt_handle *handle, uint64_t txn, const char *left, const char *right, uint64_t *holders) {
    for (;;) {
        struct lt_answer answer = lt_ask(handle, txn, 0, (const uint8_t *)left, strlen(left), (const uint8_t *)right, strlen(right), holders, ROOM);
        if (answer.status != LT_BUSY) return answer;
        sched_yield();
    }
}

static struct lt_answer free_range(struct lt_handle *handle, uint64_t txn, const char *left, const char *right) {
    for (;;) {
        struct lt_answer answer =
            lt_free(handle, txn, 0, (const uint8_t *)left, strlen(left), (const uint8_t *)right, strlen(right), true);
        if (answer.status != LT_BUSY) return answer;
        sched_yield();
    }
}

static void tell_ask(uint64_t txn, const char *left, const char *right, struct lt_answer answer, const uint64_t *holders) {
    printf("%" PRIu64 " asks for %s to %s: ", txn, left, right);
    if (answer.status == LT_GRANTED) printf("granted");
    else if (answer.status == LT_HELD) {
        printf("held by");
        for (uint64_t i = 0; i < answer.count && i < ROOM; i++) printf(" %" PRIu64, holders[i]);
    } else printf("status %" PRIu32, answer.status);
    if (answer.joins) printf(", behind %" PRIu32 " join", answer.joins);
    printf("\n");
}

static void ask_and_tell(struct lt_handle *handle, uint64_t txn, const char *left, const char *right) {
    uint64_t holders[ROOM] = { 0 };
    tell_ask(txn, left, right, ask(handle, txn, left, right, holders), holders);
}

/* Asks for so many keys that no other asks for, and tells how many were granted. */
static int ask_for_keys(struct lt_handle *handle, uint64_t txn) {
    int granted = 0;
    for (int i = 0; i < KEYS; i++) {
        char key[16];
        uint64_t holders[ROOM];
        snprintf(key, sizeof key, "%" PRIu64 "-%03d", txn, i);
        granted += ask(handle, txn, key, key, holders).status == LT_GRANTED;
    }
    return granted;
}

static int granted[2];

static void *first(void *unused) {
    struct lt_handle *handle = &handles[0];
    wait_for(0);
    ask_and_tell(handle, 1, "apple", "cherry");
    next_turn();
    wait_for(2);
    ask_and_tell(handle, 1, "damson", "elder");
    ask_and_tell(handle, 1, "fig", "grape");
    next_turn();
    wait_for(4);
    granted[0] = ask_for_keys(handle, 1);
    return unused;
}

static void *second(void *unused) {
    struct lt_handle *handle = &handles[1];
    wait_for(1);
    ask_and_tell(handle, 2, "banana", "date");
    next_turn();
    wait_for(3);
    printf("%" PRIu64 " rows are in use\n", lt_look(handle).count);
    printf("2 escalates: %" PRIu64 " range is left\n", lt_escalate(handle, 2, 0).count);
    ask_and_tell(handle, 2, "czar", "czar");
    next_turn();
    granted[1] = ask_for_keys(handle, 2);
    return unused;
}

int main(void) {
    if (lt_open(handles, 2, 1, 2000, 0).status != LT_DONE) return 1;
    pthread_t one, two;
    if (pthread_create(&one, NULL, first, NULL) || pthread_create(&two, NULL, second, NULL)) return 1;
    pthread_join(one, NULL);
    pthread_join(two, NULL);
    printf("side by side: 1 was granted %d keys, 2 was granted %d\n", granted[0], granted[1]);
    printf("%" PRIu64 " rows are in use\n", lt_look(&handles[0]).count);
    printf("1 frees all: %" PRIu64 " ranges\n", free_range(&handles[0], 1, "", "~").count);
    ask_and_tell(&handles[1], 2, "banana", "date");
    for (int i = 0; i < 2; i++) {
        struct lt_counts counts = lt_counters(&handles[i]);
        printf("handle %d: %" PRIu64 " granted, %" PRIu64 " held, %" PRIu64 " joins\n", i, counts.granted, counts.held, counts.joins);
    }
    printf("closed: %d\n", (lt_close(&handles[0]).status == LT_DONE) + (lt_close(&handles[1]).status == LT_DONE));
    printf("closed again: %d\n", lt_close(&handles[0]).status == LT_BAD_ARGUMENT);
    return 0;
}
