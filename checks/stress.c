/* Plays random asks, frees, releases, questions and escalations by up to 16 threads on small crowded tables of the C library, and checks what the
 * table answers. Nothing here is proved, and none of it shares code with the library. checks/stress builds and runs it.
 *
 *   stress THREADS SECONDS SEED
 *
 * Each key of each tree has a plain word, its mark. A transaction writes its number there once it was granted a range with the key, finds
 * it unchanged as long as it holds that grant, and clears it before it frees. So whoever is granted a range finds each mark in it clear,
 * or its own; all else is two holders of one key. Keys between a transaction's ranges that a join gave it are not marked: they are only
 * refused to the others.
 *
 * Places of events, holders and counts are checked too: a holder that is named is a transaction which had begun and had not freed all
 * before the call, and at the end the places, the rows in use and the counters add up with what the threads have seen. */
#include "leddonchi.h"

#include <inttypes.h>
#include <pthread.h>
#include <sched.h>
#include <stdarg.h>
#include <stdatomic.h>
#include <stdbool.h>
#include <stdint.h>
#include <stdio.h>
#include <stdlib.h>
#include <string.h>
#include <time.h>

/* The archive is built without the thread sanitizer, which so does not see the order that the row locks give. A call counts as a release
 * of its tree before it, and as an acquisition behind it: what a thread wrote before it freed is then seen by whoever is granted the keys
 * later. That order is taken on trust; two holders of one key still race on its mark. */
#if defined(__has_feature)
#if __has_feature(thread_sanitizer)
#define SEES_THREADS
#endif
#endif
#if defined(__SANITIZE_THREAD__) || defined(SEES_THREADS)
#include <sanitizer/tsan_interface.h>
#define LET_GO(at) __tsan_release(at)
#define TAKE_UP(at) __tsan_acquire(at)
#else
#define LET_GO(at) ((void)(at))
#define TAKE_UP(at) ((void)(at))
#endif

enum { KEYS = 64, MOST_TREES = 4, MOST_THREADS = 16, MOST_GRANTS = 24, ROOM = 17, LONGEST = 63, PATIENCE = 30 };

/* A table of a round. The keys are two digits behind so many letters, which differ in their last bytes alone. */
struct setup {
    uint32_t trees;
    uint64_t limit, buffer;
    size_t letters;
};
static const struct setup setups[] = {
    { 1, 48, 0, 0 }, { 4, 48, 0, 61 }, { 1, 48, 8, 0 }, { 4, 48, 16, 7 }, { 2, 20, 4, 0 }, { 3, 400, 64, 30 },
};
enum { SETUPS = sizeof setups / sizeof *setups };

/* What a thread has seen, in sum over all rounds. */
struct seen {
    uint64_t granted, buffered, held, busy, out_of_locks, joins, frees, questions, txns;
};

struct range {
    uint32_t tree;
    unsigned left, right;
};

/* A grant of the transaction at work. It is whole until the transaction frees a range in the tree, since that may free more than was asked
 * for; then its keys are not marked any more. */
struct grant {
    struct range range;
    bool whole;
};

struct worker {
    unsigned index;
    uint64_t random, txn, next_place;
    struct seen seen;
    struct grant grants[MOST_GRANTS];
    unsigned grants_len;
    uint64_t ended[MOST_THREADS]; /* as they were before the call at work */
    char padding[128];
};

/* A key's bytes. */
struct key {
    uint8_t bytes[LONGEST];
    size_t len;
};

static const struct setup *setup;
static unsigned threads;
static struct lt_handle handles[MOST_THREADS];
static struct worker workers[MOST_THREADS];
static uint64_t marks[MOST_TREES][KEYS];
static char trees_order[MOST_TREES];
static struct key keys[KEYS];
static atomic_bool is_over;

/* How many transactions of each thread have begun, and have freed all. Those of a round go on with the numbers of the last one. */
static struct {
    atomic_uint_fast64_t begun, ended;
    char padding[112];
} lives[MOST_THREADS];

/* Says what was found, and ends the run. */
static _Noreturn void found(const struct worker *worker, const char *format, ...) {
    va_list rest;
    va_start(rest, format);
    flockfile(stdout);
    printf("stress: found, with %" PRIu32 " trees, a limit of %" PRIu64 " and a buffer of %" PRIu64 ": ", setup->trees, setup->limit,
           setup->buffer);
    if (worker) printf("thread %u, transaction %" PRIu64 ": ", worker->index, worker->txn);
    vprintf(format, rest);
    printf("\n");
    fflush(stdout);
    _Exit(1);
}

/* Random numbers: xorshift64. */
static uint64_t draw(struct worker *worker) {
    uint64_t x = worker->random;
    x ^= x << 13;
    x ^= x >> 7;
    x ^= x << 17;
    worker->random = x;
    return x >> 11;
}

static unsigned below(struct worker *worker, unsigned bound) {
    return (unsigned)(draw(worker) % bound);
}

/* Most ranges have few keys; some have up to all of them. */
static struct range some_range(struct worker *worker) {
    static const unsigned widths[] = { 1, 1, 1, 2, 2, 3, 4, 8, 16, KEYS };
    unsigned width = 1 + below(worker, widths[below(worker, sizeof widths / sizeof *widths)]);
    unsigned left = below(worker, KEYS - width + 1);
    return (struct range){ below(worker, setup->trees), left, left + width - 1 };
}

static double now(void) {
    struct timespec time;
    clock_gettime(CLOCK_MONOTONIC, &time);
    return (double)time.tv_sec + (double)time.tv_nsec / 1e9;
}

/* Backs off behind the busy answer number so many of one call. A call that has been busy for half a minute is a finding. */
static void back_off(struct worker *worker, unsigned tries, double since) {
    if (tries <= 4) {
        sched_yield();
        return;
    }
    unsigned shift = tries < 14 ? tries - 4 : 10;
    nanosleep(&(struct timespec){ .tv_nsec = (long)(500u << shift) }, NULL);
    if (tries % 64 == 0 && now() - since > PATIENCE) found(worker, "a call has been busy for %d seconds", PATIENCE);
}

/* A busy answer names a row of the table, and another handle. */
static void check_busy(struct worker *worker, struct lt_answer answer) {
    uint64_t rows = setup->trees + 1 + setup->limit + threads;
    if (answer.row >= rows) found(worker, "busy with row %" PRIu32 " of %" PRIu64, answer.row, rows);
    if (answer.holder >= threads || answer.holder == worker->index) found(worker, "busy with handle %" PRIu32, answer.holder);
}

/* An event's place comes behind those of the thread's earlier events. */
static void check_place(struct worker *worker, uint64_t place) {
    if (place < worker->next_place) found(worker, "an event at place %" PRIu64 ", below %" PRIu64, place, worker->next_place);
    worker->next_place = place + 1;
}

enum call { ASK, FREE, RELEASE, WHO, ESCALATE };

/* One call, of whichever kind. */
struct asked {
    enum call call;
    struct range range;
    uint64_t as_txn;
    bool first;
    uint64_t *holders;
    size_t room;
};

static struct lt_answer call_once(struct worker *worker, const struct asked *asked) {
    struct lt_handle *handle = &handles[worker->index];
    uint32_t tree = asked->range.tree;
    const struct key *left = &keys[asked->range.left], *right = &keys[asked->range.right];
    switch (asked->call) {
    case ASK:
        return lt_ask(handle, worker->txn, tree, left->bytes, left->len, right->bytes, right->len, asked->holders, asked->room);
    case FREE: return lt_free(handle, worker->txn, tree, left->bytes, left->len, right->bytes, right->len, asked->first);
    case RELEASE: return lt_release(handle, worker->txn, tree);
    case WHO:
        return lt_who(handle, worker->txn, asked->as_txn, tree, left->bytes, left->len, right->bytes, right->len, asked->holders,
                      asked->room);
    default: return lt_escalate(handle, worker->txn, tree);
    }
}

/* Makes a call until it is not busy. The joins of the busy tries are counted with the others. */
static struct lt_answer call(struct worker *worker, const struct asked *asked) {
    double since = 0;
    for (unsigned i = 0; i < threads; i++) worker->ended[i] = atomic_load(&lives[i].ended);
    for (unsigned tries = 1;; tries++) {
        LET_GO(&trees_order[asked->range.tree]);
        struct lt_answer answer = call_once(worker, asked);
        TAKE_UP(&trees_order[asked->range.tree]);
        worker->seen.joins += answer.joins;
        if (answer.joins > (asked->call == ASK ? setup->trees : asked->call == ESCALATE)) {
            found(worker, "call %d answers %" PRIu32 " joins", asked->call, answer.joins);
        }
        if (answer.status != LT_BUSY) return answer;
        check_busy(worker, answer);
        worker->seen.busy++;
        if (tries == 1) since = now();
        back_off(worker, tries, since);
    }
}

/* A transaction that is named as a holder is none of these, had begun, and had not freed all before the call. */
static void check_holder(struct worker *worker, uint64_t holder, uint64_t but) {
    uint64_t thread = (holder - 1) % threads, number = (holder - 1) / threads;
    if (holder == 0 || holder == but) found(worker, "%" PRIu64 " is named as a holder", holder);
    if (number >= atomic_load(&lives[thread].begun)) found(worker, "%" PRIu64 " is a holder, and never was", holder);
    if (number < worker->ended[thread]) found(worker, "%" PRIu64 " is a holder, and freed all before", holder);
}

/* The holders are ascending, no more than there are threads, and what lies behind them is as it was. */
static void check_holders(struct worker *worker, const uint64_t *holders, size_t room, uint64_t count, uint64_t but) {
    if (count > threads) found(worker, "%" PRIu64 " holders, of %u threads", count, threads);
    for (size_t i = 0; i < ROOM; i++) {
        if (i >= room || i >= count) {
            if (holders[i] != UINT64_MAX) found(worker, "holder %zu is written, of %" PRIu64 " in a room of %zu", i, count, room);
            continue;
        }
        check_holder(worker, holders[i], but);
        if (i > 0 && holders[i - 1] >= holders[i]) found(worker, "holders %" PRIu64 ", %" PRIu64, holders[i - 1], holders[i]);
    }
}

/* The marks of a range that is held by one grant are the transaction's. */
static void check_marks(struct worker *worker, struct range range) {
    for (unsigned key = range.left; key <= range.right; key++) {
        uint64_t mark = marks[range.tree][key];
        if (mark != worker->txn) {
            found(worker, "key %u of tree %" PRIu32 " is held, and has the mark of %" PRIu64, key, range.tree, mark);
        }
    }
}

/* Marks the keys of a range that was just granted. */
static void mark(struct worker *worker, struct range range) {
    for (unsigned key = range.left; key <= range.right; key++) {
        uint64_t mark = marks[range.tree][key];
        if (mark != 0 && mark != worker->txn) {
            found(worker, "key %u of tree %" PRIu32 " is granted, and has the mark of %" PRIu64, key, range.tree, mark);
        }
        marks[range.tree][key] = worker->txn;
    }
}

/* Checks the marks of the whole grants in a tree, and clears them: behind that, anything in the tree may be freed. */
static void clear_marks(struct worker *worker, uint32_t tree) {
    for (unsigned i = 0; i < worker->grants_len; i++) {
        struct grant *grant = &worker->grants[i];
        if (grant->whole && grant->range.tree == tree) check_marks(worker, grant->range);
    }
    for (unsigned i = 0; i < worker->grants_len; i++) {
        struct grant *grant = &worker->grants[i];
        if (!grant->whole || grant->range.tree != tree) continue;
        for (unsigned key = grant->range.left; key <= grant->range.right; key++) marks[tree][key] = 0;
        grant->whole = false;
    }
}

/* A whole grant, if a random one is. */
static struct grant *some_grant(struct worker *worker) {
    if (worker->grants_len == 0) return NULL;
    struct grant *grant = &worker->grants[below(worker, worker->grants_len)];
    return grant->whole ? grant : NULL;
}

static void take_grant(struct worker *worker, struct range range) {
    mark(worker, range);
    worker->grants[worker->grants_len++] = (struct grant){ range, true };
}

/* Asks for a range, and returns whether the transaction may go on. An own range is never refused. */
static bool ask(struct worker *worker, struct range range, bool is_own) {
    uint64_t holders[ROOM];
    memset(holders, 0xff, sizeof holders);
    size_t room = below(worker, ROOM + 1);
    struct lt_answer answer = call(worker, &(struct asked){ .call = ASK, .range = range, .holders = holders, .room = room });
    bool is_event = answer.status <= LT_HELD;
    if (is_event) check_place(worker, answer.place);
    if (is_event && answer.joins != 0 && answer.joins != setup->trees) found(worker, "an event behind %" PRIu32 " joins", answer.joins);
    switch (answer.status) {
    case LT_BUFFERED:
        if (setup->buffer == 0) found(worker, "a buffer, and the table has none");
        worker->seen.buffered++;
        break;
    case LT_GRANTED: worker->seen.granted++; break;
    case LT_HELD:
        worker->seen.held++;
        if (answer.count == 0) found(worker, "a refusal names no holder");
        if (is_own) found(worker, "an own range is refused");
        check_holders(worker, holders, room, answer.count, worker->txn);
        return below(worker, 3) != 0;
    case LT_OUT_OF_LOCKS:
        worker->seen.out_of_locks++;
        if (answer.joins != setup->trees) found(worker, "out of locks behind %" PRIu32 " joins", answer.joins);
        if (answer.count < setup->limit || answer.count > setup->limit + threads) found(worker, "out of %" PRIu64 " locks", answer.count);
        check_holders(worker, holders, room, 0, 0);
        return false;
    default: found(worker, "an ask answers %" PRIu32, answer.status);
    }
    check_holders(worker, holders, room, 0, 0);
    take_grant(worker, range);
    return true;
}

/* A free or a release, of keys whose marks are clear; returns how many ranges went. */
static uint64_t freed(struct worker *worker, const struct asked *asked) {
    struct lt_answer answer = call(worker, asked);
    if (answer.status != LT_DONE) found(worker, "a free answers %" PRIu32, answer.status);
    check_place(worker, answer.place);
    worker->seen.frees++;
    if (answer.count > worker->grants_len) found(worker, "%" PRIu64 " ranges went, of %u grants", answer.count, worker->grants_len);
    return answer.count;
}

static uint64_t free_range(struct worker *worker, struct range range, bool first) {
    return freed(worker, &(struct asked){ .call = FREE, .range = range, .first = first });
}

/* Asks who holds a range. */
static uint64_t who(struct worker *worker, struct range range, uint64_t as_txn, uint64_t holders[ROOM]) {
    memset(holders, 0xff, ROOM * sizeof *holders);
    struct lt_answer answer =
        call(worker, &(struct asked){ .call = WHO, .range = range, .as_txn = as_txn, .holders = holders, .room = ROOM });
    if (answer.status != LT_DONE) found(worker, "a question answers %" PRIu32, answer.status);
    check_place(worker, answer.place);
    check_holders(worker, holders, ROOM, answer.count, as_txn);
    worker->seen.questions++;
    return answer.count;
}

/* Asks about any range, or about one that the transaction holds by one grant: it alone holds that, and nobody else stands against it. */
static void question(struct worker *worker) {
    uint64_t holders[ROOM];
    struct grant *grant = some_grant(worker);
    if (grant == NULL) {
        who(worker, some_range(worker), 1 + draw(worker), holders);
    } else if (below(worker, 2)) {
        if (who(worker, grant->range, worker->txn, holders) != 0) found(worker, "%" PRIu64 " holds a part of an own range", holders[0]);
    } else if (who(worker, grant->range, UINT64_MAX, holders) != 1 || holders[0] != worker->txn) {
        found(worker, "an own range is not held, or not alone");
    }
    if (grant != NULL) check_marks(worker, grant->range);
}

static void escalate(struct worker *worker) {
    struct lt_answer answer = call(worker, &(struct asked){ .call = ESCALATE, .range = some_range(worker) });
    if (answer.status != LT_DONE || answer.joins != 1) found(worker, "an escalation answers %" PRIu32, answer.status);
    if (answer.count > setup->limit + threads || answer.count > KEYS) found(worker, "a join leaves %" PRIu64 " ranges", answer.count);
    check_place(worker, answer.place);
}

/* Frees one random range or a grant in the midst of the transaction. */
static void free_some(struct worker *worker) {
    struct grant *grant = some_grant(worker);
    struct range range = grant ? grant->range : some_range(worker);
    clear_marks(worker, range.tree);
    if (free_range(worker, range, false) == 0 && grant) found(worker, "a free of an own range frees nothing");
}

/* Asks for a part of what the transaction holds by one grant. */
static bool ask_own(struct worker *worker) {
    struct grant *grant = some_grant(worker);
    if (grant == NULL) return true;
    struct range range = grant->range;
    range.left += below(worker, range.right - range.left + 1);
    range.right -= below(worker, range.right - range.left + 1);
    return ask(worker, range, true);
}

static void expect_bad(struct worker *worker, const char *what, struct lt_answer answer) {
    if (answer.status != LT_BAD_ARGUMENT || answer.joins != 0) found(worker, "%s: the answer is %" PRIu32, what, answer.status);
}

/* Calls with wrong arguments, which change nothing. */
static void call_wrongly(struct worker *worker) {
    struct lt_handle *handle = &handles[worker->index];
    const struct key *low = &keys[0], *high = &keys[KEYS - 1];
    uint64_t holders[1];
    uint8_t long_key[LONGEST + 1] = { 0 };
    expect_bad(worker, "no transaction", lt_ask(handle, 0, 0, low->bytes, low->len, high->bytes, high->len, holders, 1));
    expect_bad(worker, "ends that are swapped", lt_ask(handle, worker->txn, 0, high->bytes, high->len, low->bytes, low->len, holders, 1));
    expect_bad(worker, "a long key", lt_ask(handle, worker->txn, 0, low->bytes, low->len, long_key, sizeof long_key, holders, 1));
    expect_bad(worker, "no tree", lt_free(handle, worker->txn, setup->trees, low->bytes, low->len, high->bytes, high->len, false));
    expect_bad(worker, "a release in no tree", lt_release(handle, worker->txn, setup->trees));
    expect_bad(worker, "a question for none", lt_who(handle, worker->txn, 0, 0, low->bytes, low->len, high->bytes, high->len, holders, 1));
    expect_bad(worker, "a join of no tree", lt_escalate(handle, worker->txn, setup->trees));
    expect_bad(worker, "an open handle", lt_open(handle, 1, 1, 1, 0));
}

/* Looks at the table: no row more is in use than there are. */
static void look(struct worker *worker) {
    struct lt_answer answer = lt_look(&handles[worker->index]);
    if (answer.status != LT_DONE || answer.joins != 0) found(worker, "a look answers %" PRIu32, answer.status);
    if (answer.count > setup->limit + threads) found(worker, "%" PRIu64 " rows are in use", answer.count);
    if (answer.place < worker->next_place) found(worker, "the next place is %" PRIu64 ", below %" PRIu64, answer.place, worker->next_place);
}

/* One step of a transaction; returns whether it goes on. */
static bool step(struct worker *worker) {
    unsigned chosen = below(worker, 100);
    if (chosen < 70) return ask(worker, some_range(worker), false);
    if (chosen < 78) return ask_own(worker);
    if (chosen < 86) question(worker);
    else if (chosen < 91) free_some(worker);
    else if (chosen < 94) escalate(worker);
    else if (chosen < 96) look(worker);
    else if (chosen < 97) call_wrongly(worker);
    else sched_yield();
    return true;
}

/* Frees all that was granted in a tree: by a release, by one free of all keys that there are, or range by range. Each of the transaction's
 * ranges overlaps one of the grants, whatever was joined. */
static void release_tree(struct worker *worker, uint32_t tree) {
    bool first = true;
    unsigned how = below(worker, 4);
    clear_marks(worker, tree);
    if (how == 0) {
        freed(worker, &(struct asked){ .call = RELEASE, .range = { .tree = tree } });
        return;
    }
    if (how == 1) {
        free_range(worker, (struct range){ tree, 0, KEYS - 1 }, true);
        return;
    }
    for (unsigned i = 0; i < worker->grants_len; i++) {
        if (worker->grants[i].range.tree != tree) continue;
        free_range(worker, worker->grants[i].range, first);
        first = false;
    }
}

/* A transaction that has freed all holds nothing. */
static void check_gone(struct worker *worker) {
    uint64_t holders[ROOM];
    struct range all = { below(worker, setup->trees), 0, KEYS - 1 };
    uint64_t count = who(worker, all, UINT64_MAX, holders);
    for (uint64_t i = 0; i < count; i++) {
        if (holders[i] == worker->txn) found(worker, "it freed all, and is a holder");
    }
}

static void play(struct worker *worker) {
    uint64_t number = atomic_fetch_add(&lives[worker->index].begun, 1);
    worker->txn = number * threads + worker->index + 1;
    worker->grants_len = 0;
    unsigned steps = 1 + below(worker, MOST_GRANTS);
    while (steps-- > 0 && step(worker)) {
    }
    for (uint32_t tree = 0; tree < setup->trees; tree++) release_tree(worker, tree);
    if (below(worker, 8) == 0) check_gone(worker);
    worker->seen.txns++;
    atomic_store(&lives[worker->index].ended, number + 1);
    /* A rest now and then lets a tree run empty, so that buffers begin. */
    if (below(worker, 64) == 0) nanosleep(&(struct timespec){ .tv_nsec = 1000000 }, NULL);
}

static void *work(void *at) {
    while (!atomic_load(&is_over)) play(at);
    return NULL;
}

/* The keys of a round: ascending, with the same letters in front. */
static void write_keys(void) {
    for (unsigned i = 0; i < KEYS; i++) {
        memset(keys[i].bytes, 'k', setup->letters);
        keys[i].bytes[setup->letters] = (uint8_t)('0' + i / 10);
        keys[i].bytes[setup->letters + 1] = (uint8_t)('0' + i % 10);
        keys[i].len = setup->letters + 2;
    }
}

/* The counters of a handle say what its thread has seen in the round. */
static void check_counters(struct worker *worker, const struct seen *before) {
    const struct seen *seen = &worker->seen;
    struct lt_counts counts = lt_counters(&handles[worker->index]);
    uint64_t granted = seen->granted + seen->buffered - before->granted - before->buffered;
    if (counts.granted != granted) found(worker, "%" PRIu64 " grants are counted, of %" PRIu64, counts.granted, granted);
    if (counts.held != seen->held - before->held) found(worker, "%" PRIu64 " refusals are counted", counts.held);
    if (counts.busy != seen->busy - before->busy) found(worker, "%" PRIu64 " busy calls are counted", counts.busy);
    if (counts.joins != seen->joins - before->joins) found(worker, "%" PRIu64 " joins are counted", counts.joins);
}

static uint64_t events(const struct seen *seen) {
    return seen->granted + seen->buffered + seen->held + seen->joins + seen->frees + seen->questions;
}

/* The table is as empty as it was, each event has had a place, and no mark is left. */
static void check_end(struct lt_answer empty, const struct seen *before) {
    uint64_t places = empty.place;
    for (unsigned i = 0; i < threads; i++) {
        check_counters(&workers[i], &before[i]);
        places += events(&workers[i].seen) - events(&before[i]);
        struct lt_answer end = lt_look(&handles[i]);
        if (end.status != LT_DONE || end.count != empty.count) found(NULL, "%" PRIu64 " rows are in use at the end", end.count);
    }
    struct lt_answer end = lt_look(&handles[0]);
    if (end.place != places) found(NULL, "%" PRIu64 " places for %" PRIu64 " events", end.place, places);
    for (unsigned tree = 0; tree < MOST_TREES; tree++) {
        for (unsigned key = 0; key < KEYS; key++) {
            if (marks[tree][key] != 0) found(NULL, "the mark of %" PRIu64 " is left", marks[tree][key]);
        }
    }
}

/* Once all is free, one transaction may hold all keys of each tree. */
static void check_free(void) {
    uint64_t holders[1] = { 0 };
    const struct key *low = &keys[0], *high = &keys[KEYS - 1];
    for (uint32_t tree = 0; tree < setup->trees; tree++) {
        struct lt_answer answer = lt_ask(&handles[0], UINT64_MAX, tree, low->bytes, low->len, high->bytes, high->len, holders, 1);
        if (answer.status > LT_BUFFERED) found(NULL, "all keys of a free tree: the answer is %" PRIu32, answer.status);
    }
}

static void start(pthread_t *thread, struct worker *worker) {
    if (pthread_create(thread, NULL, work, worker) != 0) {
        printf("stress: no thread could be made\n");
        _Exit(2);
    }
}

static void rest(double seconds) {
    struct timespec time = { (time_t)seconds, (long)((seconds - (double)(time_t)seconds) * 1e9) };
    nanosleep(&time, NULL);
}

/* Opens a table, plays on it for so long, and checks what is left. */
static void round_of(const struct setup *chosen, double seconds) {
    pthread_t made[MOST_THREADS];
    struct seen before[MOST_THREADS];
    setup = chosen;
    write_keys();
    struct lt_answer opened = lt_open(handles, threads, setup->trees, setup->limit, setup->buffer);
    if (opened.status != LT_DONE) found(NULL, "lt_open answers %" PRIu32, opened.status);
    struct lt_answer empty = lt_look(&handles[0]);
    if (empty.status != LT_DONE || empty.count != 0) found(NULL, "a new table has %" PRIu64 " rows in use", empty.count);
    atomic_store(&is_over, false);
    for (unsigned i = 0; i < threads; i++) {
        before[i] = workers[i].seen;
        workers[i].next_place = empty.place;
        start(&made[i], &workers[i]);
    }
    rest(seconds);
    atomic_store(&is_over, true);
    for (unsigned i = 0; i < threads; i++) pthread_join(made[i], NULL);
    check_end(empty, before);
    check_free();
    for (unsigned i = 0; i < threads; i++) {
        if (lt_close(&handles[i]).status != LT_DONE) found(NULL, "a handle could not be closed");
    }
}

static void add(struct seen *sum, const struct seen *seen) {
    sum->granted += seen->granted;
    sum->buffered += seen->buffered;
    sum->held += seen->held;
    sum->busy += seen->busy;
    sum->out_of_locks += seen->out_of_locks;
    sum->joins += seen->joins;
    sum->frees += seen->frees;
    sum->questions += seen->questions;
    sum->txns += seen->txns;
}

static void tell(double seconds) {
    struct seen sum = { 0 };
    for (unsigned i = 0; i < threads; i++) add(&sum, &workers[i].seen);
    printf("stress: %u threads, %" PRIu64 " transactions, asks granted %" PRIu64 ", buffered %" PRIu64 ", held %" PRIu64, threads, sum.txns,
           sum.granted, sum.buffered, sum.held);
    printf(", out of locks %" PRIu64 "; busy %" PRIu64 ", joins %" PRIu64 ", frees %" PRIu64 ", questions %" PRIu64 "; %.1f seconds\n",
           sum.out_of_locks, sum.busy, sum.joins, sum.frees, sum.questions, seconds);
}

/* A number in these bounds; else the usage, and status 2. */
static uint64_t number(const char *word, uint64_t least, uint64_t most) {
    char *end;
    uint64_t value = strtoull(word, &end, 10);
    if (*word < '0' || *word > '9' || *end || value < least || value > most) {
        fprintf(stderr, "usage: stress THREADS SECONDS SEED, with 2 to 16 threads and 1 to 86400 seconds\n");
        exit(2);
    }
    return value;
}

int main(int count, char **words) {
    threads = (unsigned)number(count == 4 ? words[1] : "", 2, MOST_THREADS);
    double seconds = (double)number(words[2], 1, 86400);
    uint64_t seed = number(words[3], 0, UINT64_MAX);
    for (unsigned i = 0; i < threads; i++) {
        workers[i].index = i;
        /* Never 0, which xorshift keeps. */
        workers[i].random = (seed * 2 + 1) * (UINT64_C(0x9E3779B97F4A7C15) + 2 * i);
    }
    /* Each table is played on several times, for a second or so at a time, so that tables are opened, emptied and closed often. */
    unsigned rounds = seconds < SETUPS ? SETUPS : (unsigned)seconds / SETUPS * SETUPS;
    double begun = now();
    for (unsigned i = 0; i < rounds; i++) round_of(&setups[i % SETUPS], seconds / rounds);
    tell(now() - begun);
    return 0;
}
