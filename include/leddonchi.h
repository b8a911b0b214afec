/* leddonchi.h: the range lock table that threads share, for C and C++.
 *
 * A table has 1 to 16 trees. A transaction, a number from 1, holds ranges of keys in a tree: byte strings of up to 63 bytes, both ends in
 * the range. No two transactions hold ranges that overlap.
 *
 * lt_open makes a table with up to 17 handles. Each thread calls through a handle of its own; one handle is in one call at a time, and goes
 * to another thread only behind a lock, a join or the like. No call waits. A call that meets a row which another handle is at work on
 * answers LT_BUSY, with nothing changed but the trees that it joined before: back off, and call again.
 *
 * What you hand in is tested, and LT_BAD_ARGUMENT answers what is wrong. Only this is up to you: each pointer points to what its length
 * says, never NULL, even for a length of 0; the slices and the handles of a call do not overlap; a handle is all 0 bytes or as a call
 * left it. */
#ifndef LEDDONCHI_H
#define LEDDONCHI_H

#include <stdbool.h>
#include <stddef.h>
#include <stdint.h>

#ifdef __cplusplus
extern "C" {
#endif

/* All bytes 0 is a handle that is not open. Never read, write or copy the fields. */
struct lt_handle {
    bool is_open;
    void *at;
};
#define LT_HANDLE_INIT { false, NULL }

enum lt_status {
    LT_GRANTED = 0,  /* the transaction holds the range now */
    LT_BUFFERED = 1, /* it holds the range, in a buffer of its own */
    LT_HELD = 2,     /* others hold ranges that overlap: count of them */
    LT_DONE = 3,     /* any other call that did what it is for */
    LT_BUSY = 4,     /* the row and its holder, a handle by its number in lt_open, are told; call again later */
    LT_BAD_ARGUMENT = 100,
    LT_OUT_OF_MEMORY = 101,
    LT_OUT_OF_LOCKS = 102, /* behind the joins of all trees the rows in use, count of them, have still reached the limit */
    LT_HISTORY_FULL = 103  /* 2^39 events have been made */
};

struct lt_answer {
    uint32_t status; /* an lt_status */
    uint32_t joins;  /* how many trees the call joined: those of an ask at the limit stay joined, whatever it answers */
    uint64_t count;  /* holders, ranges that went, ranges behind a join, or rows in use */
    uint64_t place;  /* the number of the event, or the number that the next one has */
    uint32_t row;
    uint32_t holder;
};

struct lt_counts {
    uint64_t granted; /* asks that were granted or buffered */
    uint64_t held;    /* asks that others stood against */
    uint64_t busy;    /* calls that were busy */
    uint64_t joins;   /* trees that were joined */
};

/* Opens a table with a handle for each of these, 1 to 17, all of which were shut: 1 to 16 trees, a limit of 1 to 65,536 rows, a buffer of up
 * to 65,536 rows for a tree that one transaction has for itself (0: none). LT_DONE; else all are as they were. */
struct lt_answer lt_open(struct lt_handle *handles, size_t handles_len, uint32_t trees, uint64_t limit, uint64_t buffer);

/* TryLock: asks for a range. LT_GRANTED, LT_BUFFERED or LT_HELD: as many holders as there is room for are written, ascending. Where the rows in
 * use have reached the limit it joins all trees first. */
struct lt_answer lt_ask(struct lt_handle *handle, uint64_t txn, uint32_t tree, const uint8_t *left, size_t left_len, const uint8_t *right,
                        size_t right_len, uint64_t *holders, size_t holders_len);

/* UnLock: frees the transaction's ranges that overlap the range; count of them went. first: the first free of a release in this tree. */
struct lt_answer lt_free(struct lt_handle *handle, uint64_t txn, uint32_t tree, const uint8_t *left, size_t left_len, const uint8_t *right,
                         size_t right_len, bool first);

/* Frees all that the transaction holds in a tree, by one event: count of its ranges went. It drops a buffer of its own whole, which no free
 * of a range does. In a tree without a buffer it goes through all rows, those of others too, and holds them meanwhile: it is for a
 * transaction that has a tree nearly for itself. Where it holds few of many ranges, free each. */
struct lt_answer lt_release(struct lt_handle *handle, uint64_t txn, uint32_t tree);

/* Whose ranges overlap the range, but those of the transaction as_txn: count of them, as many as there is room for are written, ascending. */
struct lt_answer lt_who(struct lt_handle *handle, uint64_t txn, uint64_t as_txn, uint32_t tree, const uint8_t *left, size_t left_len,
                        const uint8_t *right, size_t right_len, uint64_t *holders, size_t holders_len);

/* Escalation: joins each longest run of neighbours of one owner in the tree into one range; count of ranges are left. */
struct lt_answer lt_escalate(struct lt_handle *handle, uint64_t txn, uint32_t tree);

/* GetLockStatus, in short: the rows in use, and the place of the next event. */
struct lt_answer lt_look(struct lt_handle *handle);

/* What came of the calls of this handle; all 0 where it is shut. */
struct lt_counts lt_counters(struct lt_handle *handle);

/* Closes a handle. The last one of a table to be closed frees the table, with whatever is still held in it. */
struct lt_answer lt_close(struct lt_handle *handle);

#ifdef __cplusplus
}
#endif

#endif
