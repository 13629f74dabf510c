/* The queue for programs in C11: the structs and functions of crates/exports/src, whose contracts are proved there for whatever is handed in, so long as C keeps
 *
 *   - that a pointer is not null, even where its count is 0, and is good for its count or its array;
 *   - that what a call may write overlaps nothing else that is lent to it;
 *   - that nothing writes what is lent while a call runs. A device that does so is in no contract here: of single loads and stores the rules speak, and
 *     demand 3 (docs/STATEMENTS.md), and these functions only make whole calls;
 *   - that a bool is 0 or 1.
 *
 * A call's loads and stores are plain ones, with no barrier: another processor need not see them in their order, and C cannot place a barrier inside a
 * call, since the single steps are not exported. Between an add and should_notify a guest places a full fence.
 *
 * Stack, as seen on x86-64: the whole of examples/c/guest.c, which has two records of its own, ran in 560 KiB, and did not in 540. By the frames of the
 * archive's code the functions with the record by value take some 115 KiB, mayketura_new some 90, and those over lent tables some 6. */
#ifndef MAYKETURA_H
#define MAYKETURA_H

#include <assert.h>
#include <stdbool.h>
#include <stddef.h>
#include <stdint.h>

#ifdef __cplusplus
extern "C" {
#endif

/* The entries of a record's tables, which have room for a queue of 64. */
enum {
	MAYKETURA_WORDS = 4160,
	MAYKETURA_LENS = 4160,
	MAYKETURA_HALVES = 192,
	MAYKETURA_SIDES = 4096
};

/* The field answer: 0, or why the call was refused. */
enum {
	MAYKETURA_OK = 0,
	MAYKETURA_INVALID_PARAM = 1,   /* add: no buffers, or an input after an output; new: the device's maximum is below the size */
	MAYKETURA_QUEUE_FULL = 2,      /* add */
	MAYKETURA_NOT_READY = 3,       /* pop, peek: the device has given nothing back */
	MAYKETURA_WRONG_TOKEN = 4,     /* pop: the device gave back another */
	MAYKETURA_BAD_SIZE = 5,        /* new: not a power of two up to 64 */
	MAYKETURA_ALREADY_USED = 6,    /* new */
	MAYKETURA_EMPTY_BUFFER = 7,    /* add */
	MAYKETURA_NOT_OUTSTANDING = 8, /* pop */
	MAYKETURA_MISMATCH = 9,        /* pop: not the list that was added */
	MAYKETURA_BAD_RECORD = 12,     /* any call but new */
	MAYKETURA_BAD_REGION = 13      /* any call: too short; new: also off a page, or beyond the last address */
};

/* The record's fields beside its tables; a guest keeps them, and changes none. */
struct mayketura_plain {
	uint16_t n;
	bool indirect;
	bool event_idx;
	bool legacy;
	uint64_t base;
	uint16_t num_used;
	uint16_t free_head;
	uint16_t avail_idx;
	uint16_t last_used_idx;
};

/* The record, with its tables. */
struct mayketura_flat {
	struct mayketura_plain plain;
	uint64_t words[MAYKETURA_WORDS];
	uint32_t lens[MAYKETURA_LENS];
	uint16_t halves[MAYKETURA_HALVES];
	bool sides[MAYKETURA_SIDES];
};

/* What new is asked; the addresses are those that the device knows. */
struct mayketura_flat_ask {
	uint32_t n;         /* the queue's size: a power of two, at most 64 */
	bool in_use;        /* what the transport says of the queue */
	uint32_t most;      /* the device's maximum */
	bool indirect;
	bool event_idx;
	bool legacy;
	uint64_t base_one;  /* of region one: the table and the available ring; in the legacy layout the used ring too */
	uint64_t base_two;  /* of region two: the used ring */
	uint64_t base_pool; /* of the pool: indirect lists */
};

/* What new answers: the three addresses are for the transport. */
struct mayketura_flat_made {
	uint8_t answer;
	uint64_t table;
	uint64_t avail;
	uint64_t used;
	struct mayketura_flat queue;
};

/* What a call answers, with the record after it; steps is how many loads and stores of the lent regions were made. */
struct mayketura_flat_answer {
	uint8_t answer;
	uint32_t value;
	uint32_t steps;
	struct mayketura_flat queue;
};

/* What a call over lent tables answers, with the plain fields after it. */
struct mayketura_lent_answer {
	uint8_t answer;
	uint32_t value;
	uint32_t steps;
	struct mayketura_plain plain;
};

static_assert(sizeof(bool) == 1, "a bool is a byte");
static_assert(sizeof(struct mayketura_plain) == 24, "Plain");
static_assert(sizeof(struct mayketura_flat) == 54424, "Flat");
static_assert(sizeof(struct mayketura_flat_ask) == 40, "FlatAsk");
static_assert(sizeof(struct mayketura_flat_made) == 54456, "FlatMade");
static_assert(sizeof(struct mayketura_flat_answer) == 54440, "FlatAnswer");
static_assert(sizeof(struct mayketura_lent_answer) == 40, "LentAnswer");

/* A list of buffers is as many as there are addresses, inputs (which the device reads) before outputs (which it writes):
 *
 *   addrs, sizes    where each stands, as the device knows it, and its length
 *   outs            0 for an input, any other number for an output; what this or sizes lacks is 0
 *
 * The shared memory is lent as bytes, for a queue of n in the flexible layout:
 *
 *   one     18 n + 6 or more: the table and the available ring
 *   two     8 n + 6 or more: the used ring
 *   pool    16 n n or more in indirect mode, else none
 *
 * In the legacy layout region one has the used ring too, from the next page on: 18 n + 6 and 8 n + 6, each rounded up to a multiple of 4,096; two is not
 * used. */

/* Takes a queue into use. */
struct mayketura_flat_made mayketura_new(
	struct mayketura_flat_ask ask,
	uint8_t *one, size_t one_count,
	uint8_t *two, size_t two_count,
	const uint8_t *pool, size_t pool_count);

/* ---- the record by value */

/* Adds a list; the value is its token. */
struct mayketura_flat_answer mayketura_add(
	struct mayketura_flat q,
	const uint64_t *addrs, size_t addrs_count,
	const uint32_t *sizes, size_t sizes_count,
	const uint8_t *outs, size_t outs_count,
	uint8_t *one, size_t one_count,
	const uint8_t *two, size_t two_count,
	uint8_t *pool, size_t pool_count);

/* Pops the token's list, which is given as it was added; the value is the length that the device told, which nothing bounds. */
struct mayketura_flat_answer mayketura_pop_used(
	struct mayketura_flat q,
	uint32_t token,
	const uint64_t *addrs, size_t addrs_count,
	const uint32_t *sizes, size_t sizes_count,
	const uint8_t *outs, size_t outs_count,
	uint8_t *one, size_t one_count,
	const uint8_t *two, size_t two_count,
	uint8_t *pool, size_t pool_count);

/* The value is the lower 16 bits of the id that the device told next, whatever it is: only a pop holds it against what is outstanding. The list stays. */
struct mayketura_flat_answer mayketura_peek_used(
	struct mayketura_flat q,
	uint8_t *one, size_t one_count,
	const uint8_t *two, size_t two_count,
	uint8_t *pool, size_t pool_count);

/* Tells whether the device has given a list back: the value is 1 or 0. */
struct mayketura_flat_answer mayketura_can_pop(
	struct mayketura_flat q,
	const uint8_t *one, size_t one_count,
	const uint8_t *two, size_t two_count,
	const uint8_t *pool, size_t pool_count);

/* Tells whether the device asks to be notified of what was added: the value is 1 or 0. */
struct mayketura_flat_answer mayketura_should_notify(
	struct mayketura_flat q,
	const uint8_t *one, size_t one_count,
	const uint8_t *two, size_t two_count,
	const uint8_t *pool, size_t pool_count);

/* Tells the device whether to notify; nothing is stored with event indices. */
struct mayketura_flat_answer mayketura_set_dev_notify(
	struct mayketura_flat q,
	bool wanted,
	uint8_t *one, size_t one_count,
	const uint8_t *two, size_t two_count,
	const uint8_t *pool, size_t pool_count);

/* ---- the record's tables lent: a call changes them where they are, and answers the plain fields */

/* Adds a list; the value is its token. */
struct mayketura_lent_answer mayketura_add_lent(
	struct mayketura_plain p,
	uint64_t words[MAYKETURA_WORDS],
	uint32_t lens[MAYKETURA_LENS],
	uint16_t halves[MAYKETURA_HALVES],
	bool sides[MAYKETURA_SIDES],
	const uint64_t *addrs, size_t addrs_count,
	const uint32_t *sizes, size_t sizes_count,
	const uint8_t *outs, size_t outs_count,
	uint8_t *one, size_t one_count,
	const uint8_t *two, size_t two_count,
	uint8_t *pool, size_t pool_count);

/* Pops the token's list, which is given as it was added; the value is the length that the device told, which nothing bounds. */
struct mayketura_lent_answer mayketura_pop_used_lent(
	struct mayketura_plain p,
	uint64_t words[MAYKETURA_WORDS],
	uint32_t lens[MAYKETURA_LENS],
	uint16_t halves[MAYKETURA_HALVES],
	bool sides[MAYKETURA_SIDES],
	uint32_t token,
	const uint64_t *addrs, size_t addrs_count,
	const uint32_t *sizes, size_t sizes_count,
	const uint8_t *outs, size_t outs_count,
	uint8_t *one, size_t one_count,
	const uint8_t *two, size_t two_count,
	uint8_t *pool, size_t pool_count);

/* The value is the lower 16 bits of the id that the device told next, whatever it is: only a pop holds it against what is outstanding. The list stays. */
struct mayketura_lent_answer mayketura_peek_used_lent(
	struct mayketura_plain p,
	uint64_t words[MAYKETURA_WORDS],
	uint32_t lens[MAYKETURA_LENS],
	uint16_t halves[MAYKETURA_HALVES],
	bool sides[MAYKETURA_SIDES],
	uint8_t *one, size_t one_count,
	const uint8_t *two, size_t two_count,
	uint8_t *pool, size_t pool_count);

/* Tells whether the device has given a list back: the value is 1 or 0. */
struct mayketura_lent_answer mayketura_can_pop_lent(
	struct mayketura_plain p,
	const uint64_t words[MAYKETURA_WORDS],
	const uint32_t lens[MAYKETURA_LENS],
	const uint16_t halves[MAYKETURA_HALVES],
	const bool sides[MAYKETURA_SIDES],
	const uint8_t *one, size_t one_count,
	const uint8_t *two, size_t two_count,
	const uint8_t *pool, size_t pool_count);

/* Tells whether the device asks to be notified of what was added: the value is 1 or 0. */
struct mayketura_lent_answer mayketura_should_notify_lent(
	struct mayketura_plain p,
	const uint64_t words[MAYKETURA_WORDS],
	const uint32_t lens[MAYKETURA_LENS],
	const uint16_t halves[MAYKETURA_HALVES],
	const bool sides[MAYKETURA_SIDES],
	const uint8_t *one, size_t one_count,
	const uint8_t *two, size_t two_count,
	const uint8_t *pool, size_t pool_count);

/* Tells the device whether to notify; nothing is stored with event indices. */
struct mayketura_lent_answer mayketura_set_dev_notify_lent(
	struct mayketura_plain p,
	const uint64_t words[MAYKETURA_WORDS],
	const uint32_t lens[MAYKETURA_LENS],
	const uint16_t halves[MAYKETURA_HALVES],
	const bool sides[MAYKETURA_SIDES],
	bool wanted,
	uint8_t *one, size_t one_count,
	const uint8_t *two, size_t two_count,
	const uint8_t *pool, size_t pool_count);

#ifdef __cplusplus
}
#endif

#endif
