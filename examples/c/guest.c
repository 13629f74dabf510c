/* A guest in C: it takes a queue of 4 into use, sends a list of three buffers, has it back when the device is done, and prints what each call answered. The
 * device is a few stores of this program. It also tries what no queue takes. */
#include <inttypes.h>
#include <stdatomic.h>
#include <stdio.h>
#include "mayketura.h"

enum { N = 4, ONE = 18 * N + 6, TWO = 8 * N + 6, BUFFERS = 3 };

/* The shared memory; there is no pool, and the one byte lent is not read. */
static uint8_t one[ONE], two[TWO], pool[1];

/* The record, whose tables are lent where they stand. */
static struct mayketura_flat queue;

/* A read of one block: what is asked, where the block goes, and where the device says how it went. */
static const uint64_t addrs[BUFFERS] = { 65536, 131072, 65552 };
static const uint32_t sizes[BUFFERS] = { 16, 512, 1 };
static const uint8_t outs[BUFFERS] = { 0, 1, 1 };

#define TABLES queue.words, queue.lens, queue.halves, queue.sides
#define LIST(count) addrs, count, sizes, count, outs, count
#define REGIONS one, ONE, two, TWO, pool, 0

static void report(const char *name, unsigned answer, uint32_t value, uint32_t steps)
{
	printf("%s answer=%u value=%" PRIu32 " steps=%" PRIu32 " used=%u avail_idx=%u last_used_idx=%u\n", name, answer, value, steps,
		(unsigned)queue.plain.num_used, (unsigned)queue.plain.avail_idx, (unsigned)queue.plain.last_used_idx);
}

/* Keeps what a call over the lent tables answered. */
static struct mayketura_lent_answer kept(const char *name, struct mayketura_lent_answer r)
{
	queue.plain = r.plain;
	report(name, r.answer, r.value, r.steps);
	return r;
}

static unsigned made(const char *name, uint32_t n)
{
	struct mayketura_flat_ask ask = { .n = n, .most = 256, .base_one = 4096, .base_two = 8192 };
	static struct mayketura_flat_made r;
	r = mayketura_new(ask, one, ONE, two, TWO, pool, 0);
	printf("%s answer=%u table=%" PRIu64 " avail=%" PRIu64 " used=%" PRIu64 "\n", name, (unsigned)r.answer, r.table, r.avail, r.used);
	queue = r.queue;
	return r.answer;
}

/* What the device reads: the available ring's idx, and the slot before it. */
static unsigned offered(void)
{
	const uint8_t *avail = one + 16 * N;
	unsigned idx = avail[2] + 256u * avail[3];
	const uint8_t *slot = avail + 4 + 2 * ((idx + N - 1) % N);
	unsigned head = slot[0] + 256u * slot[1];
	printf("offered idx=%u head=%u\n", idx, head);
	return head;
}

/* The device fills block and status: an element of the used ring gets the chain's head and 513 bytes, and then used idx is one more. */
static void complete(unsigned head)
{
	uint8_t *element = two + 4 + 8 * (two[2] % N);
	element[0] = (uint8_t)head;
	element[4] = 513 % 256;
	element[5] = 513 / 256;
	two[2]++;
}

static void kept_whole(const char *name, struct mayketura_flat_answer r)
{
	queue = r.queue;
	report(name, r.answer, r.value, r.steps);
}

/* The same with the record by value, which comes back in each answer, while a list of one buffer is out; the device's flags say that it need not be told. */
static void by_value(void)
{
	kept_whole("set_dev_notify by value", mayketura_set_dev_notify(queue, true, REGIONS));
	printf("available flags=%u\n", (unsigned)one[16 * N]);
	two[0] = 1;
	kept_whole("add of one by value", mayketura_add(queue, LIST(1), REGIONS));
	kept_whole("add by value", mayketura_add(queue, LIST(BUFFERS), REGIONS));
	kept_whole("should_notify by value", mayketura_should_notify(queue, REGIONS));
	unsigned head = offered();
	complete(head);
	kept_whole("can_pop by value", mayketura_can_pop(queue, REGIONS));
	kept_whole("peek by value", mayketura_peek_used(queue, REGIONS));
	kept_whole("pop by value", mayketura_pop_used(queue, head, LIST(BUFFERS), REGIONS));
}

/* The list is sent and had back, with the questions that a guest asks on the way. */
static void request(void)
{
	struct mayketura_lent_answer sent = kept("add", mayketura_add_lent(queue.plain, TABLES, LIST(BUFFERS), REGIONS));
	kept("add of three more", mayketura_add_lent(queue.plain, TABLES, LIST(BUFFERS), REGIONS));
	/* what was added is seen before it is asked whether to tell */
	atomic_thread_fence(memory_order_seq_cst);
	if (kept("should_notify", mayketura_should_notify_lent(queue.plain, TABLES, REGIONS)).value == 1)
		printf("the device is notified\n");
	kept("can_pop", mayketura_can_pop_lent(queue.plain, TABLES, REGIONS));
	kept("pop too early", mayketura_pop_used_lent(queue.plain, TABLES, sent.value, LIST(BUFFERS), REGIONS));
	complete(offered());
	kept("can_pop", mayketura_can_pop_lent(queue.plain, TABLES, REGIONS));
	kept("peek", mayketura_peek_used_lent(queue.plain, TABLES, REGIONS));
	kept("pop of two buffers", mayketura_pop_used_lent(queue.plain, TABLES, sent.value, LIST(2), REGIONS));
	kept("pop", mayketura_pop_used_lent(queue.plain, TABLES, sent.value, LIST(BUFFERS), REGIONS));
}

int main(void)
{
	made("new of 3", 3);
	if (made("new", N) != MAYKETURA_OK)
		return 1;
	kept("add of no buffers", mayketura_add_lent(queue.plain, TABLES, LIST(0), REGIONS));
	kept("set_dev_notify", mayketura_set_dev_notify_lent(queue.plain, TABLES, false, REGIONS));
	printf("available flags=%u\n", (unsigned)one[16 * N]);
	request();
	by_value();
	queue.plain.n = 5;
	kept("can_pop of a forged record", mayketura_can_pop_lent(queue.plain, TABLES, REGIONS));
	return 0;
}
