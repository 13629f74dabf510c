/* Compares our layout, stores and notification rules with those of <linux/virtio_ring.h>.
 *
 *   compare_header script LAYOUT         writes a script for calls_runs (docs/SCRIPTS.md)
 *   compare_header check LAYOUT LINES    compares what it printed, and prints the result
 *
 * LAYOUT is what layout_runs printed. Both words take the same way through the calls, so that each line is met where it was asked for. What the
 * memory should hold is written through the header's structs alone; after each call that shows bytes, every byte lent is compared with it. */
#include <stdint.h>
#include <stdio.h>
#include <stdlib.h>
#include <string.h>
#include <linux/virtio_ring.h>

enum { PAGE = 4096, ONE = 65536, TWO = 4096, POOL = 65536, POOL_BASE = 131072 };
enum { INDIRECT = 1, EVENT = 2, LEGACY = 4 };
enum { QUIET = 1, BYTES = 2 };

struct layout {
	unsigned n, legacy, table, avail_at, avail, used_at, used, one, two, pool;
};

static _Alignas(PAGE) unsigned char one[ONE], two[TWO], pool[POOL]; /* as the header has it */
static struct vring vr;
static FILE *lines; /* none while the script is written */
static struct layout rows[14];
static const struct layout *now;
static int shown;
static size_t lent_pool;
static long checks;
static unsigned long answer, value;

/* ---- the two ways: a script is written, or its lines are read */

static void fail(const char *what)
{
	fprintf(stderr, "differs: %s (size %u, legacy %u)\n", what, now ? now->n : 0, now ? now->legacy : 0);
	exit(1);
}

/* A comparison, made only where there are lines. */
static void same(const char *what, unsigned long ours, unsigned long header)
{
	if (!lines)
		return;
	checks++;
	if (ours == header)
		return;
	fprintf(stderr, "ours %lu, the header %lu\n", ours, header);
	fail(what);
}

static void put(unsigned long number)
{
	if (!lines)
		printf(" %lu", number);
}

/* A line of bytes, which must be those that the header's structs wrote. */
static void same_bytes(const char *what, const unsigned char *header, size_t most)
{
	static char text[2 * ONE + 2];
	if (!fgets(text, sizeof text, lines))
		fail("a line of bytes is missing");
	size_t count = strcspn(text, "\n") / 2;
	if (count != most)
		fail("another number of bytes than is lent");
	for (size_t i = 0; i < count; i++) {
		unsigned byte;
		if (sscanf(text + 2 * i, "%2x", &byte) != 1)
			fail("a byte");
		same(what, byte, header[i]);
	}
}

/* The line of an operation that was just asked for. */
static void told(unsigned operation)
{
	char text[512];
	unsigned long number;
	if (!lines) {
		putchar('\n');
		return;
	}
	if (!fgets(text, sizeof text, lines) || sscanf(text, "%lu %lu %lu", &number, &answer, &value) != 3)
		fail("a line is missing");
	if (number != operation)
		fail("a line of another operation");
	if (shown != BYTES)
		return;
	same_bytes("region one", one, now->one);
	same_bytes("region two", two, now->two);
	same_bytes("the pool", pool, lent_pool);
}

/* ---- operations */

static size_t from(const void *base, const void *place)
{
	return (size_t)((const char *)place - (const char *)base);
}

static void call(unsigned operation, unsigned long number)
{
	put(operation);
	put(number);
	told(operation);
	same("an answer", answer, 0);
}

/* Bytes that new does not clear keep what calls_runs set them to. */
static void clear(void)
{
	memset(one, 165, ONE);
	memset(two, 165, TWO);
	memset(pool, 165, POOL);
	memset(vr.desc, 0, vr.num * sizeof *vr.desc);
	memset(vr.avail, 0, from(vr.avail, &vring_used_event(&vr) + 1));
	memset(vr.used, 0, from(vr.used, &vring_avail_event(&vr) + 1));
	for (unsigned i = 0; i + 1 < vr.num; i++)
		vr.desc[i].next = (__u16)(i + 1);
}

static void fresh(const struct layout *row, unsigned modes, int show)
{
	now = row;
	shown = show;
	lent_pool = modes & INDIRECT ? row->pool : 0;
	vring_init(&vr, row->n, one, PAGE);
	if (!row->legacy)
		vr.used = (void *)two;
	clear();
	put(1);
	put(row->n);
	put(modes | (row->legacy ? LEGACY : 0));
	put(row->one);
	put(row->two);
	put(lent_pool);
	put(show);
	told(1);
	same("new", answer, 0);
}

/* Buffer j of a list: the first is an input, the others outputs. */
static unsigned long addr_of(unsigned j) { return 0x123456789abc0000 + 0x1000 * j; }
static unsigned long size_of(unsigned j) { return 0x01020304 + j; }

static void list_call(unsigned operation, unsigned long token, unsigned first, unsigned k)
{
	put(operation);
	put(token);
	put(k);
	put(k);
	put(k);
	for (unsigned j = 0; j < k; j++)
		put(addr_of(first + j));
	for (unsigned j = 0; j < k; j++)
		put(size_of(first + j));
	for (unsigned j = 0; j < k; j++)
		put(j > 0);
	told(operation);
	same("an answer to a list", answer, 0);
}

/* A device's store to the used ring, at the place that the header names; the machine is little-endian, as the queue is. */
static void device(void *place, unsigned width, unsigned long number)
{
	memcpy(place, &number, width);
	if (!lines)
		printf("13 %u %zu %u %lu\n", now->legacy ? 0 : 1, from(now->legacy ? one : two, place), width, number);
}

static void forge_index(unsigned field, unsigned number)
{
	if (!lines)
		printf("14 %u %u 0 0\n", field, number);
}

/* ---- sizes and places */

static void compare_layout(const struct layout *row)
{
	now = row;
	vring_init(&vr, row->n, one, PAGE);
	size_t avail_end = from(one, &vring_used_event(&vr) + 1);
	size_t used_end = from(one, &vring_avail_event(&vr) + 1);
	same("table size", row->table, row->n * sizeof(struct vring_desc));
	same("available ring's place", row->avail_at, from(one, vr.avail));
	same("available ring's size", row->avail, avail_end - from(one, vr.avail));
	same("used ring's size", row->used, used_end - from(one, vr.used));
	same("pool", row->pool, row->n * row->n * sizeof(struct vring_desc));
	if (row->legacy) {
		same("used ring's place", row->used_at, from(one, vr.used));
		same("end", row->used_at + row->used, vring_size(row->n, PAGE));
		same("region one", row->one, (vring_size(row->n, PAGE) + PAGE - 1) / PAGE * PAGE);
		same("region two", row->two, 0);
	} else {
		same("used ring's place", row->used_at, 0);
		same("region one", row->one, avail_end);
		same("region two", row->two, used_end - from(one, vr.used));
	}
}

/* ---- what our calls store and load */

/* Buffer j of a list of k that starts with buffer first: a descriptor of the chain, or an entry of the list. */
static void expect_buffer(struct vring_desc *d, unsigned first, unsigned j, unsigned k)
{
	d->addr = addr_of(first + j);
	d->len = (__u32)size_of(first + j);
	d->flags = (__u16)((j + 1 < k ? VRING_DESC_F_NEXT : 0) | (j > 0 ? VRING_DESC_F_WRITE : 0));
}

/* The i-th chain made available, at head. */
static void expect_available(unsigned i, unsigned head)
{
	vr.avail->ring[i % vr.num] = (__u16)head;
	vr.avail->idx = (__u16)(i + 1);
}

/* A list of n in the first slot of the pool. */
static void expect_list(unsigned n)
{
	struct vring_desc *list = (struct vring_desc *)pool;
	for (unsigned j = 0; j < n; j++) {
		expect_buffer(&list[j], 0, j, n);
		list[j].next = (__u16)(j + 1);
	}
	vr.desc[0].addr = POOL_BASE;
	vr.desc[0].len = (__u32)(n * sizeof *list);
	vr.desc[0].flags = VRING_DESC_F_INDIRECT;
}

/* A freed descriptor keeps its flags. */
static void expect_free(unsigned i)
{
	vr.desc[i].addr = 0;
	vr.desc[i].len = 0;
}

/* A device gives back the chain at head as element i. */
static void give_back(unsigned i, unsigned head, unsigned length)
{
	device(&vr.used->ring[i % vr.num].id, 4, head);
	device(&vr.used->ring[i % vr.num].len, 4, length);
	device(&vr.used->idx, 2, i + 1);
}

/* A chain of all n descriptors, or an indirect list of n, added, given back and popped. */
static void compare_chain(const struct layout *row, unsigned modes)
{
	unsigned n = row->n, indirect = (modes & INDIRECT) && n > 1;
	fresh(row, modes, BYTES);
	if (indirect)
		expect_list(n);
	for (unsigned j = 0; j < n && !indirect; j++)
		expect_buffer(&vr.desc[j], 0, j, n);
	expect_available(0, 0);
	list_call(2, 0, 0, n);
	give_back(0, 0, 0x0a0b0c0d);
	for (unsigned j = 0; j < n && !indirect; j++)
		expect_free(j);
	if (modes & EVENT)
		vring_used_event(&vr) = 1;
	list_call(4, 0, 0, n);
	same("the device's length", value, 0x0a0b0c0d);
}

/* n chains of one buffer, given back in the other order: every ring slot, and every used element. */
static void compare_slots(const struct layout *row)
{
	unsigned n = row->n;
	fresh(row, EVENT, BYTES);
	for (unsigned i = 0; i < n; i++) {
		expect_buffer(&vr.desc[i], i, 0, 1);
		expect_available(i, i);
		list_call(2, 0, i, 1);
		same("token", value, i);
	}
	for (unsigned i = 0; i < n; i++)
		give_back(i, n - 1 - i, 7 + i);
	for (unsigned i = 0; i < n; i++) {
		unsigned head = n - 1 - i;
		expect_free(head);
		vr.desc[head].next = (__u16)(i == 0 ? 0 : head + 1);
		vring_used_event(&vr) = (__u16)(i + 1);
		list_call(4, head, head, 1);
		same("an element's length", value, 7 + i);
	}
}

/* ---- notification */

/* With avail_idx 1, event 0 asks and event 1 does not: of all places in the used ring only the header's avail_event alters our answer. */
static void compare_event_place(const struct layout *row)
{
	fresh(row, EVENT, QUIET);
	list_call(2, 0, 0, 1);
	__u16 *ring = (__u16 *)vr.used;
	for (unsigned i = 0; 2 * i < row->used; i++) {
		device(&ring[i], 2, 1);
		call(11, 0);
		same("avail_event's place", value, &ring[i] != &vring_avail_event(&vr));
		device(&ring[i], 2, 0);
	}
}

static void compare_flags(const struct layout *row)
{
	static const unsigned flags[] = { 0, 1, 2, 3, 32768, 65534, 65535 };
	fresh(row, 0, BYTES);
	for (unsigned i = 0; i < sizeof flags / sizeof *flags; i++) {
		device(&vr.used->flags, 2, flags[i]);
		call(11, 0);
		same("notification by flags", value, !(flags[i] & VRING_USED_F_NO_NOTIFY));
	}
	vr.avail->flags = VRING_AVAIL_F_NO_INTERRUPT;
	call(12, 0);
	vr.avail->flags = 0;
	call(12, 1);
}

/* Our rule has no memory of the last question, the header's has: old is c entries before new. */
struct count {
	unsigned agree, more, less;
	unsigned more_at[2], less_at[2]; /* the smallest new and event */
};
enum { NEAR = 16, MOST = 5 };

static void tally(struct count *c, unsigned entries, unsigned new, unsigned event)
{
	unsigned header = vring_need_event((__u16)event, (__u16)new, (__u16)(new - entries));
	unsigned *at = value ? c->more_at : c->less_at;
	unsigned *differ = value ? &c->more : &c->less;
	if (value == header) {
		c->agree++;
		return;
	}
	if (*differ == 0 || new < at[0] || (new == at[0] && event < at[1])) {
		at[0] = new;
		at[1] = event;
	}
	++*differ;
}

/* All pairs of an index and an event index within NEAR of the wrap. */
static void compare_events(const struct layout *row, struct count *counts)
{
	fresh(row, EVENT, QUIET);
	for (int i = -NEAR; i < NEAR; i++)
		for (int j = -NEAR; j < NEAR; j++) {
			unsigned new = (__u16)i, event = (__u16)j;
			forge_index(3, new);
			forge_index(4, new);
			device(&vring_avail_event(&vr), 2, event);
			call(11, 0);
			same("document 01's rule", value, (__u16)(event + 1) <= new);
			for (unsigned c = 0; c < MOST; c++)
				tally(&counts[c], c, new, event);
		}
}

/* ---- the whole */

static void read_layout(const char *name)
{
	FILE *f = fopen(name, "r");
	for (int i = 0; i < 14; i++) {
		struct layout *r = &rows[i];
		if (!f
		    || fscanf(f, " n %u legacy %u table %u avail_at %u avail %u used_at %u used %u one %u two %u pool %u", &r->n, &r->legacy, &r->table,
			      &r->avail_at, &r->avail, &r->used_at, &r->used, &r->one, &r->two, &r->pool) != 10) {
			fprintf(stderr, "%s: no layout\n", name);
			exit(2);
		}
		if (r->n != 1u << i / 2 || r->legacy != (unsigned)i % 2 || r->one > ONE || r->two > TWO || r->pool > POOL)
			fail("a row of the layout");
	}
	fclose(f);
}

static void say(const char *text)
{
	if (lines)
		printf("%s: %ld comparisons agree\n", text, checks);
	checks = 0;
}

static void say_layout(void)
{
	if (!lines)
		return;
	puts("size layout   table available   at used   at region one region two");
	for (int i = 0; i < 14; i++)
		printf("%4u %-8s %5u %9u %4u %4u %4u %10u %10u\n", rows[i].n, rows[i].legacy ? "legacy" : "flexible", rows[i].table, rows[i].avail,
		       rows[i].avail_at, rows[i].used, rows[i].used_at, rows[i].one, rows[i].two);
}

static void say_events(const struct count *counts)
{
	if (!lines)
		return;
	puts("By event index, ours (the crate's rule) against vring_need_event(event, new, new - c), new and event within 16 of the wrap, 1,024 pairs:");
	for (unsigned c = 0; c < MOST; c++) {
		printf("c = %u: %u agree", c, counts[c].agree);
		printf("; only ours notifies in %u", counts[c].more);
		if (counts[c].more)
			printf(", first at new %u, event %u", counts[c].more_at[0], counts[c].more_at[1]);
		printf("; only the header's in %u", counts[c].less);
		if (counts[c].less)
			printf(", first at new %u, event %u", counts[c].less_at[0], counts[c].less_at[1]);
		putchar('\n');
	}
}

static void compare(void)
{
	struct count counts[MOST];
	memset(counts, 0, sizeof counts);
	say_layout();
	for (int i = 0; i < 14; i++)
		compare_layout(&rows[i]);
	say("Sizes and places of the parts, by vring_init and vring_size at 4,096");
	for (int i = 0; i < 14; i++)
		for (unsigned modes = 0; modes < LEGACY; modes++)
			compare_chain(&rows[i], modes);
	say("A chain of N, direct and indirect, with event indices and without: every byte lent, and the length given back");
	for (int i = 0; i < 14; i++)
		compare_slots(&rows[i]);
	say("N chains of one: every byte lent, tokens and lengths");
	for (int i = 0; i < 14; i++)
		compare_event_place(&rows[i]);
	say("The place of avail_event, alone of all in the used ring");
	for (int i = 0; i < 14; i++)
		compare_flags(&rows[i]);
	say("Notification by flags, both ways");
	compare_events(&rows[0], counts);
	say("Ours by event index is avail_idx >= (avail_event + 1) mod 65,536");
	say_events(counts);
}

int main(int argc, char **argv)
{
	int check = argc == 4 && strcmp(argv[1], "check") == 0;
	if (!check && !(argc == 3 && strcmp(argv[1], "script") == 0)) {
		fprintf(stderr, "compare_header script LAYOUT | check LAYOUT LINES\n");
		return 2;
	}
	read_layout(argv[2]);
	if (check && !(lines = fopen(argv[3], "r"))) {
		perror(argv[3]);
		return 2;
	}
	compare();
	if (check && getc(lines) != EOF)
		fail("lines are left");
	return 0;
}
