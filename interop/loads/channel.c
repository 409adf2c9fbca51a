/*
 * The memory of the channel's calls: laid for each call, and named for the table.
 */
#include "channel.h"

#include <stdio.h>
#include <stdlib.h>

struct guc_sender sender;
struct guc_receiver receiver;
struct guc_whole_sender whole_sender;
struct guc_whole_receiver whole_receiver;
struct guc_descriptor desc;
uint32_t msg[GUC_MESSAGE_DWORDS], out[GUC_MESSAGE_DWORDS];
size_t n, msg_len, out_len;
uint32_t ring_size = N;

enum { OUTSIDE = 256 };
static uint32_t ring_memory[OUTSIDE + MOST_N + OUTSIDE];
uint32_t *const ring = ring_memory + OUTSIDE;

void must(uint32_t code)
{
	if (code == GUC_OK)
		return;
	fprintf(stderr, "a call that prepares another answered %u\n", code);
	exit(1);
}

void lay(uint32_t own, uint32_t len, int pending)
{
	uint32_t k;

	n = ring_size;
	msg_len = len;
	out_len = GUC_MESSAGE_DWORDS;
	must(guc_open(&sender, &receiver, &desc, ring, n));
	must(guc_whole_open(&whole_sender, &whole_receiver, &desc, ring, n));
	sender.words[AT_OWN] = receiver.words[AT_OWN] = own;
	whole_sender.own = whole_receiver.own = own;
	for (k = 0; k < len; k++)
		msg[k] = k > 1 ? 0xD0000000u + k : k ? 0x10000020u : 0x43210000u + len - 1;
	for (k = 0; k < len && pending; k++)
		ring[(own + k) % ring_size] = msg[k];
	desc.head = own;
	desc.tail = pending ? (own + len) % ring_size : own;
}

void lent_two(const uint32_t *n_of, const uint32_t *own_of)
{
	lent("n", n_of, 4);
	lent("own", own_of, 4);
}

void lent_state(const uint32_t *w)
{
	lent_two(w + AT_N, w + AT_OWN);
	lent("len", w + AT_LEN, 4);
	lent("moved", w + AT_MOVED, 4);
	lent("copy.header", w + AT_COPY, 4);
	lent("copy.second", w + AT_COPY + 1, 4);
	lent("copy.rest", w + AT_COPY + 2, 4 * 254);
}

void lent_desc(void)
{
	lent("HEAD", &desc.head, 4);
	lent("TAIL", &desc.tail, 4);
	lent("STATUS", &desc.status, 4);
	lent("reserved", desc.reserved, sizeof(desc.reserved));
}

/* count dwords of the ring from one on, around its end where they go there. */
static void lent_run(const char *word, uint32_t from, uint32_t count)
{
	uint32_t at = from % ring_size, straight = count < ring_size - at ? count : ring_size - at;

	lent(word, ring + at, 4 * straight);
	lent(word, ring, 4 * (count - straight));
}

static void lent_outside(void)
{
	lent("ring.outside", ring - OUTSIDE, 4 * OUTSIDE);
	lent("ring.outside", ring + ring_size, 4 * OUTSIDE);
}

void lent_ring(uint32_t own, uint32_t len)
{
	lent_run("ring.header", own, 1);
	lent_run("ring.second", own + 1, 1);
	lent_run("ring.rest", own + 2, len - 2);
	lent_run("ring.else", own + len, ring_size - len);
	lent_outside();
}

void lent_ring_next(uint32_t next)
{
	lent_run("ring.next", next, 1);
	lent_run("ring.else", next + 1, ring_size - 1);
	lent_outside();
}

void lent_ring_left(uint32_t first, uint32_t left)
{
	lent_run("ring.left", first, left);
	lent_run("ring.else", first + left, ring_size - left);
	lent_outside();
}

void lent_message(void)
{
	lent("header", msg, 4);
	lent("second", msg + 1, 4);
	lent("rest", msg + 2, 4 * (msg_len > 2 ? msg_len - 2 : 0));
}
