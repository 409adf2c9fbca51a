/*
 * Two threads and two channels, one each way: each thread sends on one and
 * receives on the other, in bursts, so that both rings are often full and often
 * empty. Each dword of each message is checked.
 */
#include "kinds.h"

#include <pthread.h>
#include <stdatomic.h>
#include <stdio.h>
#include <stdlib.h>

/* One thread's end. */
struct end {
	struct channel *out, *in;
	enum kind kind;
	uint64_t out_seed, in_seed, random;
	unsigned long total, sent, received, full, empty;
	unsigned which, len; /* len: L of the message at hand, 0 if it is to be made */
	uint32_t *msg, *got;
};

#define PATIENCE 20.0 /* seconds in which nothing moved, and nothing will */

static atomic_int stop;

static void wrong(const struct end *e, const char *what, uint32_t code)
{
	bad("thread %u, sent %lu, received %lu: %s answered %u, %s", e->which, e->sent, e->received,
	    what, code, guc_strerror(code));
	atomic_store(&stop, 1);
}

/* 1: sent. 0: full, or all is sent, or something was wrong. */
static int send_one(struct end *e)
{
	uint32_t code;

	if (e->sent == e->total)
		return 0;
	if (!e->len)
		e->len = (unsigned)make_message(e->out_seed, e->sent, e->msg);
	code = send_by(e->out, e->kind, &e->random, e->msg, e->len);
	if (code == GUC_OK) {
		e->sent++;
		e->len = 0;
		return 1;
	}
	if (code == GUC_FULL)
		e->full++;
	else
		wrong(e, "a send", code);
	return 0;
}

static void check(struct end *e, size_t len)
{
	uint32_t expected[GUC_MESSAGE_DWORDS];
	size_t k, right = make_message(e->in_seed, e->received, expected);

	if (len != right) {
		bad("message %lu has %zu dwords, not %zu", e->received, len, right);
		atomic_store(&stop, 1);
		return;
	}
	for (k = 0; k < len; k++)
		if (e->got[k] != expected[k]) {
			bad("dword %zu of message %lu is %08x, not %08x", k, e->received,
			    e->got[k], expected[k]);
			atomic_store(&stop, 1);
			return;
		}
}

static int receive_one(struct end *e)
{
	struct guc_received got;

	if (e->received == e->total)
		return 0;
	got = receive_by(e->in, e->kind, &e->random, e->got);
	if (got.code == GUC_OK) {
		check(e, got.len);
		e->received++;
		return 1;
	}
	if (got.code == GUC_EMPTY)
		e->empty++;
	else
		wrong(e, "a receive", got.code);
	return 0;
}

/* Nothing was sent or received, for the waited-th time in a row. */
static void wait_for_other(const struct end *e, unsigned waited, double *since)
{
	if (waited == 1)
		*since = seconds();
	if (waited % 1024 == 0 && seconds() - *since > PATIENCE) {
		bad("thread %u, sent %lu, received %lu: nothing moves", e->which, e->sent, e->received);
		atomic_store(&stop, 1);
	}
	wait_a_little(waited);
}

static void *run_end(void *p)
{
	struct end *e = p;
	unsigned burst, waited = 0;
	unsigned long before;
	double since = 0;

	on_processor(e->which);
	while ((e->sent < e->total || e->received < e->total) && !atomic_load(&stop)) {
		before = e->sent + e->received;
		for (burst = 1 + (unsigned)next_random(&e->random) % 16; burst && send_one(e); burst--)
			;
		for (burst = 1 + (unsigned)next_random(&e->random) % 16; burst && receive_one(e); burst--)
			;
		waited = before == e->sent + e->received ? waited + 1 : 0;
		if (waited)
			wait_for_other(e, waited, &since);
	}
	return NULL;
}

/* The reserved words of an opened descriptor are 0, and HEAD is TAIL at the end. */
static void check_end(struct channel *c)
{
	unsigned k;

	allow_reserved(c->desc, 1);
	if (c->desc->status || c->desc->head != c->desc->tail)
		bad("at the end HEAD %u, TAIL %u, STATUS %u", c->desc->head, c->desc->tail,
		    c->desc->status);
	for (k = 0; k < GUC_DESC_DWORDS - 3; k++)
		if (c->desc->reserved[k])
			bad("reserved word %u is %08x", k, c->desc->reserved[k]);
}

static void pair(enum kind kind, uint64_t seed, unsigned long messages)
{
	static struct channel ways[2];
	struct end ends[2];
	pthread_t thread;
	double began = seconds();
	unsigned i;

	running = kind_name(kind);
	atomic_store(&stop, 0);
	for (i = 0; i < 2; i++) {
		struct end e = {
			.out = &ways[i], .in = &ways[1 - i], .kind = kind,
			.out_seed = 2 * seed + i, .in_seed = 2 * seed + 1 - i,
			.random = seed * 64 + i + 1, .total = messages, .which = i,
			.msg = lent(4 * GUC_MESSAGE_DWORDS), .got = lent(4 * GUC_MESSAGE_DWORDS),
		};

		ends[i] = e;
		if (!ways[i].desc)
			lend_channel(&ways[i]);
		open_channel(&ways[i], kind);
	}
	if (pthread_create(&thread, NULL, run_end, &ends[1]))
		abort();
	run_end(&ends[0]);
	pthread_join(thread, NULL);
	if (!atomic_load(&stop)) {
		check_end(&ways[0]);
		check_end(&ways[1]);
	}
	printf("%-24s %8lu and %8lu messages, full %8lu times, empty %8lu, %4.1f s\n",
	       kind_name(kind), ends[0].received, ends[1].received, ends[0].full + ends[1].full,
	       ends[0].empty + ends[1].empty, seconds() - began);
	if (!(ends[0].full + ends[1].full) || !(ends[0].empty + ends[1].empty))
		bad("never full, or never empty: nothing shown");
	fflush(stdout);
}

void pairs(uint64_t seed, unsigned long messages)
{
	/* a message in single steps takes some two hundred calls */
	static const unsigned share[KINDS] = { 1, 1, 5, 20, 10 };
	unsigned kind;

	printf("two threads, each sends to the other (%u processors):\n", processors());
	for (kind = 0; kind < KINDS && !bads(); kind++)
		pair((enum kind)kind, seed + kind, messages / share[kind]);
}
