/*
 * The third thread beside a sender and a receiver (besieged.c): it scribbles over
 * the words of their descriptor and, in every second round, over their ring.
 * Afterwards the channel is opened again and must work.
 */
#include "siege.h"

#include <pthread.h>
#include <sched.h>
#include <stdio.h>
#include <stdlib.h>
#include <string.h>

#define AFTERWARDS 2000u /* messages on the channel that is opened again */

/* busy or, half of them, an unknown type; a header that is well formed or not. */
static uint32_t scribbled_dword(uint32_t v)
{
	return (v >> 31 ? 0xBADC0000u : 0xCBAD0000u) | (v & (v >> 30 & 1 ? 0xFFu : 0xFFFFu));
}

static void put(uint32_t *at, uint32_t value)
{
	__atomic_store_n(at, value, __ATOMIC_RELAXED);
}

static void scribble(struct siege *s, uint64_t r)
{
	struct guc_descriptor *d = s->ch.desc;
	uint32_t v = (uint32_t)(r >> 16), what = (uint32_t)r & 15;
	uint32_t head = atomic_load_explicit(&s->head, memory_order_relaxed);

	if (what == 0)
		put(&d->status, v & 1 ? 1u << (v >> 8 & 31) : v);
	else if (what < 3)
		put(what == 1 ? &d->tail : &d->head, v >> 31 ? head : v % RING);
	else if (what == 3)
		put(v & 1 ? &d->tail : &d->head, v & 2 ? v | RING : RING);
	else if (what < 8 && s->ring_too) /* the header or the second dword of what is pending */
		put(&s->ch.ring[(head + (what & 1)) % RING], scribbled_dword(v));
	else if (what == 8 && s->ring_too)
		put(&s->ch.ring[v % RING], scribbled_dword(v * 0x9E3779B1u));
	else { /* all is well again */
		put(&d->status, 0);
		put(&d->tail, atomic_load_explicit(&s->tail, memory_order_relaxed));
		put(&d->head, head);
	}
}

static void scribble_on(struct siege *s)
{
	uint64_t x = s->seed * 3 + 3;
	volatile unsigned pause;

	on_processor(1);
	while (atomic_load(&s->running)) {
		uint64_t r = next_random(&x);

		scribble(s, r);
		atomic_fetch_add_explicit(&s->scribbles, 1, memory_order_relaxed);
		/* of many lengths, so that all phases of a call are met */
		for (pause = ((unsigned)(r >> 40) & 63) >> (r >> 46 & 7); pause; pause--)
			;
		if (processors() == 1)
			sched_yield();
	}
}

/* What is sent comes back, on the memory that was scribbled over. */
static void afterwards(struct siege *s)
{
	uint32_t msg[GUC_MESSAGE_DWORDS];
	uint64_t x = s->seed;
	unsigned sent, received = 0;
	struct guc_received got;
	size_t len;

	open_channel(&s->ch, s->kind);
	for (sent = 0; sent < AFTERWARDS; sent++) {
		len = make_message(s->seed, sent, msg);
		while (send_by(&s->ch, s->kind, &x, msg, len) == GUC_FULL) {
			uint32_t expected[GUC_MESSAGE_DWORDS];

			got = receive_by(&s->ch, s->kind, &x, s->out);
			len = make_message(s->seed, received++, expected);
			if (got.code || got.len != len || memcmp(s->out, expected, 4 * len)) {
				bad("opened again: message %u, a receive answered %u", received, got.code);
				return;
			}
			len = make_message(s->seed, sent, msg);
		}
	}
	if (received < AFTERWARDS - 512)
		bad("opened again: %u of %u messages came", received, sent);
}

static void round_of(struct siege *s, enum kind kind, int ring_too, uint64_t seed, unsigned long calls)
{
	pthread_t sender, receiver;

	s->kind = kind;
	s->ring_too = ring_too;
	s->seed = seed;
	s->calls = calls;
	memset(s->sends, 0, sizeof(s->sends));
	memset(s->receives, 0, sizeof(s->receives));
	atomic_store(&s->tail, 0);
	atomic_store(&s->head, 0);
	atomic_store(&s->running, 2);
	open_channel(&s->ch, kind);
	if (pthread_create(&sender, NULL, besieged_sender, s) ||
	    pthread_create(&receiver, NULL, besieged_receiver, s))
		abort();
	scribble_on(s);
	pthread_join(sender, NULL);
	pthread_join(receiver, NULL);
	if (!bads())
		afterwards(s);
}

/* How often each answer came. That one never did is said and is not bad: chance
 * decides here, and order.c meets them all. */
static void tell(const char *call, uint32_t answers, const unsigned long *counts)
{
	unsigned code;

	printf(" %s", call);
	for (code = 0; code < CODES; code++)
		if (BIT(code) & answers)
			printf(" %u:%lu%s", code, counts[code], counts[code] ? "" : " (nothing shown)");
}

void siege(uint64_t seed, unsigned long calls)
{
	static struct siege laid;
	unsigned kind, code;

	lend_channel(&laid.ch);
	laid.msg_end = (uint32_t *)lent(4 * GUC_MESSAGE_DWORDS) + GUC_MESSAGE_DWORDS;
	laid.out = lent(4 * GUC_MESSAGE_DWORDS);
	printf("a sender, a receiver and one who scribbles; how often each answer came:\n");
	for (kind = 0; kind < KINDS && !bads(); kind++) {
		unsigned long sends[CODES], receives[CODES];

		running = kind_name((enum kind)kind);
		round_of(&laid, (enum kind)kind, 0, seed + 2 * kind, calls);
		memcpy(sends, laid.sends, sizeof(sends));
		memcpy(receives, laid.receives, sizeof(receives));
		round_of(&laid, (enum kind)kind, 1, seed + 2 * kind + 1, calls);
		for (code = 0; code < CODES; code++) {
			sends[code] += laid.sends[code];
			receives[code] += laid.receives[code];
		}
		printf("%-24s", running);
		tell("sends", SEND_ANSWERS, sends);
		tell("receives", RECEIVE_ANSWERS, receives);
		printf("\n");
		fflush(stdout);
	}
}
