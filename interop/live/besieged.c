/*
 * A sender and a receiver while a third thread (siege.c) scribbles: nothing
 * outside what a call is lent may be touched, each answer must be one that the
 * header names, each write to the descriptor the one that goes with it, and what
 * is sent or handed out must be what was judged.
 */
#include <stdint.h>

/* What this thread's calls wrote to the live descriptor. */
static _Thread_local struct {
	unsigned times;
	uint32_t *at, value; /* the last one */
} wrote;

static inline void recorded_store(uint32_t *at, uint32_t value)
{
	wrote.times++;
	wrote.at = at;
	wrote.value = value;
	__atomic_store_n(at, value, __ATOMIC_RELAXED);
}
#define GUC_STORE_WORD(p, v) recorded_store((p), (v))
/* the others as they are by default */
#define GUC_LOAD_ACQUIRE(p) __atomic_load_n((p), __ATOMIC_ACQUIRE)
#define GUC_FENCE_RELEASE() __atomic_thread_fence(__ATOMIC_RELEASE)
#define GUC_FENCE_FULL() __atomic_thread_fence(__ATOMIC_SEQ_CST)

#include "siege.h"

#include <sched.h>
#include <string.h>

#define UNLAID 0x5A5A5A5Au
#define MORE 20 /* times as many calls, where an answer is still to come */

/* Behind a call. The third thread must have come to run since the last time, and
 * a broken channel is mended now and then, or all later answers were 6. */
static void go_on(struct siege *s, unsigned long i, uint32_t code, uint32_t *offset, uint32_t own)
{
	static _Thread_local unsigned long scribbles;
	unsigned tried;

	if (code == GUC_BROKEN && i % 4 == 0) {
		__atomic_store_n(&s->ch.desc->status, 0, __ATOMIC_RELAXED);
		__atomic_store_n(offset, own, __ATOMIC_RELAXED);
	}
	if (i % (processors() == 1 ? 2 : 16) != 0)
		return;
	for (tried = 0; tried < 1000 && atomic_load(&s->scribbles) == scribbles; tried++)
		sched_yield();
	scribbles = atomic_load(&s->scribbles);
}

/* Chance decides when the last of the answers comes, and whether. */
static int is_more(const struct siege *s, unsigned long i, uint32_t answers, const unsigned long *counts)
{
	unsigned code;

	for (code = 0; code < CODES; code++)
		if ((BIT(code) & answers) && !counts[code] && i < MORE * s->calls)
			return bads() == 0;
	return i < s->calls && bads() == 0;
}

/* Whether an answer is one that can come; counts it. */
static int can_come(const char *call, uint32_t code, uint32_t answers, unsigned long *counts)
{
	if (code >= CODES || !(BIT(code) & answers)) {
		bad("%s answered %u", call, code);
		return 0;
	}
	counts[code]++;
	return 1;
}

/* The call wrote value to this word of the live descriptor and no other, or none at all. */
static void expect_write(const struct siege *s, uint32_t code, const uint32_t *at, uint32_t value)
{
	if (wrote.times != (at ? 1u : 0u))
		bad("answered %u and wrote %u words of the descriptor", code, wrote.times);
	else if (at && (wrote.at != at || wrote.value != value))
		bad("answered %u and wrote %u to word %d, not %u", code, wrote.value,
		    (int)(wrote.at - &s->ch.desc->head), value);
}

/* STATUS of a broken channel by the number that broke it; 0: it is not set. */
static uint32_t status_of(uint32_t code)
{
	return code == GUC_OVERFLOW ? GUC_STATUS_OVERFLOW :
	       code == GUC_MISMATCH ? GUC_STATUS_MISMATCH :
	       code == GUC_UNDERFLOW ? GUC_STATUS_UNDERFLOW : 0;
}

/* Only a sender and the third thread store into the ring. */
static void judge_ring(const struct siege *s, uint32_t own, const uint32_t *msg, size_t len)
{
	size_t k;

	for (k = 0; k < len; k++) {
		uint32_t dword = __atomic_load_n(&s->ch.ring[(own + k) % RING], __ATOMIC_RELAXED);

		if (dword != msg[k] && !(s->ring_too && is_scribbled(dword)))
			bad("dword %zu of an accepted message is %08x, not %08x", k, dword, msg[k]);
	}
}

static void judge_send(struct siege *s, uint32_t code, uint32_t own, const uint32_t *msg, size_t len)
{
	uint32_t next = code == GUC_OK ? (own + (uint32_t)len) % RING : own;
	struct guc_descriptor *d = s->ch.desc;

	if (!can_come("a send", code, SEND_ANSWERS, s->sends))
		return;
	if (code == GUC_OK)
		judge_ring(s, own, msg, len);
	expect_write(s, code, code == GUC_OK ? &d->tail : status_of(code) ? &d->status : NULL,
		     code == GUC_OK ? next : status_of(code));
	if (sender_own(&s->ch, s->kind) != next)
		bad("a send answered %u with own tail %u, then %u", code, own, sender_own(&s->ch, s->kind));
}

/* A side between calls: idle, made for RING; its own offset is judged elsewhere. */
static void judge_idle(const char *call, const uint32_t *words)
{
	static const uint32_t zeros[GUC_STATE_WORDS];

	if (words[0] != RING || words[1] >= RING || memcmp(words + 2, zeros, 4 * (GUC_STATE_WORDS - 2)))
		bad("a side is not idle after %s", call);
}

void *besieged_sender(void *p)
{
	struct siege *s = p;
	uint32_t made[GUC_MESSAGE_DWORDS], own, code, *msg;
	uint64_t x = s->seed * 3 + 1;
	unsigned long i;
	size_t len;

	on_processor(0);
	for (i = 0; is_more(s, i, SEND_ANSWERS, s->sends); i++) {
		len = make_message(s->seed, i, made);
		msg = s->msg_end - len; /* the next byte can't be touched */
		memcpy(msg, made, 4 * len);
		own = sender_own(&s->ch, s->kind);
		atomic_store_explicit(&s->tail, own, memory_order_relaxed);
		wrote.times = 0;
		code = send_by(&s->ch, s->kind, &x, msg, len);
		judge_send(s, code, own, made, len);
		if (s->kind != TWO_WORDS)
			judge_idle("a send", s->ch.sender->words);
		go_on(s, i, code, &s->ch.desc->tail, own);
	}
	atomic_fetch_sub(&s->running, 1);
	return NULL;
}

static void judge_out(const struct siege *s, struct guc_received got)
{
	const uint32_t *out = s->out;
	size_t k, laid = got.code == GUC_OK ? got.len : 0;

	if (got.code == GUC_OK && (!well_formed(out[0], out[1]) || got.len != 1 + (out[0] & 0xFF)))
		bad("handed out: %08x %08x, L %zu", out[0], out[1], got.len);
	if (got.code != GUC_OK && got.len)
		bad("a receive answered %u and L %zu", got.code, got.len);
	for (k = laid; k < GUC_MESSAGE_DWORDS; k++)
		if (out[k] != UNLAID) {
			bad("a receive answered %u, L %zu, and laid dword %zu", got.code, got.len, k);
			return;
		}
}

static void judge_receive(struct siege *s, struct guc_received got, uint32_t own)
{
	uint32_t next = receiver_own(&s->ch, s->kind), code = got.code, passed = (next - own) % RING;
	int moves = code == GUC_OK || code == GUC_MALFORMED;
	struct guc_descriptor *d = s->ch.desc;

	if (!can_come("a receive", code, RECEIVE_ANSWERS, s->receives))
		return;
	judge_out(s, got);
	expect_write(s, code, moves ? &d->head : status_of(code) ? &d->status : NULL,
		     moves ? next : status_of(code));
	if (code == GUC_OK ? passed != got.len : moves ? passed < 1 || passed > 256 : passed != 0)
		bad("a receive answered %u, L %zu, own head %u, then %u", code, got.len, own, next);
}

void *besieged_receiver(void *p)
{
	struct siege *s = p;
	uint64_t x = s->seed * 3 + 2;
	struct guc_received got;
	unsigned long i;
	uint32_t own;
	size_t k;

	on_processor(0);
	for (i = 0; is_more(s, i, RECEIVE_ANSWERS, s->receives); i++) {
		for (k = 0; k < GUC_MESSAGE_DWORDS; k++)
			s->out[k] = UNLAID;
		own = receiver_own(&s->ch, s->kind);
		atomic_store_explicit(&s->head, own, memory_order_relaxed);
		wrote.times = 0;
		got = receive_by(&s->ch, s->kind, &x, s->out);
		judge_receive(s, got, own);
		if (s->kind != TWO_WORDS)
			judge_idle("a receive", s->ch.receiver->words);
		go_on(s, i, got.code, &s->ch.desc->head, own);
	}
	atomic_fetch_sub(&s->running, 1);
	return NULL;
}
