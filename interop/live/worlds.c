/*
 * Lays two worlds that are alike, trial by trial, and compares them after a call
 * in each: see worlds.h.
 */
#include "worlds.h"

#include <string.h>

#define UNLAID 0x5A5A5A5Au

static void lend_world(struct world *w)
{
	w->desc = lent_descriptor();
	w->whole_sender = lent(sizeof(*w->whole_sender));
	w->whole_receiver = lent(sizeof(*w->whole_receiver));
	w->sender = lent(sizeof(*w->sender));
	w->receiver = lent(sizeof(*w->receiver));
	w->wall = lent(sizeof(*w->wall));
	w->table = lent(RECORDS * sizeof(*w->table));
	w->room_end = (uint32_t *)lent(4 * RING_ROOM) + RING_ROOM;
	w->out_end = (uint32_t *)lent(4 * OUT_ROOM) + OUT_ROOM;
}

static void copy_world(struct world *to, const struct world *from, size_t n)
{
	*to->desc = *from->desc;
	*to->whole_sender = *from->whole_sender;
	*to->whole_receiver = *from->whole_receiver;
	*to->sender = *from->sender;
	*to->receiver = *from->receiver;
	*to->wall = *from->wall;
	memcpy(to->table, from->table, RECORDS * sizeof(*to->table));
	memcpy(ring_of(to, n), ring_of(from, n), 4 * n);
}

void begin_walk(struct walk *k, uint64_t seed)
{
	memset(k, 0, sizeof(*k));
	k->x = seed;
	k->msg_end = (uint32_t *)lent(4 * (GUC_MESSAGE_DWORDS + 1)) + GUC_MESSAGE_DWORDS + 1;
	lend_world(&k->plain);
	lend_world(&k->live);
	lend_world(&k->saved);
}

/* A channel somewhere in its ring, and other contents of all that is not judged. */
static void open_afresh(struct walk *k)
{
	static const size_t sizes[8] = { 1024, 1024, 1024, 1024, 1024, 2048, 5120, 16384 };
	uint64_t r = next_random(&k->x);
	struct world *w = &k->plain;
	uint32_t at, code, *ring;
	size_t i;

	k->n = sizes[r & 7];
	k->two_words = (int)(r >> 3 & 1);
	ring = ring_of(w, k->n);
	for (i = 0; i < k->n; i++)
		ring[i] = (uint32_t)next_random(&k->x);
	code = guc_open(w->sender, w->receiver, w->desc, ring, k->n);
	if (!code)
		code = guc_whole_open(w->whole_sender, w->whole_receiver, w->desc, ring, k->n);
	if (code)
		bad("opening answered %u", code);
	at = (uint32_t)((r >> 8) % k->n);
	w->desc->head = w->desc->tail = w->whole_sender->own = w->whole_receiver->own = at;
	w->sender->words[1] = w->receiver->words[1] = at;
	for (i = 0; i < GUC_DESC_DWORDS - 3; i++)
		w->desc->reserved[i] = (uint32_t)next_random(&k->x);
	copy_world(&k->live, w, k->n);
}

/* Mostly the call that is next for a side, else any. */
static enum call pick_call(struct walk *k, uint64_t r)
{
	const struct guc_sender *s = k->plain.sender;
	const struct guc_receiver *v = k->plain.receiver;
	uint32_t len, moved;

	if (k->two_words)
		return r & 1 ? WHOLE_SEND : WHOLE_RECEIVE;
	if ((r >> 1 & 3) == 0)
		return (enum call)(SEND + (r >> 8) % (CALLS - SEND));
	len = r & 1 ? guc_sender_len(s) : guc_receiver_len(v);
	moved = r & 1 ? guc_sender_moved(s) : guc_receiver_moved(v);
	if (len == 0 && (r & 1) && (r >> 9 & 1))
		return WALL_SEND;
	if (len == 0)
		return (enum call)((r & 1 ? SEND : RECEIVE) + (r >> 8 & 1));
	if (moved < len) /* singly for a while, then all */
		return (enum call)((r & 1 ? SEND_STORE : RECEIVE_COPY) + ((r >> 8 & 7) == 0));
	return r & 1 ? SEND_PUBLISH : RECEIVE_PUBLISH;
}

/* A message, mostly well formed, and an output, mostly long enough. */
static void lay_lent(struct walk *k, uint64_t r)
{
	static const uint16_t lengths[4] = { 0, 1, 255, OUT_ROOM };
	uint32_t made[GUC_MESSAGE_DWORDS + 1], i;
	struct trial *t = &k->trial;

	memset(made, 0, sizeof(made));
	t->msg_len = make_message(r, r >> 16, made);
	if (t->call == WALL_SEND && (r >> 24 & 7))
		made[1] &= 0x8FFFFFFFu; /* a request */
	if ((r & 7) == 0)
		made[0] ^= 1u << (r >> 8 & 15);
	else if ((r & 7) == 1)
		made[1] = 4u << 28 | (made[1] & 0x8FFFFFFFu);
	else if ((r & 7) == 2)
		t->msg_len = r >> 8 & 1 ? t->msg_len + 1 : (r >> 9 & 1);
	t->msg = k->msg_end - t->msg_len;
	memcpy(k->msg_end - t->msg_len, made, 4 * t->msg_len);
	t->out_len = (r >> 12 & 15) == 0 ? lengths[r >> 16 & 3] : GUC_MESSAGE_DWORDS;
	for (i = 0; i < OUT_ROOM; i++)
		out_of(&k->plain, OUT_ROOM)[i] = out_of(&k->live, OUT_ROOM)[i] = UNLAID;
}

/* One word of the side that the trial's call is made on. */
static void disturb_side(const struct walk *k, struct world *w, uint32_t at, uint32_t v)
{
	int sends = k->trial.call != WHOLE_RECEIVE && k->trial.call < RECEIVE;

	if (!k->two_words)
		(sends ? w->sender->words : w->receiver->words)[at % (at & 1 ? 6 : GUC_STATE_WORDS)] = v;
	else if (at & 1)
		*(sends ? &w->whole_sender->n : &w->whole_receiver->n) = v;
	else
		*(sends ? &w->whole_sender->own : &w->whole_receiver->own) = v;
}

enum { MALFORMED = 5, UNKNOWN = 6 }; /* what disturb does to the pending message */

static void disturb(const struct walk *k, struct world *w, uint64_t r)
{
	uint32_t v = (uint32_t)(r >> 16), n = (uint32_t)k->n, below = v % n;
	uint32_t own = k->two_words ? w->whole_receiver->own : guc_receiver_own(w->receiver);
	uint32_t *ring = ring_of(w, k->n), beyond = v & 1 ? n : n + v / 2;

	switch (r & 7) {
	case 0: w->desc->status = v & 1 ? 1u << (v >> 1 & 31) : v; break;
	case 1: w->desc->head = beyond; break;
	case 2: w->desc->tail = beyond; break;
	case 3: w->desc->head = below; break;
	case 4: w->desc->tail = below; break;
	case MALFORMED: ring[own] = v & (v >> 31 ? 0xFFFFFFFFu : 0xFFFF00FFu); break;
	case UNKNOWN: ring[(own + 1) % n] = 4u << 28 | (v & 0x8FFFFFFFu); break;
	default: disturb_side(k, w, v >> 16, v >> 8 & 1 ? v & 0xFF : below); break;
	}
}

void lay_trial(struct walk *k)
{
	static const uint16_t sizes[8] = { 0, 1, 1023, 1025, 17 * 1024, 1024, 2048, 16384 };
	uint64_t r = next_random(&k->x);

	if (k->n == 0 || k->plain.desc->status || r % 512 == 0)
		open_afresh(k);
	k->trial.call = pick_call(k, r >> 8);
	k->trial.n = (r >> 4 & 15) == 0 ? sizes[r >> 40 & 7] : k->n;
	lay_lent(k, next_random(&k->x));
	if (k->trial.call == WALL_SEND)
		lay_wall(k, next_random(&k->x));
	r = next_random(&k->x);
	k->undo = 0;
	if ((r & 3) == 0) {
		/* half of the messages that are made malformed stay so, for the steps to come */
		k->undo = (r >> 5 & 1) || ((r >> 2 & 7) != MALFORMED && (r >> 2 & 7) != UNKNOWN);
		copy_world(&k->saved, &k->plain, k->n);
		disturb(k, &k->plain, r >> 2);
		disturb(k, &k->live, r >> 2);
	}
}

struct guc_received plain_call(const struct trial *t, struct world *w)
{
	uint32_t *ring = ring_of(w, t->n), *out = out_of(w, t->out_len);
	struct guc_received got = { 0, 0 };

	switch (t->call) {
	case WHOLE_SEND: got.code = guc_whole_send(w->whole_sender, w->desc, ring, t->n, t->msg, t->msg_len); break;
	case WHOLE_RECEIVE: return guc_whole_receive(w->whole_receiver, w->desc, ring, t->n, out, t->out_len);
	case SEND: got.code = guc_send(w->sender, w->desc, ring, t->n, t->msg, t->msg_len); break;
	case SEND_LOOK: got.code = guc_send_look(w->sender, w->desc, ring, t->n, t->msg, t->msg_len); break;
	case SEND_STORE: got.code = guc_send_store(w->sender, w->desc, ring, t->n); break;
	case SEND_STORE_ALL: got.code = guc_send_store_all(w->sender, w->desc, ring, t->n); break;
	case SEND_PUBLISH: got.code = guc_send_publish(w->sender, w->desc, ring, t->n); break;
	case WALL_SEND:
		return wall_answer(guc_wall_send(w->wall, w->table, t->records, w->sender, w->desc, ring, t->n,
						 t->msg, t->msg_len, t->reply_dwords));
	case RECEIVE: return guc_receive(w->receiver, w->desc, ring, t->n, out, t->out_len);
	case RECEIVE_LOOK: got.code = guc_receive_look(w->receiver, w->desc, ring, t->n); break;
	case RECEIVE_COPY: got.code = guc_receive_copy(w->receiver, w->desc, ring, t->n); break;
	case RECEIVE_COPY_ALL: got.code = guc_receive_copy_all(w->receiver, w->desc, ring, t->n); break;
	default: return guc_receive_publish(w->receiver, w->desc, ring, t->n, out, t->out_len);
	}
	return got;
}

static const char *difference(const struct walk *k)
{
	const struct world *a = &k->plain, *b = &k->live;
	size_t n = k->trial.n == k->n ? k->n : RING_ROOM; /* all there is, where the ring was another */

	if (memcmp(a->desc, b->desc, sizeof(*a->desc)))
		return "descriptor";
	if (memcmp(a->whole_sender, b->whole_sender, sizeof(*a->whole_sender)) ||
	    memcmp(a->whole_receiver, b->whole_receiver, sizeof(*a->whole_receiver)) ||
	    memcmp(a->sender, b->sender, sizeof(*a->sender)) ||
	    memcmp(a->receiver, b->receiver, sizeof(*a->receiver)))
		return "side";
	if (memcmp(a->wall, b->wall, sizeof(*a->wall)) || memcmp(a->table, b->table, RECORDS * sizeof(*a->table)))
		return "wall";
	if (memcmp(ring_of(a, n), ring_of(b, n), 4 * n))
		return "ring";
	if (memcmp(out_of(a, OUT_ROOM), out_of(b, OUT_ROOM), 4 * OUT_ROOM))
		return "output";
	return NULL;
}

void end_trial(struct walk *k, struct guc_received plain, struct guc_received live)
{
	const char *what = difference(k), *name = call_name(k->trial.call);

	if (plain.code != live.code || plain.len != live.len)
		bad("guc_%s answered %u, L %zu, its twin %u, L %zu", name, plain.code, plain.len,
		    live.code, live.len);
	if (what)
		bad("guc_%s answered %u, and its twin has another %s", name, plain.code, what);
	if (plain.code < CODES)
		k->met[k->trial.call][plain.code]++;
	else
		bad("guc_%s answered %u", name, plain.code);
	if (k->undo)
		copy_world(&k->plain, &k->saved, k->n);
	if (k->undo || what)
		copy_world(&k->live, &k->plain, k->n);
}

const char *call_name(enum call call)
{
	static const char *const names[CALLS] = {
		"whole_send", "whole_receive", "send", "send_look", "send_store", "send_store_all",
		"send_publish", "wall_send", "receive", "receive_look", "receive_copy", "receive_copy_all",
		"receive_publish",
	};

	return names[call];
}

void end_walk(const struct walk *k)
{
	/* x at each answer that the header names, from 0 on */
	static const char *const named[CALLS] = {
		"x-xxx-xxx-x---", "x-xx-xxxxx-x-x", "x-xxx-xxx-x---", "x-xxx-xxx-x---",
		"x-xx--------x-", "x-xx----------", "x-xx--------x-",
		"x-xx--xxx-x---x-----------xxx------x", "x-xx-xxxxx-x-x",
		"x-xx--xxxx-x--", "x-xx--------x-", "x-xx----------", "x-xx-x------xx",
	};
	unsigned call, code;

	for (call = 0; call < CALLS; call++)
		for (code = 0; code < CODES; code++) {
			unsigned long met = k->met[call][code];

			if ((code < strlen(named[call]) && named[call][code] == 'x') != (met > 0))
				bad("guc_%s answered %u %lu times", call_name((enum call)call), code, met);
		}
}
