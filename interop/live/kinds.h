/*
 * The ways a program may use a live channel, for the tests with threads. Included
 * behind the macros, if any, that guc_live.h is to use.
 */
#ifndef KINDS_H
#define KINDS_H

#include "guc_live.h"
#include "live.h"

enum kind {
	TWO_WORDS, /* whole calls of two-word sides */
	WHOLE,     /* whole calls of 260-word sides */
	ALL,       /* look, store_all or copy_all, publish */
	SINGLE,    /* look, a store or copy for each dword, publish */
	MIXED,     /* of the last three, each time another; some dwords singly */
	KINDS
};

#define STUCK 1000u /* added to the answer of a step behind an accepted look */

/* Each part of it lies in lent pages of its own. */
struct channel {
	struct guc_descriptor *desc;
	uint32_t *ring;
	struct guc_whole_sender *whole_sender;
	struct guc_whole_receiver *whole_receiver;
	struct guc_sender *sender;
	struct guc_receiver *receiver;
};

static inline const char *kind_name(enum kind kind)
{
	static const char *const names[KINDS] = {
		"whole calls, two words", "whole calls, 260 words", "look, all, publish",
		"look, singly, publish", "mixed",
	};

	return names[kind];
}

static inline void lend_channel(struct channel *c)
{
	c->desc = lent_descriptor();
	c->ring = (uint32_t *)lent(4 * RING);
	c->whole_sender = (struct guc_whole_sender *)lent(sizeof(*c->whole_sender));
	c->whole_receiver = (struct guc_whole_receiver *)lent(sizeof(*c->whole_receiver));
	c->sender = (struct guc_sender *)lent(sizeof(*c->sender));
	c->receiver = (struct guc_receiver *)lent(sizeof(*c->receiver));
}

/* Opens it for this kind; from then on the reserved words can't be touched. */
static inline void open_channel(struct channel *c, enum kind kind)
{
	uint32_t code;

	allow_reserved(c->desc, 1);
	if (kind == TWO_WORDS)
		code = guc_whole_open(c->whole_sender, c->whole_receiver, c->desc, c->ring, RING);
	else
		code = guc_open(c->sender, c->receiver, c->desc, c->ring, RING);
	allow_reserved(c->desc, 0);
	if (code)
		bad("opening answered %u", code);
}

static inline uint32_t sender_own(const struct channel *c, enum kind kind)
{
	return kind == TWO_WORDS ? c->whole_sender->own : guc_sender_own(c->sender);
}

static inline uint32_t receiver_own(const struct channel *c, enum kind kind)
{
	return kind == TWO_WORDS ? c->whole_receiver->own : guc_receiver_own(c->receiver);
}

static inline uint32_t send_in_steps(struct channel *c, const uint32_t *msg, size_t len, size_t singly)
{
	uint32_t code = guc_live_send_look(c->sender, c->desc, c->ring, RING, msg, len);
	size_t k;

	if (code)
		return code;
	for (k = 0; k < singly && !code; k++)
		code = guc_live_send_store(c->sender, c->desc, c->ring, RING);
	if (!code && singly < len)
		code = guc_live_send_store_all(c->sender, c->desc, c->ring, RING);
	if (!code)
		code = guc_live_send_publish(c->sender, c->desc, c->ring, RING);
	return code ? STUCK + code : code;
}

static inline uint32_t send_by(struct channel *c, enum kind kind, uint64_t *x,
			       const uint32_t *msg, size_t len)
{
	uint64_t r = kind == MIXED ? next_random(x) : 0;

	if (kind == MIXED)
		kind = (enum kind)(WHOLE + r % 3);
	if (kind == TWO_WORDS)
		return guc_live_whole_send(c->whole_sender, c->desc, c->ring, RING, msg, len);
	if (kind == WHOLE)
		return guc_live_send(c->sender, c->desc, c->ring, RING, msg, len);
	return send_in_steps(c, msg, len, kind == SINGLE ? len : (size_t)(r >> 8) % len);
}

/* share of 256: how many of the copies are single ones. */
static inline struct guc_received receive_in_steps(struct channel *c, uint32_t *out, size_t share)
{
	struct guc_received got = { guc_live_receive_look(c->receiver, c->desc, c->ring, RING), 0 };
	size_t k, copies, singly;

	if (got.code)
		return got;
	copies = guc_receiver_len(c->receiver) - 1; /* the look has copied the header */
	singly = copies * share / 256;
	for (k = 0; k < singly && !got.code; k++)
		got.code = guc_live_receive_copy(c->receiver, c->desc, c->ring, RING);
	if (!got.code && share < 256) /* also where none is left, as of a message of one dword */
		got.code = guc_live_receive_copy_all(c->receiver, c->desc, c->ring, RING);
	if (!got.code) {
		got = guc_live_receive_publish(c->receiver, c->desc, c->ring, RING, out,
					       GUC_MESSAGE_DWORDS);
		if (got.code == GUC_OK || got.code == GUC_MALFORMED)
			return got;
	}
	got.code += STUCK;
	return got;
}

static inline struct guc_received receive_by(struct channel *c, enum kind kind, uint64_t *x,
					     uint32_t *out)
{
	uint64_t r = kind == MIXED ? next_random(x) : 0;

	if (kind == MIXED)
		kind = (enum kind)(WHOLE + r % 3);
	if (kind == TWO_WORDS)
		return guc_live_whole_receive(c->whole_receiver, c->desc, c->ring, RING, out,
					      GUC_MESSAGE_DWORDS);
	if (kind == WHOLE)
		return guc_live_receive(c->receiver, c->desc, c->ring, RING, out,
					GUC_MESSAGE_DWORDS);
	return receive_in_steps(c, out, kind == SINGLE ? 256 : (size_t)(r >> 8) % 256);
}

#endif /* KINDS_H */
