/*
 * Sends whose message or descriptor is rewritten while they run.
 */
#include "hostile.h"

#include <string.h>

static const size_t lengths[6] = { 2, 3, 5, 8, 16, 17 };
static uint32_t copied[3]; /* a look's L, header and second dword */

static void lay_message(uint32_t own, size_t len)
{
	size_t k;

	open_at(own);
	ch.len = len;
	ch.msg[0] = 0x12340000u | (uint32_t)(len - 1);
	ch.msg[1] = 0x00000010u;
	for (k = 2; k < len; k++)
		ch.msg[k] = 0xD0000000u + (uint32_t)k;
}

/* The header is the right one or a wrong one, the type is known or not. */
static void lay_faces(unsigned v)
{
	size_t len = lengths[v];
	uint32_t good = 0x12340000u | (uint32_t)(len - 1);
	const uint32_t bad[6] = { good + 1, good - 1, good | 0x1000, good | 0x100, good + 3,
				  0x12340000u };

	lay_message(v % 2 ? N - 1 : 37 * v, len);
	rewritten(ch.msg, 4, good, bad[v]);
	rewritten(ch.msg + 1, 4, 0x00000010u, v % 2 ? 0x40000010u : 0xC0000010u);
}

static void reset_send(void)
{
	reset_channel();
	memcpy(ch.ring, ch.ring_was, sizeof(ch.ring_was));
	ch.desc->head = ch.own;
	ch.desc->tail = ch.own;
	ch.desc->status = 0;
}

static void whole(void)
{
	uses(&ch.now.sender, sizeof(ch.now.sender));
	answer = guc_send(&ch.now.sender, ch.desc, ch.ring, N, ch.msg, ch.len);
}

/* By a side that makes no other calls. */
static void two(void)
{
	uses(&ch.now.whole_sender, sizeof(ch.now.whole_sender));
	answer = guc_whole_send(&ch.now.whole_sender, ch.desc, ch.ring, N, ch.msg, ch.len);
}

/* A look; whether it answers 0, so that the steps must then go through. */
static int look(void)
{
	struct guc_sender *s = &ch.now.sender;

	uses(s, sizeof(*s));
	answer = guc_send_look(s, ch.desc, ch.ring, N, ch.msg, ch.len);
	copied[0] = s->words[AT_LEN];
	copied[1] = s->words[AT_COPY];
	copied[2] = s->words[AT_COPY + 1];
	return answer == GUC_OK;
}

static void steps(void)
{
	size_t k;

	if (!look())
		return;
	for (k = 0; k < ch.len && !ch.stuck; k++)
		ch.stuck = guc_send_store(&ch.now.sender, ch.desc, ch.ring, N);
	if (!ch.stuck)
		ch.stuck = guc_send_publish(&ch.now.sender, ch.desc, ch.ring, N);
}

/* All stores at once. */
static void halves(void)
{
	if (!look())
		return;
	ch.stuck = guc_send_store_all(&ch.now.sender, ch.desc, ch.ring, N);
	if (!ch.stuck)
		ch.stuck = guc_send_publish(&ch.now.sender, ch.desc, ch.ring, N);
}

/* What an accepted send left: the ring's message, the state, the other places. */
static const char *judge_taken(void)
{
	uint32_t header = ch.ring[ch.own], word = ch.ring[(ch.own + 1) % N];
	const char *wrong;
	size_t k;

	if (ch.stuck)
		return complain("look 0, then a step's %u: L %u, copy 0x%08X 0x%08X", ch.stuck,
				copied[0], copied[1], copied[2]);
	if (!well_formed(header, word))
		return complain("taken, and the ring has 0x%08X 0x%08X", header, word);
	if (1 + (header & 0xFF) != ch.len)
		return complain("taken, L %u, and the ring's header says %u", (unsigned)ch.len,
				1 + (header & 0xFF));
	for (k = 2; k < ch.len; k++)
		if (ch.ring[(ch.own + k) % N] != 0xD0000000u + k)
			return complain("taken, and dword %u is another", (unsigned)k);
	wrong = ring_outside(ch.len);
	return wrong ? wrong : idle_at((ch.own + (uint32_t)ch.len) % N);
}

static const char *judge_message(void)
{
	uint32_t tail = ch.desc->tail;

	showed = answer == GUC_OK;
	if (answer != GUC_OK && answer != GUC_BAD_MESSAGE)
		return complain("answer %u", answer);
	if (ch.desc->head != ch.own || ch.desc->status != 0)
		return complain("answer %u: HEAD or STATUS changed", answer);
	if (answer == GUC_BAD_MESSAGE)
		return tail == ch.own ? as_before() : complain("answer 4: TAIL moved");
	if (!ch.stuck && tail != (ch.own + ch.len) % N)
		return complain("taken, TAIL from %u to %u, L %u", ch.own, tail, (unsigned)ch.len);
	return judge_taken();
}

/* Each word is the good one or one that 6, 7, 8 or 10 refuses, or another good one. */
static void lay_descriptor(unsigned v)
{
	uint32_t own = v % 2 ? N - 3 : 100;
	size_t len = lengths[v];
	const uint32_t head[6] = { N, (own + 1) % N, 0xFFFFFFFFu, (own + (uint32_t)len + 1) % N,
				   own + N, 7 };
	const uint32_t tail[6] = { own + 5, N, own + N, 0xFFFFFFFFu, (own + 1) % N, 0 };

	lay_message(own, len);
	rewritten(&ch.desc->head, 4, own, head[v]);
	rewritten(&ch.desc->tail, 4, own, tail[v]);
	if (v < 3)
		rewritten(&ch.desc->status, 4, 0, 1u << v);
	else
		ch.desc->status = 0;
}

/* STATUS, where it is not rewritten, would stay broken after 7 and 8. */
static void reset_ring(void)
{
	reset_channel();
	memcpy(ch.ring, ch.ring_was, sizeof(ch.ring_was));
	ch.desc->status = 0;
}

static const char *judge_descriptor(void)
{
	showed = answer == GUC_OK;
	switch (answer) {
	case GUC_OK:
		return judge_taken();
	case GUC_BROKEN:
	case GUC_OVERFLOW:
	case GUC_MISMATCH:
	case GUC_FULL:
		return as_before();
	}
	return complain("answer %u", answer);
}

const struct scene send_scenes[] = {
	{ "guc_send, message", 6, lay_faces, reset_send, whole, judge_message, 1 },
	{ "guc_whole_send, message", 6, lay_faces, reset_send, two, judge_message, 0 },
	{ "send steps, message", 6, lay_faces, reset_send, steps, judge_message, 1 },
	{ "guc_send_store_all, message", 6, lay_faces, reset_send, halves, judge_message, 0 },
	{ "guc_send, descriptor", 6, lay_descriptor, reset_ring, whole, judge_descriptor, 0 },
	{ "guc_whole_send, descriptor", 6, lay_descriptor, reset_ring, two, judge_descriptor, 0 },
	{ "send steps, descriptor", 6, lay_descriptor, reset_ring, steps, judge_descriptor, 0 },
	{ "guc_send_store_all, descriptor", 6, lay_descriptor, reset_ring, halves, judge_descriptor, 0 },
	{ 0, 0, 0, 0, 0, 0, 0 },
};
