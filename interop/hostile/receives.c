/*
 * Receives whose ring or descriptor is rewritten while they run.
 */
#include "hostile.h"

#include <string.h>

#define USED 20u

static struct guc_received got;
static uint32_t face_len[2]; /* L by each face of a rewritten header */

static uint32_t after(uint32_t moved)
{
	return (ch.own + moved) % N;
}

/* A pending message of len dwords at own. */
static void lay_pending(uint32_t own, size_t len)
{
	open_at(own);
	ch.len = len;
	ch.ring_was[own] = 0x43210000u | (uint32_t)(len - 1);
	ch.ring_was[after(1)] = 0x10000020u;
	memcpy(ch.ring, ch.ring_was, sizeof(ch.ring_was));
}

/* The first two dwords: header good or another, type known or not. */
static void lay_ring(unsigned v)
{
	static const uint32_t other[6] = { 7, 0x1003, 199, 0, 0x103, 19 };
	uint32_t good = 0x43210003u;

	face_len[0] = 4;
	face_len[1] = 1 + (other[v] & 0xFF);
	lay_pending(v % 2 ? N - 1 : 200, 4);
	rewritten(ch.ring + ch.own, 4, good, 0x43210000u | other[v]);
	rewritten(ch.ring + after(1), 4, 0x10000020u, v < 3 ? 0x40000020u : 0xC0000020u);
}

static void reset_receive(void)
{
	reset_channel();
	memset(ch.out, 0x55, sizeof(ch.out));
	ch.desc->head = ch.own;
	ch.desc->tail = after(USED);
	ch.desc->status = 0;
}

static void whole(void)
{
	uses(&ch.now.receiver, sizeof(ch.now.receiver));
	got = guc_receive(&ch.now.receiver, ch.desc, ch.ring, N, ch.out, GUC_MESSAGE_DWORDS);
	answer = got.code;
}

/* By a side that makes no other calls. */
static void two(void)
{
	uses(&ch.now.whole_receiver, sizeof(ch.now.whole_receiver));
	got = guc_whole_receive(&ch.now.whole_receiver, ch.desc, ch.ring, N, ch.out,
				GUC_MESSAGE_DWORDS);
	answer = got.code;
}

/* A look; whether it answers 0, so that the steps must then go through. */
static int look(void)
{
	uses(&ch.now.receiver, sizeof(ch.now.receiver));
	got.len = 0;
	answer = guc_receive_look(&ch.now.receiver, ch.desc, ch.ring, N);
	return answer == GUC_OK;
}

static void publish(void)
{
	if (ch.stuck)
		return;
	got = guc_receive_publish(&ch.now.receiver, ch.desc, ch.ring, N, ch.out,
				  GUC_MESSAGE_DWORDS);
	if (got.code == GUC_OK || got.code == GUC_MALFORMED)
		answer = got.code;
	else
		ch.stuck = got.code;
}

static void steps(void)
{
	uint32_t k, len;

	if (!look())
		return;
	len = guc_receiver_len(&ch.now.receiver);
	for (k = 1; k < len && !ch.stuck; k++)
		ch.stuck = guc_receive_copy(&ch.now.receiver, ch.desc, ch.ring, N);
	publish();
}

/* All copies at once, if only of none. */
static void halves(void)
{
	if (!look())
		return;
	ch.stuck = guc_receive_copy_all(&ch.now.receiver, ch.desc, ch.ring, N);
	publish();
}

/* What an accepted receive laid, whoever wrote the ring meanwhile. */
static const char *judge_laid(void)
{
	const char *wrong;
	size_t k;

	if (!well_formed(ch.out[0], ch.out[1]))
		return complain("taken, and laid 0x%08X 0x%08X", ch.out[0], ch.out[1]);
	if (1 + (ch.out[0] & 0xFF) != got.len)
		return complain("taken, L %u, and the header laid is 0x%08X", (unsigned)got.len,
				ch.out[0]);
	for (k = 2; k < got.len; k++)
		if (ch.out[k] != ch.ring_was[after((uint32_t)k)])
			return complain("taken, and dword %u is another", (unsigned)k);
	wrong = out_beyond(got.len);
	return wrong ? wrong : idle_at(after((uint32_t)got.len));
}

static const char *stuck(void)
{
	return complain("look 0, then a step's %u: L %u, moved %u, copy 0x%08X", ch.stuck,
			ch.side[AT_LEN], ch.side[AT_MOVED], ch.side[AT_COPY]);
}

/* 13: past the message by a length that one of the two headers has. */
static const char *judge_malformed(void)
{
	uint32_t moved = (ch.desc->head - ch.own) % N;

	if ((moved != face_len[0] && moved != face_len[1]) || moved > USED || got.len != 0)
		return complain("answer 13: HEAD moved by %u, L %u", moved, (unsigned)got.len);
	return out_beyond(0) ? complain("answer 13: output changed") : idle_at(after(moved));
}

static const char *judge_ring(void)
{
	showed = answer == GUC_OK;
	if (ch.stuck)
		return stuck();
	if (answer == GUC_MALFORMED)
		return judge_malformed();
	if (answer == GUC_OK) {
		if (ch.desc->head != after((uint32_t)got.len))
			return complain("taken, L %u, HEAD %u", (unsigned)got.len,
					ch.desc->head);
		return judge_laid();
	}
	if (answer != GUC_UNDERFLOW || got.len != 0 || ch.desc->status != 2)
		return complain("answer %u, STATUS %u", answer, ch.desc->status);
	if (memcmp(&ch.now, &ch.was, sizeof(ch.now)) || ch.desc->head != ch.own)
		return complain("answer 9: side or HEAD changed");
	return out_beyond(0);
}

/* Each word is the good one or one that 6, 7, 8, 9 or 11 refuses, or another good one. */
static void lay_descriptor(unsigned v)
{
	uint32_t own = v % 2 ? N - 2 : 300, len = 6;
	const uint32_t head[6] = { N, (own + 1) % N, 0xFFFFFFFFu, own + N, 0, own };
	const uint32_t tail[6] = { own, N, (own + 5) % N, (own + 9) % N, 0xFFFFFFFFu,
				   (own + 700) % N };

	lay_pending(own, len);
	rewritten(&ch.desc->head, 4, own, head[v]);
	rewritten(&ch.desc->tail, 4, after(len), tail[v]);
	rewritten(&ch.desc->status, 4, 0, 1u << v);
}

static void reset_out(void)
{
	reset_channel();
	memset(ch.out, 0x55, sizeof(ch.out));
}

static const char *judge_descriptor(void)
{
	const char *wrong;

	showed = answer == GUC_OK;
	if (ch.stuck)
		return stuck();
	if (answer == GUC_OK)
		return ring_outside(0) ? complain("the ring changed") : judge_laid();
	if (answer < GUC_BROKEN || (answer > GUC_UNDERFLOW && answer != GUC_EMPTY) || got.len != 0)
		return complain("answer %u, L %u", answer, (unsigned)got.len);
	wrong = out_beyond(0);
	return wrong ? wrong : as_before();
}

const struct scene receive_scenes[] = {
	{ "guc_receive, ring", 6, lay_ring, reset_receive, whole, judge_ring, 0 },
	{ "guc_whole_receive, ring", 6, lay_ring, reset_receive, two, judge_ring, 0 },
	{ "receive steps, ring", 6, lay_ring, reset_receive, steps, judge_ring, 0 },
	{ "guc_receive_copy_all, ring", 6, lay_ring, reset_receive, halves, judge_ring, 0 },
	{ "guc_receive, descriptor", 6, lay_descriptor, reset_out, whole, judge_descriptor, 0 },
	{ "guc_whole_receive, descriptor", 6, lay_descriptor, reset_out, two, judge_descriptor, 0 },
	{ "receive steps, descriptor", 6, lay_descriptor, reset_out, steps, judge_descriptor, 0 },
	{ "guc_receive_copy_all, descriptor", 6, lay_descriptor, reset_out, halves, judge_descriptor, 0 },
	{ 0, 0, 0, 0, 0, 0, 0 },
};
