/*
 * The channel that sends and receives are tried on, and what its memory must be
 * after a call.
 */
#include "hostile.h"

#include <stdlib.h>
#include <string.h>

struct channel ch;

/* The openings take what is opened; the offsets are then put where a scene wants them. */
static void open_sides(uint32_t own)
{
	struct sides *w = &ch.was;

	if (guc_open(&w->sender, &w->receiver, ch.desc, ch.ring, N) ||
	    guc_whole_open(&w->whole_sender, &w->whole_receiver, ch.desc, ch.ring, N))
		exit(2);
	w->sender.words[AT_OWN] = w->receiver.words[AT_OWN] = own;
	w->whole_sender.own = w->whole_receiver.own = own;
}

void open_at(uint32_t own)
{
	uint32_t k;

	if (!ch.desc) {
		ch.desc = lent(sizeof(*ch.desc));
		ch.ring = lent(4 * N);
		ch.msg = lent(4 * GUC_MESSAGE_DWORDS);
	}
	open_sides(own);
	ch.own = own;
	for (k = 0; k < N; k++)
		ch.ring_was[k] = 0xC0000000u + k;
	memcpy(ch.ring, ch.ring_was, sizeof(ch.ring_was));
}

void reset_channel(void)
{
	ch.now = ch.was;
	ch.stuck = 0;
	answer = 999;
}

void uses(const void *side, size_t bytes)
{
	ch.side = side;
	ch.side_words = bytes / 4;
}

int well_formed(uint32_t header, uint32_t word)
{
	return (header & 0xFF00u) == 0 && (header & 0xFFu) != 0 && (word >> 28 & 7) != 4;
}

const char *idle_at(uint32_t own)
{
	const uint32_t *w = ch.side;
	size_t k;

	if (w[AT_OWN] >= N)
		return complain("answer %u: own offset %u", answer, w[AT_OWN]);
	if (w[AT_N] != N || w[AT_OWN] != own)
		return complain("answer %u: side for N %u at %u, not at %u", answer, w[AT_N],
				w[AT_OWN], own);
	for (k = AT_LEN; k < ch.side_words; k++)
		if (w[k])
			return complain("answer %u: the side is not idle", answer);
	return NULL;
}

const char *as_before(void)
{
	if (memcmp(&ch.now, &ch.was, sizeof(ch.now)))
		return complain("answer %u: a side changed", answer);
	return ring_outside(0);
}

const char *ring_outside(size_t stored)
{
	uint32_t end = ch.own + (uint32_t)stored; /* below 2 N */
	uint32_t wrapped = end > N ? end - N : 0;
	uint32_t straight = end > N ? N : end;

	if (memcmp(ch.ring + wrapped, ch.ring_was + wrapped, 4 * (ch.own - wrapped)) ||
	    memcmp(ch.ring + straight, ch.ring_was + straight, 4 * (N - straight)))
		return complain("answer %u: stored outside %u dwords from %u on", answer,
				(unsigned)stored, ch.own);
	return NULL;
}

const char *out_beyond(size_t laid)
{
	size_t k;

	for (k = laid; k < sizeof(ch.out) / 4; k++)
		if (ch.out[k] != 0x55555555u)
			return complain("answer %u: output changed at %u, L %u", answer,
					(unsigned)k, (unsigned)laid);
	return NULL;
}
