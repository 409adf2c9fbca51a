/*
 * All moves that are left in one call: of messages at the places that tell how
 * they copy, with none, some or all moved before, and refused.
 */
#include "channel.h"

#include <string.h>

/* A send's, with so many stored before: a side after so many single stores. */
static void store_all(uint32_t answer, uint32_t own, uint32_t len, uint32_t stored)
{
	uint32_t code;

	lay(own, len, 0);
	must(guc_send_look(&sender, &desc, ring, n, msg, msg_len));
	sender.words[AT_MOVED] = stored;
	if (answer == GUC_BAD_STATE)
		sender.words[AT_COPY + 1] = 0x40000000u;
	if (answer == GUC_BAD_BUFFER)
		n = 1000;
	calling("guc_send_store_all", answer, "");
	lent_state(sender.words);
	lent_desc();
	lent_ring_left(own + stored, len - stored);
	begin();
	code = guc_send_store_all(&sender, &desc, ring, n);
	end(code);
}

/* A receive's, with so many copied before (the look copies one). */
static void copy_all(uint32_t answer, uint32_t own, uint32_t len, uint32_t copied)
{
	uint32_t code;

	lay(own, len, 1);
	must(guc_receive_look(&receiver, &desc, ring, n));
	memcpy(receiver.words + AT_COPY, msg, 4 * copied);
	receiver.words[AT_MOVED] = copied;
	if (answer == GUC_BAD_STATE)
		receiver.words[AT_LEN]++;
	if (answer == GUC_BAD_BUFFER)
		n = 1000;
	calling("guc_receive_copy_all", answer, "");
	lent_state(receiver.words);
	lent_desc();
	lent_ring_left(own + copied, len - copied);
	begin();
	code = guc_receive_copy_all(&receiver, &desc, ring, n);
	end(code);
}

static void both(uint32_t own, uint32_t len, uint32_t moved)
{
	store_all(GUC_OK, own, len, moved);
	if (len > 1)
		copy_all(GUC_OK, own, len, moved ? moved : 1);
}

/* Straight and to the ring's end, and around it with so many left before it. */
static void places_of(uint32_t len, uint32_t moved)
{
	static const uint32_t before[] = { 1, 2, 3, 100, 254, 255 };
	size_t k;

	both(100, len, moved);
	both(ring_size - len, len, moved);
	for (k = 0; k < sizeof(before) / sizeof(before[0]) && before[k] < len; k++)
		both(ring_size - before[k], len, moved);
}

void half_calls(void)
{
	static const uint32_t calls[][2] = { { 2, 0 }, { 2, 1 }, { 3, 1 }, { 5, 2 }, { 5, 4 },
					     { 17, 0 }, { 256, 0 }, { 256, 1 }, { 256, 100 },
					     { 256, 255 } };
	size_t k;

	for (ring_size = N; ring_size <= MOST_N; ring_size += MOST_N - N)
		for (k = 0; k < sizeof(calls) / sizeof(calls[0]); k++)
			places_of(calls[k][0], calls[k][1]);
	ring_size = N;
	store_all(GUC_BAD_BUFFER, 100, 5, 1);
	store_all(GUC_BAD_STATE, 100, 5, 1);
	store_all(GUC_OK, 100, 5, 5); /* none is left */
	copy_all(GUC_BAD_BUFFER, 100, 5, 1);
	copy_all(GUC_BAD_STATE, 100, 5, 1);
	copy_all(GUC_OK, 100, 5, 5);
}
