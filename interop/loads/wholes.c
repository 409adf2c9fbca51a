/*
 * Whole calls and looks, accepted and refused by each number; and whole calls
 * with their messages at the places that tell how they copy.
 */
#include "channel.h"

/* What one call is like, beside the good call. */
struct fault {
	uint32_t answer;
	const char *note;
	uint32_t *at, value; /* a word that is spoilt */
	size_t *count, other; /* a count that is another */
};

static void spoil(const struct fault *f)
{
	if (f->at)
		*f->at = f->value;
	if (f->count)
		*f->count = f->other;
}

static uint32_t send_now(enum how how)
{
	switch (how) {
	case LOOK:
		return guc_send_look(&sender, &desc, ring, n, msg, msg_len);
	case TWO:
		return guc_whole_send(&whole_sender, &desc, ring, n, msg, msg_len);
	default:
		return guc_send(&sender, &desc, ring, n, msg, msg_len);
	}
}

static void send(const struct fault *f, uint32_t own, uint32_t len, enum how how)
{
	static const char *const called[3] = { "guc_send", "guc_send_look", "guc_whole_send" };
	uint32_t code;

	lay(own, len, 0);
	spoil(f);
	calling(called[how], f->answer, f->note);
	if (how == TWO)
		lent_two(&whole_sender.n, &whole_sender.own);
	else
		lent_state(sender.words);
	lent_desc();
	lent_ring(own, len);
	lent_message();
	begin();
	code = send_now(how);
	end(code);
}

static uint32_t receive_now(enum how how)
{
	switch (how) {
	case LOOK:
		return guc_receive_look(&receiver, &desc, ring, n);
	case TWO:
		return guc_whole_receive(&whole_receiver, &desc, ring, n, out, out_len).code;
	default:
		return guc_receive(&receiver, &desc, ring, n, out, out_len).code;
	}
}

static void receive(const struct fault *f, uint32_t own, uint32_t len, enum how how)
{
	static const char *const called[3] = { "guc_receive", "guc_receive_look",
					       "guc_whole_receive" };
	uint32_t code;

	lay(own, len, 1);
	spoil(f);
	calling(called[how], f->answer, f->note);
	if (how == TWO)
		lent_two(&whole_receiver.n, &whole_receiver.own);
	else
		lent_state(receiver.words);
	lent_desc();
	lent_ring(own, len);
	lent("out", out, sizeof(out));
	begin();
	code = receive_now(how);
	end(code);
}

static const struct fault good = { GUC_OK, "", 0, 0, 0, 0 };

/* Own offset and L of the accepted calls: straight, and around the end. */
static const uint32_t places[][2] = {
	{ 100, 2 }, { 100, 3 }, { 100, 4 }, { 100, 5 }, { 100, 17 }, { 100, 40 }, { 100, 256 },
	{ N - 1, 2 }, { N - 1, 3 }, { N - 1, 40 }, { N - 1, 256 }, { N - 2, 2 }, { N - 2, 3 },
	{ N - 2, 17 }, { N - 3, 17 }, { N - 100, 256 }, { N - 254, 256 }, { 0, 256 },
};

#define PLACES (sizeof(places) / sizeof(places[0]))

void send_calls(enum how how)
{
	const struct fault state[3][2] = {
		{ { GUC_BAD_STATE, "other N", sender.words + AT_N, 2048, 0, 0 },
		  { GUC_BAD_STATE, "last of the copy", sender.words + 259, 1, 0, 0 } },
		{ { GUC_BAD_STATE, "other N", sender.words + AT_N, 2048, 0, 0 },
		  { GUC_BAD_STATE, "last of the copy", sender.words + 259, 1, 0, 0 } },
		{ { GUC_BAD_STATE, "other N", &whole_sender.n, 2048, 0, 0 },
		  { GUC_BAD_STATE, "own", &whole_sender.own, N, 0, 0 } },
	};
	const struct fault refused[] = {
		{ GUC_BAD_BUFFER, "", 0, 0, &n, 1000 },
		{ GUC_BAD_MESSAGE, "header", msg, 0x1004, 0, 0 },
		{ GUC_BAD_MESSAGE, "type", msg + 1, 0x40000000, 0, 0 },
		{ GUC_BAD_MESSAGE, "length", 0, 0, &msg_len, 6 },
		{ GUC_BROKEN, "", &desc.status, 8, 0, 0 },
		{ GUC_OVERFLOW, "HEAD", &desc.head, N, 0, 0 },
		{ GUC_OVERFLOW, "TAIL", &desc.tail, N, 0, 0 },
		{ GUC_MISMATCH, "", &desc.tail, 40, 0, 0 },
		{ GUC_FULL, "", &desc.head, 101, 0, 0 },
	};
	size_t k;

	for (k = 0; k < PLACES; k++)
		send(&good, places[k][0], places[k][1], how);
	for (k = 0; k < 2; k++)
		send(&state[how][k], 100, 5, how);
	for (k = 0; k < sizeof(refused) / sizeof(refused[0]); k++)
		send(&refused[k], 100, 5, how);
}

void receive_calls(enum how how)
{
	const struct fault state[3][2] = {
		{ { GUC_BAD_STATE, "other N", receiver.words + AT_N, 2048, 0, 0 },
		  { GUC_BAD_STATE, "last of the copy", receiver.words + 259, 1, 0, 0 } },
		{ { GUC_BAD_STATE, "other N", receiver.words + AT_N, 2048, 0, 0 },
		  { GUC_BAD_STATE, "last of the copy", receiver.words + 259, 1, 0, 0 } },
		{ { GUC_BAD_STATE, "other N", &whole_receiver.n, 2048, 0, 0 },
		  { GUC_BAD_STATE, "own", &whole_receiver.own, N, 0, 0 } },
	};
	const struct fault refused[] = {
		{ GUC_BAD_BUFFER, "", 0, 0, &n, 1000 },
		{ GUC_BROKEN, "", &desc.status, 8, 0, 0 },
		{ GUC_OVERFLOW, "HEAD", &desc.head, N, 0, 0 },
		{ GUC_OVERFLOW, "TAIL", &desc.tail, N, 0, 0 },
		{ GUC_MISMATCH, "", &desc.head, 40, 0, 0 },
		{ GUC_UNDERFLOW, "", &desc.tail, 104, 0, 0 },
		{ GUC_EMPTY, "", &desc.tail, 100, 0, 0 },
		{ GUC_SHORT_OUTPUT, "", 0, 0, &out_len, 255 },
		{ GUC_MALFORMED, "header", ring + 100, 0x1004, 0, 0 },
		{ GUC_MALFORMED, "type", ring + 101, 0x40000000, 0, 0 },
	};
	size_t k, count = sizeof(refused) / sizeof(refused[0]);

	for (k = 0; k < PLACES; k++)
		receive(&good, places[k][0], places[k][1], how);
	for (k = 0; k < 2; k++)
		receive(&state[how][k], 100, 5, how);
	for (k = 0; k < count - (how == LOOK ? 3 : 0); k++) /* the last three are no look's */
		receive(&refused[k], 100, 5, how);
}

static void both(uint32_t own, uint32_t len)
{
	send(&good, own, len, WHOLE);
	send(&good, own, len, TWO);
	receive(&good, own, len, WHOLE);
	receive(&good, own, len, TWO);
}

/* Straight, from the ring's start, to its last place but one and its last, and around its end with so many left. */
static void copies_of(uint32_t len)
{
	static const uint32_t left[] = { 1, 2, 3, 100, 254, 255 };
	size_t k;

	both(101, len);
	both(0, len);
	both(ring_size - len - 1, len);
	both(ring_size - len, len);
	for (k = 0; k < sizeof(left) / sizeof(left[0]) && left[k] < len; k++)
		both(ring_size - left[k], len);
}

void copy_calls(void)
{
	static const uint32_t lengths[] = { 2, 3, 17, 256 };
	size_t k;

	for (ring_size = N; ring_size <= MOST_N; ring_size += MOST_N - N)
		for (k = 0; k < sizeof(lengths) / sizeof(lengths[0]); k++)
			copies_of(lengths[k]);
	ring_size = N;
}
