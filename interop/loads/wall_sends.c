/*
 * A wall's sends: accepted at every place of the record and of the message, and
 * refused by each number of the wall and of the ring.
 */
#include "channel.h"
#include "walls.h"

/* What one call is like, beside the good one. */
struct fault {
	uint32_t answer;
	const char *note;
	uint32_t *at, value;  /* a dword that is spoilt */
	size_t *count, other; /* a count that is another */
};

enum { ROOM = 200, FEW = 3 };

static uint32_t room;

/* The record that is taken, if any, has all of its words under names of its own. */
static void lent_all(uint32_t own, uint32_t len, size_t taken, size_t pair)
{
	if (pair != NONE)
		lent_wall(PAIR, pair, taken);
	else
		lent_wall(TAKEN, taken, NONE);
	lent_state(sender.words);
	lent_desc();
	lent_ring(own, len);
	lent("header", msg, 4 * (msg_len > 0));
	lent("second", msg + 1, 4 * (msg_len > 1));
	lent("rest", msg + 2, 4 * (msg_len > 2 ? msg_len - 2 : 0));
	lent("message.outside", msg + msg_len, 4 * (GUC_MESSAGE_DWORDS - msg_len));
}

/* What is laid, sent; record taken is the lowest free one. */
static void sent(uint32_t answer, uint32_t own, uint32_t len, size_t taken, size_t pair, const char *note)
{
	uint32_t code;

	calling("guc_wall_send", answer, note);
	lent_all(own, len, taken, pair);
	begin();
	code = guc_wall_send(&wall, table, records, &sender, &desc, ring, n, msg_len ? msg : NULL, msg_len,
			     room).code;
	end(code);
}

/* A request of len at own, and so many records, from record free on each third of them free. */
static void lay_send(uint32_t own, uint32_t len, size_t count, size_t free)
{
	size_t k;

	lay(own, len, 0);
	msg[1] = 0x00AB0777;
	room = ROOM;
	lay_wall(count);
	for (k = free; k < count; k += 3)
		lay_free(k);
}

static void opening(size_t count, size_t free)
{
	lay_send(N - 2, 5, count, free);
	sent(free < count ? GUC_OK : GUC_TABLE_FULL, N - 2, 5, free, NONE, alike ? "alike" : "apart");
}

/* The room for the answer: just enough, one too many, and more than there may be. */
static void rooms(size_t count)
{
	uint32_t held = 0;
	size_t k;

	lay_send(100, 5, count, count - 1);
	for (k = 1; k + 1 < count; k++)
		held += table[k].room;
	table[0].room = (uint16_t)(wall.n - 1 - ROOM - held);
	sent(GUC_OK, 100, 5, count - 1, NONE, "N - 1");
	lay_send(100, 5, count, count - 1);
	table[0].room = (uint16_t)(wall.n - ROOM - held);
	sent(GUC_NO_REPLY_ROOM, 100, 5, count - 1, NONE, "N");
	table[0].room = 65535;
	sent(GUC_NO_REPLY_ROOM, 100, 5, count - 1, NONE, "much");
	room = 257;
	sent(GUC_BAD_FIELD, 100, 5, count - 1, NONE, "257");
	wall.n = 1000;
	sent(GUC_BAD_BUFFER, 100, 5, count - 1, NONE, "N of the wall");
}

/* One fence in two open records, or a table of no such length. */
static void bad_tables(size_t count, size_t one, size_t other, const char *note)
{
	lay_send(100, 5, count, count);
	if (other < count)
		table[other].fence = table[one].fence;
	sent(GUC_BAD_TABLE, 100, 5, one, other, note);
	msg_len = 0;
	sent(GUC_BAD_TABLE, 100, 5, one, other, "before the message is judged");
}

static void spoilt(const struct fault *f)
{
	lay_send(100, 5, FEW, FEW - 1);
	if (f->at)
		*f->at = f->value;
	if (f->count)
		*f->count = f->other;
	sent(f->answer, 100, 5, FEW - 1, NONE, f->note);
}

static void refusals(void)
{
	const struct fault refused[] = {
		{ GUC_NO_REQUEST, "header", msg, 0x1004, 0, 0 },
		{ GUC_NO_REQUEST, "unknown type", msg + 1, 0x40000000, 0, 0 },
		{ GUC_NO_REQUEST, "event", msg + 1, 0x10000000, 0, 0 },
		{ GUC_NO_REQUEST, "reply", msg + 1, 0x70000000, 0, 0 },
		{ GUC_NO_REQUEST, "length", 0, 0, &msg_len, 6 },
		{ GUC_NO_REQUEST, "a lone header", 0, 0, &msg_len, 1 },
		{ GUC_NO_REQUEST, "nothing", 0, 0, &msg_len, 0 },
		{ GUC_BAD_BUFFER, "of the ring", 0, 0, &n, 1000 },
		{ GUC_BAD_STATE, "other N", sender.words + AT_N, 2048, 0, 0 },
		{ GUC_BAD_STATE, "last of the copy", sender.words + 259, 1, 0, 0 },
		{ GUC_BAD_STATE, "under way", sender.words + AT_LEN, 5, 0, 0 },
		{ GUC_BROKEN, "", &desc.status, 8, 0, 0 },
		{ GUC_OVERFLOW, "HEAD", &desc.head, N, 0, 0 },
		{ GUC_OVERFLOW, "TAIL", &desc.tail, N, 0, 0 },
		{ GUC_MISMATCH, "", &desc.tail, 40, 0, 0 },
		{ GUC_FULL, "", &desc.head, 101, 0, 0 },
	};
	size_t k;

	for (k = 0; k < sizeof(refused) / sizeof(refused[0]); k++)
		spoilt(&refused[k]);
}

/* The message straight, and around the ring's end with so many left. */
static void copies_of(uint32_t len)
{
	static const uint32_t left[] = { 1, 2, 3, 100, 254, 255 };
	const uint32_t straight[] = { 101, 0, ring_size - len - 1, ring_size - len };
	size_t k;

	for (k = 0; k < sizeof(straight) / sizeof(straight[0]); k++) {
		lay_send(straight[k], len, FEW, 1);
		sent(GUC_OK, straight[k], len, 1, NONE, "straight");
	}
	for (k = 0; k < sizeof(left) / sizeof(left[0]) && left[k] < len; k++) {
		lay_send(ring_size - left[k], len, FEW, 1);
		sent(GUC_OK, ring_size - left[k], len, 1, NONE, "around");
	}
}

void wall_send_calls(void)
{
	static const size_t counts[] = { 1, 2, 3, 16, MANY, MOST };
	static const uint32_t lengths[] = { 2, 3, 17, 256 };
	size_t k;

	for (k = 0; k < sizeof(counts) / sizeof(counts[0]); k++)
		for (alike = 0; alike < 2 && alike * counts[k] < MOST; alike++) {
			opening(counts[k], counts[k]);
			opening(counts[k], 0);
			opening(counts[k], counts[k] / 2);
			opening(counts[k], counts[k] - 1);
		}
	alike = 0;
	for (k = 1; k < sizeof(counts) / sizeof(counts[0]); k++)
		rooms(counts[k]);
	refusals();
	for (ring_size = N; ring_size <= MOST_N; ring_size += MOST_N - N)
		for (k = 0; k < sizeof(lengths) / sizeof(lengths[0]); k++)
			copies_of(lengths[k]);
	ring_size = N;
	bad_tables(0, NONE, NONE, "none");
	bad_tables(MOST + 1, NONE, NONE, "too many");
	bad_tables(2, 0, 1, "pair");
	bad_tables(MANY, 0, 16, "pair");
	bad_tables(MOST, 0, 255, "pair");
	alike = 1;
	bad_tables(MANY, 15, 16, "pair");
	alike = 0;
}
