/*
 * A wall's calls: made fresh, and replies, accepted and refused by each number, at
 * tables of 1 to 256 records, whose fences differ in their low eight bits or are
 * alike in them. Its sends are in wall_sends.c.
 */
#include "walls.h"

#include <string.h>

enum { OUTSIDE = 8, LENGTH = 5, REPLY_N = 2048 };

/* 257 records for a table too long. */
static _Alignas(8) struct guc_record memory[OUTSIDE + MOST + 1 + OUTSIDE];
struct guc_record *const table = memory + OUTSIDE;
struct guc_wall wall;
size_t records;
int alike;
static uint32_t msg[LENGTH];
static size_t msg_len;

static uint16_t fence_of(size_t k)
{
	return (uint16_t)(alike ? 5 + 256 * k : 65400 + k);
}

void lay_wall(size_t count)
{
	size_t k;

	memset(memory, 0xFF, sizeof(memory));
	records = count;
	for (k = 0; k < count; k++) {
		table[k].open = (uint16_t)(k % 2 ? 1 : 0x8000);
		table[k].fence = fence_of(k);
		table[k].action = (uint16_t)(0x100 + k);
		table[k].count = (uint16_t)k;
		table[k].room = (uint16_t)(k % 8);
	}
	wall.last = (uint16_t)(fence_of(count > MANY ? count - 3 : 0) - 1); /* the next is open */
	wall.n = REPLY_N;
}

/* A reply to record hit, or one that nobody waits for, alike to record 0's in its low bits. */
static void lay_reply(uint32_t type, size_t hit)
{
	uint16_t fence = hit == NONE ? (uint16_t)(fence_of(0) + 0x8000) : table[hit].fence;

	msg_len = LENGTH;
	memset(msg, 0xEE, sizeof(msg));
	msg[0] = (uint32_t)fence << 16 | (LENGTH - 1);
	msg[1] = 0x80000000u | type << 28 | 0x0ABCDEF;
}

void lay_free(size_t k)
{
	table[k].open = 0;
	table[k].fence = fence_of(k ? k - 1 : records - 1);
	table[k].room = 65535;
}

/* Names of a record's words, in the order of enum about; made here, since the run that is traced makes none. */
static const struct names {
	const char *judged, *rest, *room, *unused;
} names[] = {
	{ "record.judged", "record.else", "record.room", "record.unused" },
	{ "hit.judged", "hit.else", "hit.room", "hit.unused" },
	{ "taken.judged", "taken.else", "taken.room", "taken.unused" },
	{ "pair.judged", "pair.else", "pair.room", "pair.unused" },
};

/* Of a free record nobody asks but whether it is. */
static void lent_record(const struct names *n, size_t k)
{
	int open = table[k].open;

	lent(n->judged, &table[k].open, 2);
	lent(open ? n->judged : n->unused, &table[k].fence, 2);
	lent(n->rest, &table[k].action, 4);
	lent(open ? n->room : n->unused, &table[k].room, 2);
}

void lent_wall(enum about what, size_t one, size_t other)
{
	size_t k;

	lent("wall.last", &wall.last, sizeof(wall.last));
	lent("wall.n", &wall.n, sizeof(wall.n));
	lent("table.outside", memory, OUTSIDE * sizeof(*table));
	lent("table.outside", table + records, OUTSIDE * sizeof(*table));
	if (records > MOST)
		lent("table.refused", table, records * sizeof(*table));
	for (k = 0; k < records && records <= MOST; k++) {
		lent_record(names + (k == one || k == other ? what : RECORD), k);
	}
}

static void fresh(uint32_t answer, size_t count, size_t reply_n)
{
	uint32_t code;

	lay_wall(count);
	calling("guc_wall_fresh", answer, "");
	lent_wall(RECORD, NONE, NONE);
	begin();
	code = guc_wall_fresh(&wall, table, records, reply_n);
	end(code);
}

/* What is laid, replied to: by record hit, or where that and another are a pair. */
static void replied(uint32_t answer, size_t hit, size_t pair, const char *note)
{
	uint32_t code;

	calling("guc_wall_reply", answer, note);
	if (answer == GUC_BAD_TABLE)
		lent_wall(PAIR, pair, hit);
	else
		lent_wall(HIT, hit, NONE);
	lent("header", msg, 4 * (msg_len > 0));
	lent("second", msg + 1, 4 * (msg_len > 1));
	lent("rest", msg + 2, 4 * (msg_len > 2 ? msg_len - 2 : 0));
	lent("message.outside", msg + msg_len, 4 * (LENGTH - msg_len));
	begin();
	code = guc_wall_reply(&wall, table, records, msg_len ? msg : NULL, msg_len).code;
	end(code);
}

static void reply(size_t count, size_t hit, uint32_t type)
{
	lay_wall(count);
	if (hit < count && hit > 2)
		lay_free(hit / 2);
	lay_reply(type, hit);
	replied(hit == NONE ? GUC_NO_REQUEST : GUC_OK, hit, NONE, alike ? "alike" : "apart");
}

/* One fence in two open records; or a table of no such length. */
static void bad_tables(size_t count, size_t one, size_t other, const char *note)
{
	lay_wall(count);
	lay_reply(GUC_TYPE_BUSY, NONE);
	if (other < count) {
		table[other].fence = table[one].fence;
		if (count > 3)
			lay_free(count / 2);
	}
	replied(GUC_BAD_TABLE, one, other, note);
	msg[1] = 0x40000000u;
	replied(GUC_BAD_TABLE, one, other, "before the message is judged");
	wall.n = 0;
	replied(GUC_BAD_TABLE, one, other, "before N is judged");
}

static void bad_replies(size_t count)
{
	static const uint32_t none[3] = { GUC_TYPE_REQUEST, GUC_TYPE_EVENT, GUC_TYPE_FAST_REQUEST };
	static const size_t lengths[4] = { 0, 1, LENGTH - 1, 2 };
	size_t k;

	for (k = 0; k < 3; k++) {
		lay_wall(count);
		lay_reply(none[k], 0);
		replied(GUC_NO_REQUEST, 0, NONE, "no reply");
	}
	lay_wall(count);
	table[count - 1].open = 0;
	lay_reply(GUC_TYPE_SUCCESS, count - 1);
	replied(GUC_NO_REQUEST, NONE, NONE, "of a free record");
	for (k = 0; k < 4; k++) {
		lay_reply(GUC_TYPE_SUCCESS, 0);
		msg_len = lengths[k];
		replied(GUC_BAD_MESSAGE, 0, NONE, "length");
	}
	lay_reply(GUC_TYPE_SUCCESS, 0);
	msg[0] |= 0x1000;
	replied(GUC_BAD_MESSAGE, 0, NONE, "header");
	lay_reply(4, 0);
	replied(GUC_BAD_MESSAGE, 0, NONE, "type");
	wall.n = 1000;
	replied(GUC_BAD_BUFFER, 0, NONE, "before the message is judged");
	lay_reply(GUC_TYPE_SUCCESS, 0);
	replied(GUC_BAD_BUFFER, 0, NONE, "N");
}

/* Every record that may be the one, at ends and in the middle. */
static void calls_at(size_t count)
{
	static const uint32_t types[4] = { GUC_TYPE_BUSY, GUC_TYPE_RETRY, GUC_TYPE_FAILURE,
					   GUC_TYPE_SUCCESS };
	const size_t places[3] = { 0, count / 2, count - 1 };
	size_t k;

	for (k = 0; k < 3; k++) {
		reply(count, places[k], types[k]);
		reply(count, places[k], types[(k + 1) % 4]);
	}
	reply(count, NONE, types[k]);
	lay_wall(count);
	table[count - 1].count = 65535;
	lay_reply(GUC_TYPE_BUSY, count - 1);
	replied(GUC_OK, count - 1, NONE, "a count that stops");
}

void wall_calls(void)
{
	static const size_t counts[] = { 1, 2, 3, 16, MANY };
	size_t k;

	for (k = 0; k < sizeof(counts) / sizeof(counts[0]); k++) {
		fresh(GUC_OK, counts[k], 1024);
		fresh(GUC_BAD_BUFFER, counts[k], 1000);
		for (alike = 0; alike < 2; alike++)
			calls_at(counts[k]);
		alike = 0;
		bad_replies(counts[k]);
	}
	fresh(GUC_OK, MOST, 16384);
	calls_at(MOST);
	fresh(GUC_BAD_TABLE, 0, 1024);
	fresh(GUC_BAD_TABLE, MOST + 1, 1024);
	bad_tables(0, NONE, NONE, "none");
	bad_tables(MOST + 1, NONE, NONE, "too many");
	bad_tables(2, 0, 1, "pair");
	bad_tables(MANY, 0, 16, "pair");
	bad_tables(MOST, 0, 255, "pair");
	alike = 1;
	bad_tables(MANY, 15, 16, "pair");
	alike = 0;
	wall_send_calls();
}
