/*
 * The walk's wall of requests: sends with room set aside for their answers,
 * replies out of order, what is refused and in which order, and ages of fences.
 */
#include "walk.h"

#include <stddef.h>
#include <string.h>

/* A table of three records, and one behind its end that stays; what is sent goes out by a channel of its own. */
static struct guc_wall wall;
static struct guc_record table[4];
static struct guc_sender sender;
static struct guc_receiver receiver;
static struct guc_descriptor desc;
static uint32_t ring[N], msg[GUC_MESSAGE_DWORDS], out[GUC_MESSAGE_DWORDS];
static const struct guc_record zeros = { 0, 0, 0, 0, 0 };

static int same(const struct guc_record *one, const struct guc_record *other)
{
	return memcmp(one, other, sizeof(*one)) == 0;
}

/* Where C has the fields; the Rust of the tests has them there too. */
static void layouts(void)
{
	printf("a record of %u bytes: %u %u %u %u %u; a wall of %u: %u %u; ",
	       (unsigned)sizeof(struct guc_record), (unsigned)offsetof(struct guc_record, open),
	       (unsigned)offsetof(struct guc_record, fence),
	       (unsigned)offsetof(struct guc_record, action),
	       (unsigned)offsetof(struct guc_record, count),
	       (unsigned)offsetof(struct guc_record, room), (unsigned)sizeof(struct guc_wall),
	       (unsigned)offsetof(struct guc_wall, last), (unsigned)offsetof(struct guc_wall, n));
	printf("an answer of %u: %u %u %u %u %u\n", (unsigned)sizeof(struct guc_wall_answer),
	       (unsigned)offsetof(struct guc_wall_answer, code),
	       (unsigned)offsetof(struct guc_wall_answer, kind),
	       (unsigned)offsetof(struct guc_wall_answer, fence),
	       (unsigned)offsetof(struct guc_wall_answer, action),
	       (unsigned)offsetof(struct guc_wall_answer, count));
}

static struct guc_wall_answer reply(uint32_t origin, uint32_t type, uint32_t fence)
{
	struct guc_packed two = guc_pack(origin, fence, 1, type, 0, 0);
	uint32_t answered[2] = { two.header, two.word };

	CHECK(two.code == GUC_OK);
	return guc_wall_reply(&wall, table, 3, answered, 2);
}

/* The message at hand, with so many reply dwords. */
static struct guc_wall_answer send_of(size_t len, uint32_t room)
{
	return guc_wall_send(&wall, table, 3, &sender, &desc, ring, N, msg, len, room);
}

static uint32_t send_code(size_t records, size_t len)
{
	return guc_wall_send(&wall, table, records, &sender, &desc, ring, N, msg, len, 0).code;
}

/* A refusal has no figures beside it. */
static int refused(struct guc_wall_answer a, uint32_t code)
{
	return a.code == code && a.kind == 0 && a.fence == 0 && a.action == 0 && a.count == 0;
}

/* Whatever the table held: three requests go out with fences of the wall's, and no fourth. */
static void opening(void)
{
	struct guc_wall_answer a;
	uint16_t k;

	memset(table, 0xA5, sizeof(table));
	memset(&wall, 0xA5, sizeof(wall));
	CHECK(guc_open(&sender, &receiver, &desc, ring, N) == GUC_OK);
	CHECK(guc_wall_fresh(&wall, NULL, 0, N) == GUC_BAD_TABLE && wall.last == 0xA5A5);
	CHECK(guc_wall_fresh(&wall, table, 3, 66560) == GUC_BAD_BUFFER && wall.n == 0xA5A5);
	CHECK(guc_wall_fresh(&wall, table, 3, N) == GUC_OK && wall.last == GUC_FIRST_LAST);
	CHECK(wall.n == N && same(&table[0], &zeros) && same(&table[2], &zeros));
	CHECK(table[3].open == 0xA5A5 && table[3].room == 0xA5A5);
	for (k = 0; k < 3; k++) {
		make_message(msg, 4, 999);
		msg[1] = 0x4600u + k;
		a = send_of(4, 10u + k);
		CHECK(a.code == GUC_OK && a.fence == k && a.kind == 0 && a.action == 0);
		CHECK(wall.last == k && wall.n == N && table[k].open == 1 && table[k].fence == k);
		CHECK(table[k].action == 0x4600 + k && table[k].count == 0 && table[k].room == 10 + k);
		CHECK(ring[4 * k] == ((uint32_t)k << 16 | 3) && ring[4 * k + 1] == msg[1]);
		CHECK(ring[4 * k + 3] == msg[3] && desc.tail == 4u * k + 4 && msg[0] >> 16 == 999);
	}
	CHECK(refused(send_of(4, 0), GUC_TABLE_FULL) && wall.last == 2 && desc.tail == 12);
	CHECK(guc_receive(&receiver, &desc, ring, N, out, GUC_MESSAGE_DWORDS).len == 4);
	CHECK(out[0] == 3 && out[1] == 0x4600 && guc_sender_own(&sender) == 12);
	printf("a fresh table of 3: fences 0 to %u sent, then %u\n", (unsigned)wall.last,
	       (unsigned)send_code(3, 4));
}

/* Out of order, of either origin; each kind. */
static void replies(void)
{
	struct guc_wall_answer a;

	a = reply(GUC_ORIGIN_GUC, GUC_TYPE_BUSY, 1);
	CHECK(a.code == GUC_OK && a.kind == GUC_TYPE_BUSY && a.fence == 0);
	CHECK(a.action == 0x4601 && a.count == 1 && table[1].open == 1 && table[1].count == 1);
	CHECK(table[1].room == 11);
	a = reply(GUC_ORIGIN_HOST, GUC_TYPE_SUCCESS, 2);
	CHECK(a.code == GUC_OK && a.kind == GUC_TYPE_SUCCESS && a.action == 0x4602 && a.count == 0);
	CHECK(same(&table[2], &zeros));
	a = reply(GUC_ORIGIN_GUC, GUC_TYPE_RETRY, 0);
	CHECK(a.code == GUC_OK && a.kind == GUC_TYPE_RETRY && a.action == 0x4600);
	CHECK(same(&table[0], &zeros));
	CHECK(refused(reply(GUC_ORIGIN_GUC, GUC_TYPE_SUCCESS, 0), GUC_NO_REQUEST));
	CHECK(refused(reply(GUC_ORIGIN_GUC, GUC_TYPE_REQUEST, 1), GUC_NO_REQUEST));
	CHECK(refused(reply(GUC_ORIGIN_GUC, GUC_TYPE_EVENT, 1), GUC_NO_REQUEST));
	CHECK(refused(reply(GUC_ORIGIN_HOST, GUC_TYPE_FAST_REQUEST, 1), GUC_NO_REQUEST));
	CHECK(refused(guc_wall_reply(&wall, table, 3, NULL, 0), GUC_BAD_MESSAGE));
	table[1].count = 65534;
	CHECK(reply(GUC_ORIGIN_GUC, GUC_TYPE_BUSY, 1).count == 65535);
	CHECK(reply(GUC_ORIGIN_GUC, GUC_TYPE_BUSY, 1).count == 65535 && table[1].count == 65535);
	a = reply(GUC_ORIGIN_GUC, GUC_TYPE_FAILURE, 1);
	CHECK(a.code == GUC_OK && a.kind == GUC_TYPE_FAILURE && a.count == 65535);
	CHECK(same(&table[1], &zeros) && wall.last == 2 && table[3].open == 0xA5A5);
	printf("replies: busy %u times, failure, retry, success; no request: %u; malformed: %u\n",
	       (unsigned)a.count, (unsigned)reply(GUC_ORIGIN_GUC, GUC_TYPE_SUCCESS, 1).code,
	       (unsigned)guc_wall_reply(&wall, table, 3, NULL, 0).code);
}

/* What is set aside is N - 1 at most, 0 to 256 for each; of lent records it may be more. */
static void rooms(void)
{
	struct guc_record first = { 1, 20, 0, 0, (uint16_t)(N - 257) };
	struct guc_record free_one = { 0, 20, 0, 0, 65535 };
	uint32_t codes[4];

	table[0] = first;
	table[1] = table[2] = free_one;
	codes[0] = send_of(4, 257).code;
	CHECK(refused(send_of(4, 65792), GUC_BAD_FIELD) && refused(send_of(4, 0xFFFFFFFFu), GUC_BAD_FIELD));
	table[0].room++;
	codes[1] = send_of(4, 256).code;
	CHECK(refused(send_of(4, 256), GUC_NO_REPLY_ROOM) && wall.last == 2 && desc.tail == 12);
	codes[2] = send_of(4, 255).code;
	CHECK(table[1].room == 255 && wall.last == 3 && desc.tail == 16);
	codes[3] = send_of(4, 1).code;
	table[0].room = 65535; /* with 1 more, small again in 16 bits */
	table[1].room = 1;
	CHECK(refused(send_of(4, 0), GUC_NO_REPLY_ROOM));
	CHECK(reply(GUC_ORIGIN_GUC, GUC_TYPE_SUCCESS, 20).code == GUC_OK && same(&table[0], &zeros));
	CHECK(send_of(4, 256).code == GUC_OK && table[0].room == 256);
	printf("room 257: %u; to N: %u; to N - 1: %u; one more: %u\n", (unsigned)codes[0],
	       (unsigned)codes[1], (unsigned)codes[2], (unsigned)codes[3]);
}

/* Fences 65,535 and 0 are open: behind 65,534 comes 1, in the lowest free record. */
static void around(void)
{
	struct guc_record first = { 0x100, 65535, 7, 7, 7 };
	struct guc_record free_one = { 0, 1, 8, 8, 8 };
	struct guc_record last = { 1, 0, 9, 9, 9 };
	struct guc_wall_answer a;

	table[0] = first;
	table[1] = free_one;
	table[2] = last;
	wall.last = 65534;
	a = send_of(4, 6);
	CHECK(a.code == GUC_OK && a.fence == 1 && wall.last == 1);
	CHECK(same(&table[0], &first) && same(&table[2], &last));
	CHECK(table[1].open == 1 && table[1].action == 0x4602 && table[1].count == 0);
	a = reply(GUC_ORIGIN_GUC, GUC_TYPE_BUSY, 65535);
	CHECK(a.count == 8 && table[0].open == 0x100 && table[0].room == 7);
	printf("behind 65534, with 65535 and 0 open: %u\n", (unsigned)wall.last);
}

/* 35 comes before all else and leaves all; fresh mends it. */
static void bad_tables(void)
{
	static struct guc_record many[GUC_RECORDS_MAX + 1];
	uint32_t code;

	make_message(msg, 2, 0);
	table[2].fence = 65535;
	CHECK(refused(reply(GUC_ORIGIN_GUC, GUC_TYPE_SUCCESS, 1), GUC_BAD_TABLE));
	CHECK(refused(guc_wall_reply(&wall, table, 3, NULL, 0), GUC_BAD_TABLE));
	CHECK(refused(send_of(2, 300), GUC_BAD_TABLE) && wall.last == 1);
	code = send_code(3, 2);
	table[2].fence = 0xFEFF; /* as 65,535 in its low eight bits */
	CHECK(send_code(3, 2) == GUC_TABLE_FULL && send_code(0, 2) == GUC_BAD_TABLE);
	CHECK(guc_wall_fresh(&wall, many, 257, N) == GUC_BAD_TABLE && wall.last == 1);
	CHECK(guc_wall_send(&wall, NULL, 0, &sender, &desc, NULL, 0, NULL, 0, 0).code == GUC_BAD_TABLE);
	CHECK(guc_wall_send(&wall, many, 257, &sender, &desc, ring, N, msg, 2, 0).code == GUC_BAD_TABLE);
	CHECK(guc_wall_send(&wall, many, 256, &sender, &desc, ring, N, msg, 2, 0).fence == 2);
	CHECK(many[0].fence == 2 && many[0].action == 0x10);
	printf("a fence open twice, 0 records, 257 records: %u\n", (unsigned)code);
}

/* Everything is wrong, and mended one by one: each number in its turn. */
static void in_order(void)
{
	uint32_t codes[10];

	memset(msg, 0, sizeof(msg));
	wall.n = 1000;
	desc.status = 1;
	sender.words[0] = 2048;
	codes[0] = send_of(1, 300).code;
	wall.n = 2048;
	codes[1] = send_of(1, 300).code;
	codes[2] = send_of(1, 256).code;
	make_message(msg, 2, 0);
	table[0].room = 65535;
	codes[3] = send_of(2, 256).code;
	table[2].open = 0;
	codes[4] = send_of(2, 256).code;
	table[0].room = 0;
	codes[5] = guc_wall_send(&wall, table, 3, &sender, &desc, ring, 1000, msg, 2, 256).code;
	codes[6] = send_of(2, 256).code;
	sender.words[0] = N;
	codes[7] = send_of(2, 256).code;
	desc.status = 0;
	desc.tail ^= 1;
	codes[8] = send_of(2, 256).code;
	CHECK(desc.status == GUC_STATUS_MISMATCH && wall.last == 2);
	desc.status = 0;
	desc.tail ^= 1;
	desc.head = (desc.tail + 1) % N;
	codes[9] = send_of(2, 256).code;
	printf("one after another: %u %u %u %u %u, by the ring %u %u %u %u %u\n",
	       (unsigned)codes[0], (unsigned)codes[1], (unsigned)codes[2], (unsigned)codes[3],
	       (unsigned)codes[4], (unsigned)codes[5], (unsigned)codes[6], (unsigned)codes[7],
	       (unsigned)codes[8], (unsigned)codes[9]);
	wall.n = 1023;
	CHECK(refused(guc_wall_reply(&wall, table, 3, NULL, 0), GUC_BAD_BUFFER));
}

static void ages(void)
{
	CHECK(guc_wall_age(0, 65535) == 1 && guc_wall_age(65535, 0) == -1);
	CHECK(guc_wall_age(7, 7) == 0 && guc_wall_age(32768, 0) == -32768);
	CHECK(guc_wall_age(0, 32768) == -32768 && guc_wall_age(32767, 0) == 32767);
	printf("age of 0 beside 65535: %d; of 32768 beside 0: %d\n", (int)guc_wall_age(0, 65535),
	       (int)guc_wall_age(32768, 0));
}

void walk_walls(void)
{
	layouts();
	opening();
	replies();
	rooms();
	around();
	bad_tables();
	in_order();
	ages();
}
