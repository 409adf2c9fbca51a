/*
 * A wall's sends whose table, wall, message or descriptor is rewritten while they
 * run: what was judged is what is sent and recorded. walls.c has the outcomes.
 */
#include "walls.h"

enum { ROOM = 200, REQUEST = 0x05550777 };

static void opening(void)
{
	keep(guc_wall_send(shared, table, RECORDS, &ch.now.sender, ch.desc, ch.ring, N, ch.msg, ch.len, ROOM));
}

/* A request around the ring's end, and a free record. */
static void lay_request(void)
{
	unsigned k;

	lay_table();
	lay_free(5);
	open_at(N - 1);
	ch.len = LENGTH;
	ch.msg[0] = 0x12340000u | (LENGTH - 1);
	ch.msg[1] = REQUEST;
	for (k = 2; k < LENGTH; k++)
		ch.msg[k] = 0xD0000000u + k;
}

/* Another length, form or fence of its own; another action or type. */
static void lay_message(unsigned v)
{
	static const uint32_t header[4] = { 0x12340000u | LENGTH, 0x12341000u | (LENGTH - 1),
					    0xFFFF0000u | (LENGTH - 1), 0x12340100u };
	static const uint32_t word[4] = { 0x05550888, 0x10000777, 0x80000000u, 0x40000777 };

	lay_request();
	rewritten(ch.msg, 4, 0x12340000u | (LENGTH - 1), header[v]);
	rewritten(ch.msg + 1, 4, REQUEST, word[v]);
	listen();
}

/*
 * What an opening goes by: two fences change places, so that one of them is always
 * open and none may be given out; or a record is free or not, alone or before
 * another that is; or what is set aside is just enough or one too many, in one
 * record or in the sum of two, of which one may be free.
 */
static void lay_opened(unsigned v)
{
	lay_request();
	if (v == 0) {
		rewrite(0, OPEN, 1, 100, 1, 101);
		rewrite(4, OPEN, 1, 101, 1, 100);
	} else if (v == 1) {
		was[5] = was[2];
		was[5].fence = NOBODYS;
		rewrite(2, OPEN, 1, 612, 0, 612);
	} else if (v == 2) {
		lay_free(3);
		rewrite(1, OPEN, 1, 356, 0, 356);
	} else if (v == 3) {
		rewrite(0, OPEN, 1, 100, 1, 356);
		rewrite(1, OPEN, 1, 356, 1, 100);
	} else if (v == 4) { /* the others hold 11 to 14 */
		rewrite(0, COUNT, 0, N - 1 - ROOM - 50, 9, N - ROOM - 50);
	} else {
		rewrite(0, COUNT, 0, 0, 9, 700);
		rewrite(3, COUNT, 9, 700, 0, 0);
		rewrite(3, OPEN, 1, 868, 0, 868);
	}
	listen();
}

/* Each word is the good one or one that 6, 7, 8 or 10 refuses, or another good one. */
static void lay_descriptor(unsigned v)
{
	static const uint32_t head[4] = { N, 1, 0xFFFFFFFFu, 7 };
	static const uint32_t tail[4] = { 5, N, 2 * N - 1, 0 };

	lay_request();
	rewrite_descriptor(head[v], tail[v], v < 2 ? 1u << v : 0);
	listen();
}

/* Another last fence, so that another one is given; another N, or none that is allowed, of which one face is a
 * multiple and the other large enough. */
static void lay_shared(unsigned v)
{
	static const uint16_t last[3] = { 355, 65535, LAST }, n[3] = { 2 * N, 1000, 0 };

	lay_request();
	if (v == 0)
		was[0].room = N; /* too much for one of the two */
	rewrite_shared(v == 2 ? 1536 : N, last[v], n[v]);
	listen();
}

const struct scene wall_send_scenes[] = {
	{ "guc_wall_send, message", 4, lay_message, reset_wall, opening, judge_wall, 0 },
	{ "guc_wall_send, table", 6, lay_opened, reset_wall, opening, judge_wall, 0 },
	{ "guc_wall_send, descriptor", 4, lay_descriptor, reset_wall, opening, judge_wall, 0 },
	{ "guc_wall_send, wall", 3, lay_shared, reset_wall, opening, judge_wall, 0 },
	{ 0, 0, 0, 0, 0, 0, 0 },
};
