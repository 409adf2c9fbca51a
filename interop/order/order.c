/*
 * Where a call copies by memcpy, what it publishes comes after the copy. run
 * diverts each memcpy of the archive to hook_memcpy below; while one runs, the
 * descriptor and the side's N and own offset must still be the old ones, the copy
 * must lie within what was lent, and no dword that the call judges may be copied:
 * that would be its second read. Of a wall's send that is so of what goes into the
 * ring, and table and wall are the old ones too; a record goes into the table after
 * TAIL has moved.
 */
#include "guc.h"

#include <stdio.h>
#include <stdlib.h>
#include <string.h>

#define N 1024u
#define ROUNDS 40000u

void *hook_memcpy(void *to, const void *from, size_t bytes);

enum call {
	SEND, WHOLE_SEND, WALL_SEND, SEND_LOOK, STORE_ALL,
	RECEIVE, WHOLE_RECEIVE, COPY_ALL, RECEIVE_PUBLISH,
	OTHER
};

static const char *const called[OTHER] = {
	"guc_send", "guc_whole_send", "guc_wall_send", "guc_send_look", "guc_send_store_all",
	"guc_receive", "guc_whole_receive", "guc_receive_copy_all", "guc_receive_publish",
};

static struct guc_sender s;
static struct guc_receiver r;
static struct guc_whole_sender ws;
static struct guc_whole_receiver wr;
static struct guc_descriptor desc;
static uint32_t ring[N], msg[GUC_MESSAGE_DWORDS], out[GUC_MESSAGE_DWORDS];
static size_t len; /* of the message at hand */

/* A wall of requests, each of which is answered before the next one is sent. */
enum { RECORDS = 8 };
static struct walled {
	struct guc_wall wall;
	struct guc_record table[RECORDS];
} walled;

/* The call that runs, and what it found. */
static struct {
	enum call call;
	struct guc_descriptor desc;
	uint32_t two[2]; /* the side's N and own offset */
	const uint32_t *side;
	struct walled walled;
} now = { OTHER, { 0, 0, 0, { 0 } }, { 0, 0 }, NULL, { { 0, 0 }, { { 0, 0, 0, 0, 0 } } } };

static unsigned long calls[OTHER], runs[OTHER], bad;

/* Dwords of lent memory. */
struct span {
	const uint32_t *start;
	size_t count;
};

static int within(const void *at, size_t bytes, struct span of)
{
	uintptr_t a = (uintptr_t)at, start = (uintptr_t)of.start;

	return a >= start && a - start <= 4 * of.count && bytes <= 4 * of.count - (a - start);
}

static int touches(const void *at, size_t bytes, const uint32_t *dword)
{
	uintptr_t a = (uintptr_t)at, d = (uintptr_t)dword;

	return a < d + 4 && d < a + bytes;
}

static void wrong(const char *what)
{
	if (bad++ < 10)
		printf("%s, message of %u: %s\n", called[now.call], (unsigned)len, what);
}

/* From where to where a call may copy. */
static void judge_places(const void *to, const void *from, size_t bytes)
{
	struct span in_ring = { ring, N }, message = { msg, len }, output = { out, len };
	struct span copy = { now.side + 4, GUC_MESSAGE_DWORDS }; /* of a side that makes steps */
	struct span source = in_ring, target = in_ring;

	switch (now.call) {
	case SEND: case WHOLE_SEND: case WALL_SEND: source = message; break;
	case SEND_LOOK: source = message; target = copy; break;
	case STORE_ALL: source = copy; break;
	case RECEIVE: case WHOLE_RECEIVE: target = output; break;
	case RECEIVE_PUBLISH: source = copy; target = output; break;
	default: target = copy;
	}
	if (!within(from, bytes, source) || !within(to, bytes, target))
		wrong("a copy leaves what was lent, or goes around the end");
}

/* What was judged before the copy and may be written by somebody meanwhile. */
static void judge_judged(const void *from, size_t bytes)
{
	uint32_t own = now.two[1];

	switch (now.call) {
	case SEND: case WHOLE_SEND: case WALL_SEND: case SEND_LOOK:
		if (touches(from, bytes, msg) || touches(from, bytes, msg + 1))
			wrong("a judged dword of the message is read again");
		break;
	case RECEIVE: case WHOLE_RECEIVE:
		if (touches(from, bytes, ring + own) || touches(from, bytes, ring + (own + 1) % N))
			wrong("a judged dword of the ring is read again");
		break;
	case COPY_ALL:
		if (touches(from, bytes, ring + own))
			wrong("the header is read again");
		break;
	default:
		break;
	}
}

/* Whether a copy of a wall's send goes into the ring; others may copy records out of the table as they like. */
static int into_ring(void *to, size_t bytes)
{
	struct span in_ring = { ring, N };
	uintptr_t at = (uintptr_t)to, start = (uintptr_t)&walled;

	if (now.call != WALL_SEND || within(to, bytes, in_ring))
		return 1;
	if (at - start < sizeof(walled) && desc.tail == now.desc.tail)
		wrong("the table changes before TAIL does");
	return 0;
}

void *hook_memcpy(void *to, const void *from, size_t bytes)
{
	if (now.call != OTHER && bytes && into_ring(to, bytes)) {
		runs[now.call]++;
		if (memcmp(&walled, &now.walled, sizeof(walled)))
			wrong("the table or the last fence changes before the copy is done");
		if (memcmp(&desc, &now.desc, sizeof(desc)))
			wrong("the descriptor changes before the copy is done");
		if (memcmp(now.side, now.two, sizeof(now.two)))
			wrong("the side's own offset changes before the copy is done");
		judge_places(to, from, bytes);
		judge_judged(from, bytes);
	}
	return memmove(to, from, bytes);
}

/* A call begins on a side of these words. */
static void begin(enum call call, const void *side)
{
	now.desc = desc;
	now.walled = walled;
	memcpy(now.two, side, sizeof(now.two));
	now.side = side;
	now.call = call;
	calls[call]++;
}

static void must(int so, const char *what)
{
	now.call = OTHER;
	if (so)
		return;
	printf("order: not so: %s\n", what);
	exit(2);
}

/* By the wall: the fence is its own, and the reply closes the request at once. */
static void wall_send(void)
{
	uint32_t done[2] = { 1, 0x70000000u };
	struct guc_wall_answer a;

	begin(WALL_SEND, &s);
	a = guc_wall_send(&walled.wall, walled.table, RECORDS, &s, &desc, ring, N, msg, len, 256);
	must(a.code == GUC_OK, "guc_wall_send");
	ws.own = guc_sender_own(&s);
	msg[0] = (msg[0] & 0xFFFF) | (uint32_t)a.fence << 16;
	done[0] |= (uint32_t)a.fence << 16;
	must(guc_wall_reply(&walled.wall, walled.table, RECORDS, done, 2).code == GUC_OK, "guc_wall_reply");
}

static void send(unsigned how)
{
	if (how % 4 == 3) {
		wall_send();
		return;
	}
	if (how % 3 == 0) {
		begin(SEND, &s);
		must(guc_send(&s, &desc, ring, N, msg, len) == GUC_OK, "guc_send");
		ws.own = guc_sender_own(&s);
		return;
	}
	if (how % 3 == 1) {
		begin(WHOLE_SEND, &ws);
		must(guc_whole_send(&ws, &desc, ring, N, msg, len) == GUC_OK, "guc_whole_send");
		s.words[1] = ws.own;
		return;
	}
	begin(SEND_LOOK, &s);
	must(guc_send_look(&s, &desc, ring, N, msg, len) == GUC_OK, "guc_send_look");
	for (; how % 8 > 3; how++) /* up to four dwords one by one before the others */
		if (guc_sender_moved(&s) + 1 < len)
			must(guc_send_store(&s, &desc, ring, N) == GUC_OK, "guc_send_store");
	begin(STORE_ALL, &s);
	must(guc_send_store_all(&s, &desc, ring, N) == GUC_OK, "guc_send_store_all");
	must(guc_send_publish(&s, &desc, ring, N) == GUC_OK, "guc_send_publish");
	ws.own = guc_sender_own(&s);
}

static void receive(unsigned how)
{
	struct guc_received got;

	memset(out, 0, sizeof(out));
	if (how % 3 == 0) {
		begin(RECEIVE, &r);
		got = guc_receive(&r, &desc, ring, N, out, GUC_MESSAGE_DWORDS);
		wr.own = guc_receiver_own(&r);
	} else if (how % 3 == 1) {
		begin(WHOLE_RECEIVE, &wr);
		got = guc_whole_receive(&wr, &desc, ring, N, out, GUC_MESSAGE_DWORDS);
		r.words[1] = wr.own;
	} else {
		must(guc_receive_look(&r, &desc, ring, N) == GUC_OK, "guc_receive_look");
		for (; how % 8 > 3; how++)
			if (guc_receiver_moved(&r) + 1 < len)
				must(guc_receive_copy(&r, &desc, ring, N) == GUC_OK, "guc_receive_copy");
		begin(COPY_ALL, &r);
		must(guc_receive_copy_all(&r, &desc, ring, N) == GUC_OK, "guc_receive_copy_all");
		begin(RECEIVE_PUBLISH, &r);
		got = guc_receive_publish(&r, &desc, ring, N, out, GUC_MESSAGE_DWORDS);
		wr.own = guc_receiver_own(&r);
	}
	must(got.code == GUC_OK && got.len == len && !memcmp(out, msg, 4 * len), "received as sent");
}

int main(void)
{
	unsigned long all = 0, every = 0;
	uint32_t k, i;
	int c;

	must(guc_open(&s, &r, &desc, ring, N) == GUC_OK, "guc_open");
	must(guc_whole_open(&ws, &wr, &desc, ring, N) == GUC_OK, "guc_whole_open");
	must(guc_wall_fresh(&walled.wall, walled.table, RECORDS, N) == GUC_OK, "guc_wall_fresh");
	for (k = 0; k < ROUNDS; k++) {
		len = 2 + (size_t)k * 37 % 255;
		msg[0] = k << 16 | (uint32_t)(len - 1);
		msg[1] = 0x00000020u;
		for (i = 2; i < len; i++)
			msg[i] = k * 2654435761u + i;
		send(k / 7);
		receive(k / 5);
	}
	for (c = SEND; c < OTHER; c++) {
		printf("%-21s %6lu calls, %6lu runs by memcpy\n", called[c], calls[c], runs[c]);
		all += calls[c];
		every += runs[c];
	}
	printf("order: %lu calls, %lu runs by memcpy, %lu out of order\n", all, every, bad);
	return bad != 0;
}
