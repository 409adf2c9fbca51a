/*
 * A wall of requests, sent, filled and emptied by replies out of order, with stray
 * ones among them, and refused calls; the table, and the channel that the requests
 * go out by, are held against a book of their own. Some calls are interrupted after
 * every instruction.
 */
#include "book.h"
#include "machine.h"
#include "scenes.h"

enum { OUTSIDE = 4, ROOM = OUTSIDE + GUC_RECORDS_MAX + OUTSIDE, SELDOM = 97, LENGTH = 3, N = GUC_RING_MIN };

/* The table, with records around it that nobody may touch, and what it must hold. */
static _Alignas(8) struct guc_record memory[ROOM], twin[ROOM];
static struct guc_record *const table = memory + OUTSIDE, *const booked = twin + OUTSIDE;
static struct guc_wall wall, wall_booked;
static size_t records;

/* The channel of the requests, and what its ring and descriptor must hold. */
static struct guc_sender sender;
static struct guc_receiver receiver;
static struct guc_descriptor desc;
static uint32_t ring[N], ring_booked[N], head, tail, out[GUC_MESSAGE_DWORDS];
static uint64_t no_room, no_ring; /* requests that were refused by 28, by 10 */

static void lay(size_t count)
{
	static const struct guc_record mark = {0x6A6A, 0x6A6A, 0x6A6A, 0x6A6A, 0x6A6A};

	for (int k = 0; k < ROOM; k++)
		memory[k] = twin[k] = mark;
	records = count;
}

static int same_record(const struct guc_record *a, const struct guc_record *b)
{
	return a->open == b->open && a->fence == b->fence && a->action == b->action &&
	       a->count == b->count && a->room == b->room;
}

static void check_wall(void)
{
	int same = wall.last == wall_booked.last && wall.n == wall_booked.n;

	for (int k = 0; k < ROOM; k++)
		same &= same_record(memory + k, twin + k);
	EXPECT(same);
	same = desc.head == head && desc.tail == tail && desc.status == 0;
	for (int k = 0; k < N; k++)
		same &= ring[k] == ring_booked[k];
	EXPECT(same && guc_sender_own(&sender) == tail && guc_sender_len(&sender) == 0);
}

/* The open record with this fence, or records. */
static size_t book_find(uint16_t fence)
{
	size_t k;

	for (k = 0; k < records && !(booked[k].open && booked[k].fence == fence); k++)
		;
	return k;
}

static void check_answer(struct guc_wall_answer a, uint32_t code, uint32_t kind, uint32_t fence,
			 const struct guc_record *r)
{
	EXPECT(a.code == code && a.kind == kind && a.fence == fence);
	EXPECT(a.action == (r ? r->action : 0) && a.count == (r ? r->count : 0));
	check_wall();
}

/* Every so many calls are interrupted after each instruction. */
static void next_call(void)
{
	static unsigned calls;

	single_steps = calls++ % SELDOM == 0;
}

static void make_fresh(void)
{
	uint32_t code;

	next_call();
	begin_call();
	code = guc_wall_fresh(&wall, table, records, N);
	end_call();
	EXPECT(code == GUC_OK);
	for (size_t k = 0; k < records; k++)
		booked[k] = (struct guc_record){0, 0, 0, 0, 0};
	wall_booked = (struct guc_wall){65535, N};
	check_wall();
}

/* The other side takes all that was sent. */
static void drain(void)
{
	while (head != tail) {
		struct guc_received got = guc_receive(&receiver, &desc, ring, N, out, GUC_MESSAGE_DWORDS);

		EXPECT(got.code == GUC_OK && got.len == LENGTH);
		for (int k = 0; k < LENGTH; k++)
			EXPECT(out[k] == ring_booked[(head + k) % N]);
		head = (head + LENGTH) % N;
	}
	check_wall();
}

/* What an opening must answer, by the book. */
static uint32_t book_answer(size_t free, uint32_t room)
{
	uint32_t sum = room;

	for (size_t k = 0; k < records; k++)
		sum += booked[k].open ? booked[k].room : 0;
	if (free == records)
		return GUC_TABLE_FULL;
	if (sum > wall_booked.n - 1u)
		return GUC_NO_REPLY_ROOM;
	return LENGTH > N - 1 - (tail + N - head) % N ? GUC_FULL : GUC_OK;
}

static uint32_t send_request(uint16_t action, uint32_t room)
{
	const uint32_t msg[LENGTH] = {0xABCD0000u | (LENGTH - 1), 1u << 31 | 0x0AB0000u | action, 0xCAFE0000u + action};
	uint16_t fence = wall_booked.last;
	struct guc_wall_answer a;
	uint32_t code;
	size_t k;

	next_call();
	begin_call();
	a = guc_wall_send(&wall, table, records, &sender, &desc, ring, N, msg, LENGTH, room);
	end_call();
	for (k = 0; k < records && booked[k].open; k++)
		;
	code = book_answer(k, room);
	if (code) {
		check_answer(a, code, 0, 0, NULL);
		return code;
	}
	while (book_find(++fence) < records)
		;
	booked[k] = (struct guc_record){1, fence, action, 0, (uint16_t)room};
	wall_booked.last = fence;
	for (k = 0; k < LENGTH; k++)
		ring_booked[(tail + k) % N] = k ? msg[k] : (uint32_t)fence << 16 | (LENGTH - 1);
	tail = (tail + LENGTH) % N;
	check_answer(a, GUC_OK, 0, fence, NULL);
	return GUC_OK;
}

/* Where it is refused for the ring or for room, it is asked again: then that is mended. */
static void open_request(uint16_t action, uint32_t room)
{
	uint32_t code = send_request(action, room);

	if (code == GUC_FULL) {
		no_ring++;
		drain();
		code = send_request(action, room);
	}
	if (code == GUC_NO_REPLY_ROOM) {
		no_room++;
		send_request(action, room - 1);
	}
}

static void reply(uint16_t fence, uint32_t type)
{
	const uint32_t msg[3] = {(uint32_t)fence << 16 | 2, 1u << 31 | type << 28, 0xCAFE};
	size_t k = book_find(fence);
	struct guc_record r, *found = booked + k;
	struct guc_wall_answer a;

	next_call();
	begin_call();
	a = guc_wall_reply(&wall, table, records, msg, 3);
	end_call();
	if (k == records || type < GUC_TYPE_BUSY) {
		check_answer(a, GUC_NO_REQUEST, 0, 0, NULL);
		return;
	}
	found->count += type == GUC_TYPE_BUSY && found->count != 65535;
	r = *found;
	if (type != GUC_TYPE_BUSY)
		*found = (struct guc_record){0, 0, 0, 0, 0};
	check_answer(a, GUC_OK, type, 0, &r);
}

/* Filled and one more; answered out of order, two of three closed; filled again
 * from fences that are still open, so that these are skipped. */
static void requests(size_t count)
{
	static const uint32_t ends[3] = {GUC_TYPE_SUCCESS, GUC_TYPE_FAILURE, GUC_TYPE_RETRY};
	uint32_t room = count > 4 ? 1024 / (uint32_t)count : 256; /* of 256 records one too many */

	lay(count);
	make_fresh();
	for (size_t k = 0; k <= count; k++)
		open_request((uint16_t)(0x100 + k), room);
	for (size_t k = 0; k < count; k++) {
		uint16_t fence = (uint16_t)((k * 37 + 11) % count); /* each once */

		reply(fence, GUC_TYPE_BUSY);
		reply(fence, fence % 3); /* a request, an event or a fast request */
		if (k % 3 == 2)
			continue;
		reply(fence, ends[fence % 3]);
		reply(fence, GUC_TYPE_SUCCESS); /* a stray one */
	}
	wall.last = wall_booked.last = 65534;
	for (size_t k = 0; k <= count; k++)
		open_request((uint16_t)(0x300 + k), room);
	booked[0].count = table[0].count = 65534;
	reply(booked[0].fence, GUC_TYPE_BUSY);
	reply(booked[0].fence, GUC_TYPE_BUSY);
}

static struct guc_wall_answer send_of(struct guc_record *t, size_t count, const uint32_t *msg, size_t len, uint32_t room)
{
	return guc_wall_send(&wall, t, count, &sender, &desc, ring, N, msg, len, room);
}

/* On the table of three that was filled last. */
static void refused(void)
{
	const uint32_t good[2] = {(uint32_t)table[0].fence << 16 | 1, GUC_TYPE_BUSY << 28};
	const uint32_t unknown[2] = {1, 4u << 28}, request[2] = {1, 7};

	check_answer(guc_wall_reply(&wall, table, 3, unknown, 2), GUC_BAD_MESSAGE, 0, 0, NULL);
	check_answer(guc_wall_reply(&wall, table, 3, good, 1), GUC_BAD_MESSAGE, 0, 0, NULL);
	check_answer(guc_wall_reply(&wall, table, 3, NULL, 0), GUC_BAD_MESSAGE, 0, 0, NULL);
	check_answer(guc_wall_reply(&wall, NULL, 0, good, 2), GUC_BAD_TABLE, 0, 0, NULL);
	check_answer(send_of(NULL, 0, request, 2, 0), GUC_BAD_TABLE, 0, 0, NULL);
	check_answer(send_of(table, GUC_RECORDS_MAX + 1, request, 2, 0), GUC_BAD_TABLE, 0, 0, NULL);
	check_answer(send_of(table, 3, request, 2, 257), GUC_BAD_FIELD, 0, 0, NULL);
	check_answer(send_of(table, 3, request, 1, 256), GUC_NO_REQUEST, 0, 0, NULL);
	check_answer(send_of(table, 3, good, 2, 256), GUC_NO_REQUEST, 0, 0, NULL);
	check_answer(send_of(table, 3, NULL, 0, 0), GUC_NO_REQUEST, 0, 0, NULL);
	check_answer(send_of(table, 3, request, 2, 0), GUC_TABLE_FULL, 0, 0, NULL);
	EXPECT(guc_wall_fresh(&wall, table, GUC_RECORDS_MAX + 1, N) == GUC_BAD_TABLE);
	EXPECT(guc_wall_fresh(&wall, table, 3, N + 1) == GUC_BAD_BUFFER);
	wall.n = wall_booked.n = 17408;
	check_answer(send_of(table, 3, request, 2, 257), GUC_BAD_BUFFER, 0, 0, NULL);
	check_answer(guc_wall_reply(&wall, table, 3, unknown, 2), GUC_BAD_BUFFER, 0, 0, NULL);
	table[2].fence = booked[2].fence = table[0].fence;
	check_answer(send_of(table, 3, request, 2, 0), GUC_BAD_TABLE, 0, 0, NULL);
	check_answer(guc_wall_reply(&wall, table, 3, unknown, 2), GUC_BAD_TABLE, 0, 0, NULL);
	EXPECT(guc_wall_age(0, 65535) == 1 && guc_wall_age(65535, 0) == -1);
	EXPECT(guc_wall_age(0, 32768) == -32768 && guc_wall_age(7, 7) == 0);
}

void wall_calls(void)
{
	EXPECT(guc_open(&sender, &receiver, &desc, ring, N) == GUC_OK);
	requests(GUC_RECORDS_MAX);
	requests(1);
	requests(3);
	single_steps = 1;
	begin_call();
	refused();
	end_call();
	single_steps = 0;
	EXPECT(no_room && no_ring);
}
