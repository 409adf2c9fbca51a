/*
 * The walk's sides of two words, which make whole calls only, and moves that are
 * made all at once.
 */
#include "walk.h"

#include <string.h>

/* A channel of sides that make whole calls only. */
struct whole {
	struct guc_whole_sender sender;
	struct guc_whole_receiver receiver;
	struct guc_descriptor desc;
	uint32_t ring[N];
	uint32_t out[GUC_MESSAGE_DWORDS + 1];
};

static struct whole wh;

static uint32_t do_send(const uint32_t *msg, size_t len)
{
	return guc_whole_send(&wh.sender, &wh.desc, wh.ring, N, msg, len);
}

static struct guc_received do_receive(void)
{
	return guc_whole_receive(&wh.receiver, &wh.desc, wh.ring, N, wh.out,
				 GUC_MESSAGE_DWORDS + 1);
}

static void do_open(void)
{
	memset(&wh, 0x55, sizeof(wh));
	CHECK(guc_whole_open(&wh.sender, &wh.receiver, &wh.desc, wh.ring, N) == GUC_OK);
	CHECK(wh.sender.n == N && wh.sender.own == 0);
	CHECK(wh.receiver.n == N && wh.receiver.own == 0);
	CHECK(wh.desc.head == 0 && wh.desc.tail == 0 && wh.desc.status == GUC_STATUS_GOOD);
	CHECK(wh.desc.reserved[12] == 0 && wh.ring[0] == 0x55555555u);
}

static void opening(void)
{
	uint32_t code;

	do_open();
	code = guc_whole_open(&wh.sender, &wh.receiver, &wh.desc, NULL, 0);
	CHECK(code == GUC_BAD_BUFFER && wh.sender.n == 0 && wh.sender.own == 0);
	CHECK(wh.receiver.n == 0 && wh.receiver.own == 0);
	CHECK(do_send(NULL, 0) == GUC_BAD_STATE && do_receive().code == GUC_BAD_STATE);
	do_open();
}

/* One message, then around the end, then full. */
static void whole_calls(void)
{
	uint32_t msg[256];
	struct guc_received got;
	int k;

	opening();
	CHECK(do_receive().code == GUC_EMPTY);
	make_message(msg, 4, 7);
	CHECK(do_send(msg, 3) == GUC_BAD_MESSAGE && wh.sender.own == 0);
	CHECK(do_send(msg, 4) == GUC_OK && wh.desc.tail == 4 && wh.sender.own == 4);
	got = guc_whole_receive(&wh.receiver, &wh.desc, wh.ring, N, NULL, 0);
	CHECK(got.code == GUC_SHORT_OUTPUT && wh.receiver.own == 0);
	got = do_receive();
	CHECK(got.code == GUC_OK && got.len == 4 && wh.receiver.own == 4 && wh.desc.head == 4);
	CHECK(memcmp(wh.out, msg, 16) == 0 && wh.out[4] == 0x55555555u);
	make_message(msg, 256, 8);
	for (k = 0; k < 3; k++)
		CHECK(do_send(msg, 256) == GUC_OK);
	CHECK(do_send(msg, 256) == GUC_FULL && wh.sender.own == 772);
	CHECK(do_receive().len == 256 && do_receive().len == 256);
	CHECK(do_send(msg, 256) == GUC_OK && wh.desc.tail == 4); /* around the end */
	CHECK(do_receive().len == 256);
	got = do_receive();
	CHECK(got.code == GUC_OK && got.len == 256 && memcmp(wh.out, msg, 1024) == 0);
	printf("whole calls: HEAD %u, TAIL %u, own %u and %u\n", (unsigned)wh.desc.head,
	       (unsigned)wh.desc.tail, (unsigned)wh.sender.own, (unsigned)wh.receiver.own);
}

/* Two words that fit no call, and what somebody else's writes are answered by. */
static void whole_refused(void)
{
	uint32_t msg[2];

	make_message(msg, 2, 0);
	do_open();
	wh.sender.n = 2 * N;
	CHECK(do_send(msg, 2) == GUC_BAD_STATE && wh.sender.n == 2 * N);
	wh.sender.n = N;
	wh.sender.own = N;
	CHECK(do_send(msg, 2) == GUC_BAD_STATE && wh.sender.own == N);
	wh.sender.own = 8;
	CHECK(do_send(msg, 2) == GUC_MISMATCH && wh.desc.status == GUC_STATUS_MISMATCH);
	CHECK(do_receive().code == GUC_BROKEN && wh.receiver.own == 0);
	do_open();
	wh.desc.tail = N;
	CHECK(do_receive().code == GUC_OVERFLOW && wh.desc.status == GUC_STATUS_OVERFLOW);
	do_open();
	wh.ring[0] = 0x00000005u;
	wh.desc.tail = 3;
	CHECK(do_receive().code == GUC_UNDERFLOW && wh.desc.status == GUC_STATUS_UNDERFLOW);
	wh.desc.status = GUC_STATUS_GOOD;
	wh.ring[0] = 0x00001002u; /* format 1 */
	CHECK(do_receive().code == GUC_MALFORMED && wh.desc.head == 3);
	CHECK(wh.receiver.own == 3 && wh.out[0] == 0x55555555u);
	printf("whole calls refused: 3, 8 then 6, 7, 9, and 13 with own %u\n",
	       (unsigned)wh.receiver.own);
}

/* The look has copied all of a message of one dword: nothing is left to copy. */
static void lone_header(struct guc_receiver *r)
{
	struct guc_received got;

	wh.ring[100] = 0x43210000u;
	wh.desc.tail = 103;
	CHECK(guc_receive_look(r, &wh.desc, wh.ring, N) == GUC_OK && guc_receiver_len(r) == 1);
	CHECK(guc_receive_copy_all(r, &wh.desc, wh.ring, N) == GUC_OK);
	CHECK(guc_receive_copy(r, &wh.desc, wh.ring, N) == GUC_OUT_OF_TURN);
	got = guc_receive_publish(r, &wh.desc, wh.ring, N, wh.out, GUC_MESSAGE_DWORDS);
	CHECK(got.code == GUC_MALFORMED && got.len == 0 && wh.desc.head == 101);
	printf("a lone header: nothing left to copy, then 13\n");
}

/* Both halves of a message in as few calls as a barrier between them allows. */
static void all_at_once(void)
{
	static struct guc_sender s;
	static struct guc_receiver r;
	struct guc_received got;
	uint32_t msg[100];

	CHECK(guc_open(&s, &r, &wh.desc, wh.ring, N) == GUC_OK);
	make_message(msg, 100, 5);
	CHECK(guc_send_store_all(&s, &wh.desc, wh.ring, N) == GUC_BAD_STATE);
	memcpy(wh.ring + 500, msg, sizeof(msg)); /* a look writes to neither, so they may overlap */
	CHECK(guc_send_look(&s, &wh.desc, wh.ring, N, wh.ring + 500, 100) == GUC_OK);
	CHECK(guc_send_store(&s, &wh.desc, wh.ring, N) == GUC_OK);
	CHECK(guc_send_store_all(&s, &wh.desc, NULL, 0) == GUC_BAD_BUFFER);
	CHECK(guc_sender_moved(&s) == 1 && wh.desc.tail == 0);
	CHECK(guc_send_store_all(&s, &wh.desc, wh.ring, N) == GUC_OK);
	CHECK(guc_sender_moved(&s) == 100 && memcmp(wh.ring, msg, sizeof(msg)) == 0);
	CHECK(guc_send_store_all(&s, &wh.desc, wh.ring, N) == GUC_OK); /* none is left */
	CHECK(guc_sender_moved(&s) == 100 && memcmp(wh.ring, msg, sizeof(msg)) == 0);
	/* the write barrier goes here */
	CHECK(guc_send_publish(&s, &wh.desc, wh.ring, N) == GUC_OK && wh.desc.tail == 100);
	CHECK(guc_receive_copy_all(&r, &wh.desc, wh.ring, N) == GUC_BAD_STATE);
	CHECK(guc_receive_look(&r, &wh.desc, wh.ring, N) == GUC_OK);
	CHECK(guc_receive_copy_all(&r, &wh.desc, NULL, 0) == GUC_BAD_BUFFER);
	CHECK(guc_receive_copy_all(&r, &wh.desc, wh.ring, N) == GUC_OK);
	CHECK(guc_receiver_moved(&r) == 100 && wh.desc.head == 0);
	CHECK(guc_receive_copy_all(&r, &wh.desc, wh.ring, N) == GUC_OK); /* none is left */
	CHECK(guc_receiver_moved(&r) == 100);
	got = guc_receive_publish(&r, &wh.desc, wh.ring, N, wh.out, GUC_MESSAGE_DWORDS);
	CHECK(got.code == GUC_OK && got.len == 100 && memcmp(wh.out, msg, sizeof(msg)) == 0);
	CHECK(wh.desc.head == 100 && guc_receiver_own(&r) == 100);
	printf("all at once: stored and copied %u dwords\n", (unsigned)got.len);
	lone_header(&r);
}

/* Numbers that no answer has. */
static int is_none(uint32_t k)
{
	return (k > GUC_DUPLICATE_ENTRY && k < GUC_TABLE_FULL) ||
	       (k > GUC_SHORT_ROOM && k < GUC_BAD_TABLE) || (k > GUC_BAD_TABLE && k < GUC_NO_ROOM);
}

/* Each number has a sentence, and no two the same. */
static void sentences(void)
{
	const char *none = guc_strerror(23);
	uint32_t k, other;

	for (k = 0; k <= GUC_NO_SUCH; k++) {
		if (is_none(k)) {
			CHECK(strcmp(guc_strerror(k), none) == 0);
			continue;
		}
		CHECK(strcmp(guc_strerror(k), none) != 0);
		for (other = 0; other < k; other++)
			CHECK(strcmp(guc_strerror(k), guc_strerror(other)) != 0);
	}
	CHECK(strcmp(guc_strerror(0xFFFFFFFFu), none) == 0);
	printf("10: %s\n", guc_strerror(GUC_FULL));
	printf("23: %s\n", none);
}

void walk_sides(void)
{
	whole_calls();
	whole_refused();
	all_at_once();
	sentences();
}
