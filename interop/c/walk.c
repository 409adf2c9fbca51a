/*
 * A walk through libguc.a with its header alone, as a caller in C or C++ has
 * it: channel and messages here, sides that make whole calls only and moves all
 * at once in walk_sides.c, a wall of requests in walk_walls.c, a record of
 * messages in walk_records.c, firmware in walk_blobs.c. Every answer is checked;
 * the lines printed are compared with walk.expected.
 */
#include "walk.h"

#include <string.h>

/* One channel, both sides. */
struct channel {
	struct guc_sender sender;
	struct guc_receiver receiver;
	struct guc_descriptor desc;
	uint32_t ring[N];
	uint32_t out[GUC_MESSAGE_DWORDS + 1];
};

static struct channel ch;

static uint32_t do_open(void)
{
	memset(ch.out, 0x55, sizeof(ch.out));
	return guc_open(&ch.sender, &ch.receiver, &ch.desc, ch.ring, N);
}

static uint32_t do_send(const uint32_t *msg, size_t len)
{
	return guc_send(&ch.sender, &ch.desc, ch.ring, N, msg, len);
}

static struct guc_received do_receive(void)
{
	return guc_receive(&ch.receiver, &ch.desc, ch.ring, N, ch.out, GUC_MESSAGE_DWORDS + 1);
}

static struct guc_received do_publish(size_t out_len)
{
	return guc_receive_publish(&ch.receiver, &ch.desc, ch.ring, N, ch.out, out_len);
}

/* A well-formed message of len dwords, 2 to 256. */
void make_message(uint32_t *msg, size_t len, uint32_t fence)
{
	struct guc_packed two;
	size_t k;

	two = guc_pack(GUC_ORIGIN_HOST, fence, (uint32_t)len - 1, GUC_TYPE_REQUEST, 0, 0x10);
	CHECK(two.code == GUC_OK);
	msg[0] = two.header;
	msg[1] = two.word;
	for (k = 2; k < len; k++)
		msg[k] = (uint32_t)k * 0x01010101u;
}

/* Opening reads nothing of what the sides held; refused, it leaves sides that fit no call. */
static void opening(void)
{
	static const uint32_t zeros[GUC_STATE_WORDS] = { 0 };
	uint32_t code;

	memset(&ch, 0xA5, sizeof(ch));
	code = guc_open(&ch.sender, &ch.receiver, &ch.desc, ch.ring, 1000);
	CHECK(code == GUC_BAD_BUFFER && ch.desc.reserved[12] == 0xA5A5A5A5u);
	CHECK(memcmp(&ch.sender, zeros, sizeof(zeros)) == 0);
	CHECK(memcmp(&ch.receiver, zeros, sizeof(zeros)) == 0);
	CHECK(do_send(zeros, 2) == GUC_BAD_STATE);
	CHECK(guc_open(&ch.sender, &ch.receiver, &ch.desc, NULL, 0) == GUC_BAD_BUFFER);
	CHECK(do_open() == GUC_OK);
	CHECK(memcmp(&ch.desc, zeros, sizeof(ch.desc)) == 0 && ch.ring[0] == 0xA5A5A5A5u);
	CHECK(guc_sender_own(&ch.sender) == 0 && guc_receiver_own(&ch.receiver) == 0);
	CHECK(guc_sender_len(&ch.sender) == 0 && guc_receiver_moved(&ch.receiver) == 0);
	CHECK(guc_interface_3() == GUC_INTERFACE);
	printf("open: N 1000 2, then 0; interface %u\n", (unsigned)guc_interface_3());
}

/* A send whole, a receive in steps. */
static void one_message(void)
{
	uint32_t msg[4], code;
	struct guc_received got;

	CHECK(do_open() == GUC_OK);
	got = do_receive();
	CHECK(got.code == GUC_EMPTY && got.len == 0);
	make_message(msg, 4, 7);
	CHECK(do_send(msg, 3) == GUC_BAD_MESSAGE && do_send(NULL, 0) == GUC_BAD_MESSAGE);
	CHECK(do_send(msg, 4) == GUC_OK && ch.desc.tail == 4);
	CHECK(guc_sender_own(&ch.sender) == 4);
	code = guc_receive_look(&ch.receiver, &ch.desc, ch.ring, N);
	CHECK(code == GUC_OK && guc_receiver_len(&ch.receiver) == 4);
	CHECK(guc_receiver_moved(&ch.receiver) == 1);
	CHECK(do_receive().code == GUC_BAD_STATE);
	got = guc_receive_publish(&ch.receiver, &ch.desc, ch.ring, N, NULL, 0);
	CHECK(got.code == GUC_SHORT_OUTPUT && do_publish(255).code == GUC_SHORT_OUTPUT);
	CHECK(do_publish(256).code == GUC_OUT_OF_TURN);
	while (guc_receive_copy(&ch.receiver, &ch.desc, ch.ring, N) == GUC_OK)
		;
	CHECK(guc_receiver_moved(&ch.receiver) == 4);
	got = do_publish(256);
	CHECK(got.code == GUC_OK && got.len == 4 && ch.desc.head == 4);
	CHECK(guc_receiver_own(&ch.receiver) == 4 && guc_receiver_len(&ch.receiver) == 0);
	CHECK(memcmp(ch.out, msg, sizeof(msg)) == 0 && ch.out[4] == 0x55555555u);
	printf("one message: %u dwords, fence %u, HEAD %u\n", (unsigned)got.len,
	       (unsigned)guc_unpack(ch.out, got.len).fence, (unsigned)ch.desc.head);
}

/* Three times 256 leave 255 free; then full, drained, and across the end. */
static void full_and_around(void)
{
	uint32_t msg[256];
	struct guc_received got;
	int k;

	CHECK(do_open() == GUC_OK);
	make_message(msg, 256, 1);
	for (k = 0; k < 3; k++)
		CHECK(do_send(msg, 256) == GUC_OK);
	CHECK(do_send(msg, 256) == GUC_FULL && ch.desc.tail == 768);
	make_message(msg, 255, 2);
	CHECK(do_send(msg, 255) == GUC_OK && ch.desc.tail == 1023);
	for (k = 0; k < 4; k++) {
		got = do_receive();
		CHECK(got.code == GUC_OK && got.len == (k < 3 ? 256u : 255u));
	}
	CHECK(do_receive().code == GUC_EMPTY);
	make_message(msg, 8, 3);
	CHECK(do_send(msg, 8) == GUC_OK && ch.desc.tail == 7);
	CHECK(ch.ring[1023] == msg[0] && ch.ring[6] == msg[7]);
	got = do_receive();
	CHECK(got.code == GUC_OK && got.len == 8 && memcmp(ch.out, msg, 32) == 0);
	printf("full: 256 refused by 10, 255 taken; around the end: HEAD %u, TAIL %u\n",
	       (unsigned)ch.desc.head, (unsigned)ch.desc.tail);
}

/* A send in steps: where the caller's write barrier has its place. */
static void send_in_steps(void)
{
	struct guc_sender before;
	uint32_t msg[2], code;

	CHECK(do_open() == GUC_OK);
	make_message(msg, 2, 9);
	code = guc_send_look(&ch.sender, &ch.desc, ch.ring, N, msg, 2);
	CHECK(code == GUC_OK && ch.desc.tail == 0 && guc_sender_len(&ch.sender) == 2);
	msg[1] = 0x40000000u; /* too late: the look took its own copy */
	CHECK(guc_send_publish(&ch.sender, &ch.desc, ch.ring, N) == GUC_OUT_OF_TURN);
	CHECK(guc_send_store(&ch.sender, &ch.desc, ch.ring, N) == GUC_OK);
	CHECK(guc_send_store(&ch.sender, &ch.desc, ch.ring, N) == GUC_OK);
	before = ch.sender;
	CHECK(guc_send_store(&ch.sender, &ch.desc, ch.ring, N) == GUC_OUT_OF_TURN);
	CHECK(memcmp(&before, &ch.sender, sizeof(before)) == 0);
	CHECK(guc_sender_moved(&ch.sender) == 2);
	/* the write barrier goes here */
	code = guc_send_publish(&ch.sender, &ch.desc, ch.ring, N);
	CHECK(code == GUC_OK && ch.desc.tail == 2 && ch.ring[1] == 0x10);
	CHECK(do_receive().code == GUC_OK);
	printf("send in steps: TAIL %u\n", (unsigned)ch.desc.tail);
}

/* What somebody else's writes to the shared memory are answered by. */
static void broken_channels(void)
{
	uint32_t msg[2];

	make_message(msg, 2, 0);
	CHECK(do_open() == GUC_OK);
	ch.ring[0] = 0x00000005u;
	ch.desc.tail = 3;
	CHECK(do_receive().code == GUC_UNDERFLOW && ch.desc.status == GUC_STATUS_UNDERFLOW);
	CHECK(do_receive().code == GUC_BROKEN && ch.desc.head == 0);

	CHECK(do_open() == GUC_OK);
	ch.desc.tail = N;
	CHECK(do_send(msg, 2) == GUC_OVERFLOW && ch.desc.status == GUC_STATUS_OVERFLOW);

	CHECK(do_open() == GUC_OK);
	ch.desc.tail = 12;
	CHECK(do_send(msg, 2) == GUC_MISMATCH && ch.desc.status == GUC_STATUS_MISMATCH);

	CHECK(do_open() == GUC_OK);
	ch.ring[0] = 0x00001002u; /* format 1 */
	ch.desc.tail = 3;
	CHECK(do_receive().code == GUC_MALFORMED && ch.desc.head == 3);
	CHECK(ch.out[0] == 0x55555555u && ch.desc.status == GUC_STATUS_GOOD);
	CHECK(do_receive().code == GUC_EMPTY);
	printf("broken: 9 then 6, 7, 8, and 13 with HEAD past the message\n");
}

static void packing(void)
{
	struct guc_packed p = guc_pack(GUC_ORIGIN_GUC, 0x1234, 1, GUC_TYPE_SUCCESS, 0, 0);
	struct guc_unpacked u;
	uint32_t msg[2];

	CHECK(p.code == GUC_OK && p.header == 0x12340001u && p.word == 0xF0000000u);
	p = guc_pack(GUC_ORIGIN_GUC, 0x1234, 1, GUC_TYPE_FAILURE, 0x0AB, 0x10);
	CHECK(p.code == GUC_OK && p.word == 0xE0AB0010u);
	printf("packed: 0x%08X 0x%08X\n", (unsigned)p.header, (unsigned)p.word);
	msg[0] = p.header;
	msg[1] = p.word;
	u = guc_unpack(msg, 2);
	CHECK(u.code == GUC_OK && u.origin == GUC_ORIGIN_GUC);
	CHECK(u.fence == 0x1234 && u.num_dwords == 1);
	CHECK(u.type == GUC_TYPE_FAILURE && u.first == 0x0AB && u.second == 0x10);
	printf("unpacked: type %u, hint 0x%03X, error 0x%X\n", (unsigned)u.type,
	       (unsigned)u.first, (unsigned)u.second);
	p = guc_pack(GUC_ORIGIN_HOST, 0, 1, GUC_TYPE_REQUEST, 0x1000, 0);
	CHECK(p.code == GUC_BAD_FIELD && p.header == 0 && p.word == 0);
	CHECK(guc_pack(GUC_ORIGIN_HOST, 0, 0, GUC_TYPE_REQUEST, 0, 0).code == GUC_BAD_FIELD);
	CHECK(guc_pack(GUC_ORIGIN_HOST, 0, 1, GUC_TYPE_BUSY, 0, 1).code == GUC_BAD_FIELD);
	CHECK(guc_pack(2, 0x10000, 0, 4, 0, 0).code == GUC_NO_SUCH);
	u = guc_unpack(msg, 1);
	CHECK(u.code == GUC_BAD_MESSAGE && u.origin == 0 && u.fence == 0 && u.type == 0);
	CHECK(guc_unpack(NULL, 0).code == GUC_BAD_MESSAGE);
	printf("refused: 14 and 101 packing, 4 unpacking\n");
}

/* Type 2 is laid out as a request; type 4 alone is unknown. */
static void fast_request(void)
{
	struct guc_packed p = guc_pack(GUC_ORIGIN_HOST, 0x1234, 1, GUC_TYPE_FAST_REQUEST, 0x0AB,
				       0x4601);
	uint32_t msg[2] = { p.header, p.word };
	struct guc_unpacked u = guc_unpack(msg, 2);

	CHECK(p.code == GUC_OK && p.header == 0x12340001u && p.word == 0x20AB4601u);
	CHECK(u.code == GUC_OK && u.origin == GUC_ORIGIN_HOST && u.fence == 0x1234);
	CHECK(u.type == GUC_TYPE_FAST_REQUEST && u.first == 0x0AB && u.second == 0x4601);
	CHECK(do_open() == GUC_OK && do_send(msg, 2) == GUC_OK);
	CHECK(do_receive().code == GUC_OK && memcmp(ch.out, msg, sizeof(msg)) == 0);
	printf("fast request: 0x%08X, data 0x%03X, action 0x%X\n", (unsigned)p.word,
	       (unsigned)u.first, (unsigned)u.second);
	msg[1] = 0x40AB4601u;
	CHECK(do_send(msg, 2) == GUC_BAD_MESSAGE && ch.desc.tail == 2);
	CHECK(guc_unpack(msg, 2).code == GUC_BAD_MESSAGE);
	CHECK(guc_pack(GUC_ORIGIN_HOST, 0x1234, 1, 4, 0x0AB, 0x4601).code == GUC_NO_SUCH);
	memcpy(ch.ring + 2, msg, sizeof(msg));
	ch.desc.tail = 4;
	CHECK(do_receive().code == GUC_MALFORMED && ch.desc.head == 4);
	printf("type 4: 4 sending and unpacking, 13 receiving, 101 packing\n");
}

int main(void)
{
	opening();
	one_message();
	full_and_around();
	send_in_steps();
	broken_channels();
	packing();
	fast_request();
	walk_sides();
	walk_walls();
	walk_records();
	walk_blobs();
	printf("done\n");
	return 0;
}
