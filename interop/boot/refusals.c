/*
 * Calls that must be refused, and what they leave; every instruction of them is
 * interrupted. Full and empty rings, and steps out of turn, come up in traffic.
 */
#include "book.h"
#include "machine.h"
#include "scenes.h"

/* The ways to make a call: whole, whole on two words, and by its look. */
enum { WHOLE, TWO_WORDS, LOOK, WAYS };

static const uint32_t plain[3] = {0x00010002, GUC_TYPE_EVENT << 28 | 7, 0xCAFE};

static uint32_t send(int way, size_t n, const uint32_t *msg, size_t len)
{
	if (way == WHOLE)
		return guc_send(&lent.sender, &lent.desc, lent.ring, n, msg, len);
	if (way == TWO_WORDS)
		return guc_whole_send(&lent.whole_sender, &lent.desc, lent.ring, n, msg, len);
	return guc_send_look(&lent.sender, &lent.desc, lent.ring, n, msg, len);
}

static uint32_t receive(int way, size_t n, uint32_t *out, size_t len)
{
	struct guc_received answer;

	if (way == LOOK)
		return guc_receive_look(&lent.receiver, &lent.desc, lent.ring, n);
	if (way == WHOLE)
		answer = guc_receive(&lent.receiver, &lent.desc, lent.ring, n, out, len);
	else
		answer = guc_whole_receive(&lent.whole_receiver, &lent.desc, lent.ring, n, out, len);
	EXPECT(answer.len == 0);
	return answer.code;
}

/* Both kinds of sides, opened on one descriptor, and it says what a row has. */
static void lay(uint32_t head, uint32_t tail, uint32_t status)
{
	EXPECT(guc_open(&lent.sender, &lent.receiver, &lent.desc, lent.ring, SMALL_RING) == GUC_OK);
	EXPECT(guc_whole_open(&lent.whole_sender, &lent.whole_receiver, &lent.desc,
			      lent.ring, SMALL_RING) == GUC_OK);
	book_open(SMALL_RING);
	lent.desc.head = book.head = head;
	lent.desc.tail = book.tail = tail;
	lent.desc.status = book.status = status;
	mark_out();
}

/* A refusal left all but STATUS, and the sides where they were. */
static void check_left(uint32_t status)
{
	book.status = status;
	check_lent();
	check_out_unchanged();
	book.head = book.tail = 0;
	idle_sides();
	EXPECT(lent.whole_sender.own == 0 && lent.whole_receiver.own == 0);
}

/* Descriptors as they should not be: the answer, and STATUS afterwards. */
static const struct row {
	uint32_t head, tail, status, answer, status_left;
} sends[] = {
	{0, 0, 8, GUC_BROKEN, 8},
	{0, 0, 1u << 31, GUC_BROKEN, 1u << 31},
	{SMALL_RING, 0, 0, GUC_OVERFLOW, GUC_STATUS_OVERFLOW},
	{0, SMALL_RING, 0, GUC_OVERFLOW, GUC_STATUS_OVERFLOW},
	{0, 4, 0, GUC_MISMATCH, GUC_STATUS_MISMATCH},
	{3, 0, 0, GUC_FULL, 0},
}, receives[] = {
	{0, 0, 8, GUC_BROKEN, 8},
	{SMALL_RING, 0, 0, GUC_OVERFLOW, GUC_STATUS_OVERFLOW},
	{0, SMALL_RING, 0, GUC_OVERFLOW, GUC_STATUS_OVERFLOW},
	{4, 8, 0, GUC_MISMATCH, GUC_STATUS_MISMATCH},
	{0, 2, 0, GUC_UNDERFLOW, GUC_STATUS_UNDERFLOW},
	{0, 0, 0, GUC_EMPTY, 0},
};

static void bad_descriptors(int way)
{
	const struct row *r;

	for (r = sends; r < sends + sizeof sends / sizeof *sends; r++) {
		lay(r->head, r->tail, r->status);
		EXPECT(send(way, SMALL_RING, plain, 3) == r->answer);
		check_left(r->status_left);
	}
	book_put(0, plain[0]);
	for (r = receives; r < receives + sizeof receives / sizeof *receives; r++) {
		lay(r->head, r->tail, r->status);
		EXPECT(receive(way, SMALL_RING, lent.out, GUC_MESSAGE_DWORDS) == r->answer);
		check_left(r->status_left);
	}
}

static void bad_arguments(int way)
{
	static const uint32_t unknown[2] = {1, 4u << 28}, reserved[2] = {0x101, 0}, none[1] = {0};

	lay(0, 0, 0);
	EXPECT(send(way, SMALL_RING, plain, 2) == GUC_BAD_MESSAGE);
	EXPECT(send(way, SMALL_RING, unknown, 2) == GUC_BAD_MESSAGE);
	EXPECT(send(way, SMALL_RING, reserved, 2) == GUC_BAD_MESSAGE);
	EXPECT(send(way, SMALL_RING, none, 1) == GUC_BAD_MESSAGE);
	EXPECT(send(way, SMALL_RING, NULL, 0) == GUC_BAD_MESSAGE);
	EXPECT(send(way, 2 * SMALL_RING, plain, 3) == GUC_BAD_STATE);
	EXPECT(send(way, 1000, plain, 3) == GUC_BAD_BUFFER);
	EXPECT(send(way, 0, NULL, 0) == GUC_BAD_BUFFER);
	EXPECT(receive(way, 2 * SMALL_RING, lent.out, GUC_MESSAGE_DWORDS) == GUC_BAD_STATE);
	EXPECT(receive(way, GUC_RING_MAX + GUC_RING_UNIT, lent.out, 0) == GUC_BAD_BUFFER);
	if (way != LOOK) {
		EXPECT(receive(way, SMALL_RING, lent.out, GUC_MESSAGE_DWORDS - 1) == GUC_SHORT_OUTPUT);
		EXPECT(receive(way, SMALL_RING, NULL, 0) == GUC_SHORT_OUTPUT);
	}
	check_left(0);
}

/* HEAD moves past a message of unknown type, and its dwords are not handed out. */
static void malformed_message(int way)
{
	lay(0, 3, 0);
	book_put(0, plain[0]);
	book_put(1, 4u << 28);
	EXPECT(receive(way, SMALL_RING, lent.out, GUC_MESSAGE_DWORDS) == GUC_MALFORMED);
	book.head = 3;
	check_lent();
	check_out_unchanged();
	EXPECT((way == WHOLE ? guc_receiver_own(&lent.receiver) : lent.whole_receiver.own) == 3);
}

/* A refused opening leaves the descriptor, and sides of zeros, which fit no call. */
static void refused_openings(void)
{
	lay(1, 2, 3);
	EXPECT(guc_open(&lent.sender, &lent.receiver, &lent.desc, lent.ring, 1000) == GUC_BAD_BUFFER);
	EXPECT(guc_whole_open(&lent.whole_sender, &lent.whole_receiver, &lent.desc, NULL, 0) ==
	       GUC_BAD_BUFFER);
	for (int i = 0; i < GUC_STATE_WORDS; i++)
		EXPECT(lent.sender.words[i] == 0 && lent.receiver.words[i] == 0);
	EXPECT(lent.whole_sender.n == 0 && lent.whole_receiver.n == 0);
	for (int way = 0; way < WAYS; way++) {
		EXPECT(send(way, SMALL_RING, plain, 3) == GUC_BAD_STATE);
		EXPECT(receive(way, SMALL_RING, lent.out, GUC_MESSAGE_DWORDS) == GUC_BAD_STATE);
	}
	check_left(3);
}

static void bad_fields(void)
{
	EXPECT(guc_pack(0, 0, 1, 4, 0, 0).code == GUC_NO_SUCH);
	EXPECT(guc_pack(0, 0, 0, GUC_TYPE_REQUEST, 0, 0).code == GUC_BAD_FIELD);
	EXPECT(guc_pack(0, 0x10000, 1, GUC_TYPE_REQUEST, 0, 0).code == GUC_BAD_FIELD);
	EXPECT(guc_pack(0, 0, 1, GUC_TYPE_REQUEST, 0x1000, 0).code == GUC_BAD_FIELD);
	EXPECT(guc_unpack(plain, 2).code == GUC_BAD_MESSAGE);
	EXPECT(guc_unpack(NULL, 0).code == GUC_BAD_MESSAGE);
}

void refused_calls(void)
{
	single_steps = 1;
	begin_call();
	for (int way = 0; way < WAYS; way++) {
		bad_descriptors(way);
		bad_arguments(way);
		if (way != LOOK)
			malformed_message(way);
	}
	refused_openings();
	bad_fields();
	end_call();
	single_steps = 0;
}
