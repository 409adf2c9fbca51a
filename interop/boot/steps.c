/*
 * Sends and receives in steps, with ring, descriptor and side looked at between
 * them, and steps out of turn.
 */
#include "book.h"
#include "machine.h"
#include "scenes.h"

static uint32_t send_look(void)
{
	uint32_t code;

	begin_call();
	code = guc_send_look(&lent.sender, &lent.desc, lent.ring, book.n,
			     lent.message, message_length(book.sent));
	end_call();
	return code;
}

static uint32_t store(uint32_t (*call)(struct guc_sender *, const struct guc_descriptor *,
				       uint32_t *, size_t))
{
	uint32_t code;

	begin_call();
	code = call(&lent.sender, &lent.desc, lent.ring, book.n);
	end_call();
	return code;
}

static uint32_t send_publish(void)
{
	uint32_t code;

	begin_call();
	code = guc_send_publish(&lent.sender, &lent.desc, lent.ring, book.n);
	end_call();
	return code;
}

static uint32_t receive_look(void)
{
	uint32_t code;

	begin_call();
	code = guc_receive_look(&lent.receiver, &lent.desc, lent.ring, book.n);
	end_call();
	return code;
}

static uint32_t copy(uint32_t (*call)(struct guc_receiver *, const struct guc_descriptor *,
				      const uint32_t *, size_t))
{
	uint32_t code;

	begin_call();
	code = call(&lent.receiver, &lent.desc, lent.ring, book.n);
	end_call();
	return code;
}

static struct guc_received receive_publish(void)
{
	struct guc_received answer;

	begin_call();
	answer = guc_receive_publish(&lent.receiver, &lent.desc, lent.ring, book.n,
				     lent.out, GUC_MESSAGE_DWORDS);
	end_call();
	return answer;
}

/* How many dwords message k moves one by one, before the others move at once. */
static uint32_t singles(uint32_t k)
{
	uint32_t len = message_length(k), few = k % 5;

	return k % 16 == 3 || few > len ? len : few;
}

/* A sender with moved dwords of the message stored. */
static void check_sending(uint32_t moved)
{
	EXPECT(guc_sender_own(&lent.sender) == book.tail);
	EXPECT(guc_sender_len(&lent.sender) == message_length(book.sent));
	EXPECT(guc_sender_moved(&lent.sender) == moved);
	check_lent();
}

static void store_message(void)
{
	uint32_t i, len = message_length(book.sent), one_by_one = singles(book.sent);

	for (i = 0; i < one_by_one; i++) {
		EXPECT(store(guc_send_store) == GUC_OK);
		book_store(i, i + 1);
		EXPECT(guc_sender_moved(&lent.sender) == i + 1);
	}
	check_sending(i);
	if (i < len) {
		EXPECT(send_publish() == GUC_OUT_OF_TURN);
		EXPECT(store(guc_send_store_all) == GUC_OK);
		book_store(i, len);
	}
	EXPECT(store(guc_send_store) == GUC_OUT_OF_TURN);
	EXPECT(store(guc_send_store_all) == GUC_OK); /* none is left: nothing */
	check_sending(len);
}

static uint32_t send_stepped(void)
{
	uint32_t code = send_look();

	if (code != GUC_OK) {
		EXPECT(store(guc_send_store) == GUC_BAD_STATE);
		EXPECT(store(guc_send_store_all) == GUC_BAD_STATE);
		EXPECT(send_publish() == GUC_BAD_STATE);
		return code;
	}
	check_sending(0);
	lent.message[1] = ~lent.message[1]; /* the side has a copy of its own */
	EXPECT(send_look() == GUC_BAD_STATE);
	store_message();
	lent.message[1] = ~lent.message[1];
	code = send_publish();
	if (code == GUC_OK)
		book_sent();
	return code;
}

/* A receiver with moved dwords of the message copied. */
static void check_receiving(uint32_t moved)
{
	EXPECT(guc_receiver_own(&lent.receiver) == book.head);
	EXPECT(guc_receiver_len(&lent.receiver) == message_length(book.received));
	EXPECT(guc_receiver_moved(&lent.receiver) == moved);
	check_lent();
	check_out_unchanged();
}

static void copy_message(void)
{
	uint32_t i, len = message_length(book.received), one_by_one = singles(book.received);

	for (i = 1; i < one_by_one; i++) {
		EXPECT(copy(guc_receive_copy) == GUC_OK);
		EXPECT(guc_receiver_moved(&lent.receiver) == i + 1);
	}
	check_receiving(i);
	if (i < len) {
		struct guc_received early = receive_publish();

		EXPECT(early.code == GUC_OUT_OF_TURN && early.len == 0);
		EXPECT(copy(guc_receive_copy_all) == GUC_OK);
	}
	EXPECT(copy(guc_receive_copy) == GUC_OUT_OF_TURN);
	EXPECT(copy(guc_receive_copy_all) == GUC_OK); /* none is left: nothing */
	check_receiving(len);
}

static struct guc_received receive_stepped(void)
{
	struct guc_received answer = {receive_look(), 0};

	if (answer.code != GUC_OK) {
		EXPECT(copy(guc_receive_copy) == GUC_BAD_STATE);
		EXPECT(copy(guc_receive_copy_all) == GUC_BAD_STATE);
		EXPECT(receive_publish().code == GUC_BAD_STATE);
		return answer;
	}
	check_receiving(1);
	EXPECT(receive_look() == GUC_BAD_STATE);
	copy_message();
	answer = receive_publish();
	if (answer.code == GUC_OK)
		book_received();
	return answer;
}

const struct kind stepped_calls = {open_sides, send_stepped, receive_stepped, idle_sides};
