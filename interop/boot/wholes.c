/*
 * Whole calls, of sides that could also make steps and of sides of two words.
 */
#include "book.h"
#include "machine.h"
#include "scenes.h"

/* A whole send or receive that was accepted, in the book. */
static uint32_t sent(uint32_t code)
{
	if (code == GUC_OK) {
		book_store(0, message_length(book.sent));
		book_sent();
	}
	return code;
}

static struct guc_received received(struct guc_received answer)
{
	if (answer.code == GUC_OK)
		book_received();
	return answer;
}

uint32_t open_sides(uint32_t n)
{
	uint32_t code;

	begin_call();
	code = guc_open(&lent.sender, &lent.receiver, &lent.desc, lent.ring, n);
	end_call();
	return code;
}

static uint32_t send_whole(void)
{
	uint32_t code;

	begin_call();
	code = guc_send(&lent.sender, &lent.desc, lent.ring, book.n,
			lent.message, message_length(book.sent));
	end_call();
	return sent(code);
}

static struct guc_received receive_whole(void)
{
	struct guc_received answer;

	begin_call();
	answer = guc_receive(&lent.receiver, &lent.desc, lent.ring, book.n,
			     lent.out, GUC_MESSAGE_DWORDS);
	end_call();
	return received(answer);
}

void idle_sides(void)
{
	EXPECT(guc_sender_own(&lent.sender) == book.tail);
	EXPECT(guc_sender_len(&lent.sender) == 0 && guc_sender_moved(&lent.sender) == 0);
	EXPECT(guc_receiver_own(&lent.receiver) == book.head);
	EXPECT(guc_receiver_len(&lent.receiver) == 0 && guc_receiver_moved(&lent.receiver) == 0);
}

static uint32_t open_two_words(uint32_t n)
{
	uint32_t code;

	begin_call();
	code = guc_whole_open(&lent.whole_sender, &lent.whole_receiver, &lent.desc, lent.ring, n);
	end_call();
	return code;
}

static uint32_t send_two_words(void)
{
	uint32_t code;

	begin_call();
	code = guc_whole_send(&lent.whole_sender, &lent.desc, lent.ring, book.n,
			      lent.message, message_length(book.sent));
	end_call();
	return sent(code);
}

static struct guc_received receive_two_words(void)
{
	struct guc_received answer;

	begin_call();
	answer = guc_whole_receive(&lent.whole_receiver, &lent.desc, lent.ring, book.n,
				   lent.out, GUC_MESSAGE_DWORDS);
	end_call();
	return received(answer);
}

static void two_words(void)
{
	EXPECT(lent.whole_sender.n == book.n && lent.whole_sender.own == book.tail);
	EXPECT(lent.whole_receiver.n == book.n && lent.whole_receiver.own == book.head);
}

const struct kind whole_calls = {open_sides, send_whole, receive_whole, idle_sides};
const struct kind whole_sides = {open_two_words, send_two_words, receive_two_words, two_words};
