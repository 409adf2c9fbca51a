/*
 * Messages through a channel. The two sides take turns as a little generator says,
 * for a while mostly the one and then mostly the other, so that the ring is full
 * and empty again and again; the book knows each answer beforehand.
 */
#include "book.h"
#include "machine.h"
#include "scenes.h"

enum {
	LEAN = 48, /* it leans the other way after n / LEAN turns, when the ring was full or empty */
	/* Interrupted after every instruction: one turn in so many, and of those whose
	 * message goes around the end of the ring, where there is most to do. */
	SELDOM = 1021,
	OFTEN = 61
};

static void check_packed(uint32_t k)
{
	uint32_t word = message_dword(k, 1), type = word >> 28 & 7;
	int one_field = type == GUC_TYPE_BUSY || type == GUC_TYPE_RETRY || type == GUC_TYPE_SUCCESS;
	uint32_t first = one_field ? word & 0x0FFFFFFF : word >> 16 & 0xFFF;
	uint32_t second = one_field ? 0 : word & 0xFFFF;
	struct guc_packed packed;
	struct guc_unpacked u;

	begin_call();
	packed = guc_pack(word >> 31, k & 0xFFFF, message_length(k) - 1, type, first, second);
	u = guc_unpack(lent.out, message_length(k));
	end_call();
	EXPECT(packed.code == GUC_OK && packed.word == word && packed.header == message_dword(k, 0));
	EXPECT(u.code == GUC_OK && u.origin == word >> 31 && u.fence == (k & 0xFFFF));
	EXPECT(u.num_dwords == message_length(k) - 1 && u.type == type);
	EXPECT(u.first == first && u.second == second);
}

static int stepped(uint32_t turn, uint32_t from, uint32_t len)
{
	return turn % (from + len > book.n ? OFTEN : SELDOM) == 0;
}

static void turn_of_sender(const struct kind *kind, uint32_t turn)
{
	uint32_t k = book.sent;
	int fits = message_length(k) <= book_free();

	write_message(k, lent.message);
	single_steps = stepped(turn, book.tail, message_length(k));
	EXPECT(kind->send() == (fits ? GUC_OK : GUC_FULL));
	check_message(k, lent.message);
	if (fits)
		keep_message(GUC_SENT, k, lent.message);
}

static void turn_of_receiver(const struct kind *kind, uint32_t turn)
{
	uint32_t k = book.received, pending = book.sent - k;
	struct guc_received answer;

	mark_out();
	single_steps = stepped(turn, book.head, message_length(k));
	answer = kind->receive();
	EXPECT(answer.code == (pending ? GUC_OK : GUC_EMPTY));
	EXPECT(answer.len == (pending ? message_length(k) : 0));
	if (pending) {
		check_out(k);
		check_packed(k);
		keep_message(GUC_RECEIVED, k, lent.out);
	} else {
		check_out_unchanged();
	}
}

void traffic(const struct kind *kind, uint32_t n, uint32_t messages)
{
	uint32_t last = book.sent + messages, random = n, turn;

	EXPECT(kind->open(n) == GUC_OK);
	book_open(n);
	for (turn = 0; book.received != last && !wrong; turn++) {
		uint32_t lean = turn / (n / LEAN) % 2 ? 1 : 3; /* of 4 */

		random = random * 1664525 + 1013904223;
		if (random >> 30 < lean && book.sent != last)
			turn_of_sender(kind, turn);
		else
			turn_of_receiver(kind, turn);
		single_steps = 0;
		kind->sides();
		check_lent();
	}
}
