/*
 * The bookkeeping. The ring's twin is written dword by dword where the paper says
 * that each must lie.
 */
#include "book.h"
#include "machine.h"

struct lent lent;
struct book book;
uint64_t total_messages, total_dwords, runs_copied, wrong;
static _Alignas(8) uint32_t twin[LARGE_RING + GUARD];
static uint32_t *const guards[] = {
	lent.guard_0, lent.guard_1, lent.guard_2, lent.guard_3,
	lent.guard_4, lent.guard_5, lent.guard_6, lent.guard_7,
};

enum {
	GUARDS = sizeof guards / sizeof *guards,
	RESERVED = GUC_DESC_DWORDS - 3,
	SAID = 8 /* wrong things that are said */
};
static const uint32_t guard_mark = 0x6A6A6A6A, out_mark = 0x0F0F0F0F, reserved_mark = 0x5E5E5E5E;

void unexpected(const char *file, int line)
{
	if (wrong++ < SAID) {
		say("boot: not so: ");
		say(file);
		say(":");
		say_number((uint64_t)line);
		say(", with message ");
		say_number(book.sent);
		say(" to be sent and ");
		say_number(book.received);
		say(" received\n");
	}
}

static uint32_t mixed(uint32_t x)
{
	x = (x ^ x >> 16) * 0x7FEB352Du;
	x = (x ^ x >> 15) * 0x846CA68Bu;
	return x ^ x >> 16;
}

void book_start(void)
{
	uint32_t i, k;

	for (k = 0; k < GUARDS; k++)
		for (i = 0; i < GUARD; i++)
			guards[k][i] = guard_mark;
	for (i = 0; i < LARGE_RING + GUARD; i++)
		lent.ring[i] = twin[i] = mixed(i);
}

void book_open(uint32_t n)
{
	uint32_t i;

	book.n = n;
	book.head = book.tail = book.status = 0;
	EXPECT(lent.desc.head == 0 && lent.desc.tail == 0 && lent.desc.status == 0);
	for (i = 0; i < RESERVED; i++) {
		EXPECT(lent.desc.reserved[i] == 0);
		lent.desc.reserved[i] = reserved_mark + i;
	}
}

uint32_t message_length(uint32_t k)
{
	return 2 + k * 37 % 255;
}

static inline uint32_t payload(uint32_t k, uint32_t i)
{
	return (k + 1) * 0x9E3779B1u ^ i * 0x01000193u;
}

uint32_t message_dword(uint32_t k, uint32_t i)
{
	static const uint32_t types[7] = {
		GUC_TYPE_REQUEST, GUC_TYPE_EVENT, GUC_TYPE_FAST_REQUEST, GUC_TYPE_BUSY,
		GUC_TYPE_RETRY, GUC_TYPE_FAILURE, GUC_TYPE_SUCCESS};

	if (i == 0)
		return k << 16 | (message_length(k) - 1);
	if (i == 1)
		return (k & 1) << 31 | types[k % 7] << 28 | mixed(k) >> 4;
	return payload(k, i);
}

void write_message(uint32_t k, uint32_t *to)
{
	uint32_t i, len = message_length(k);

	to[0] = message_dword(k, 0);
	to[1] = message_dword(k, 1);
	for (i = 2; i < len; i++)
		to[i] = payload(k, i);
}

void check_message(uint32_t k, const uint32_t *at)
{
	uint32_t i, len = message_length(k), differs = 0;

	EXPECT(at[0] == message_dword(k, 0) && at[1] == message_dword(k, 1));
	for (i = 2; i < len; i++)
		differs |= at[i] ^ payload(k, i);
	EXPECT(!differs);
}

uint32_t book_free(void)
{
	return book.n - 1 - (book.tail + book.n - book.head) % book.n;
}

void book_store(uint32_t from, uint32_t to)
{
	for (; from < to; from++)
		twin[(book.tail + from) % book.n] = message_dword(book.sent, from);
}

void book_sent(void)
{
	uint32_t len = message_length(book.sent++);

	book.tail = (book.tail + len) % book.n;
}

void book_received(void)
{
	uint32_t len = message_length(book.received++);

	book.head = (book.head + len) % book.n;
	total_messages++;
	total_dwords += len;
}

void book_put(uint32_t at, uint32_t dword)
{
	lent.ring[at] = twin[at] = dword;
}

/* Two dwords at a time, since this is where most of the time goes. */
typedef uint64_t __attribute__((may_alias)) two_dwords;

static int same_ring(void)
{
	const two_dwords *a = (const two_dwords *)lent.ring, *b = (const two_dwords *)twin;
	uint64_t differs = 0;
	uint32_t i;

	for (i = 0; i < (book.n + GUARD) / 2; i += 4)
		differs |= (a[i] ^ b[i]) | (a[i + 1] ^ b[i + 1]) | (a[i + 2] ^ b[i + 2]) | (a[i + 3] ^ b[i + 3]);
	return !differs;
}

void check_lent(void)
{
	static uint32_t times;
	uint32_t i, k, differs = 0;

	EXPECT(lent.desc.head == book.head);
	EXPECT(lent.desc.tail == book.tail);
	EXPECT(lent.desc.status == book.status);
	for (i = 0; i < RESERVED; i++)
		EXPECT(lent.desc.reserved[i] == reserved_mark + i);
	for (k = 0; k < GUARDS; k++)
		for (i = 0; i < GUARD; i++)
			differs |= guards[k][i] ^ guard_mark;
	EXPECT(!differs);
	if (book.n == SMALL_RING || times++ % LATER == 0)
		EXPECT(same_ring());
}

void mark_out(void)
{
	uint32_t i;

	for (i = 0; i < GUC_MESSAGE_DWORDS; i++)
		lent.out[i] = out_mark;
}

static void check_out_from(uint32_t i)
{
	uint32_t differs = 0;

	for (; i < GUC_MESSAGE_DWORDS; i++)
		differs |= lent.out[i] ^ out_mark;
	EXPECT(!differs);
}

void check_out(uint32_t k)
{
	check_message(k, lent.out);
	check_out_from(message_length(k));
}

void check_out_unchanged(void)
{
	check_out_from(0);
}
