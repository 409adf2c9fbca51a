/*
 * A record of some of the messages, kept when they were sent and received, written
 * as a file and read back, and held against a book of its own. Of a short one every
 * instruction is interrupted.
 */
#include "book.h"
#include "machine.h"
#include "scenes.h"

enum {
	EVERY = 499,  /* one message in so many is kept, sent and received: all lengths come up */
	SELDOM = 16,  /* and one adding in so many is interrupted after each instruction */
	KEPT = 512,
	DWORDS = 64 * 1024,
	BYTES = 5 * DWORDS,
	SHORT = 4 + 4 /* dwords of the first message, kept twice */
};

/* Run and file, each with a guard behind it, what is read back, and what the file must hold. */
static uint32_t run[DWORDS + GUARD], back[DWORDS + GUARD];
static uint8_t file[BYTES + GUARD], twin[BYTES];
static struct {
	uint32_t direction, k;
} kept[KEPT];
static size_t place;
static const uint32_t mark = 0x6A6A6A6A;
uint64_t total_recorded, recorded_bytes;

void keep_message(uint32_t direction, uint32_t k, const uint32_t *message)
{
	struct guc_added a;

	if (k % EVERY != 0 || total_recorded == KEPT)
		return;
	single_steps = total_recorded % SELDOM == 0;
	begin_call();
	a = guc_record_add(run, DWORDS, place, direction, message, message_length(k));
	end_call();
	EXPECT(a.code == GUC_OK && a.fault == 0 && a.place == place + 2 + message_length(k));
	place = a.place;
	kept[total_recorded].direction = direction;
	kept[total_recorded++].k = k;
}

/* The first len dwords are the messages that were kept. */
static void check_run(const uint32_t *at, size_t len)
{
	const uint32_t *end = at + len;

	for (size_t m = 0; at < end; m++) {
		EXPECT(m < total_recorded && at[0] == kept[m].direction && at[1] == message_length(kept[m].k));
		check_message(kept[m].k, at + 2);
		at += 2 + at[1];
	}
	EXPECT(at == end);
}

/* The dwords and bytes behind these are marks. */
static void check_behind(size_t dwords, size_t bytes)
{
	int same = 1;

	for (; dwords < DWORDS + GUARD; dwords++)
		same &= back[dwords] == mark;
	for (; bytes < BYTES + GUARD; bytes++)
		same &= file[bytes] == 0x6A;
	EXPECT(same);
}

static void lay_marks(void)
{
	for (size_t i = 0; i < DWORDS + GUARD; i++)
		back[i] = mark;
	for (size_t i = 0; i < BYTES + GUARD; i++)
		file[i] = 0x6A;
}

/* The bytes that a run must be written as, seven bits in each. */
static size_t lay_twin(size_t len)
{
	size_t bytes = 0;

	for (size_t i = 0; i < len; i++) {
		uint32_t number = run[i];

		for (; number > 127; number >>= 7)
			twin[bytes++] = (uint8_t)(number | 128);
		twin[bytes++] = (uint8_t)number;
	}
	return bytes;
}

static struct guc_written write_record(size_t len, size_t room)
{
	struct guc_written w;

	begin_call();
	w = guc_record_write(run, len, file, room);
	end_call();
	return w;
}

static struct guc_readback read_record(size_t len, size_t room)
{
	struct guc_readback r;

	begin_call();
	r = guc_record_read(file, len, back, room);
	end_call();
	return r;
}

static void check_read(struct guc_readback r, uint32_t code, size_t at, size_t written, size_t took)
{
	EXPECT(r.code == code && r.at == at && r.written == written && r.took == took);
	check_run(back, written);
}

/* There and back, with just the room that is needed, and with less. */
static void there_and_back(size_t len)
{
	size_t bytes = lay_twin(len);
	struct guc_written w;
	int same = 1;

	lay_marks();
	w = write_record(len, bytes - 1);
	EXPECT(w.code == GUC_SHORT_ROOM && w.fault == 0 && w.at == 0 && w.written == 0);
	check_behind(0, 0);
	w = write_record(len, bytes);
	EXPECT(w.code == GUC_OK && w.fault == 0 && w.at == 0 && w.written == bytes);
	for (size_t i = 0; i < bytes; i++)
		same &= file[i] == twin[i];
	EXPECT(same);
	check_read(read_record(bytes, len - 1), GUC_SHORT_ROOM, 0, 0, 0);
	check_behind(0, bytes);
	check_read(read_record(bytes, len), GUC_OK, 0, len, bytes);
	check_behind(len, bytes);
	lay_marks();
	EXPECT(write_record(len, BYTES).written == bytes);
	check_read(read_record(bytes, bytes), GUC_OK, 0, len, bytes);
	check_behind(len, bytes);
	check_run(run, len);
	recorded_bytes = bytes;
}

/* Of the first message, kept twice: cut, with a bad number, with a bad message, added to nothing. */
static void refused(void)
{
	size_t bytes = lay_twin(SHORT), half = lay_twin(SHORT / 2);
	const uint32_t message[1] = {0xFFFF0000};
	struct guc_readback r;

	lay_marks();
	EXPECT(write_record(SHORT, BYTES).written == bytes);
	check_read(read_record(half, DWORDS), GUC_OK, 0, SHORT / 2, half);
	r = read_record(bytes - 1, DWORDS);
	check_read(r, GUC_BAD_RECORD, r.at, SHORT / 2, half);
	EXPECT(r.at > half && r.at < bytes && r.fault == (r.at == bytes - 1 ? GUC_FAULT_MISSING : GUC_FAULT_UNFINISHED));
	file[half + 1] = 0;
	r = read_record(bytes, SHORT / 2);
	check_read(r, GUC_BAD_RECORD, half + 1, SHORT / 2, half);
	EXPECT(r.fault == GUC_FAULT_LENGTH);
	EXPECT(write_record(SHORT - 1, BYTES).at == SHORT / 2 && write_record(SHORT - 1, 0).fault == GUC_FAULT_MISSING);
	EXPECT(guc_record_add(run, DWORDS, DWORDS - 2, GUC_SENT, message, 1).code == GUC_SHORT_ROOM);
	EXPECT(guc_record_add(run, DWORDS, place, GUC_RECEIVED + 1, message, 1).fault == GUC_FAULT_DIRECTION);
	EXPECT(guc_record_add(run, DWORDS, place, GUC_SENT, NULL, 0).fault == GUC_FAULT_LENGTH);
	EXPECT(guc_record_add(run, DWORDS, place, GUC_SENT, lent.ring, 257).fault == GUC_FAULT_LENGTH);
	EXPECT(guc_record_read(NULL, 0, NULL, 0).code == GUC_OK && guc_record_write(NULL, 0, NULL, 0).code == GUC_OK);
	EXPECT(guc_record_write_bound(DWORDS) == BYTES && guc_record_write_bound((size_t)-1) == (size_t)-1);
}

void record_calls(void)
{
	EXPECT(total_recorded > 2 && place > SHORT);
	check_run(run, place);
	single_steps = 1;
	refused();
	there_and_back(SHORT);
	single_steps = 0;
	there_and_back(place);
}
