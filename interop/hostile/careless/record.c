/*
 * Careless code of a record, as careless.c is of the others: a run or a file is
 * judged and measured, and then read again as if it were what it was. Only where it
 * would leave what is lent does it stop, so that the scenes go on.
 */
#include "hostile.h"

/* Every read is a read. */
static uint32_t dword(const uint32_t *at)
{
	return *(const volatile uint32_t *)at;
}

static uint8_t byte(const uint8_t *at)
{
	return *(const volatile uint8_t *)at;
}

/* The header is judged, and copied with the rest. */
struct guc_added guc_record_add(uint32_t *run, size_t run_len, size_t place, uint32_t direction,
				const uint32_t *msg, size_t msg_len)
{
	struct guc_added a = { GUC_BAD_RECORD, GUC_FAULT_HEADER, place };
	size_t k;

	(void)run_len;
	if (1 + (dword(msg) & 0xFF) != msg_len)
		return a;
	run[place] = direction;
	run[place + 1] = (uint32_t)msg_len;
	for (k = 0; k < msg_len; k++)
		run[place + 2 + k] = dword(msg + k);
	a.code = a.fault = 0;
	a.place = place + 2 + msg_len;
	return a;
}

static size_t put(uint8_t *to, size_t room, uint32_t number)
{
	size_t bytes = 0;

	for (; number > 127; number >>= 7, bytes++)
		if (bytes < room)
			to[bytes] = (uint8_t)(number | 128);
	if (bytes < room)
		to[bytes] = (uint8_t)number;
	return bytes + 1;
}

/* What is wrong with the message at at, or 0. */
static uint32_t judge_message(const uint32_t *run, size_t len, size_t at)
{
	if (dword(run + at) > 1)
		return GUC_FAULT_DIRECTION;
	if (len - at < 3)
		return GUC_FAULT_MISSING;
	if (dword(run + at + 1) < 1 || dword(run + at + 1) > GUC_MESSAGE_DWORDS)
		return GUC_FAULT_LENGTH;
	if (1 + (dword(run + at + 2) & 0xFF) != dword(run + at + 1))
		return GUC_FAULT_HEADER;
	return len - at - 2 < dword(run + at + 1) ? GUC_FAULT_MISSING : 0;
}

/* Judged, measured, and then written whatever it is by now. */
struct guc_written guc_record_write(const uint32_t *run, size_t run_len, uint8_t *file, size_t room)
{
	struct guc_written w = { GUC_OK, 0, 0, 0 };
	size_t at, k, bytes = 0;

	for (at = 0; at < run_len && !w.fault; at += w.fault ? 0 : 2 + (size_t)dword(run + at + 1))
		w.fault = judge_message(run, run_len, at);
	for (k = 0; k < run_len; k++)
		bytes += put(file, 0, dword(run + k));
	w.code = w.fault ? GUC_BAD_RECORD : bytes > room ? GUC_SHORT_ROOM : GUC_OK;
	w.at = w.fault ? at : 0;
	for (k = 0; k < run_len && !w.code && w.written < room; k++)
		w.written += put(file + w.written, room - w.written, dword(run + k));
	return w;
}

/* A number, and where the next one starts; it is not looked whether it is a good one. */
static uint32_t number(const uint8_t *file, size_t len, size_t *at)
{
	uint32_t value = 0, shift;

	for (shift = 0; *at < len && byte(file + *at) & 128; shift += 7, ++*at)
		value |= shift < 32 ? (byte(file + *at) & 127u) << shift : 0;
	if (*at < len && shift < 32)
		value |= (uint32_t)byte(file + *at) << shift;
	++*at;
	return value;
}

/* Whether what starts at at is a good number; each byte is looked at again when its value is taken. */
static uint32_t judge_number(const uint8_t *file, size_t len, size_t at)
{
	size_t k;

	if (at >= len)
		return GUC_FAULT_MISSING;
	for (k = at; k < len && byte(file + k) & 128 && k < at + 5; k++)
		;
	if (k > at + 4)
		return GUC_FAULT_TOO_WIDE;
	if (k == len)
		return GUC_FAULT_UNFINISHED;
	if (k > at && byte(file + k) == 0)
		return GUC_FAULT_TOO_LONG;
	return k == at + 4 && byte(file + k) > 15 ? GUC_FAULT_TOO_WIDE : 0;
}

/* Number k of a message, which is direction, L, header and the rest; L is kept in len. */
static uint32_t judge_value(size_t k, uint32_t value, uint32_t *len)
{
	if (k == 0)
		return value > 1 ? GUC_FAULT_DIRECTION : 0;
	if (k == 1) {
		*len = value;
		return value < 1 || value > GUC_MESSAGE_DWORDS ? GUC_FAULT_LENGTH : 0;
	}
	return k == 2 && 1 + (value & 0xFF) != *len ? GUC_FAULT_HEADER : 0;
}

/* The whole messages are found first, and then laid from what the file holds by now. */
struct guc_readback guc_record_read(const uint8_t *file, size_t len, uint32_t *run, size_t room)
{
	struct guc_readback r = { GUC_OK, 0, 0, 0, 0 };
	uint32_t words = 1;
	size_t at = 0, next = 0, k = 0;

	for (; next < len && !r.fault; at = next) {
		r.fault = judge_number(file, len, at);
		r.fault = r.fault ? r.fault : judge_value(k, number(file, len, &next), &words);
		k = r.fault || ++k < 2 + words ? k : 0;
		if (r.fault)
			break;
		r.took = k ? r.took : next;
		r.written += k ? 0 : 2 + words;
	}
	if (!r.fault && k)
		r.fault = GUC_FAULT_MISSING;
	r.code = r.fault ? GUC_BAD_RECORD : GUC_OK;
	r.at = r.fault ? at : 0;
	if (r.written > room) {
		struct guc_readback none = { GUC_SHORT_ROOM, 0, 0, 0, 0 };

		return none;
	}
	for (next = k = 0; k < r.written; k++)
		run[k] = number(file, len, &next);
	return r;
}
