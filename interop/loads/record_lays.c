/*
 * The memory of a record's calls: laid for each call, and named for the table.
 */
#include "records.h"

static uint32_t run_memory[OUTSIDE + DWORDS + OUTSIDE];
static uint8_t file_memory[OUTSIDE + 1 + BYTES + OUTSIDE];
uint32_t *const run = run_memory + OUTSIDE;
uint8_t *const file = file_memory + OUTSIDE + 1;
size_t dwords, bytes;

void lay_dwords(uint32_t *msg, uint32_t len, enum kind kind)
{
	static const uint32_t mixed[5] = { 5, 0x7FFFF, 0x123, 0xFFFFFFF, 0x80000000u };
	uint32_t k;

	msg[0] = (kind == SMALL ? 0 : 0x43210000u) + len - 1;
	for (k = 1; k < len; k++)
		msg[k] = kind == SMALL ? k % 128 : kind == WIDE ? 0xD0000000u + k : mixed[k % 5];
}

/* The number as a file has it, at the file's end. */
static void put(uint32_t number)
{
	for (; number > 127; number >>= 7)
		file[bytes++] = (uint8_t)(number | 128);
	file[bytes++] = (uint8_t)number;
}

/* A message at the end of run and file. */
static void lay_message(uint32_t len, enum kind kind)
{
	uint32_t *at = run + dwords, k;

	at[0] = dwords ? GUC_RECEIVED : GUC_SENT;
	at[1] = len;
	lay_dwords(at + 2, len, kind);
	for (k = 0; k < len + 2; k++)
		put(at[k]);
	dwords += len + 2;
}

void lay_record(const uint32_t *lengths, enum kind kind)
{
	dwords = bytes = 0;
	for (; *lengths; lengths++)
		lay_message(*lengths, kind);
}

/* Direction, L and header are judged, the rest of a message only measured. */
void lent_run(size_t bad, size_t behind)
{
	size_t at;

	for (at = 0; at < dwords; at += run[at + 1] + 2) {
		lent("run.judged", run + at, 12);
		lent("run.rest", run + at + 3, 4 * (run[at + 1] - 1));
	}
	lent("run.bad", run + at, 4 * bad);
	lent("run.behind", run + at + bad, 4 * behind);
	lent("run.outside", run_memory, 4 * OUTSIDE);
	lent("run.outside", run + at + bad + behind, 4 * OUTSIDE);
}

void lent_file(int twice, size_t torn, size_t bad, size_t behind)
{
	size_t at = bytes;

	lent(twice ? "twice.laid" : "once.laid", file, at);
	lent(twice ? "twice.torn" : "once.torn", file + at, torn);
	lent(twice ? "twice.bad" : "once.bad", file + at + torn, bad);
	at += torn + bad;
	lent("file.behind", file + at, behind);
	lent("file.outside", file_memory, OUTSIDE);
	lent("file.outside", file + at + behind, OUTSIDE);
}

void lent_run_output(size_t from, size_t laid)
{
	lent("out.else", run_memory, 4 * (OUTSIDE + from));
	lent("out.laid", run + from, 4 * laid);
	lent("out.else", run + from + laid, 4 * (DWORDS + OUTSIDE - from - laid));
}

void lent_file_output(size_t laid)
{
	lent("out.else", file_memory, OUTSIDE + 1);
	lent("out.laid", file, laid);
	lent("out.else", file + laid, BYTES + OUTSIDE - laid);
}
