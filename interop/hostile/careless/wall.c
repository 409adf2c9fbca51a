/*
 * Careless code of a wall, as careless.c is of the others: the table is walked
 * again for each question, and the message is read again after it was judged.
 */
#include "hostile.h"

/* Every read is a read. */
static uint16_t get(const uint16_t *at)
{
	return *(const volatile uint16_t *)at;
}

static uint32_t dword(const uint32_t *at)
{
	return *(const volatile uint32_t *)at;
}

/* The first open record with this fence, from one on; or records. */
static size_t find(const struct guc_record *table, size_t from, size_t records, uint16_t fence)
{
	for (; from < records; from++)
		if (get(&table[from].open) && get(&table[from].fence) == fence)
			break;
	return from;
}

static uint32_t judge(const struct guc_record *table, size_t records)
{
	size_t k;

	for (k = 0; k < records; k++)
		if (get(&table[k].open) &&
		    find(table, k + 1, records, get(&table[k].fence)) < records)
			return GUC_BAD_TABLE;
	return GUC_OK;
}

static int allowed(const struct guc_wall *wall)
{
	return get(&wall->n) % 1024 == 0 && get(&wall->n) >= 1024 && get(&wall->n) <= 16384;
}

/* What is set aside by the records that are open, each looked at once more. */
static uint32_t set_aside(const struct guc_record *table, size_t records)
{
	uint32_t sum = 0;
	size_t k;

	for (k = 0; k < records; k++)
		if (get(&table[k].open))
			sum += get(&table[k].room);
	return sum;
}

static uint32_t judge_opening(const struct guc_wall *wall, const struct guc_record *table, size_t records,
			      const uint32_t *msg, size_t len, uint32_t room)
{
	uint32_t code = judge(table, records);
	size_t k;

	if (code)
		return code;
	if (!allowed(wall))
		return GUC_BAD_BUFFER;
	if (room > GUC_REPLY_DWORDS_MAX)
		return GUC_BAD_FIELD;
	if (!well_formed(dword(msg), dword(msg + 1)) || 1 + (dword(msg) & 0xFF) != len ||
	    (dword(msg + 1) >> 28 & 7) != GUC_TYPE_REQUEST)
		return GUC_NO_REQUEST;
	for (k = 0; k < records && get(&table[k].open); k++)
		;
	if (k == records)
		return GUC_TABLE_FULL;
	return set_aside(table, records) + room > get(&wall->n) - 1u ? GUC_NO_REPLY_ROOM : GUC_OK;
}

/* The message is read again when it is sent, and once more for its action. */
struct guc_wall_answer guc_wall_send(struct guc_wall *wall, struct guc_record *table, size_t records,
				     struct guc_sender *s, struct guc_descriptor *desc, uint32_t *ring,
				     size_t n, const uint32_t *msg, size_t len, uint32_t room)
{
	struct guc_wall_answer a = { judge_opening(wall, table, records, msg, len, room), 0, 0, 0, 0 };
	struct guc_record r = { 1, 0, 0, 0, (uint16_t)room };
	uint32_t sent[GUC_MESSAGE_DWORDS];
	size_t k;

	if (a.code)
		return a;
	for (r.fence = (uint16_t)(get(&wall->last) + 1); find(table, 0, records, r.fence) < records;)
		r.fence++;
	for (k = 0; k < len; k++)
		sent[k] = dword(msg + k);
	sent[0] = (sent[0] & 0xFFFF) | (uint32_t)r.fence << 16;
	a.code = guc_send(s, desc, ring, n, sent, len);
	if (a.code)
		return a;
	for (k = 0; k < records && get(&table[k].open); k++)
		;
	r.action = (uint16_t)dword(msg + 1);
	if (k < records)
		table[k] = r;
	a.fence = wall->last = r.fence;
	return a;
}

static uint32_t judge_message(const uint32_t *msg, size_t len)
{
	if (!well_formed(dword(msg), dword(msg + 1)) || 1 + (dword(msg) & 0xFF) != len)
		return GUC_BAD_MESSAGE;
	return (dword(msg + 1) >> 28 & 7) < GUC_TYPE_BUSY ? GUC_NO_REQUEST : GUC_OK;
}

/* The count is looked at, and then added to. */
struct guc_wall_answer guc_wall_reply(const struct guc_wall *wall, struct guc_record *table,
				      size_t records, const uint32_t *msg, size_t len)
{
	struct guc_wall_answer a = { judge(table, records), 0, 0, 0, 0 };
	struct guc_record none = { 0, 0, 0, 0, 0 };
	size_t k;

	if (a.code == GUC_OK && !allowed(wall))
		a.code = GUC_BAD_BUFFER;
	if (a.code == GUC_OK)
		a.code = judge_message(msg, len);
	if (a.code)
		return a;
	k = find(table, 0, records, (uint16_t)(dword(msg) >> 16));
	if (k == records) {
		a.code = GUC_NO_REQUEST;
		return a;
	}
	a.kind = dword(msg + 1) >> 28 & 7;
	a.action = get(&table[k].action);
	if (a.kind == GUC_TYPE_BUSY && get(&table[k].count) != 65535)
		table[k].count = (uint16_t)(get(&table[k].count) + 1);
	a.count = get(&table[k].count);
	if (a.kind != GUC_TYPE_BUSY)
		table[k] = none;
	return a;
}
