/*
 * Blobs for the scenes: a directory of five entries and CSS images in it. Each
 * face alone is a blob that is accepted or plainly refused; a mixture of two
 * faces lies beyond the blob.
 */
#include "blobs.h"

#include <string.h>

#define ENTRY(index) (20 + 24 * (index))
#define OFFSET 12 /* in an entry; the length follows, both in one 8-byte word */

struct asked asked;

static void put(size_t at, uint32_t value)
{
	memcpy(asked.blob + at, &value, 4);
}

static uint64_t both(uint32_t low, uint32_t high)
{
	return (uint64_t)high << 32 | low;
}

/* h = 57 with the m that goes with each k below: 32 + k + m + 1. */
static void lay_image(size_t at, uint32_t s, uint32_t k, uint32_t m)
{
	put(at + 4, 32 + k + m + 1);
	put(at + 24, s);
	put(at + 28, k);
	put(at + 32, m);
	put(at + 36, 1);
	put(at + 64, 0x00010203u);
}

static void lay_entry(unsigned index, const char name[13], uint32_t offset, uint32_t bytes)
{
	memcpy(asked.blob + ENTRY(index), name, 12);
	put(ENTRY(index) + OFFSET, offset);
	put(ENTRY(index) + OFFSET + 4, bytes);
}

/* Every byte tells its place, so that a copy tells what was copied. */
void lay_directory(void)
{
	size_t k;

	if (!asked.blob) {
		asked.blob = lent(LENGTH);
		asked.dst = lent(ROOM);
		asked.name = lent(8);
	}
	for (k = 0; k < LENGTH; k++)
		asked.blob[k] = (uint8_t)(k * 7 + k / 256);
	memcpy(asked.blob, "$CPD", 4);
	put(4, 5);
	asked.blob[10] = 20;
	lay_entry(0, "first.nm\0\0\0\0", 140, 20);
	lay_entry(1, "huc_fw\0\0\0\0\0\0", 200, 404);
	lay_entry(2, "HUCP.man\0\0\0\0", 160, 44);
	lay_entry(3, "last.one\0\0\0\0", 600, 400);
	lay_entry(4, "lastxone\0\0\0\0", 990, 10);
	lay_image(200, 81, 4, 20);
	lay_image(604, 88, 20, 4);
	memcpy(asked.name, "last.one", 8);
	asked.name_len = 8;
	asked.room = ROOM;
}

/* The sought entry's offset and length, by one store or by two. */
void lay_entry_rewritten(unsigned v)
{
	uint8_t *at;

	lay_directory();
	at = asked.blob + ENTRY(3) + OFFSET;
	asked.room = v < 2 ? ROOM : 10;
	if (v % 2 == 0) {
		rewritten_units(at, 8, 4, both(600, 400), both(990u | 0xFE000000u, 10));
	} else {
		rewritten(at, 4, 600, 990);
		rewritten(at + 4, 4, 400, 10);
	}
	listen_still();
}

/* What leads the walk: count and header length, marker, names of entries. */
void lay_walk_rewritten(unsigned v)
{
	lay_directory();
	if (v == 0) {
		rewritten(asked.blob + 4, 4, 5, 0x10000005u);
		rewritten(asked.blob + 10, 1, 20, 44);
	} else if (v == 1) {
		rewritten(asked.blob, 4, 0x44504324u, 0x44504325u);
		rewritten(asked.blob + 4, 4, 5, 41);
	} else {
		/* .one xone: of either entry, of none, which is 20, or of both, which is 22 */
		rewritten(asked.blob + ENTRY(3) + 4, 4, 0x656E6F2Eu, 0x656E6F78u);
		rewritten(asked.blob + ENTRY(4) + 4, 4, 0x656E6F78u, 0x656E6F2Eu);
	}
	listen_still();
}

/*
 * The first entry (or the last) has the sought one's name or another, the last is
 * counted or not, and the sought one's part is in the blob or ends a byte behind
 * it: 0, 21 or 22, and never the other entry's part, which no still memory gives.
 */
static void rewrite_second(unsigned sought, unsigned v, uint32_t offset, uint32_t beyond)
{
	uint8_t *entry = asked.blob + ENTRY(sought), *other = asked.blob + ENTRY(v ? 4 : 0);

	memcpy(other, entry, 12);
	rewritten(other, 1, 'X', *entry);
	rewritten(asked.blob + 4, 4, 5, 4);
	rewritten(entry + OFFSET, 4, offset, beyond);
	listen_still();
}

void lay_second_rewritten(unsigned v)
{
	lay_directory();
	rewrite_second(3, v, 600, 601);
}

void lay_inner_second_rewritten(unsigned v)
{
	lay_directory();
	asked.which = v;
	rewrite_second(1, v, 200, 597);
}

void lay_manifest_second_rewritten(unsigned v)
{
	lay_directory();
	rewrite_second(2, v, 160, 957);
}

/* The sought name: of one entry or another, or with a zero, which 14 refuses. */
void lay_name_rewritten(unsigned v)
{
	uint64_t last, other;

	lay_directory();
	memcpy(&last, "last.one", 8);
	memcpy(&other, v ? "first.nm" : "lastxone", 8);
	if (v < 2) {
		rewritten_units(asked.name, 8, 1, last, other);
		asked.room = v ? 20 : ROOM;
	} else {
		lay_entry(4, "last\0one\0\0\0\0", 990, 10); /* nobody may find this one */
		rewritten(asked.name + 4, 1, '.', 0);
	}
	listen_still();
}

/* s and k by one store, m by another: h agrees with both faces. */
static void rewrite_sizes(uint8_t *image)
{
	rewritten_units(image + 24, 8, 4, both(108, 4), both(95, 20));
	rewritten(image + 32, 4, 20, 4);
}

/* A CSS image: its sizes, or whether it is whole; and its version. */
void lay_sizes_rewritten(unsigned v)
{
	lay_directory();
	asked.which = v % 4;
	asked.image_len = v < 4 ? 384 : 4 * 82 - 1;
	asked.image = asked.blob + LENGTH - asked.image_len;
	lay_image(LENGTH - asked.image_len, 81, 4, 20);
	if (v < 4)
		rewrite_sizes(asked.image);
	else
		rewritten(asked.image + 24, 4, 81, 82);
	rewritten(asked.image + 64, 4, 0x00010203u, 0x00040506u);
	listen_still();
}

/* The image in the directory: its entry, or its sizes; and its version. */
void lay_inner_rewritten(unsigned v)
{
	lay_directory();
	asked.which = v % 4;
	if (v < 4)
		rewritten_units(asked.blob + ENTRY(1) + OFFSET, 8, 4, both(200, 404),
				both(604, 396));
	else
		rewrite_sizes(asked.blob + 200);
	rewritten(asked.blob + 200 + 64, 4, 0x00010203u, 0x00040506u);
	listen_still();
}

/* The manifest's entry: another place, or too short a part. */
void lay_manifest_rewritten(unsigned v)
{
	lay_directory();
	rewritten_units(asked.blob + ENTRY(2) + OFFSET, 8, 4, both(160, 44),
			v ? both(956, 44) : both(996, 4));
	listen_still();
}

/* A message to unpack: another fence or length, another type and its fields. */
void lay_unpacked_rewritten(unsigned v)
{
	static const uint32_t header[3] = { 0xBEEF0003u, 0x12340004u, 0x12341003u };
	static const uint32_t word[3] = { 0xE0AB0010u, 0x7FFFFFFFu, 0x40000000u };

	lay_directory();
	open_at(0);
	ch.len = 4;
	rewritten(ch.msg, 4, 0x12340003u, header[v]);
	rewritten(ch.msg + 1, 4, 0x01234567u, word[v]);
	listen_still();
}
