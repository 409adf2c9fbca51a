/*
 * The blobs of the firmware calls, and the names of their bytes.
 */
#include "blobs.h"

#include <string.h>

uint8_t blob[DIRECTORY];
size_t len;
uint32_t which;

void put(size_t at, uint32_t value)
{
	memcpy(blob + at, &value, 4);
}

void lay_image(size_t at)
{
	put(at + 4, 37);
	put(at + 24, 45);
	put(at + 28, 2);
	put(at + 32, 2);
	put(at + 36, 1);
	put(at + 64, 0x00460703u);
}

static void lay_entry(unsigned index, const char *called, uint32_t offset, uint32_t bytes)
{
	memcpy(blob + ENTRY(index), called, strlen(called));
	put(ENTRY(index) + 12, offset);
	put(ENTRY(index) + 16, bytes);
}

void lay_directory(void)
{
	memset(blob, 0, sizeof(blob));
	memcpy(blob, "$CPD", 4);
	put(4, 3);
	blob[10] = 20;
	lay_entry(0, "HUCP.mat", 100, 8);
	lay_entry(1, "HUCP.man", MANIFEST, 44);
	lay_entry(2, "huc_fw", AT, IMAGE);
	lay_image(AT);
	len = DIRECTORY;
}

void lay_name(unsigned index, unsigned entries)
{
	unsigned k;

	for (k = 0; k < 3; k++)
		if (entries >> k & 1)
			memcpy(blob + ENTRY(k), blob + ENTRY(index), 12);
}

void lent_image(size_t at, size_t bytes)
{
	static const size_t start[5] = { 128, 160, 168, 176, 180 };
	static const char *const field[7] = { "h", "s", "k", "m", "e", "version", 0 };
	static const size_t place[7] = { 4, 24, 28, 32, 36, 64, 128 };
	static const char *const part[4] = { "ucode", "rsa", "modulus", "exponent" };
	size_t k, from = 0;

	if (bytes < 128) {
		lent("image.else", blob + at, bytes);
		return;
	}
	for (k = 0; k < 7; k++) {
		lent("image.else", blob + at + from, place[k] - from);
		from = place[k] + 4;
		if (field[k])
			lent(field[k], blob + at + place[k], 4);
	}
	for (k = 0; k < 4 && start[k + 1] <= bytes; k++)
		lent(which == k ? "asked" : part[k], blob + at + start[k], start[k + 1] - start[k]);
}

/* One entry, which has the name sought or not; before it, seen entries have it. */
static void lent_entry(size_t at, int named, unsigned seen)
{
	int found = named && seen == 0, second = named && seen == 1;

	lent(found ? "found.name" : second ? "second.name" : seen ? "later.name" : "passed.name",
	     blob + at, 12);
	lent(found ? "found.offset" : "other.offset", blob + at + 12, 4);
	lent(found ? "found.length" : "other.length", blob + at + 16, 4);
	lent("directory.else", blob + at + 20, 4);
}

void lent_directory(unsigned named)
{
	unsigned k, seen = 0;

	if (len < 20) {
		lent("directory.else", blob, len);
		return;
	}
	lent("marker", blob, 4);
	lent("count", blob + 4, 4);
	lent("directory.else", blob + 8, 2);
	lent("H", blob + 10, 1);
	lent("directory.else", blob + 11, 9);
	if (len < ENTRY(3))
		lent("directory.else", blob + 20, len - 20);
	for (k = 0; k < 3 && len >= ENTRY(3); k++) {
		lent_entry(ENTRY(k), named >> k & 1, seen);
		seen += named >> k & 1;
	}
}
