/*
 * The firmware calls, accepted and refused by each number.
 */
#include "blobs.h"

#include <string.h>

static uint8_t dst[64];
static char name[12];
static unsigned also; /* for 22: entries beside the sought one that have its name, a bit for each */

static const char *const components[4] = { "ucode", "rsa", "modulus", "exponent" };

/* What is asked of a blob; every call below is one of these. */
enum ask { ANSWER, PART, COPY, VERSION };

static uint32_t ask_css(enum ask a, size_t room)
{
	switch (a) {
	case ANSWER:
		return guc_css_answer(blob, len).code;
	case PART:
		return guc_css_part(blob, len, which).code;
	case COPY:
		return guc_css_copy(blob, len, which, dst, room).code;
	default:
		return guc_css_version(blob, len).code;
	}
}

static uint32_t ask_huc(enum ask a, size_t room)
{
	switch (a) {
	case ANSWER:
		return guc_huc_answer(blob, len).code;
	case PART:
		return guc_huc_part(blob, len, which).code;
	case COPY:
		return guc_huc_copy(blob, len, which, dst, room).code;
	default:
		return guc_huc_version(blob, len).code;
	}
}

static void css(enum ask a, uint32_t answer, size_t bytes, const char *note)
{
	static const char *const called[4] = { "guc_css_answer", "guc_css_part",
					       "guc_css_copy", "guc_css_version" };
	uint32_t code;

	memset(blob, 0, sizeof(blob));
	lay_image(0);
	if (answer == GUC_CSS_SIZES)
		put(4, 38);
	len = bytes;
	calling(called[a], answer, note);
	lent_image(0, len);
	lent("dst", dst, sizeof(dst));
	begin();
	code = ask_css(a, answer == GUC_NO_ROOM ? 3 : sizeof(dst));
	end(code);
}

static void huc(enum ask a, uint32_t answer, const char *note)
{
	static const char *const called[4] = { "guc_huc_answer", "guc_huc_part",
					       "guc_huc_copy", "guc_huc_version" };
	uint32_t code;

	lay_directory();
	lay_name(2, also);
	if (answer == GUC_CSS_SIZES)
		put(AT + 4, 38);
	if (answer == GUC_CPD_BEYOND)
		len--;
	calling(called[a], answer, note);
	lent_directory(4 | also);
	lent("other.part", blob + ENTRY(3), AT - ENTRY(3));
	lent_image(AT, len - AT);
	lent("dst", dst, sizeof(dst));
	begin();
	code = ask_huc(a, answer == GUC_NO_ROOM ? 3 : sizeof(dst));
	end(code);
}

/* A part sought by name, which entry 1 has but for 20. */
static void cpd(int copy, uint32_t answer, const char *sought, size_t bytes, size_t blob_len,
		const char *note)
{
	uint32_t code;
	size_t room = answer == GUC_NO_ROOM ? 43 : 44;

	lay_directory();
	len = blob_len;
	memcpy(name, sought, bytes);
	if (answer != GUC_NO_ENTRY) {
		memset(blob + ENTRY(1), 0, 12);
		memcpy(blob + ENTRY(1), sought, bytes);
	}
	lay_name(1, also);
	if (answer == GUC_CPD_HEADER)
		blob[3] = 'X';
	if (answer == GUC_CPD_BEYOND)
		put(ENTRY(1) + 16, DIRECTORY);
	calling(copy ? "guc_cpd_copy" : "guc_cpd_part", answer, note);
	lent("sought", name, bytes);
	lent_directory(answer == GUC_NO_ENTRY ? 0 : 2 | also);
	if (len > ENTRY(3)) {
		lent("other.part", blob + ENTRY(3), MANIFEST - ENTRY(3));
		lent("asked", blob + MANIFEST, 44);
		lent("other.part", blob + AT, IMAGE);
	}
	lent("dst", dst, sizeof(dst));
	begin();
	if (copy)
		code = guc_cpd_copy(blob, len, name, bytes, dst, room).code;
	else
		code = guc_cpd_part(blob, len, name, bytes).code;
	end(code);
}

static void manifest(uint32_t answer)
{
	uint32_t code;

	lay_directory();
	lay_name(1, also);
	if (answer == GUC_SHORT_BLOB)
		put(ENTRY(1) + 16, 43);
	calling("guc_manifest_version", answer, "");
	lent_directory(2 | also);
	lent("other.part", blob + ENTRY(3), MANIFEST + 36 - ENTRY(3));
	lent("numbers", blob + MANIFEST + 36, 8);
	lent("other.part", blob + AT, IMAGE);
	begin();
	code = guc_manifest_version(blob, len).code;
	end(code);
}

static void cpd_both(int copy)
{
	size_t k;

	for (k = 1; k <= 12; k++)
		cpd(copy, GUC_OK, "HUCP.manHUCP", k, DIRECTORY, "of 1 to 12 bytes");
	cpd(copy, GUC_BAD_FIELD, "HUCP\0man", 8, DIRECTORY, "zero");
	cpd(copy, GUC_SHORT_BLOB, "HUCP.man", 8, 19, "");
	cpd(copy, GUC_CPD_HEADER, "HUCP.man", 8, DIRECTORY, "");
	cpd(copy, GUC_CPD_ENTRIES, "HUCP.man", 8, ENTRY(3) - 1, "");
	cpd(copy, GUC_NO_ENTRY, "HUCP.ma", 7, DIRECTORY, "prefix");
	cpd(copy, GUC_CPD_BEYOND, "HUCP.man", 8, DIRECTORY, "");
}

/* The sought name twice, before and behind the entry that has it, and thrice. */
static void twice(void)
{
	static const unsigned beside_1[3] = { 1, 4, 5 }, beside_2[3] = { 1, 2, 3 };
	int a, k;

	for (k = 0; k < 3; k++) {
		also = beside_1[k];
		cpd(0, GUC_DUPLICATE_ENTRY, "HUCP.man", 8, DIRECTORY, "twice");
		cpd(1, GUC_DUPLICATE_ENTRY, "HUCP.manHUCP", 12, DIRECTORY, "twice");
		manifest(GUC_DUPLICATE_ENTRY);
		also = beside_2[k];
		for (which = 0, a = ANSWER; a <= VERSION; a++)
			huc(a, GUC_DUPLICATE_ENTRY, "twice");
	}
	also = 0;
}

void blob_calls(void)
{
	int a;

	for (a = ANSWER; a <= VERSION; a++) {
		for (which = 0; which < (a == PART || a == COPY ? 4 : 1); which++) {
			css(a, GUC_OK, IMAGE, components[which]);
			css(a, GUC_OK, IMAGE - 1, "truncated");
			huc(a, GUC_OK, components[which]);
		}
		which = 1;
		css(a, GUC_SHORT_BLOB, 127, "");
		css(a, GUC_CSS_SIZES, IMAGE, "");
		css(a, GUC_CSS_BEYOND, 167, "");
		huc(a, GUC_CSS_SIZES, "");
		huc(a, GUC_CPD_BEYOND, "");
	}
	which = 0;
	css(COPY, GUC_NO_ROOM, IMAGE, "");
	huc(COPY, GUC_NO_ROOM, "");
	for (which = 9, a = PART; a <= COPY; a++) {
		css(a, GUC_NO_SUCH, IMAGE, "");
		huc(a, GUC_NO_SUCH, "");
	}
	cpd_both(0);
	cpd_both(1);
	cpd(1, GUC_NO_ROOM, "HUCP.man", 8, DIRECTORY, "");
	manifest(GUC_OK);
	manifest(GUC_SHORT_BLOB);
	twice();
}
