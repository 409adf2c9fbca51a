/*
 * The firmware half of the walk: a small CSS image and a directory that holds
 * it, both built here.
 */
#include "walk.h"

#include <string.h>

static void put(uint8_t *blob, size_t at, uint32_t value)
{
	size_t k;

	for (k = 0; k < 4; k++)
		blob[at + k] = (uint8_t)(value >> (8 * k));
}

/* h 37, s 41: 16 bytes of uCode, 8 of RSA, 8 of modulus, 4 of exponent. */
#define IMAGE 164u

static void make_image(uint8_t *blob)
{
	size_t k;

	for (k = 0; k < IMAGE; k++)
		blob[k] = (uint8_t)k;
	put(blob, 4, 37);
	put(blob, 24, 41);
	put(blob, 28, 2);
	put(blob, 32, 2);
	put(blob, 36, 1);
	put(blob, 64, 0x00460703u);
}

static void css(void)
{
	static const size_t start[4] = { 128, 144, 152, 160 };
	static const size_t length[4] = { 16, 8, 8, 4 };
	uint8_t blob[IMAGE], dst[17];
	struct guc_part part;
	struct guc_copied copied;
	struct guc_version v;
	uint32_t which;

	make_image(blob);
	CHECK(guc_css_answer(blob, IMAGE).code == GUC_OK);
	CHECK(guc_css_answer(blob, IMAGE).truncated == 0);
	for (which = GUC_PART_UCODE; which <= GUC_PART_EXPONENT; which++) {
		part = guc_css_part(blob, IMAGE, which);
		CHECK(part.code == GUC_OK && part.start == start[which]);
		CHECK(part.len == length[which]);
		memset(dst, 0xEE, sizeof(dst));
		copied = guc_css_copy(blob, IMAGE, which, dst, part.len - 1);
		CHECK(copied.code == GUC_NO_ROOM && copied.len == part.len && dst[0] == 0xEE);
		copied = guc_css_copy(blob, IMAGE, which, dst, part.len);
		CHECK(copied.code == GUC_OK && copied.len == part.len);
		CHECK(memcmp(dst, blob + part.start, part.len) == 0 && dst[part.len] == 0xEE);
	}
	CHECK(guc_css_part(blob, 0, 4).code == GUC_NO_SUCH);
	v = guc_css_version(blob, IMAGE);
	CHECK(v.code == GUC_OK && v.major == 70 && v.minor == 7 && v.patch == 3);
	printf("image: four parts, version %u.%u.%u\n", (unsigned)v.major, (unsigned)v.minor,
	       (unsigned)v.patch);
}

static void css_refused(void)
{
	uint8_t blob[IMAGE], dst[1];
	struct guc_part part;

	make_image(blob);
	CHECK(guc_css_answer(blob, IMAGE - 1).truncated == 1);
	part = guc_css_part(blob, IMAGE - 1, GUC_PART_MODULUS);
	CHECK(part.code == GUC_OK && part.truncated == 1 && part.start == 0 && part.len == 0);
	CHECK(guc_css_copy(blob, IMAGE - 1, GUC_PART_EXPONENT, dst, 0).code == GUC_OK);
	CHECK(guc_css_copy(blob, IMAGE - 1, GUC_PART_EXPONENT, NULL, 0).code == GUC_OK);
	CHECK(guc_css_copy(blob, IMAGE, GUC_PART_EXPONENT, NULL, 0).code == GUC_NO_ROOM);
	CHECK(guc_css_answer(blob, 151).code == GUC_CSS_BEYOND);
	CHECK(guc_css_answer(blob, 127).code == GUC_SHORT_BLOB);
	CHECK(guc_css_version(NULL, 0).code == GUC_SHORT_BLOB);
	put(blob, 4, 38);
	part = guc_css_part(blob, IMAGE, GUC_PART_RSA);
	CHECK(part.code == GUC_CSS_SIZES && part.start == 0 && part.len == 0);
	printf("image cut to 163: truncated; 151: 17; 127: 15; h one off: 16\n");
}

/* Two entries: a manifest of 44 bytes at 68, the image at 112. */
#define DIRECTORY (112u + IMAGE)

static void make_directory(uint8_t *blob)
{
	memset(blob, 0, DIRECTORY);
	memcpy(blob, "$CPD", 4);
	put(blob, 4, 2);
	blob[10] = 20;
	memcpy(blob + 20, "HUCP.man", 8);
	put(blob, 32, 68);
	put(blob, 36, 44);
	memcpy(blob + 44, "huc_fw", 6);
	put(blob, 56, 112u | 0xFE000000u); /* the upper bits don't count */
	put(blob, 60, IMAGE);
	put(blob, 104, 0x00020001u);
	put(blob, 108, 0x00040003u);
	make_image(blob + 112);
}

static uint32_t seek(const uint8_t *blob, size_t len, const char *name)
{
	return guc_cpd_part(blob, len, name, strlen(name)).code;
}

static void cpd(void)
{
	uint8_t blob[DIRECTORY], dst[44];
	struct guc_manifest m;
	struct guc_part part;

	make_directory(blob);
	m = guc_manifest_version(blob, DIRECTORY);
	CHECK(m.code == GUC_OK && m.major == 1 && m.minor == 2 && m.hotfix == 3 && m.build == 4);
	part = guc_huc_part(blob, DIRECTORY, GUC_PART_RSA);
	CHECK(part.code == GUC_OK && part.start == 112 + 144 && part.len == 8);
	CHECK(guc_huc_answer(blob, DIRECTORY).code == GUC_OK);
	CHECK(guc_huc_version(blob, DIRECTORY).major == 70);
	CHECK(guc_huc_copy(blob, DIRECTORY, GUC_PART_UCODE, dst, 16).code == GUC_OK);
	CHECK(dst[15] == 143);
	CHECK(guc_cpd_copy(blob, DIRECTORY, GUC_NAME("HUCP.man"), dst, 44).len == 44);
	CHECK(dst[36] == 1 && dst[42] == 4);
	printf("directory: manifest %u.%u.%u.%u, RSA of huc_fw at %u\n", (unsigned)m.major,
	       (unsigned)m.minor, (unsigned)m.hotfix, (unsigned)m.build, (unsigned)part.start);
	/* Slices that are only read may overlap: the name as it lies in the directory. */
	CHECK(guc_cpd_part(blob, DIRECTORY, (const char *)blob + 44, 6).start == 112);
	CHECK(seek(blob, DIRECTORY, "") == GUC_BAD_FIELD);
	CHECK(guc_cpd_part(blob, DIRECTORY, NULL, 0).code == GUC_BAD_FIELD);
	CHECK(guc_cpd_part(NULL, 0, GUC_NAME("huc_fw")).code == GUC_SHORT_BLOB);
	CHECK(seek(blob, 19, "huc_fw") == GUC_SHORT_BLOB);
	CHECK(seek(blob, 67, "huc_fw") == GUC_CPD_ENTRIES);
	CHECK(seek(blob, DIRECTORY, "huc_f") == GUC_NO_ENTRY);
	CHECK(seek(blob, DIRECTORY - 1, "huc_fw") == GUC_CPD_BEYOND);
	blob[3] = 'X';
	CHECK(seek(blob, DIRECTORY, "huc_fw") == GUC_CPD_HEADER);
	printf("directory refused: 14, 15, 19, 20, 21, 18\n");
}

/* The manifest's entry gets the image's name, or the image's the manifest's. */
static void cpd_twice(void)
{
	uint8_t blob[DIRECTORY], dst[44];
	struct guc_part part;
	struct guc_copied copied;

	make_directory(blob);
	memset(dst, 0xEE, sizeof(dst));
	memcpy(blob + 20, blob + 44, 12);
	part = guc_cpd_part(blob, DIRECTORY, GUC_NAME("huc_fw"));
	CHECK(part.code == GUC_DUPLICATE_ENTRY && part.start == 0 && part.len == 0);
	copied = guc_cpd_copy(blob, DIRECTORY, GUC_NAME("huc_fw"), dst, 44);
	CHECK(copied.code == GUC_DUPLICATE_ENTRY && copied.len == 0 && dst[0] == 0xEE);
	part = guc_huc_part(blob, DIRECTORY, GUC_PART_RSA);
	CHECK(part.code == GUC_DUPLICATE_ENTRY && part.start == 0 && part.len == 0);
	CHECK(guc_huc_copy(blob, DIRECTORY, 0, dst, 44).code == GUC_DUPLICATE_ENTRY);
	CHECK(guc_huc_answer(blob, DIRECTORY).code == GUC_DUPLICATE_ENTRY);
	CHECK(guc_huc_version(blob, DIRECTORY).code == GUC_DUPLICATE_ENTRY);
	CHECK(guc_manifest_version(blob, DIRECTORY).code == GUC_NO_ENTRY);
	CHECK(seek(blob, DIRECTORY - 1, "huc_fw") == GUC_DUPLICATE_ENTRY); /* not 21 */
	CHECK(seek(blob, 67, "huc_fw") == GUC_CPD_ENTRIES);
	put(blob, 4, 1);
	CHECK(seek(blob, DIRECTORY, "huc_fw") == GUC_OK); /* the other isn't counted */
	make_directory(blob);
	memcpy(blob + 44, blob + 20, 12);
	CHECK(guc_manifest_version(blob, DIRECTORY).code == GUC_DUPLICATE_ENTRY);
	blob[55] = 1; /* in the padding: another name */
	CHECK(guc_manifest_version(blob, DIRECTORY).code == GUC_OK);
	printf("two entries of one name: 22, also cut to %u; 67: 19; one counted: 0\n",
	       DIRECTORY - 1);
}

void walk_blobs(void)
{
	css();
	css_refused();
	cpd();
	cpd_twice();
}
