/*
 * The firmware functions, on a directory that holds a manifest and an image; every
 * instruction of them is interrupted.
 */
#include "book.h"
#include "machine.h"
#include "scenes.h"

enum {
	HEADER = 20, ENTRY = 24, MANIFEST = HEADER + 2 * ENTRY, MANIFEST_BYTES = 44,
	IMAGE = MANIFEST + MANIFEST_BYTES, UCODE = 16, RSA = 8, MODULUS = 8, EXPONENT = 4,
	IMAGE_BYTES = 128 + UCODE + RSA + MODULUS + EXPONENT,
	BLOB = IMAGE + IMAGE_BYTES
};
static uint8_t blob[BLOB], copy[64];

static void put(size_t at, uint32_t value)
{
	for (int k = 0; k < 4; k++)
		blob[at + k] = (uint8_t)(value >> 8 * k);
}

static void put_name(size_t at, const char *name)
{
	for (int k = 0; k < GUC_NAME_BYTES; k++)
		blob[at + k] = (uint8_t)*name, name += *name != 0;
}

static void write_image(void)
{
	for (size_t k = IMAGE; k < BLOB; k++)
		blob[k] = (uint8_t)(k * 7);
	put(IMAGE + 4, (IMAGE_BYTES - UCODE) / 4);
	put(IMAGE + 24, IMAGE_BYTES / 4);
	put(IMAGE + 28, RSA / 4);
	put(IMAGE + 32, MODULUS / 4);
	put(IMAGE + 36, EXPONENT / 4);
	put(IMAGE + 64, 70 << 16 | 7 << 8 | 3);
}

static void write_directory(void)
{
	put(0, 0x44504324); /* $CPD */
	put(4, 2);
	put(8, HEADER << 16);
	put_name(HEADER, "HUCP.man");
	put(HEADER + 12, MANIFEST);
	put(HEADER + 16, MANIFEST_BYTES);
	put_name(HEADER + ENTRY, "huc_fw");
	put(HEADER + ENTRY + 12, IMAGE);
	put(HEADER + ENTRY + 16, IMAGE_BYTES);
	put(MANIFEST + 36, 2 << 16 | 1);
	put(MANIFEST + 40, 4 << 16 | 3);
}

/* A copy has the bytes from one on, and nothing behind them. */
static void check_copied(struct guc_copied c, size_t start, size_t len)
{
	EXPECT(c.code == GUC_OK && c.truncated == 0 && c.len == len);
	for (size_t k = 0; k < sizeof copy; k++) {
		EXPECT(copy[k] == (k < len ? blob[start + k] : 0xEE));
		copy[k] = 0xEE;
	}
}

static void parts(void)
{
	static const size_t len[4] = {UCODE, RSA, MODULUS, EXPONENT};
	size_t start = 128;

	for (uint32_t which = GUC_PART_UCODE; which <= GUC_PART_EXPONENT; which++) {
		struct guc_part part = guc_css_part(blob + IMAGE, IMAGE_BYTES, which);

		EXPECT(part.code == GUC_OK && part.start == start && part.len == len[which]);
		part = guc_huc_part(blob, BLOB, which);
		EXPECT(part.code == GUC_OK && part.start == IMAGE + start && part.len == len[which]);
		check_copied(guc_css_copy(blob + IMAGE, IMAGE_BYTES, which, copy, sizeof copy),
			     IMAGE + start, len[which]);
		check_copied(guc_huc_copy(blob, BLOB, which, copy, len[which]), IMAGE + start, len[which]);
		EXPECT(guc_huc_copy(blob, BLOB, which, copy, len[which] - 1).code == GUC_NO_ROOM);
		start += len[which];
	}
}

static void names_and_versions(void)
{
	struct guc_part part = guc_cpd_part(blob, BLOB, GUC_NAME("huc_fw"));
	struct guc_version css = guc_css_version(blob + IMAGE, IMAGE_BYTES);
	struct guc_version huc = guc_huc_version(blob, BLOB);
	struct guc_manifest m = guc_manifest_version(blob, BLOB);

	EXPECT(part.code == GUC_OK && part.start == IMAGE && part.len == IMAGE_BYTES);
	check_copied(guc_cpd_copy(blob, BLOB, GUC_NAME("HUCP.man"), copy, sizeof copy),
		     MANIFEST, MANIFEST_BYTES);
	EXPECT(css.code == GUC_OK && css.major == 70 && css.minor == 7 && css.patch == 3);
	EXPECT(huc.code == GUC_OK && huc.major == 70 && huc.minor == 7 && huc.patch == 3);
	EXPECT(m.code == GUC_OK && m.major == 1 && m.minor == 2 && m.hotfix == 3 && m.build == 4);
	EXPECT(guc_css_answer(blob + IMAGE, IMAGE_BYTES).code == GUC_OK);
	EXPECT(guc_huc_answer(blob, BLOB).code == GUC_OK);
}

static void refused(void)
{
	EXPECT(guc_css_answer(NULL, 0).code == GUC_SHORT_BLOB);
	EXPECT(guc_css_answer(blob + IMAGE, IMAGE_BYTES - 1).truncated == 1);
	EXPECT(guc_css_answer(blob + IMAGE, 128 + UCODE + RSA - 1).code == GUC_CSS_BEYOND);
	EXPECT(guc_css_part(blob + IMAGE, IMAGE_BYTES, 4).code == GUC_NO_SUCH);
	EXPECT(guc_cpd_part(blob, BLOB, NULL, 0).code == GUC_BAD_FIELD);
	EXPECT(guc_cpd_part(blob, MANIFEST - 1, GUC_NAME("huc_fw")).code == GUC_CPD_ENTRIES);
	EXPECT(guc_cpd_part(blob, BLOB, GUC_NAME("huc_f")).code == GUC_NO_ENTRY);
	EXPECT(guc_cpd_part(blob, BLOB - 1, GUC_NAME("huc_fw")).code == GUC_CPD_BEYOND);
	EXPECT(guc_cpd_copy(blob, BLOB, GUC_NAME("huc_fw"), NULL, 0).code == GUC_NO_ROOM);
	EXPECT(guc_manifest_version(NULL, 0).code == GUC_SHORT_BLOB);
	put(IMAGE + 4, 1);
	EXPECT(guc_huc_answer(blob, BLOB).code == GUC_CSS_SIZES);
	put_name(HEADER, "huc_fw");
	EXPECT(guc_huc_version(blob, BLOB).code == GUC_DUPLICATE_ENTRY);
	blob[0] = 0;
	EXPECT(guc_huc_part(blob, BLOB, GUC_PART_RSA).code == GUC_CPD_HEADER);
}

void firmware_calls(void)
{
	for (size_t k = 0; k < sizeof copy; k++)
		copy[k] = 0xEE;
	write_image();
	write_directory();
	single_steps = 1;
	begin_call();
	parts();
	names_and_versions();
	refused();
	end_call();
	single_steps = 0;
}
