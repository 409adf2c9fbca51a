/*
 * Firmware calls whose blob or sought name is rewritten while they run, and
 * unpacking, whose message is. What can be demanded of an answer: two words may
 * be read at two moments, but a call that reads each word once answers what it
 * would for memory that stands still with some choice of the faces. Those
 * answers are taken first, one for each choice, from still memory (interop/run
 * holds them against the model). Any other answer is bad, and so is every part
 * that ends beyond its blob. Dwords count as read at one moment, names byte by
 * byte.
 */
#include "blobs.h"

#include <string.h>

/* An answer in full: its number, its values, and a sum of the destination. */
struct said {
	uint64_t value[5], sum;
	size_t beyond; /* the end of a part, 0 where none is answered */
};

static struct said said, still[256];
static const char *shape; /* what the values are */

static uint8_t *dst(void)
{
	return asked.dst + ROOM - asked.room;
}

static void keep(uint32_t code, uint64_t a, uint64_t b, uint64_t c, uint64_t d)
{
	struct said s = { { code, a, b, c, d }, 0, 0 };

	answer = code;
	said = s;
	shape = "values";
}

static void keep_part(struct guc_part p)
{
	keep(p.code, p.start, p.len, p.truncated, 0);
	said.beyond = p.start + p.len;
	shape = "start, len, truncated";
}

static void keep_copied(struct guc_copied c)
{
	size_t k;

	keep(c.code, c.len, c.truncated, 0, 0);
	shape = "len of a copy, truncated";
	for (k = 0; k < asked.room; k++)
		said.sum = said.sum * 31 + dst()[k];
}

static void keep_version(struct guc_version v)
{
	keep(v.code, v.major, v.minor, v.patch, 0);
}

static void cpd_part(void)
{
	keep_part(guc_cpd_part(asked.blob, LENGTH, asked.name, asked.name_len));
}

static void cpd_copy(void)
{
	keep_copied(guc_cpd_copy(asked.blob, LENGTH, asked.name, asked.name_len, dst(),
				 asked.room));
}

static void css_part(void)
{
	keep_part(guc_css_part(asked.image, asked.image_len, asked.which));
}

static void css_copy(void)
{
	keep_copied(guc_css_copy(asked.image, asked.image_len, asked.which, dst(), asked.room));
}

static void css_answer(void)
{
	struct guc_css a = guc_css_answer(asked.image, asked.image_len);

	keep(a.code, a.truncated, 0, 0, 0);
}

static void css_version(void)
{
	keep_version(guc_css_version(asked.image, asked.image_len));
}

static void huc_part(void)
{
	keep_part(guc_huc_part(asked.blob, LENGTH, asked.which));
}

static void huc_copy(void)
{
	keep_copied(guc_huc_copy(asked.blob, LENGTH, asked.which, dst(), asked.room));
}

static void huc_answer(void)
{
	struct guc_css a = guc_huc_answer(asked.blob, LENGTH);

	keep(a.code, a.truncated, 0, 0, 0);
}

static void huc_version(void)
{
	keep_version(guc_huc_version(asked.blob, LENGTH));
}

static void manifest(void)
{
	struct guc_manifest m = guc_manifest_version(asked.blob, LENGTH);

	keep(m.code, m.major, m.minor, m.hotfix, m.build);
}

static void unpack(void)
{
	struct guc_unpacked u = guc_unpack(ch.msg, ch.len);

	keep(u.code, (uint64_t)u.origin << 32 | u.fence, u.num_dwords, u.type,
	     (uint64_t)u.first << 32 | u.second);
}

static void reset(void)
{
	memset(asked.dst, 0xEE, ROOM);
}

void listen_still(void)
{
	unsigned k;

	for (k = 0; k < choices(); k++) {
		reset();
		put_choice(k);
		current->call();
		still[k] = said;
	}
}

static const char *judge(void)
{
	size_t blob = current->call == css_part ? asked.image_len : LENGTH;
	unsigned k;

	showed = memcmp(&said, &still[0], sizeof(said)) != 0;
	if (said.beyond > blob)
		return complain("answer %u: part %lu + %lu beyond a blob of %lu", answer,
				(unsigned long)said.value[1], (unsigned long)said.value[2],
				(unsigned long)blob);
	for (k = 0; k < choices(); k++)
		if (memcmp(&said, &still[k], sizeof(said)) == 0)
			return NULL;
	return complain("answer %u, %s %lu %lu %lu: of no memory that stands still", answer,
			shape, (unsigned long)said.value[1], (unsigned long)said.value[2],
			(unsigned long)said.value[3]);
}

const struct scene blob_scenes[] = {
	{ "guc_cpd_part, entry", 2, lay_entry_rewritten, reset, cpd_part, judge, 1 },
	{ "guc_cpd_copy, entry", 4, lay_entry_rewritten, reset, cpd_copy, judge, 0 },
	{ "guc_cpd_part, count, names", 3, lay_walk_rewritten, reset, cpd_part, judge, 0 },
	{ "guc_cpd_part, twice", 2, lay_second_rewritten, reset, cpd_part, judge, 0 },
	{ "guc_cpd_copy, twice", 2, lay_second_rewritten, reset, cpd_copy, judge, 0 },
	{ "guc_huc_part, twice", 2, lay_inner_second_rewritten, reset, huc_part, judge, 0 },
	{ "guc_huc_version, twice", 2, lay_inner_second_rewritten, reset, huc_version, judge, 0 },
	{ "guc_manifest_version, twice", 2, lay_manifest_second_rewritten, reset, manifest, judge, 0 },
	{ "guc_cpd_part, sought name", 3, lay_name_rewritten, reset, cpd_part, judge, 0 },
	{ "guc_cpd_copy, sought name", 3, lay_name_rewritten, reset, cpd_copy, judge, 0 },
	{ "guc_css_part, sizes", 8, lay_sizes_rewritten, reset, css_part, judge, 0 },
	{ "guc_css_copy, sizes", 8, lay_sizes_rewritten, reset, css_copy, judge, 0 },
	{ "guc_css_answer, sizes", 8, lay_sizes_rewritten, reset, css_answer, judge, 0 },
	{ "guc_css_version, version", 8, lay_sizes_rewritten, reset, css_version, judge, 0 },
	{ "guc_huc_part, entry, sizes", 8, lay_inner_rewritten, reset, huc_part, judge, 0 },
	{ "guc_huc_copy, entry, sizes", 8, lay_inner_rewritten, reset, huc_copy, judge, 0 },
	{ "guc_huc_answer, sizes", 8, lay_inner_rewritten, reset, huc_answer, judge, 0 },
	{ "guc_huc_version, version", 8, lay_inner_rewritten, reset, huc_version, judge, 0 },
	{ "guc_manifest_version, entry", 2, lay_manifest_rewritten, reset, manifest, judge, 0 },
	{ "guc_unpack, message", 3, lay_unpacked_rewritten, reset, unpack, judge, 0 },
	{ 0, 0, 0, 0, 0, 0, 0 },
};
