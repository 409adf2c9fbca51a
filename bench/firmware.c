// Rows of firmware: an image judged, its uCode found and copied out, and an entry of a directory found.
#include "firmware.h"
#include "bench.h"
#include <string.h>

uint8_t image[IMAGE] __attribute__((aligned(4096))), room[IMAGE] __attribute__((aligned(4096)));
static uint8_t few_blob[20 + 24 * 16 + 64], many_blob[20 + 24 * 4096 + 64], alike_blob[20 + 24 * 4096 + 64]; // entries and one part
// The names of the other entries: apart in their fifth byte, and alike in all but the last of twelve.
const struct directory few = {few_blob, sizeof few_blob, "huc_fw", 6, "huc_xx"};
const struct directory many = {many_blob, sizeof many_blob, "huc_fw", 6, "huc_xx"};
const struct directory alike = {alike_blob, sizeof alike_blob, "huc_firmware", 12, "huc_firmwarx"};

static void put(uint8_t *at, uint32_t value) { for (int i = 0; i < 4; i++) at[i] = value >> 8 * i; }
static void lay_image(void)
{
    for (size_t i = 0; i < IMAGE; i++) image[i] = i * 7 + (i >> 8);
    uint32_t words[] = {161, IMAGE / 4, 64, 64, 1}, at[] = {4, 24, 28, 32, 36};
    for (int j = 0; j < 5; j++) put(image + at[j], words[j]);
}
static void lay_directory(const struct directory *d)
{
    uint32_t n = (d->bytes - 20 - 64) / 24;
    memcpy(d->blob, "$CPD", 4);
    put(d->blob + 4, n);
    d->blob[10] = 20;
    for (uint32_t j = 0; j < n; j++) {
        uint8_t *e = d->blob + 20 + 24 * j;
        memcpy(e, j == n - 1 ? d->name : d->others, d->name_len);
        put(e + 12, d->bytes - 64);
        put(e + 16, 64);
    }
}

// What is read comes back into the cache.
static void start_read(const struct row *r)
{
    uint32_t bad = r->run(1);
    if (bad) die(r->what, r->name, bad);
}
// A copy must have laid the image's uCode; the next one starts from zeros.
static void check_copy(const struct row *r)
{
    if (memcmp(room, image + 128, IMAGE - 4 * 161)) die("copied wrong by", r->name, 0);
    memset(room, 0, sizeof room);
}

void add_firmware_rows(void)
{
    static const struct { const char *what; int read; size_t k; } kinds[] = {
        {"judge", JUDGE, 4000}, {"locate", LOCATE, 4000}, {"few", FEW, 1000}, {"many", MANY, 50}, {"alike", ALIKE, 50}, {"image", COPY, 2},
    };
    lay_image();
    lay_directory(&few);
    lay_directory(&many);
    lay_directory(&alike);
    for (size_t i = 0; i < sizeof kinds / sizeof *kinds; i++)
        for (const struct reader *r = readers; r; r = r->next)
            add_row((struct row){kinds[i].what, r->name, 0, 0, kinds[i].k, 2, r->read[kinds[i].read], start_read,
                                 kinds[i].read == COPY ? check_copy : 0, 0, 0});
}
