// The image and the directories that readers of firmware are measured on, and what they must find there.
#ifndef FIRMWARE_H
#define FIRMWARE_H
#include <stddef.h>
#include <stdint.h>

enum { IMAGE = 512 * 1024 };
extern uint8_t image[IMAGE], room[IMAGE];
static inline uint32_t image_parts(uint32_t code, uint32_t truncated, size_t start, size_t len)
{
    return code | truncated | (start ^ 128) | (len ^ (IMAGE - 4 * 161));
}

// The entry sought is the last one, alone of its name; its part is the 64 bytes after the entries.
struct directory { uint8_t *blob; size_t bytes; const char *name; size_t name_len; const char *others; };
extern const struct directory few, many, alike;
static inline uint32_t entry_part(const struct directory *d, uint32_t code, size_t start, size_t len)
{
    return code | (start ^ (d->bytes - 64)) | (len ^ 64);
}
#endif
