/*
 * Between blob_lays.c, which lays blobs and says which of their bytes are lent,
 * and blobs.c, which makes the calls.
 */
#ifndef BLOBS_H
#define BLOBS_H

#include "loads.h"

#define IMAGE 180u             /* h 37, s 45: 32 bytes of uCode, 8, 8 and 4 */
#define AT 140u                /* of the image in the directory */
#define DIRECTORY (AT + IMAGE) /* three entries: other, HUCP.man, huc_fw */
#define MANIFEST 96u
#define ENTRY(index) (20 + 24 * (index))

extern uint8_t blob[DIRECTORY];
extern size_t len;     /* how much of it is lent */
extern uint32_t which; /* the component that is asked for */

void put(size_t at, uint32_t value);
void lay_image(size_t at);
void lay_directory(void);

/* These entries, a bit for each, get the name of entry index. */
void lay_name(unsigned index, unsigned entries);

/* A CSS image of bytes at at: fields, the component asked for, everything else. */
void lent_image(size_t at, size_t bytes);

/* The directory's header and entries; named, a bit for each, have the name sought. */
void lent_directory(unsigned named);

#endif /* BLOBS_H */
