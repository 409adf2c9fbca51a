/*
 * Between blob_lays.c, which lays blobs and names their rewritten words, and
 * blobs.c, which asks and judges.
 */
#ifndef BLOBS_H
#define BLOBS_H

#include "hostile.h"

#define LENGTH 1000u /* of the directory */
#define ROOM 416u    /* of the longest destination */

/* What the next call is asked: image is the CSS image, at the blob's end. */
struct asked {
	uint8_t *blob, *image, *dst; /* each ends where no byte can be touched, the name too */
	char *name;
	size_t image_len, name_len, room;
	uint32_t which;
};

extern struct asked asked;

/* The directory as it is before anything is rewritten. */
void lay_directory(void);

/* Each lays it anew and names the words that are rewritten. */
void lay_entry_rewritten(unsigned v);
void lay_walk_rewritten(unsigned v);
void lay_second_rewritten(unsigned v);
void lay_inner_second_rewritten(unsigned v);
void lay_manifest_second_rewritten(unsigned v);
void lay_name_rewritten(unsigned v);
void lay_sizes_rewritten(unsigned v);
void lay_inner_rewritten(unsigned v);
void lay_manifest_rewritten(unsigned v);
void lay_unpacked_rewritten(unsigned v);

/* Takes the answers of still memory, one for each choice of faces. */
void listen_still(void);

#endif /* BLOBS_H */
