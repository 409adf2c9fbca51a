/*
 * The memory that a wall's calls are lent: of replies (walls.c) and of sends
 * (wall_sends.c).
 */
#ifndef WALLS_H
#define WALLS_H

#include "loads.h"

enum { MANY = 17, MOST = GUC_RECORDS_MAX, NONE = 999 };

extern struct guc_record *const table; /* with records before and behind it that no call may touch */
extern struct guc_wall wall;
extern size_t records;
extern int alike; /* fences are alike in their low eight bits */

/* So many records, all open; any number but 0 says so. */
void lay_wall(size_t count);

/* Free, with a fence that an open record has too, where there is one, and many reply dwords. */
void lay_free(size_t k);

/*
 * Names for the table: open and fence are judged, action and count are not, what is
 * set aside is by sends alone, and of a free record open alone is. Records one and other are what the call is about:
 * taken, hit or a pair, and their words have that in their names. Of another number
 * of records than a table has nothing is looked at.
 */
enum about { RECORD, HIT, TAKEN, PAIR };
void lent_wall(enum about what, size_t one, size_t other);

/* A wall's sends. */
void wall_send_calls(void);

#endif /* WALLS_H */
