/*
 * Between record_lays.c, which lays a record as a run and as a file and says
 * which of their words are lent, and records.c, which makes the calls.
 */
#ifndef RECORDS_H
#define RECORDS_H

#include "loads.h"

/* Three messages as long as they may be, and as many dwords as their file may have bytes. */
enum { OUTSIDE = 16, BYTES = 3 * GUC_ENTRY_BYTES_MAX, DWORDS = BYTES };

/* With words before and behind each that no call may touch. The file starts at an
 * odd address, so that each byte of it is counted by itself. */
extern uint32_t *const run;
extern uint8_t *const file;
extern size_t dwords, bytes; /* of the messages that are laid */

/* Numbers of one byte, of one to five bytes, of five. */
enum kind { SMALL, MIXED, WIDE };

/* The dwords of a message of len. */
void lay_dwords(uint32_t *msg, uint32_t len, enum kind kind);

/* As many messages as there are lengths, which end with 0. */
void lay_record(const uint32_t *lengths, enum kind kind);

/* The run that is written: its whole messages, then so many dwords of a bad one, then others behind it. */
void lent_run(size_t bad, size_t behind);

/* The file that is read, in one pass or two: its whole messages, then of a bad one
 * the good numbers, the bad one and what lies behind it. */
void lent_file(int twice, size_t torn, size_t bad, size_t behind);

/* The output: what is laid or written, and all else of it. */
void lent_run_output(size_t from, size_t laid);
void lent_file_output(size_t laid);

#endif /* RECORDS_H */
