// The loops around what is measured, the same for every way. A file says what a receive answers (RECEIVED), then BLOCKS for each way.
// Those of a wall go by its one send and one reply, those of a record by one write and one read.
#ifndef BLOCKS_H
#define BLOCKS_H
#include "bench.h"
#include <string.h>

// send: the harness plays a reader that takes each message at once.
// receive: the ring is full of messages and the harness plays a writer that refills what was read.
// turn: real sends and receives one after another; check compares every message.
// SEND sends the message m, RECEIVE receives into page.out.
#define ROUND_BLOCKS(v, SEND, RECEIVE) \
    __attribute__((noinline)) static uint32_t v##_send_block(size_t k) { \
        uint32_t bad = 0; \
        for (size_t i = 0; i < k; i++) { const uint32_t *m = msgs[i % 8]; bad |= SEND; page.desc[0] = page.desc[1]; } \
        return bad; } \
    __attribute__((noinline)) static uint32_t v##_receive_block(size_t k) { \
        uint32_t bad = 0; \
        for (size_t i = 0; i < k; i++) { \
            uint32_t head = page.desc[0]; RECEIVED r = RECEIVE; \
            bad |= r.code | (r.len ^ L); page.desc[1] = head; } \
        return bad; } \
    static uint32_t v##_turns(size_t k, int check) { \
        uint32_t bad = 0; \
        for (size_t i = 0; i < k; i++) { \
            const uint32_t *m = msgs[i % 8]; bad |= SEND; \
            RECEIVED r = RECEIVE; bad |= r.code | (r.len ^ L); \
            if (check && memcmp(page.out, m, 4 * L)) bad |= 1000; } \
        return bad; } \
    __attribute__((noinline)) static uint32_t v##_turn_block(size_t k) { return v##_turns(k, 0); } \
    __attribute__((noinline)) static uint32_t v##_check_block(size_t k) { return v##_turns(k, 1); }

// Every message at one and the same place: the harness puts the side's own offset, HEAD and TAIL back before each call.
#define PLACE_BLOCKS(v, SEND, RECEIVE, OWN_TAIL, OWN_HEAD) \
    __attribute__((noinline)) static uint32_t v##_send_there(size_t k) { \
        uint32_t bad = 0; \
        for (size_t i = 0; i < k; i++) { \
            const uint32_t *m = msgs[i % 8]; \
            OWN_TAIL = page.desc[0] = page.desc[1] = place; bad |= SEND; } \
        return bad; } \
    __attribute__((noinline)) static uint32_t v##_receive_there(size_t k) { \
        uint32_t bad = 0; \
        for (size_t i = 0; i < k; i++) { \
            OWN_HEAD = page.desc[0] = place; page.desc[1] = behind; \
            RECEIVED r = RECEIVE; bad |= r.code | (r.len ^ L); } \
        return bad; }

#define ROUNDS_OF(v) .send = v##_send_block, .receive = v##_receive_block, .turn = v##_turn_block, .check = v##_check_block
#define PLACES_OF(v) .send_there = v##_send_there, .receive_there = v##_receive_there

// The compiler must not think that a blob stays the same between calls.
#define READ_BLOCK(v, CALL) __attribute__((noinline)) static uint32_t v(size_t k) { \
    uint32_t bad = 0; for (size_t i = 0; i < k; i++) { __asm__ volatile("" ::: "memory"); bad |= CALL; } return bad; }

// Sends of eight requests in turn into the last record, which the harness frees again, playing a reader that takes each message at once;
// and busy replies to eight requests in turn.
#define WALL_BLOCKS(SEND, ANSWER) \
    __attribute__((noinline)) static uint32_t wall_send_block(size_t k) { \
        uint32_t bad = 0; \
        for (size_t i = 0; i < k; i++) { \
            bad |= opened(SEND(L, requests.asked[i % 8], ASKED, REPLY), L, i); \
            requests.table[L - 1] = (struct request){0, 0, 0, 0, 0}; page.desc[0] = page.desc[1]; } \
        return bad; } \
    __attribute__((noinline)) static uint32_t reply_block(size_t k) { \
        uint32_t bad = 0; \
        for (size_t i = 0; i < k; i++) { const uint32_t *m = requests.replies[i % 8]; bad |= replied(ANSWER(L, m, 2), m); } \
        return bad; }

// Whole records of L dwords, k dwords in all; a read has as many dwords of room as the file has bytes.
#define RECORD_BLOCKS(WRITE, READ) \
    __attribute__((noinline)) static uint32_t record_write_block(size_t k) { \
        uint32_t bad = 0; \
        for (size_t i = 0; i < k; i += L) bad |= all_written(WRITE(record.run, L, record.out, MOST_BYTES)); \
        return bad; } \
    __attribute__((noinline)) static uint32_t record_read_block(size_t k) { \
        uint32_t bad = 0; \
        for (size_t i = 0; i < k; i += L) bad |= all_read(READ(record.file, record.bytes, record.back, record.bytes), L); \
        return bad; }
#endif
