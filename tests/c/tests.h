/* The parts of the test. */
#ifndef TESTS_H
#define TESTS_H

#include <stdbool.h>

#include "lent.h"
#include "mop.h"

void test_reading(void);
void test_writing(void);
void test_images(void);
void test_machine(void);
void test_windows(void); /* after test_machine, whose buffers it uses */
void test_blocks(void);  /* as well */
void test_load(void);
void test_strings(void);  /* after test_load, whose buffers it uses */
void test_restarts(void); /* as well */
void test_many(void);     /* as well */
void test_dump(void);
void test_loop(void);

/* Calls the writer of the code in f with its numbers and these bytes of data;
 * the name is code 8's id, the version code 20's. */
mop_written write_frame(uint8_t version, const mop_fields *f,
    const uint8_t *bytes, size_t length, const uint8_t *name,
    size_t name_length, uint8_t *to, size_t room);

/* Lengths of a reply buffer, on both sides of 1,500. */
size_t any_room(void);

/* A step's answer: this refusal, a frame's length or, if refused, 0, and all
 * else in the reply buffer as it was. */
void check_written(mop_written answer, unsigned refusal, const lent *reply);

/* ---- The counts of a load and of a dump. */

enum { STARTS, ADVANCES, IGNORED, REJECTIONS, COUNTS };

/* One of them, and whether two are the same. */
uint64_t *count_of(mop_counts *counts, int which);
bool same_counts(mop_counts a, mop_counts b);

/* Whether they make a record bad, and any counts, mostly such as do not. */
bool bad_counts(mop_counts counts, uint8_t waiting);
mop_counts any_counts(bool waits);

/* The counts after a frame that is counted, by the first of these that it did. */
mop_counts count_frame(
    mop_counts counts, bool started, bool moved, bool rejected);

/* Records with one count at an edge of what a step takes, or waiting with it,
 * and the refusal of such a call: with a verdict too, and before the reply
 * buffer's. Which count it is matters to a record that waits. */
typedef struct edge {
    uint8_t waiting;
    uint8_t verdict;
    uint64_t count;
    size_t room;
    unsigned refusal;
} edge;
enum { EDGES = 9 };
extern const edge edges[EDGES];
unsigned edge_refusal(const edge *e, int which);

/* A frame, or where the length is 0 a timer, and the counts after it. */
typedef struct counted {
    uint8_t frame[8];
    size_t length;
    mop_counts after;
} counted;

#endif
