/* The rooms of a session, with their lengths as a C program has them, in size_t, and the four calls over them. */
#ifndef ROOMS_H
#define ROOMS_H

#include "huepaxochi.h"
#include "small.h"

enum { SESSION, LABELS, EQUATIONS, VALUES, MARKS, MOVES, INDEX, QUEUE, REPORT, OUT, ROOMS };

static uint32_t session[HUEPAXOCHI_SESSION + 1], labels[HUEPAXOCHI_LABELS], equations[HUEPAXOCHI_EQUATIONS];
static uint8_t values[HUEPAXOCHI_PAIRS], marks[HUEPAXOCHI_PAIRS], out[HUEPAXOCHI_BYTES];
static uint32_t moves[HUEPAXOCHI_MOVES];
static uint16_t index[HUEPAXOCHI_MOST_INDEX], queue[HUEPAXOCHI_MOST_QUEUE];
static int64_t report[HUEPAXOCHI_REPORT + 1];

static size_t length[ROOMS] = {HUEPAXOCHI_SESSION, HUEPAXOCHI_LABELS,     HUEPAXOCHI_EQUATIONS,  HUEPAXOCHI_PAIRS,  HUEPAXOCHI_PAIRS,
                               HUEPAXOCHI_MOVES,   HUEPAXOCHI_MOST_INDEX, HUEPAXOCHI_MOST_QUEUE, HUEPAXOCHI_REPORT, HUEPAXOCHI_BYTES};

static inline uint64_t load(const uint8_t *bytes, size_t count) {
    return huepaxochi_load(bytes, count, session, length[SESSION], labels, length[LABELS], equations, length[EQUATIONS], values,
                           length[VALUES], marks, length[MARKS], moves, length[MOVES], index, length[INDEX], queue,
                           length[QUEUE]);
}

static inline uint64_t batch(const uint8_t *bytes, size_t count) {
    return huepaxochi_batch(session, length[SESSION], bytes, count, labels, length[LABELS], equations, length[EQUATIONS], values,
                            length[VALUES], marks, length[MARKS], moves, length[MOVES], index, length[INDEX], queue,
                            length[QUEUE], report, length[REPORT]);
}

static inline uint64_t write(void) {
    return huepaxochi_write(session, length[SESSION], labels, length[LABELS], equations, length[EQUATIONS], values,
                            length[VALUES], marks, length[MARKS], moves, length[MOVES], out, length[OUT]);
}

static inline uint64_t ask(uint16_t state, uint8_t variable) {
    return huepaxochi_ask(session, length[SESSION], values, length[VALUES], state, variable);
}

#endif
