/* Loads model G of document 01 and applies its case A: the move (0,0,0) inserted. Prints what was found and exits with 1 where
   it is not what the paper says. */
#include "huepaxochi.h"

#include <stdio.h>

static const uint8_t model[] = {1, 2, 0, 1, 0, 1, 1, 3, 1, 1, 4, 6, 0, 0, 6};
static const uint8_t insert[] = {7, 0, 0, 0, 0, 8, 0, 0, 0, 0, 0, 6};

static uint32_t session[HUEPAXOCHI_SESSION], labels[HUEPAXOCHI_LABELS], equations[HUEPAXOCHI_EQUATIONS];
static uint8_t values[HUEPAXOCHI_PAIRS], marks[HUEPAXOCHI_PAIRS];
static uint32_t moves[HUEPAXOCHI_MOVES];
static uint16_t index_room[HUEPAXOCHI_MOST_INDEX], queue[HUEPAXOCHI_MOST_QUEUE];
static int64_t report[HUEPAXOCHI_REPORT];

static uint64_t batch(const uint8_t *bytes, size_t length) {
    return huepaxochi_batch(session, HUEPAXOCHI_SESSION, bytes, length, labels, HUEPAXOCHI_LABELS, equations,
                            HUEPAXOCHI_EQUATIONS, values, HUEPAXOCHI_PAIRS, marks, HUEPAXOCHI_PAIRS, moves, HUEPAXOCHI_MOVES,
                            index_room, HUEPAXOCHI_MOST_INDEX, queue, HUEPAXOCHI_MOST_QUEUE, report, HUEPAXOCHI_REPORT);
}

static uint64_t value(uint16_t state) {
    return huepaxochi_ask(session, HUEPAXOCHI_SESSION, values, HUEPAXOCHI_PAIRS, state, 0);
}

static int expect(const char *what, int holds) {
    if (!holds) fprintf(stderr, "not as the paper says: %s\n", what);
    return holds ? 0 : 1;
}

int main(void) {
    uint8_t out[64];
    int wrong = 0;

    uint64_t answer = huepaxochi_load(model, sizeof model, session, HUEPAXOCHI_SESSION, labels, HUEPAXOCHI_LABELS, equations,
                                      HUEPAXOCHI_EQUATIONS, values, HUEPAXOCHI_PAIRS, marks, HUEPAXOCHI_PAIRS, moves,
                                      HUEPAXOCHI_MOVES, index_room, HUEPAXOCHI_MOST_INDEX, queue, HUEPAXOCHI_MOST_QUEUE);
    printf("load: refusal %u, %u states, %u moves, stamp %u\n", huepaxochi_number(answer), session[0], session[5], session[6]);
    wrong += expect("G loads", answer == 0 && session[0] == 2 && session[5] == 0 && session[6] == 0);
    wrong += expect("both pairs are false", value(0) == 0 && value(1) == 0);

    answer = batch(insert, sizeof insert);
    printf("batch: refusal %u, visits %lld and %lld, net %lld, stamp %u\n", huepaxochi_number(answer), (long long)report[0],
           (long long)report[1], (long long)report[2], session[6]);
    wrong += expect("A is accepted", answer == 0);
    wrong += expect("visits 1 and 0, net 1", report[0] == 1 && report[1] == 0 && report[2] == 1);
    wrong += expect("stamp 1, one move", session[6] == 1 && session[5] == 1);
    wrong += expect("mark 1 at state 0", marks[0] == 1 && marks[1] == 0);
    wrong += expect("state 0 is true, state 1 false", value(0) == (uint64_t)1 << 32 && value(1) == 0);

    answer = batch(insert, sizeof insert);
    printf("the same again: refusal %u at %u\n", huepaxochi_number(answer), huepaxochi_told(answer));
    wrong += expect("the old stamp is refused with 11 at 0", answer == 11);

    answer = huepaxochi_write(session, HUEPAXOCHI_SESSION, labels, HUEPAXOCHI_LABELS, equations, HUEPAXOCHI_EQUATIONS, values,
                              HUEPAXOCHI_PAIRS, marks, HUEPAXOCHI_PAIRS, moves, HUEPAXOCHI_MOVES, out, sizeof out);
    printf("write: refusal %u, %u bytes\n", huepaxochi_number(answer), huepaxochi_told(answer));
    wrong += expect("21 bytes are written", answer == (uint64_t)21 << 32 && out[14] == 5 && out[20] == 6);
    return wrong != 0;
}
