/* Huepaxochi for C: a proved checker of modal mu-calculus equations over a table of moves, kept current while moves are
   inserted and deleted. Link target/native/libhuepaxochi.a, which tools/native builds for this machine; `tools/native TARGET`
   builds target/native/TARGET/libhuepaxochi.a for another one, such as thumbv7m-none-eabi. It allocates nothing, keeps nothing
   between calls, and calls nothing but memset and the like of the C library and, on 32-bit machines, the 64-bit division of
   the compiler's run-time library. Load and batch take at most 4,000 bytes of stack and write and ask at most 1,000, as
   measured for x86-64, a Cortex-M3 and 32-bit RISC-V (embed/machines).

   Every room is passed as a pointer and its length in ELEMENTS, not in bytes. A length has 64 bits on every machine, also where
   size_t has 32, because the compiled code has one width of length for all machines; a size_t that is passed is widened by the
   declarations below. A caller owes this, and nothing else:
   - a pointer is not null and is aligned for its elements (the report's to 8 bytes), also where the length is 0 (any aligned
     address will do then);
   - that many elements are there and were written once, and a room that is not const may be written;
   - a room that is not const overlaps no other room of the same call, and no other thread touches it meanwhile; nothing
     changes a const room meanwhile.
   For any such rooms, whatever they hold, each call ends and answers, and what it answers and leaves is proved.

   The answer is one number. Its low 32 bits are the refusal's number (the first table below), or 0 for accepted. Its high 32 bits
   are, of a refusal, its place in the bytes (modulo 2^32), and of an acceptance what each call says below. A refusal changes nothing
   in any room, the session's and the report's included.

   A model has one of two styles, which the blocks of its sizes record decide. With 1 to 8 blocks each block (record 3) is
   followed by its equations (records 4). With 0 blocks each equation has a sign of its own (record 11: sign, operator, first,
   second) and may name any variable; where variables lead to each other, by names in equations and back again, all of them
   must have one sign. The largest sets of variables that lead to each other, the components, then take the place of blocks,
   each after those that it names. docs/RULE.md has every record.

   A model of either style is live where record 10, which has no body, stands directly after its sizes record. Each state of a
   live model has a move, by any action: a load of one in which some state has none is refused with 16, and so is a batch that
   would leave some state with none, its deletes and inserts counted together. A batch keeps the model live, and write gives
   record 10 back.

   A refusal with 16 names no state, but the caller has the moves that it is about: of a load the move records of the bytes, which
   ascend by source; of a batch the moves in the room less its deletes plus its inserts, put in the same order. The first state
   that has no move is then s after
       s = 0;
       for each of these moves: if (its source == s) s++;

   The rooms, and how long each must be. Places past these are never changed.
   session    8: states, actions, propositions, variables, blocks, moves, stamp, live. They are load's and batch's to write; a
              number too large for its kind is refused with 12, never cut. Blocks are 0 where the equations have signs. Live
              is 1 for a live model, else 0.
   labels     one per state: the set of its propositions, bit p for proposition p.
   equations  one per variable: operator + 256 x first + 65536 x second + 16777216 x (2 x block + kind), kind 0 for least
              and 1 for greatest. Where blocks are 0, kind is the equation's sign, and block is the number of the variable's
              component: how many components lead to a smaller set of variables, a component's own among them, the set read
              as a binary number with bit y for variable y.
   values     one per pair, 0 or 1; the pair of state s and variable x lies at x x states + s.
   marks      one per pair: 0 never turned, 1 shifted and stayed, 2 shifted and came back, 3 turned by settling only.
   moves      one per move, ascending: 65536 x source + 1024 x action + target. Its length is the room for moves, at
              most 1,024 of which are used; places that a batch frees at the end become 0.

   Load and batch are lent two more rooms, to work in. These grow with the table and are no part of a session: nothing is kept
   there, what they hold before a call does not matter, and between calls they may serve anything else, other sessions too. After
   an accepted call the places needed are 0; a refusal leaves them as they were.
   index      states x actions + the length of moves, which counts as 1,024 where it is more:
              HUEPAXOCHI_INDEX(states, actions, length of moves).
   queue      states x variables + 1: HUEPAXOCHI_QUEUE(states, variables). */
#ifndef HUEPAXOCHI_H
#define HUEPAXOCHI_H

#include <stdint.h>

#ifdef __cplusplus
extern "C" {
#endif

/* The refusals. 13 also says that the session's room has fewer than 8 places or the report's fewer than 3, which is asked before all
   else. The place of 16 is the end record of a load, and 0 of a batch. */
enum {
    HUEPAXOCHI_BROKEN = 1, /* an unknown kind of record, or the bytes end inside a record or before the end record */
    HUEPAXOCHI_NOT_DUE = 2, /* a known kind where it is not due; any byte after the end record */
    HUEPAXOCHI_BAD_SIZE = 3, /* a size outside its limits, a block with a wrong number of variables, a 65th change */
    HUEPAXOCHI_BAD_NUMBER = 4, /* a number not below its count, an unknown operator or sign, an unused byte not 0, an empty or too
                                  high set */
    HUEPAXOCHI_TANGLED = 5, /* an equation names a variable of a later block, or lies on a closed chain that holds both signs */
    HUEPAXOCHI_OUT_OF_ORDER = 6, /* a label or a move not strictly after the one before */
    HUEPAXOCHI_PRESENT = 7, /* insert of a move that is present */
    HUEPAXOCHI_ABSENT = 8, /* delete of a move that is absent */
    HUEPAXOCHI_NAMED_TWICE = 9, /* a batch names one move twice */
    HUEPAXOCHI_FULL = 10, /* more moves than 1,024 or than the move room holds */
    HUEPAXOCHI_WRONG_STAMP = 11, /* the batch's stamp is not the table's */
    HUEPAXOCHI_NOT_A_MODEL = 12, /* the session is no model that load accepts, or holds a value over 1, a mark over 3 or a wrong
                                    stamp */
    HUEPAXOCHI_SHORT_ROOM = 13, /* a room is shorter than the sizes need */
    HUEPAXOCHI_HANGS = 16 /* a live model in which some state has no move */
};

/* How long the rooms to work in must be. A table of 10 states and 3 actions with 4 variables in a move room of 50 places needs 80 of
   the index and 41 of the queue. */
#define HUEPAXOCHI_INDEX(states, actions, move_room) ((states) * (actions) + ((move_room) < 1024 ? (move_room) : 1024))
#define HUEPAXOCHI_QUEUE(states, variables) ((states) * (variables) + 1)

/* The most that any model within the limits needs of each room. */
enum {
    HUEPAXOCHI_SESSION = 8,
    HUEPAXOCHI_LABELS = 256,
    HUEPAXOCHI_EQUATIONS = 32,
    HUEPAXOCHI_PAIRS = 8192,
    HUEPAXOCHI_MOVES = 1024,
    HUEPAXOCHI_MOST_INDEX = HUEPAXOCHI_INDEX(256, 16, 1024),
    HUEPAXOCHI_MOST_QUEUE = HUEPAXOCHI_QUEUE(256, 32),
    HUEPAXOCHI_REPORT = 3,
    HUEPAXOCHI_BYTES = 8105
};

/* The two halves of an answer. */
static inline uint32_t huepaxochi_number(uint64_t answer) { return (uint32_t)answer; }
static inline uint32_t huepaxochi_told(uint64_t answer) { return (uint32_t)(answer >> 32); }

/* Reads a model of either style, live or not, finds the value of every pair, clears the marks and writes the session. What the
   rooms held before does not matter. Accepted, the high 32 bits are 0. */
uint64_t huepaxochi_load(const uint8_t *bytes, uint64_t bytes_len, uint32_t *session, uint64_t session_len, uint32_t *labels,
                         uint64_t labels_len, uint32_t *equations, uint64_t equations_len, uint8_t *values,
                         uint64_t values_len, uint8_t *marks, uint64_t marks_len, uint32_t *moves, uint64_t moves_len,
                         uint16_t *index, uint64_t index_len, uint16_t *queue, uint64_t queue_len);

/* Applies a batch of inserts and deletes: moves, values, marks and session follow. Accepted, the high 32 bits are 0 and the
   report is: shift visits, settle visits, net change in the number of true pairs. */
uint64_t huepaxochi_batch(uint32_t *session, uint64_t session_len, const uint8_t *bytes, uint64_t bytes_len,
                          const uint32_t *labels, uint64_t labels_len, const uint32_t *equations, uint64_t equations_len,
                          uint8_t *values, uint64_t values_len, uint8_t *marks, uint64_t marks_len, uint32_t *moves,
                          uint64_t moves_len, uint16_t *index, uint64_t index_len, uint16_t *queue, uint64_t queue_len,
                          int64_t *report, uint64_t report_len);

/* Writes the model that the session holds, in the style in which it was loaded and live if it was, into the front of out.
   Accepted, the high 32 bits are the number of bytes written, at most HUEPAXOCHI_BYTES. */
uint64_t huepaxochi_write(const uint32_t *session, uint64_t session_len, const uint32_t *labels, uint64_t labels_len,
                          const uint32_t *equations, uint64_t equations_len, const uint8_t *values, uint64_t values_len,
                          const uint8_t *marks, uint64_t marks_len, const uint32_t *moves, uint64_t moves_len, uint8_t *out,
                          uint64_t out_len);

/* The value of one pair. Accepted, the high 32 bits are 1 for true and 0 for false. It looks at the first five numbers of the
   session and at one byte of the values, no more. */
uint64_t huepaxochi_ask(const uint32_t *session, uint64_t session_len, const uint8_t *values, uint64_t values_len,
                        uint16_t state, uint8_t variable);

#ifdef __cplusplus
}
#endif

#endif
