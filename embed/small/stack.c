/* How much stack each call takes on the largest table: 256 states, 16 actions, 32 propositions, 32 variables in 8 blocks, 1,024 moves
   and a batch of 64 changes; then the same with a sign on each equation in place of the blocks. The exit status is 1 where a call
   is refused. */
#include "rooms.h"

enum { STATES = HUEPAXOCHI_LABELS, ACTIONS = 16, VARIABLES = HUEPAXOCHI_EQUATIONS, BLOCKS = 8, OWN_MOVES = 4, CHANGED = 32 };

static uint8_t bytes[HUEPAXOCHI_BYTES];
static size_t count;
static int refused;

static void put(uint32_t number, int places) {
    for (int i = 0; i < places; i++) bytes[count++] = (uint8_t)(number >> 8 * i);
}

static void put_move(uint8_t kind, uint32_t source, uint32_t action, uint32_t target) {
    put(kind, 1);
    put(source, 2);
    put(action, 1);
    put(target, 2);
}

/* The i-th move from a state; its actions ascend, and 15 is none of them where the state is even. */
static void put_own(uint8_t kind, uint32_t state, uint32_t i) {
    put_move(kind, state, OWN_MOVES * i + state % OWN_MOVES, (state + 1 + 61 * i) % STATES);
}

/* W, X, Y and Z of a block: W joins X with Y, which is a step back to W; X is a proposition or joins two of the block before; Z is the
   other step. */
static void put_equation(uint32_t block, uint32_t i) {
    uint32_t greatest = block % 2, w = 4 * block;
    uint32_t operators[] = {4 + greatest, block % 4 < 2 ? 2 : 4 + greatest, 6 + greatest, 7 - greatest};
    uint32_t firsts[] = {w + 1, block % 4 < 2 ? block : w - 4, block, ACTIONS - 1 - block};
    uint32_t seconds[] = {w + 2, block % 4 < 2 ? 0 : w - 1, w, w};
    put(operators[i], 1);
    put(firsts[i], 1);
    put(seconds[i], 1);
}

/* The model, with so many blocks, or with 0 and signs. */
static void spell(uint32_t blocks) {
    count = 0;
    put(1, 1);
    put(STATES, 2);
    put(ACTIONS | 32 << 8 | VARIABLES << 16 | blocks << 24, 4);
    for (uint32_t s = 0; s < STATES; s++) {
        put(2, 1);
        put(s, 2);
        put(s * 0x9e3779b9u + 1, 4);
    }
    for (uint32_t x = 0; x < VARIABLES; x++) {
        uint32_t block = x / 4, greatest = block % 2;
        if (blocks != 0 && x % 4 == 0) put(3 | greatest << 8 | 4 << 16, 3);
        put(blocks != 0 ? 4 : 11 | greatest << 8, blocks != 0 ? 1 : 2);
        put_equation(block, x % 4);
    }
    for (uint32_t s = 0; s < STATES; s++) {
        for (uint32_t i = 0; i < OWN_MOVES; i++) put_own(5, s, i);
    }
    put(6, 1);
}

/* Half of the changes delete a move, half insert one that is not there. */
static void spell_changes(void) {
    count = 0;
    put(7, 1);
    put(session[6], 4);
    for (uint32_t i = 0; i < CHANGED; i++) put_own(9, 8 * i, i % OWN_MOVES);
    for (uint32_t i = 0; i < CHANGED; i++) put_move(8, 8 * i + 2, ACTIONS - 1, 7 * i);
    put(6, 1);
}

static uint64_t load_all(void) { return load(bytes, count); }
static uint64_t batch_all(void) { return batch(bytes, count); }
static uint64_t ask_last(void) { return ask(STATES - 1, VARIABLES - 1); }

/* Makes a call, and says how much stack it took. */
static void tell(const char *name, uint64_t (*made)(void)) {
    paint();
    uint64_t answer = made();
    uint32_t took = reached();
    say(name);
    say_number(took);
    if (huepaxochi_number(answer) != 0) {
        say(", REFUSED ");
        say_number(huepaxochi_number(answer));
        say(" at ");
        say_number(huepaxochi_told(answer));
        refused = 1;
    }
}

int run(void) {
    spell(BLOCKS);
    tell("bytes of stack on the largest table: load ", load_all);
    spell_changes();
    tell(", batch of 64 ", batch_all);
    tell(", write ", write);
    tell(", ask ", ask_last);
    spell(0);
    tell("; with signs load ", load_all);
    spell_changes();
    tell(", batch of 64 ", batch_all);
    tell(", write ", write);
    say("\n");
    return refused;
}
