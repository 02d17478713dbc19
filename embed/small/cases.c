/* The bench cases A to F of document 01 on a 32-bit machine, A again with a sign in place of the block, and live models, with
   rooms that are exactly long enough, the two to work in too, and each room but the moves' once one place too short. Says what is not as it should be, and
   how much stack each call took; the exit status is 1 where something is not. */
#include "rooms.h"

enum { FILL = 0xa5 };

static const uint8_t model_g[] = {1, 2, 0, 1, 0, 1, 1, 3, 1, 1, 4, 6, 0, 0, 6};
static const uint8_t with_a[] = {1, 2, 0, 1, 0, 1, 1, 3, 1, 1, 4, 6, 0, 0, 5, 0, 0, 0, 0, 0, 6};
static const uint8_t case_a[] = {7, 0, 0, 0, 0, 8, 0, 0, 0, 0, 0, 6};
static const uint8_t case_b[] = {7, 1, 0, 0, 0, 8, 1, 0, 0, 0, 0, 6};
static const uint8_t case_c[] = {7, 3, 0, 1, 0, 9, 0, 0, 0, 0, 0, 6};
static const uint8_t case_f[] = {7, 2, 0, 1, 0, 6};
static const uint8_t case_d[] = {7, 0, 0, 0, 0, 8, 0, 0, 0, 1, 0, 6};
static const uint8_t model_e[] = {1, 2, 0, 1, 1, 3, 1, 2, 1, 0, 1, 0, 0, 0, 3, 0, 3, 4, 4, 1, 2,
                                  4, 2, 0, 0, 4, 6, 0, 0, 5, 0, 0, 0, 0, 0, 5, 0, 0, 0, 1, 0, 6};
static const uint8_t case_e[] = {7, 3, 1, 0, 0, 9, 0, 0, 0, 1, 0, 6};
/* G with a sign on its equation in place of the block, and two equations with unlike signs that name each other. */
static const uint8_t signed_g[] = {1, 2, 0, 1, 0, 1, 0, 11, 1, 6, 0, 0, 6};
static const uint8_t tangled[] = {1, 2, 0, 1, 0, 3, 0, 11, 0, 1, 0, 0, 11, 0, 6, 0, 2, 11, 1, 6, 0, 1, 6};
/* G live with the moves (0,0,0) and (1,0,0), G live with the first of them only, and the move of state 0 led elsewhere. */
static const uint8_t live_g[] = {1, 2, 0, 1, 0, 1, 1, 10, 3, 1, 1, 4, 6, 0, 0, 5, 0, 0, 0, 0, 0, 5, 1, 0, 0, 0, 0, 6};
static const uint8_t hangs[] = {1, 2, 0, 1, 0, 1, 1, 10, 3, 1, 1, 4, 6, 0, 0, 5, 0, 0, 0, 0, 0, 6};
static const uint8_t led[] = {7, 3, 0, 1, 0, 9, 0, 0, 0, 0, 0, 8, 0, 0, 0, 1, 0, 6};

static int wrong;

static void expect(const char *what, int holds) {
    if (holds) return;
    say("not as it should be: ");
    say(what);
    say("\n");
    wrong = 1;
}

static void fill(void *room, size_t size) {
    for (size_t i = 0; i < size; i++) ((uint8_t *)room)[i] = FILL;
}

static void fill_all(void) {
    fill(session, sizeof session);
    fill(labels, sizeof labels);
    fill(equations, sizeof equations);
    fill(values, sizeof values);
    fill(marks, sizeof marks);
    fill(moves, sizeof moves);
    fill(index, sizeof index);
    fill(queue, sizeof queue);
    fill(report, sizeof report);
    fill(out, sizeof out);
}

static int is_filled(const void *room, size_t from, size_t size) {
    for (size_t i = from; i < size; i++) {
        if (((const uint8_t *)room)[i] != FILL) return 0;
    }
    return 1;
}

/* The rooms to work in, for so many states with one action each, variables and places for moves: what is needed is 0. */
static int worked(size_t states, size_t variables, size_t count) {
    for (size_t i = 0; i < HUEPAXOCHI_INDEX(states, 1, count); i++) {
        if (index[i] != 0) return 0;
    }
    for (size_t i = 0; i < HUEPAXOCHI_QUEUE(states, variables); i++) {
        if (queue[i] != 0) return 0;
    }
    return 1;
}

/* Whether each room holds its filling past so many places; with no state, from its first place on. */
static int filled_past(size_t states, size_t variables, size_t count) {
    size_t pairs = states * variables, waiting = states == 0 ? 0 : HUEPAXOCHI_QUEUE(states, variables);
    return is_filled(session, 4 * length[SESSION], sizeof session) && is_filled(labels, 4 * states, sizeof labels) &&
           is_filled(equations, 4 * variables, sizeof equations) && is_filled(values, pairs, sizeof values) &&
           is_filled(marks, pairs, sizeof marks) && is_filled(moves, 4 * count, sizeof moves) &&
           is_filled(index, 2 * HUEPAXOCHI_INDEX(states, 1, count), sizeof index) && is_filled(queue, 2 * waiting, sizeof queue);
}

/* Rooms that are exactly long enough for one action. */
static void lend(size_t states, size_t variables, size_t count) {
    length[SESSION] = HUEPAXOCHI_SESSION;
    length[LABELS] = states;
    length[EQUATIONS] = variables;
    length[VALUES] = length[MARKS] = states * variables;
    length[MOVES] = count;
    length[INDEX] = HUEPAXOCHI_INDEX(states, 1, count);
    length[QUEUE] = HUEPAXOCHI_QUEUE(states, variables);
    length[REPORT] = HUEPAXOCHI_REPORT;
    length[OUT] = sizeof out;
}

static int reports(int64_t shift, int64_t settle, int64_t net) {
    return report[0] == shift && report[1] == settle && report[2] == net;
}

static int marked(uint8_t first, uint8_t second) { return marks[0] == first && marks[1] == second; }

static int holds(uint16_t state, uint8_t variable, uint64_t value) { return ask(state, variable) == value << 32; }

/* Each room of a call one place shorter than needed: the answer is 13 at place 0. */
static void refused_short(const char *name, uint64_t (*made)(void), const int *rooms, size_t count) {
    int all = 1;
    for (size_t i = 0; i < count; i++) {
        length[rooms[i]]--;
        uint64_t answer = made();
        length[rooms[i]]++;
        if (answer != 13) all = 0;
    }
    expect(name, all);
}

static uint64_t load_g(void) { return load(model_g, sizeof model_g); }
static uint64_t insert_a(void) { return batch(case_a, sizeof case_a); }
static uint64_t ask_one(void) { return ask(1, 0); }

static void loads(void) {
    static const int rooms[] = {SESSION, LABELS, EQUATIONS, VALUES, MARKS, INDEX, QUEUE};
    fill_all();
    lend(2, 1, 0);
    refused_short("load with a room one too short gives 13", load_g, rooms, sizeof rooms / sizeof rooms[0]);
    length[SESSION] = 0;
    expect("a refused load changes nothing", filled_past(0, 0, 0));
    lend(2, 1, 0);
    expect("G loads", load_g() == 0);
    expect("G has 2 states, 1 action, 1 variable, 1 block, no move, stamp 0, and is not live",
           session[0] == 2 && session[1] == 1 && session[2] == 0 && session[3] == 1 && session[4] == 1 && session[5] == 0 &&
               session[6] == 0 && session[7] == 0);
    expect("load leaves the places past its own", filled_past(2, 1, 0));
    expect("load leaves the rooms to work in at 0", worked(2, 1, 0));
    expect("both pairs of G are false", holds(0, 0, 0) && holds(1, 0, 0));
    expect("a state that is none gives 4", ask(2, 0) == 4);
}

static void a_to_d(void) {
    static const int of_batch[] = {SESSION, LABELS, EQUATIONS, VALUES, MARKS, INDEX, QUEUE, REPORT};
    static const int of_write[] = {SESSION, LABELS, EQUATIONS, VALUES, MARKS, OUT};
    static const int of_ask[] = {SESSION, VALUES};
    lend(2, 1, 2);
    fill(index, sizeof index);
    fill(queue, sizeof queue);
    refused_short("batch with a room one too short gives 13", insert_a, of_batch, sizeof of_batch / sizeof of_batch[0]);
    expect("a refused batch leaves the report", is_filled(report, 0, sizeof report));
    expect("a refused batch leaves the rooms to work in", is_filled(index, 0, sizeof index) && is_filled(queue, 0, sizeof queue));
    expect("A: net 1, visits 1 and 0", insert_a() == 0 && reports(1, 0, 1));
    expect("A: the rooms to work in are 0 again", worked(2, 1, 2));
    expect("A: mark 1, stamp 1, one move", marked(1, 0) && session[6] == 1 && session[5] == 1 && moves[0] == 0);
    expect("A: state 0 is true, state 1 false", holds(0, 0, 1) && holds(1, 0, 0));
    expect("A again: the stamp is old, 11", insert_a() == 11);
    length[MOVES] = 1;
    length[OUT] = sizeof with_a;
    refused_short("ask with a room one too short gives 13", ask_one, of_ask, sizeof of_ask / sizeof of_ask[0]);
    refused_short("write with a room one too short gives 13", write, of_write, sizeof of_write / sizeof of_write[0]);
    length[MOVES] = 0;
    expect("write with fewer places than moves gives 12", write() == 12);
    length[MOVES] = 1;
    expect("a refused write leaves its room", is_filled(out, 0, sizeof out));
    int same = write() == (uint64_t)sizeof with_a << 32;
    for (size_t i = 0; i < sizeof with_a; i++) same = same && out[i] == with_a[i];
    expect("after A the bytes of G with its move are written", same);
    expect("write leaves the places past its own", is_filled(out, sizeof with_a, sizeof out));
    lend(2, 1, 2);
    expect("B: net 1, visits 0 and 0", batch(case_b, sizeof case_b) == 0 && reports(0, 0, 1));
    expect("B: mark 1 at state 1, stamp 65539", marked(0, 1) && session[6] == 65539);
    expect("C: net -2, visits 0 and 1", batch(case_c, sizeof case_c) == 0 && reports(0, 1, -2));
    expect("C: marks 3 and 3, stamp 65538", marked(3, 3) && session[6] == 65538);
    expect("F: nothing but marks, which become 0",
           batch(case_f, sizeof case_f) == 0 && reports(0, 0, 0) && marked(0, 0) && session[6] == 65538);
    expect("the places past the rooms are left", filled_past(2, 1, 2));
    expect("G loads again", load_g() == 0);
    expect("D: net 0, visits 0 and 0", batch(case_d, sizeof case_d) == 0 && reports(0, 0, 0));
    expect("D: mark 2 at state 0, stamp 258", marked(2, 0) && session[6] == 258);
}

static void e(void) {
    fill_all();
    lend(2, 3, 2);
    expect("the model of E loads", load(model_e, sizeof model_e) == 0 && session[6] == 259);
    expect("E: true are X0 and X2 at 0, X0 and X1 at 1", holds(0, 0, 1) && holds(1, 0, 1) && holds(0, 1, 0) && holds(1, 1, 1) &&
                                                             holds(0, 2, 1) && holds(1, 2, 0));
    expect("E: net -2, visits 2 and 0", batch(case_e, sizeof case_e) == 0 && reports(2, 0, -2));
    expect("E: X0 and X2 at 0 get mark 1", marked(1, 0) && marks[2] == 0 && marks[3] == 0 && marks[4] == 1 && marks[5] == 0);
    expect("E: the place past the report is left", is_filled(report, 8 * HUEPAXOCHI_REPORT, sizeof report));
    expect("E: the places past the rooms are left, and those to work in are 0", filled_past(2, 3, 2) && worked(2, 3, 2));
}

/* Signs in place of blocks. */
static void signs(void) {
    fill_all();
    lend(2, 1, 2);
    expect("G with a sign loads", load(signed_g, sizeof signed_g) == 0);
    expect("G with a sign has no block, and its variable component 0", session[4] == 0 && equations[0] == 0x01000006);
    expect("A with a sign: net 1, visits 1 and 0, mark 1", insert_a() == 0 && reports(1, 0, 1) && marked(1, 0));
    int same = write() == (uint64_t)(sizeof signed_g + 6) << 32;
    for (size_t i = 0; i + 1 < sizeof signed_g; i++) same = same && out[i] == signed_g[i];
    expect("the sign is written again", same);
    expect("the places past the rooms are left, with a sign", filled_past(2, 1, 2));
    lend(2, 3, 2);
    expect("a closed chain with both signs is 5 at its first equation",
           load(tangled, sizeof tangled) == (5 | (uint64_t)12 << 32));
}

/* The first state that is the source of no move record, found as the header says. */
static uint32_t first_without(const uint8_t *records, size_t count) {
    uint32_t state = 0;
    for (size_t i = 0; i < count; i++) {
        if (records[6 * i + 1] + 256u * records[6 * i + 2] == state) state++;
    }
    return state;
}

/* Live models: each state has a move. */
static void live(void) {
    fill_all();
    lend(2, 1, 2);
    expect("a live model that hangs is 16 at its end record", load(hangs, sizeof hangs) == (16 | (uint64_t)21 << 32));
    expect("state 1 hangs, as its move records show", first_without(hangs + 15, 1) == 1);
    expect("G with a move for each state loads live", load(live_g, sizeof live_g) == 0 && session[6] == 65539 && session[7] == 1);
    expect("a batch that takes a last move is 16", batch(case_c, sizeof case_c) == 16 && session[5] == 2 && moves[0] == 0);
    int same = write() == (uint64_t)sizeof live_g << 32;
    for (size_t i = 0; i < sizeof live_g; i++) same = same && out[i] == live_g[i];
    expect("the live model is written again", same);
    expect("a batch that leads a last move elsewhere is accepted", batch(led, sizeof led) == 0 && reports(0, 0, 0));
    expect("after it the model is live still", session[6] == 65796 && session[7] == 1 && moves[0] == 1);
    expect("the places past the rooms are left, of a live model", filled_past(2, 1, 2));
}

/* Makes a call, says how much stack it took, and holds that to what the header says. */
static void hold_stack(const char *name, uint64_t (*made)(void), uint32_t most) {
    paint();
    made();
    uint32_t bytes = reached();
    say(name);
    say_number(bytes);
    if (bytes > most) wrong = 1;
}

static uint64_t load_signed(void) { return load(signed_g, sizeof signed_g); }

/* Of G, and of G with a sign. */
static void stack(void) {
    lend(2, 1, 2);
    hold_stack("bytes of stack: load ", load_g, 4000);
    hold_stack(", batch ", insert_a, 4000);
    hold_stack(", write ", write, 1000);
    hold_stack(", ask ", ask_one, 1000);
    hold_stack("; with a sign load ", load_signed, 4000);
    hold_stack(", batch ", insert_a, 4000);
    hold_stack(", write ", write, 1000);
    say(wrong ? ", and that is more than the header says\n" : "\n");
}

int run(void) {
    loads();
    a_to_d();
    e();
    signs();
    live();
    if (!wrong) stack();
    return wrong;
}
