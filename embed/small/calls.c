/* Makes calls that another program has spelled out (measure/src/bin/repeat.rs, tools/counts): on standard input, for each call, all
   rooms of a session as they are before it, each as long as any model needs, lowest byte first; the call's kind, 0 for load and 1
   for batch, and the count of its bytes, four bytes each; and these bytes. The exit status is 1 where a call is refused or the
   input ends inside a call. */
#include "rooms.h"

static uint8_t bytes[HUEPAXOCHI_BYTES];

/* Fills a room, and says whether there was as much. */
static int fill(void *room, size_t count) { return read_all(room, count) == count; }

/* The rooms of one call. */
static int fill_rooms(void) {
    return fill(session, 4 * length[SESSION]) && fill(labels, sizeof labels) && fill(equations, sizeof equations) &&
           fill(values, sizeof values) && fill(marks, sizeof marks) && fill(moves, sizeof moves) && fill(index, sizeof index) &&
           fill(queue, sizeof queue);
}

int run(void) {
    uint32_t head[2], made = 0;
    while (fill_rooms()) {
        if (!fill(head, sizeof head) || head[1] > sizeof bytes || !fill(bytes, head[1])) return 1;
        uint64_t answer = head[0] == 0 ? load(bytes, head[1]) : batch(bytes, head[1]);
        if (huepaxochi_number(answer) != 0) return 1;
        made++;
    }
    say_number(made);
    say("\n");
    return 0;
}
