/* The program of document 01 on a 32-bit machine, over the library: a model and batches from standard input, a line for each.
   It is held to the second program, which prints the same lines. After each accepted call the model is written, every pair is
   asked about and the answers held to the values; the exit status is 1 where they differ. */
#include "rooms.h"

static uint8_t input[65536];

/* The length of a record of a kind, or 0 where there is no such kind. */
static size_t record(uint8_t kind) {
    static const uint8_t lengths[] = {0, 7, 7, 3, 4, 6, 1, 5, 6, 6, 1, 5};
    return kind < sizeof lengths ? lengths[kind] : 0;
}

/* The length of the first part, up to and with the first record of kind 6, or 0 where none is reached. */
static size_t cut(const uint8_t *bytes, size_t count) {
    size_t at = 0;
    while (at < count) {
        uint8_t kind = bytes[at];
        size_t size = record(kind);
        if (size == 0 || size > count - at) return 0;
        at += size;
        if (kind == 6) return at;
    }
    return 0;
}

static void say_with(const char *text, uint32_t number) {
    say(text);
    say_number(number);
}

/* The end of a line after an accepted call, and whether what was asked and written is as the values, sizes and the flag are. */
static int tell_session(void) {
    uint32_t pairs = session[0] * session[3], count = 0;
    int good = 1;
    for (uint32_t x = 0; x < session[3]; x++) {
        for (uint32_t s = 0; s < session[0]; s++) {
            uint8_t value = values[x * session[0] + s];
            count += value;
            good = good && ask((uint16_t)s, (uint8_t)x) == (uint64_t)value << 32;
        }
    }
    say_with(" true ", count);
    say_with(" of ", pairs);
    say_with(" stamp ", session[6]);
    say("\n");
    uint64_t wrote = write();
    uint32_t bytes = huepaxochi_told(wrote);
    good = good && (out[7] == 10) == (session[7] == 1);
    return good && huepaxochi_number(wrote) == 0 && cut(out, bytes) == bytes && bytes >= 6 * session[5];
}

static void tell_report(void) {
    uint32_t net = (uint32_t)report[2];
    say(report[2] < 0 ? "batch net -" : "batch net ");
    say_number(report[2] < 0 ? 0 - net : net);
    say_with(" visits ", (uint32_t)report[0]);
    say_with(" ", (uint32_t)report[1]);
}

int run(void) {
    size_t count = read_all(input, sizeof input), start = 0;
    for (;;) {
        size_t found = cut(input + start, count - start);
        size_t part = found != 0 ? found : count - start;
        uint64_t answer = start == 0 ? load(input, part) : batch(input + start, part);
        int refused = huepaxochi_number(answer) != 0;
        if (refused) {
            say_with("refused ", huepaxochi_number(answer));
            say_with(" at ", huepaxochi_told(answer));
            say("\n");
        } else {
            if (start == 0) say("loaded");
            else tell_report();
            if (!tell_session()) {
                say("not as it should be: a pair asked about, or the model written\n");
                return 1;
            }
        }
        if (found == 0 || (start == 0 && refused) || start + part == count) return 0;
        start += part;
    }
}
