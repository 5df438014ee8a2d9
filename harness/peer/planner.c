/* The planner's program over the plain C controller: a line for each question for free bandwidth on standard output. */
#include <inttypes.h>
#include <stdio.h>

#include "input.h"

enum { QUESTION = 41, QUESTION_BYTES = 12 };

static uint16_t low_first(const uint8_t *bytes) { return (uint16_t)(bytes[0] | bytes[1] << 8); }

static struct free_bandwidth answer(const struct ring *r) {
    const uint8_t *body = record + 4;
    if (length != QUESTION_BYTES) return (struct free_bandwidth){.result = 4};
    return ring_free(r, low_first(body) | (uint32_t)low_first(body + 2) << 16, low_first(body + 4), low_first(body + 6));
}

static void tell(struct free_bandwidth free) {
    printf("%d %" PRIu64 " %" PRId32 " %" PRId32 " %d\n", free.result, free.address, free.ringlet[0], free.ringlet[1], free.excess);
}

static void take(struct ring *r) {
    uint8_t out[OUTPUT_BYTES];
    int reports;
    ring_record(r, record, length, out, sizeof out, &reports);
}

int main(void) {
    static struct ring r;
    if (!begin(&r)) return 0;
    enum reading reading;
    while ((reading = read_record()) != END) {
        if (reading == CUT) {
            tell((struct free_bandwidth){.result = 2});
            break;
        }
        if (record_kind() == QUESTION) tell(answer(&r));
        else take(&r);
    }
    return 0;
}
