/* The drill program over the plain C controller: a line for each record on standard output. */
#include <stdio.h>

#include "input.h"

enum { QUESTION = 40, QUESTION_BYTES = 10 };

static void answer(const struct ring *r, int number) {
    if (length != QUESTION_BYTES || record[4] & 1) {
        printf("%d 4\n", number);
        return;
    }
    const struct steering s = ring_steer(r, ring_address(record + 4));
    printf("%d way %d %d %d %d\n", number, s.reply, s.hops, s.worst, s.span);
}

static void take(struct ring *r, int number) {
    uint8_t out[OUTPUT_BYTES];
    int reports, result = ring_record(r, record, length, out, sizeof out, &reports);
    printf("%d %d %d %d %d %d %d\n", number, result, ring_request(r, WEST), ring_request(r, EAST), r->pacer.sequence, r->stations, reports);
}

int main(void) {
    static struct ring r;
    if (!begin(&r)) return 0;
    enum reading reading;
    for (int number = 1; (reading = read_record()) != END; number++) {
        if (reading == CUT) {
            printf("%d 2\n", number);
            break;
        }
        if (record_kind() == QUESTION) answer(&r, number);
        else take(&r, number);
    }
    return 0;
}
