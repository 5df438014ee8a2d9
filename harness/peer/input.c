#include "input.h"

#include <stdio.h>

enum { SHORTEST = 2 };

uint8_t record[RECORD_BYTES];
size_t length;

enum reading read_record(void) {
    size_t got = fread(record, 1, 2, stdin);
    if (got == 0) return END;
    size_t rest = record[0] | record[1] << 8;
    if (got < 2 || rest < SHORTEST || rest > RECORD_BYTES - 2) return CUT;
    length = rest + 2;
    return fread(record + 2, 1, rest, stdin) == rest ? WHOLE : CUT;
}

int record_kind(void) { return record[2] | record[3] << 8; }

bool begin(struct ring *r) {
    int refused = read_record() == WHOLE ? ring_start(r, record, length) : 2;
    if (refused) printf("settings %d\n", refused);
    return !refused;
}
