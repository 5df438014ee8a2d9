/* A plain C controller of the same rules, which keeps its state in place: what the speed of the proved one is held against. */
#ifndef RING_H
#define RING_H

#include <stdbool.h>
#include <stddef.h>
#include <stdint.h>

enum { PLACES = 126, REPORT_BYTES = 7, MOST_TICKS = 1000, OUTPUT_BYTES = MOST_TICKS * REPORT_BYTES, RECORD_BYTES = 1035 };

/* Spans and the ringlets that they hear. */
enum { WEST = 0, EAST = 1 };

/* Replies to a question. For a way also WEST and EAST; for attributes 0 with values. */
enum { BEHIND = 1, NO_WAY = 2, NOT_IN_TABLE = 3 };

/* Times are in ticks. */
struct settings {
    uint64_t address;
    uint32_t wtr;
    uint16_t hold_off, keepalive, fast, slow, forget;
    uint8_t level;
};

struct span {
    uint8_t link, in_force, operator_request;
    bool cable_mark;
    uint16_t hold_off_left, keepalive_age;
    uint32_t wtr_left;
};

/* The type is that of the first mandatory entry that is not known, if the station is behind. */
struct attributes {
    uint16_t type, bandwidth[2];
    uint8_t weight[2];
    bool behind;
};

/* A hop, for each ringlet, is 0 if the station was not heard there. */
struct station {
    uint64_t address;
    uint16_t age;
    uint8_t hop[2], sequence, request[2];
    struct attributes attributes;
};

struct pacer {
    uint8_t sequence, last[2], fast_left;
    uint16_t timer;
};

/* Stations stand in ascending order of address; each holds a hop of a ringlet that no other does, so there is always a place. */
struct ring {
    struct settings settings;
    struct span span[2];
    struct pacer pacer;
    int stations;
    struct station station[PLACES];
};

struct shown {
    int reply;
    struct attributes attributes;
};

/* Of the way chosen its hops, its worst request and the first span that has it; zeros where there is none. */
struct steering {
    int reply, hops, worst, span;
};

/* The result is 0 or a refusal; of 31 the address is that of the first station that is behind. */
struct free_bandwidth {
    uint64_t address;
    int32_t ringlet[2];
    int result;
    bool excess;
};

int ring_start(struct ring *r, const uint8_t *record, size_t length);
int ring_record(struct ring *r, const uint8_t *record, size_t length, uint8_t *out, size_t room, int *reports);
int ring_request(const struct ring *r, int side);
struct steering ring_steer(const struct ring *r, uint64_t address);
struct shown ring_attributes(const struct ring *r, uint64_t address);
struct free_bandwidth ring_free(const struct ring *r, uint32_t rate, uint16_t own0, uint16_t own1);
uint64_t ring_address(const uint8_t *bytes);

#endif
