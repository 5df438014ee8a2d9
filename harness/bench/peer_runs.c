/* The runs of the crate bench on the plain C controller: the same rings, the same records, the same sums. */
#include "runs.h"

#include "../peer/ring.h"

enum { MOST = PLACES, FARTHEST_HOP = 63, LONGEST = 25 };

struct packed {
    uint8_t bytes[LONGEST];
    size_t length;
};

static struct packed brief(uint8_t length, uint8_t kind, uint8_t first, uint8_t second) {
    return (struct packed){{length, 0, kind, 0, first, second}, length + 2u};
}

/* Sequence 1, idle, from 02-00-00-00-high-low. */
static struct packed report(uint8_t ringlet, uint8_t hop, uint8_t high, uint8_t low) {
    return (struct packed){{14, 0, 5, 0, ringlet, ringlet, (uint8_t)(256 - hop), 2, 0, 0, 0, high, low, 1, 0, 0}, 16};
}

/* Weights 3, 5 and bandwidths 1000, 0, of the first station. */
static struct packed attributes(void) {
    return (struct packed){{23, 0, 6, 0, 0, 2, 0, 0, 0, 1, 1, 128, 1, 0, 2, 3, 5, 128, 2, 0, 4, 3, 232, 0, 0}, LONGEST};
}

static uint32_t capped(uint32_t stations) { return stations > MOST ? MOST : stations; }

/* More stations than hops are those of two rings that are being joined. */
static bool two_rings(uint32_t stations) { return stations > FARTHEST_HOP; }

/* Of two rings the last station on ringlet 0. */
static uint8_t middle(uint32_t stations) { return two_rings(stations) ? FARTHEST_HOP : (uint8_t)(stations / 2 + 1); }

static struct packed record_of(uint32_t stations, uint32_t which) {
    switch (which) {
    case 0: return brief(2, 1, 0, 0);
    case 1: return brief(3, 3, 0, 0);
    case 2: return report(0, middle(stations), 1, middle(stations));
    case 3: return report(0, (uint8_t)(stations + 1), 0, 255);
    case 4: return report(0, 1, 0, 255);
    case 5: return attributes();
    case 6: return brief(4, 2, 0, 0);
    case 7: return brief(4, 4, 1, 0);
    case 8: return brief(2, 8, 0, 0);
    case 9: return report(0, 1, 0, 255);
    default: return (struct packed){{0}, 0};
    }
}

static uint64_t address_of(uint32_t stations, uint32_t which) {
    const uint64_t none = 0x020000000100;
    switch (which) {
    case 0: return none + 1;
    case 2: return none + stations;
    case 3: return none + 255;
    default: return none + middle(stations);
    }
}

/* The result, and 256 for each report that was written. */
static uint64_t take_in(struct ring *r, const struct packed *record, uint8_t *out, size_t room) {
    int reports, result = ring_record(r, record->bytes, record->length, out, room, &reports);
    return (uint64_t)result + 256 * (uint64_t)reports;
}

static void take(struct ring *r, const struct packed *record) {
    uint8_t out[REPORT_BYTES];
    take_in(r, record, out, sizeof out);
}

static uint64_t carry(struct ring *r, const struct packed *record, uint8_t *out, size_t room, uint32_t calls) {
    uint64_t sum = 0;
    for (uint32_t left = calls; left > 0; left--) sum += take_in(r, record, out, room);
    return sum;
}

static void take_all(struct ring *r, const struct packed *records, size_t count) {
    for (size_t i = 0; i < count; i++) take(r, &records[i]);
}

/* Station k of a ring is heard on both ringlets .. */
static void join_around(struct ring *r, uint32_t stations, uint8_t k) {
    const struct packed heard[] = {report(0, k, 1, k), report(1, (uint8_t)(stations + 1 - k), 1, k)};
    take_all(r, heard, 2);
}

/* .. and one of two rings on one alone: the first 63 on ringlet 0, the others on ringlet 1. */
static void join_alone(struct ring *r, uint8_t k) {
    const struct packed heard = k > FARTHEST_HOP ? report(1, k - FARTHEST_HOP, 1, k) : report(0, k, 1, k);
    take(r, &heard);
}

static void set_up(struct ring *r, uint32_t stations) {
    static const uint8_t settings[19] = {17, 0, 32, 0, 2, 2, 0, 0, 0, 0, 1, 0, 0, 0, 50, 10, 2, 88, 2};
    ring_start(r, settings, sizeof settings);
    for (uint8_t k = 1; k <= stations; k++) {
        if (two_rings(stations)) join_alone(r, k);
        else join_around(r, stations, k);
    }
}

/* The ring that takes the record: for 9 station 2 has taken the hop of station 1 on ringlet 1. Of two rings station 1 has none there, and the report is refused. */
static void ready(struct ring *r, uint32_t stations, uint32_t which) {
    const struct packed taking = report(1, stations ? (uint8_t)stations : 1, 1, 2);
    set_up(r, stations);
    if (which == 9) take(r, &taking);
}

/* The ring that is asked: with FS on both spans for the last of the questions. */
static void stand(struct ring *r, uint32_t stations, uint32_t which) {
    const struct packed forced[] = {brief(4, 4, 0, 5), brief(4, 4, 1, 5)};
    set_up(r, stations);
    if (which >= 4) take_all(r, forced, 2);
}

uint64_t peer_node(void) { return sizeof(struct ring); }

uint64_t peer_setup(uint32_t stations) {
    struct ring r;
    set_up(&r, capped(stations));
    return (uint64_t)r.stations;
}

uint64_t peer_record(uint32_t stations, uint32_t which, uint32_t calls) {
    const struct packed record = record_of(capped(stations), which);
    struct ring r;
    uint8_t out[REPORT_BYTES];
    ready(&r, capped(stations), which);
    return carry(&r, &record, out, sizeof out, calls);
}

uint64_t peer_ticks(uint32_t stations, uint32_t many, uint32_t calls) {
    const struct packed record = brief(4, 7, (uint8_t)many, (uint8_t)(many >> 8));
    struct ring r;
    uint8_t out[OUTPUT_BYTES];
    set_up(&r, capped(stations));
    return carry(&r, &record, out, sizeof out, calls);
}

uint64_t peer_steer(uint32_t stations, uint32_t which, uint32_t calls) {
    const uint64_t address = address_of(capped(stations), which);
    struct ring r;
    uint64_t sum = 0;
    stand(&r, capped(stations), which);
    for (uint32_t left = calls; left > 0; left--) {
        const struct steering s = ring_steer(&r, address);
        sum += (uint64_t)(s.reply < 2 ? s.reply + s.hops + s.worst + s.span : s.reply);
    }
    return sum;
}

uint64_t peer_attributes(uint32_t stations, uint32_t which, uint32_t calls) {
    const uint64_t address = address_of(capped(stations), which);
    struct ring r;
    uint64_t sum = 0;
    stand(&r, capped(stations), which);
    for (uint32_t left = calls; left > 0; left--) {
        const struct shown shown = ring_attributes(&r, address);
        sum += (uint64_t)shown.reply + shown.attributes.weight[0];
    }
    return sum;
}

/* The link rate is the number; the node has reserved 1 and 2. The result, and 256 for the defect. */
uint64_t peer_free(uint32_t stations, uint32_t rate, uint32_t calls) {
    struct ring r;
    uint64_t sum = 0;
    set_up(&r, capped(stations));
    for (uint32_t left = calls; left > 0; left--) {
        const struct free_bandwidth free = ring_free(&r, rate, 1, 2);
        sum += (uint64_t)free.result + (free.excess ? 256 : 0);
    }
    return sum;
}
