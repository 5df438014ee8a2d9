#include "ring.h"

#include <string.h>

enum { IDLE = 0, WTR = 1, MS = 2, SD = 3, SF = 4, FS = 5 };
enum { GOOD = 0, DEGRADED = 1, FAILED = 2 };
enum { TICK = 1, LINK = 2, KEEPALIVE = 3, OPERATOR = 4, REPORT = 5, ATTRIBUTES = 6, TICKS = 7, SETTINGS = 32, SHORT_SETTINGS = 33 };
enum { FAST_REPORTS = 8, LONGEST = 1033, HEAD = 4, FARTHEST_HOP = 63, OLDEST_NEWER = 128 };

/* Numbers returned for a record. 1 to 8 are refusals. */
enum {
    TAKEN = 0, NO_ROOM = 1, BAD_LENGTH = 2, BAD_KIND = 3, BAD_BODY = 4, OWN_ADDRESS = 5, HOP_TOO_FAR = 6, NO_STATION = 7, MALFORMED = 8,
    WRONG_RINGLET = 20, SPAN_DOWN = 21, OLD_REPORT = 22, SET_ASIDE = 24
};

uint64_t ring_address(const uint8_t *bytes) {
    uint64_t address = 0;
    for (int i = 0; i < 6; i++) address = address << 8 | bytes[i];
    return address;
}

static unsigned low_first(const uint8_t *bytes) { return bytes[0] | bytes[1] << 8; }

static unsigned high_first(const uint8_t *bytes) { return bytes[0] << 8 | bytes[1]; }

static int head(const uint8_t *record, size_t length) {
    if (length < HEAD) return BAD_LENGTH;
    unsigned said = low_first(record);
    return said != length - 2 || said > LONGEST ? BAD_LENGTH : TAKEN;
}

/* Span requests. */

static int automatic(const struct ring *r, int side) {
    const struct span *s = &r->span[side];
    if (s->in_force == FAILED || s->keepalive_age >= r->settings.keepalive || s->cable_mark) return SF;
    return s->in_force == DEGRADED ? SD : IDLE;
}

int ring_request(const struct ring *r, int side) {
    const struct span *s = &r->span[side];
    int highest = s->operator_request, own = automatic(r, side);
    if (own > highest) highest = own;
    return highest == IDLE && s->wtr_left ? WTR : highest;
}

static int take_link(struct ring *r, const uint8_t *body) {
    struct span *s = &r->span[body[0]];
    if (body[1] > FAILED) return BAD_BODY;
    if (body[1] == s->link) return TAKEN;
    s->link = body[1];
    if (s->link <= s->in_force) s->hold_off_left = 0;
    else if (!s->hold_off_left) s->hold_off_left = r->settings.hold_off;
    if (!s->hold_off_left) s->in_force = s->link;
    return TAKEN;
}

static int take_operator(struct ring *r, const uint8_t *body) {
    if (body[1] != IDLE && body[1] != MS && body[1] != FS) return BAD_BODY;
    r->span[body[0]].operator_request = body[1];
    return TAKEN;
}

static void age_span(struct ring *r, int side) {
    struct span *s = &r->span[side];
    if (s->keepalive_age < r->settings.keepalive) s->keepalive_age++;
    if (s->hold_off_left && --s->hold_off_left == 0) s->in_force = s->link;
    if (s->wtr_left) s->wtr_left--;
}

/* Stations. */

/* Where a station is; -1 less where it would be, if it is not in the table. */
static int find(const struct ring *r, uint64_t address) {
    int low = 0, high = r->stations;
    while (low < high) {
        int middle = (low + high) / 2;
        if (r->station[middle].address < address) low = middle + 1;
        else high = middle;
    }
    return low < r->stations && r->station[low].address == address ? low : -1 - low;
}

/* Who is at a hop of a ringlet, other than one address; -1 if nobody. */
static int other_at(const struct ring *r, int ringlet, int hop, uint64_t address) {
    for (int i = 0; i < r->stations; i++)
        if (r->station[i].hop[ringlet] == hop && r->station[i].address != address) return i;
    return -1;
}

static void remove_at(struct ring *r, int at) {
    r->stations--;
    memmove(&r->station[at], &r->station[at + 1], sizeof r->station[0] * (r->stations - at));
}

static struct station *insert_at(struct ring *r, int at, uint64_t address) {
    struct station *s = &r->station[at];
    memmove(s + 1, s, sizeof *s * (r->stations - at));
    r->stations++;
    *s = (struct station){.address = address, .attributes.weight = {1, 1}};
    return s;
}

/* A report heard, steps (a) to (f). */
static int hear(struct ring *r, const uint8_t *body) {
    int side = body[0], ringlet = body[1], hop = 256 - body[2];
    uint64_t address = ring_address(body + 3);
    if (hop == 1) r->span[side].cable_mark = ringlet != side;
    if (ringlet != side) return WRONG_RINGLET;
    if (automatic(r, side) == SF) return SPAN_DOWN;
    int at = find(r, address);
    uint8_t distance = at >= 0 ? (uint8_t)(body[9] - r->station[at].sequence) : 1;
    if (distance > OLDEST_NEWER) return OLD_REPORT;
    int other = other_at(r, ringlet, hop, address);
    bool leaves = other >= 0 && r->station[other].hop[1 - ringlet] == 0;
    if (other >= 0) r->station[other].hop[ringlet] = 0;
    if (leaves) {
        remove_at(r, other);
        at = find(r, address);
    }
    struct station *s = at < 0 ? insert_at(r, -1 - at, address) : &r->station[at];
    s->hop[ringlet] = hop;
    s->age = 0;
    if (distance > 0) {
        s->sequence = body[9];
        s->request[WEST] = body[10];
        s->request[EAST] = body[11];
    }
    return TAKEN;
}

static int take_report(struct ring *r, const uint8_t *body) {
    if (body[1] > 1 || !body[2] || body[3] & 1 || body[10] > FS || body[11] > FS) return BAD_BODY;
    if (ring_address(body + 3) == r->settings.address) return OWN_ADDRESS;
    if (256 - body[2] > FARTHEST_HOP) return HOP_TOO_FAR;
    return hear(r, body);
}

static void age_stations(struct ring *r) {
    int kept = 0;
    for (int i = 0; i < r->stations; i++) {
        if (++r->station[i].age >= r->settings.forget) continue;
        if (kept != i) r->station[kept] = r->station[i];
        kept++;
    }
    r->stations = kept;
}

static void purge(struct ring *r, int ringlet) {
    int kept = 0;
    for (int i = 0; i < r->stations; i++) {
        r->station[i].hop[ringlet] = 0;
        if (!r->station[i].hop[1 - ringlet]) continue;
        if (kept != i) r->station[kept] = r->station[i];
        kept++;
    }
    r->stations = kept;
}

/* Attribute blocks. */

/* The value of a known type; false if it is malformed. */
static bool read_value(unsigned type, const uint8_t *value, unsigned length, struct attributes *a) {
    if (length != (type == 1 ? 2 : 4)) return false;
    if (type == 1) {
        a->weight[0] = value[0];
        a->weight[1] = value[1];
        return value[0] && value[1];
    }
    a->bandwidth[0] = high_first(value);
    a->bandwidth[1] = high_first(value + 2);
    return true;
}

static int read_block(int level, const uint8_t *block, size_t bytes, struct attributes *a) {
    size_t at = 0;
    bool seen[3] = {false}, behind = false;
    unsigned first = 0;
    *a = (struct attributes){.weight = {1, 1}};
    while (at < bytes) {
        if (bytes - at < 4) return MALFORMED;
        const uint8_t *entry = block + at;
        unsigned type = high_first(entry) & 1023, length = high_first(entry + 2) & 1023;
        at += 4 + length;
        if (at > bytes) return MALFORMED;
        if (type == 1 || (type == 2 && level == 2)) {
            if (seen[type] || !read_value(type, entry + 4, length, a)) return MALFORMED;
            seen[type] = true;
        } else if (entry[0] & 0x80 && !behind) {
            behind = true;
            first = type;
        }
    }
    if (!behind) return TAKEN;
    *a = (struct attributes){.behind = true, .type = first};
    return SET_ASIDE;
}

static int take_attributes(struct ring *r, const uint8_t *body, size_t bytes) {
    uint64_t address = ring_address(body + 1);
    if (body[1] & 1) return BAD_BODY;
    if (address == r->settings.address) return OWN_ADDRESS;
    if (automatic(r, body[0]) == SF) return SPAN_DOWN;
    int at = find(r, address);
    if (at < 0) return NO_STATION;
    struct attributes read;
    int result = read_block(r->settings.level, body + 7, bytes - 7, &read);
    if (result != MALFORMED) r->station[at].attributes = read;
    return result;
}

struct shown ring_attributes(const struct ring *r, uint64_t address) {
    int at = find(r, address);
    if (at < 0) return (struct shown){.reply = NOT_IN_TABLE};
    const struct attributes *a = &r->station[at].attributes;
    return (struct shown){.reply = a->behind ? BEHIND : 0, .attributes = *a};
}

struct free_bandwidth ring_free(const struct ring *r, uint32_t rate, uint16_t own0, uint16_t own1) {
    if (rate > 65535) return (struct free_bandwidth){.result = 4};
    if (r->settings.level < 2) return (struct free_bandwidth){.result = 32};
    int32_t left[2] = {(int32_t)rate - own0, (int32_t)rate - own1};
    for (const struct station *s = r->station; s < r->station + r->stations; s++) {
        if (s->attributes.behind) return (struct free_bandwidth){.result = 31, .address = s->address};
        left[0] -= s->attributes.bandwidth[0];
        left[1] -= s->attributes.bandwidth[1];
    }
    return (struct free_bandwidth){.ringlet = {left[0], left[1]}, .excess = left[0] < 0 || left[1] < 0};
}

/* Start. */

static bool in_range(unsigned number, unsigned least, unsigned most) { return least <= number && number <= most; }

static bool settings_fit(const uint8_t *body) {
    return in_range(body[0], 1, 2) && !(body[1] & 1) && low_first(body + 7) <= 1440 && body[9] <= 20 && in_range(body[10], 2, 50) &&
           in_range(body[11], 1, 20) && in_range(body[12], 1, 200) && in_range(low_first(body + 13), 2, 600);
}

static struct settings read_settings(const uint8_t *body) {
    return (struct settings){
        .level = body[0], .address = ring_address(body + 1), .wtr = low_first(body + 7) * 1000, .hold_off = body[9] * 10, .keepalive = body[10],
        .fast = body[11], .slow = body[12] * 50, .forget = low_first(body + 13) * 100};
}

/* Refused, the settings are the default ones with address zero. */
int ring_start(struct ring *r, const uint8_t *record, size_t length) {
    memset(r, 0, sizeof *r);
    r->settings = (struct settings){.level = 2, .wtr = 10000, .keepalive = 3, .fast = 10, .slow = 100, .forget = 1000};
    r->pacer.fast_left = FAST_REPORTS;
    r->pacer.timer = r->settings.fast;
    int refused = head(record, length);
    if (refused) return refused;
    unsigned kind = low_first(record + 2);
    const uint8_t *body = record + HEAD;
    if (kind != SETTINGS && kind != SHORT_SETTINGS) return BAD_KIND;
    if (length - HEAD != (kind == SETTINGS ? 15 : 6)) return BAD_BODY;
    if (kind == SHORT_SETTINGS) {
        if (body[0] & 1) return BAD_BODY;
        r->settings.address = ring_address(body);
        return TAKEN;
    }
    if (!settings_fit(body)) return BAD_BODY;
    r->settings = read_settings(body);
    r->pacer.timer = r->settings.fast;
    return TAKEN;
}

/* One record. */

static void write_report(const struct pacer *p, uint8_t *out) {
    const uint8_t report[REPORT_BYTES] = {5, 0, 16, 0, p->sequence, p->last[WEST], p->last[EAST]};
    memcpy(out, report, sizeof report);
}

static bool pace(struct ring *r, bool tick, uint8_t *out) {
    struct pacer *p = &r->pacer;
    int west = ring_request(r, WEST), east = ring_request(r, EAST);
    if (west != p->last[WEST] || east != p->last[EAST]) {
        *p = (struct pacer){.sequence = p->sequence + 1, .last = {west, east}, .fast_left = FAST_REPORTS, .timer = r->settings.fast};
        write_report(p, out);
        return true;
    }
    if (!tick || --p->timer) return false;
    write_report(p, out);
    if (p->fast_left) p->fast_left--;
    p->timer = p->fast_left ? r->settings.fast : r->settings.slow;
    return true;
}

/* The closing steps; true if a report was written. */
static bool close_event(struct ring *r, const int before[2], bool tick, uint8_t *out) {
    for (int side = WEST; side <= EAST; side++) {
        int now = automatic(r, side);
        if (now && !before[side]) r->span[side].wtr_left = 0;
        if (!now && before[side]) r->span[side].wtr_left = r->settings.wtr;
        if (now == SF) purge(r, side);
    }
    return pace(r, tick, out);
}

static int take(struct ring *r, unsigned kind, const uint8_t *body, size_t bytes) {
    switch (kind) {
    case TICK:
        age_span(r, WEST);
        age_span(r, EAST);
        age_stations(r);
        return TAKEN;
    case LINK: return take_link(r, body);
    case KEEPALIVE: r->span[body[0]].keepalive_age = 0; return TAKEN;
    case OPERATOR: return take_operator(r, body);
    case REPORT: return take_report(r, body);
    default: return take_attributes(r, body, bytes);
    }
}

/* An event, with its closing steps; a report goes to the front of the output. */
static int take_and_close(struct ring *r, unsigned kind, const uint8_t *body, size_t bytes, uint8_t *out, int *reports) {
    const int before[2] = {automatic(r, WEST), automatic(r, EAST)};
    int result = take(r, kind, body, bytes);
    if (in_range(result, NO_ROOM, MALFORMED)) return result;
    *reports += close_event(r, before, kind == TICK, out);
    return result;
}

/* So many ticks; their reports stand one behind the other. */
static int take_ticks(struct ring *r, unsigned ticks, uint8_t *out, size_t room, int *reports) {
    if (!in_range(ticks, 1, MOST_TICKS)) return BAD_BODY;
    if (room < ticks * REPORT_BYTES) return NO_ROOM;
    for (unsigned left = ticks; left > 0; left--) take_and_close(r, TICK, NULL, 0, out + *reports * REPORT_BYTES, reports);
    return TAKEN;
}

int ring_record(struct ring *r, const uint8_t *record, size_t length, uint8_t *out, size_t room, int *reports) {
    static const uint8_t body_bytes[] = {[TICK] = 0, [LINK] = 2, [KEEPALIVE] = 1, [OPERATOR] = 2, [REPORT] = 12, [ATTRIBUTES] = 7, [TICKS] = 2};
    *reports = 0;
    if (room < REPORT_BYTES) return NO_ROOM;
    int refused = head(record, length);
    if (refused) return refused;
    unsigned kind = low_first(record + 2);
    const uint8_t *body = record + HEAD;
    size_t bytes = length - HEAD;
    if (kind < TICK || kind > TICKS) return BAD_KIND;
    if (kind == ATTRIBUTES ? bytes < body_bytes[kind] : bytes != body_bytes[kind]) return BAD_BODY;
    if (kind == TICKS) return take_ticks(r, low_first(body), out, room, reports);
    if (kind != TICK && body[0] > EAST) return BAD_BODY;
    return take_and_close(r, kind, body, bytes, out, reports);
}

/* The way to a station. */

/* The worst request on the way to a hop of a ringlet, and the first span that has it; FS if a hop on it is not held. */
struct walk {
    int worst, span;
};

static struct walk walk(const struct ring *r, int ringlet, int target) {
    const struct walk broken = {FS, 0};
    const struct station *at[FARTHEST_HOP + 1] = {NULL};
    if (!target) return broken;
    for (int i = 0; i < r->stations; i++) at[r->station[i].hop[ringlet]] = &r->station[i];
    struct walk w = {IDLE, 1};
    int near = ring_request(r, ringlet);
    for (int hop = 1; hop <= target; hop++) {
        if (!at[hop]) return broken;
        int far = at[hop]->request[1 - ringlet], request = near > far ? near : far;
        if (request > w.worst) w = (struct walk){request, hop};
        near = at[hop]->request[ringlet];
    }
    return w;
}

struct steering ring_steer(const struct ring *r, uint64_t address) {
    int at = find(r, address);
    if (at < 0) return (struct steering){.reply = NOT_IN_TABLE};
    const uint8_t *hop = r->station[at].hop;
    const struct walk way[2] = {walk(r, WEST, hop[WEST]), walk(r, EAST, hop[EAST])};
    int west = way[WEST].worst, east = way[EAST].worst;
    if (west >= SF && east >= SF) return (struct steering){.reply = NO_WAY};
    int side = (west != east ? west < east : hop[WEST] <= hop[EAST]) ? WEST : EAST;
    return (struct steering){side, hop[side], way[side].worst, way[side].span};
}
