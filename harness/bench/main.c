/* One run of one side: SIDE OP STATIONS WHICH CALLS, and its sum on standard output. With the word stack for CALLS it is the run's stack besides the node, in bytes. */
#include <stdio.h>
#include <stdlib.h>
#include <string.h>

#include "runs.h"

static uint64_t set_up_proved(uint32_t stations, uint32_t which, uint32_t calls) {
    (void)which, (void)calls;
    return bench_setup(stations);
}

static uint64_t set_up_peer(uint32_t stations, uint32_t which, uint32_t calls) {
    (void)which, (void)calls;
    return peer_setup(stations);
}

static uint64_t size_proved(uint32_t stations, uint32_t which, uint32_t calls) {
    (void)stations, (void)which, (void)calls;
    return bench_node();
}

static uint64_t size_peer(uint32_t stations, uint32_t which, uint32_t calls) {
    (void)stations, (void)which, (void)calls;
    return peer_node();
}

static const struct { const char *op; run *proved, *peer; } runs[] = {
    {"setup", set_up_proved, set_up_peer},
    {"node", size_proved, size_peer},
    {"record", bench_record, peer_record},
    {"ticks", bench_ticks, peer_ticks},
    {"steer", bench_steer, peer_steer},
    {"attributes", bench_attributes, peer_attributes},
    {"free", bench_free, peer_free},
};

static run *named(const char *side, const char *op) {
    for (size_t i = 0; i < sizeof runs / sizeof *runs; i++) {
        if (strcmp(op, runs[i].op) != 0) continue;
        if (strcmp(side, "proved") == 0) return runs[i].proved;
        if (strcmp(side, "c") == 0) return runs[i].peer;
    }
    return NULL;
}

static uint32_t number(const char *word) { return (uint32_t)strtoul(word, NULL, 10); }

int main(int count, char **words) {
    run *what = count == 6 ? named(words[1], words[2]) : NULL;
    if (!what) {
        fputs("usage: proved|c setup|node|record|ticks|steer|attributes|free STATIONS WHICH CALLS|stack\n", stderr);
        return 2;
    }
    if (strcmp(words[5], "stack") == 0) show_stack(what, (long)named(words[1], "node")(0, 0, 0), number(words[3]), number(words[4]));
    printf("%llu\n", (unsigned long long)what(number(words[3]), number(words[4]), number(words[5])));
    return 0;
}
