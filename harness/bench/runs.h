/* What both sides run: a ring of so many stations, then one record or question so many times; the sum of what was answered. */
#ifndef RUNS_H
#define RUNS_H

#include <stdint.h>

typedef uint64_t size(void);
typedef uint64_t setup(uint32_t stations);
typedef uint64_t run(uint32_t stations, uint32_t which, uint32_t calls);

/* The proved controller: crates/bench says what each number asks for. */
size bench_node;
setup bench_setup;
run bench_record, bench_ticks, bench_steer, bench_attributes, bench_free;

/* The plain C one. */
size peer_node;
setup peer_setup;
run peer_record, peer_ticks, peer_steer, peer_attributes, peer_free;

/* Prints the bytes of stack that a run's calls need, with the loop around them and without the bytes of its node, and ends the program. */
void show_stack(run *what, long node, uint32_t stations, uint32_t which);

#endif
