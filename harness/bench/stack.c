/* The stack of a run, less its node, which a caller may keep elsewhere. The setup stands deeper than a call, so the stack is looked at while the calls go on: at each alarm the deepest byte
 * written since the last one is noted, and all below is painted anew. Of many looks the least counts, since one that comes in the middle of a call leaves 128 bytes (its red zone) unpainted. */
#define _GNU_SOURCE
#include <signal.h>
#include <stdio.h>
#include <stdlib.h>
#include <string.h>
#include <sys/time.h>
#include <ucontext.h>

#include "runs.h"

enum { PAINT = 0xA5, ROOM = 1 << 17, RED_ZONE = 128, LOOKS = 60, SIGNAL_ROOM = 1 << 16, MICROSECONDS = 10000 };

static unsigned char signal_place[SIGNAL_ROOM];
static unsigned char *top, *painted;
static long least = ROOM, lent;
static int looks;

/* The calls print nothing, so printing here interrupts no printing. */
static void look(int number, siginfo_t *info, void *context) {
    const ucontext_t *at = context;
    unsigned char *deepest = painted;
    (void)number, (void)info;
    if (painted) {
        while (*deepest == PAINT) deepest++;
        if (top - deepest < least) least = top - deepest;
        if (++looks == LOOKS) {
            printf("%ld\n", least - lent);
            exit(0);
        }
    }
    painted = (unsigned char *)at->uc_mcontext.gregs[REG_RSP] - RED_ZONE - ROOM;
    memset(painted, PAINT, ROOM);
}

static __attribute__((noinline)) void go(run *what, uint32_t stations, uint32_t which) {
    top = __builtin_frame_address(0);
    what(stations, which, UINT32_MAX);
}

void show_stack(run *what, long node, uint32_t stations, uint32_t which) {
    const stack_t aside = {.ss_sp = signal_place, .ss_size = SIGNAL_ROOM};
    const struct sigaction act = {.sa_sigaction = look, .sa_flags = SA_SIGINFO | SA_ONSTACK | SA_RESTART};
    /* Time on the processor, so that calls are made between two alarms. */
    const struct itimerval alarms = {{0, MICROSECONDS}, {0, MICROSECONDS}};
    lent = node;
    sigaltstack(&aside, NULL);
    sigaction(SIGPROF, &act, NULL);
    setitimer(ITIMER_PROF, &alarms, NULL);
    go(what, stations, which);
}
