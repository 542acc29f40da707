/* What a guest says: lines of its processors, by the protocol of guest.c, and of its kernel if it has one. */
#ifndef MONITOR_VOICES_H
#define MONITOR_VOICES_H

#include "vm.h"
#include <pthread.h>
#include <stdbool.h>
#include <stdint.h>

struct line {
    char text[160];
    size_t length;
};

/* Of a processor. */
struct voice {
    struct line line;
    uint64_t rounds, wrong, last_ns, spent_ns;  /* the last two at the last round's end; spent: of processor time */
    uint64_t late, cycles, kilocycles, cost_ns; /* rounds from half time on, and sums over these */
};

struct voices {
    unsigned guest;
    uint64_t half_ns;     /* half time, by the clock */
    pthread_mutex_t lock; /* round what follows */
    struct voice of[VM_PROCESSORS];
    struct line kernel;
};

void voices_make(struct voices *voices, unsigned guest);

/* A byte that a processor said, on its thread. A line that isn't of the protocol is printed, and wrong. */
void voices_hear(struct voices *voices, unsigned processor, char byte);

/* A byte that the guest's kernel printed; its lines are printed on standard error. */
void voices_hear_kernel(struct voices *voices, char byte);

/* What a processor said so far. */
struct voice voices_get(struct voices *voices, unsigned processor);

#endif
