#define _GNU_SOURCE
#include "voices.h"
#include "../window/lender/clock.h"
#include <inttypes.h>
#include <stdio.h>
#include <string.h>

void voices_make(struct voices *voices, unsigned guest) {
    *voices = (struct voices){.guest = guest, .lock = PTHREAD_MUTEX_INITIALIZER};
}

/*
 * Adds a byte, and returns whether the line is whole. A line that is too long loses its end. What a guest says goes to a terminal,
 * so anything but printable ASCII is a question mark.
 */
static bool add(struct line *line, char byte) {
    if (byte == '\n') {
        line->text[line->length] = 0;
        line->length = 0;
        return true;
    }
    bool is_printable = byte >= ' ' && byte <= '~';
    if (byte != '\r' && line->length + 1 < sizeof line->text) line->text[line->length++] = is_printable ? byte : '?';
    return false;
}

static void hear_line(struct voices *voices, unsigned processor) {
    struct voice *voice = &voices->of[processor];
    uint64_t cycles, kilocycles;
    if (sscanf(voice->line.text, "ok %" SCNu64 " %" SCNu64, &cycles, &kilocycles) == 2) {
        uint64_t spent = clock_ns(CLOCK_THREAD_CPUTIME_ID), cost = spent - voice->spent_ns;
        voice->rounds++;
        voice->spent_ns = spent;
        voice->last_ns = now_ns();
        if (voice->last_ns < voices->half_ns) return;
        voice->late++;
        voice->cycles += cycles;
        voice->kilocycles += kilocycles;
        voice->cost_ns += cost;
    } else if (strcmp(voice->line.text, "ready") != 0) {
        fprintf(stderr, "guest %u, processor %u: %s\n", voices->guest, processor, voice->line.text);
        voice->wrong++;
    }
}

void voices_hear(struct voices *voices, unsigned processor, char byte) {
    pthread_mutex_lock(&voices->lock);
    if (add(&voices->of[processor].line, byte)) hear_line(voices, processor);
    pthread_mutex_unlock(&voices->lock);
}

void voices_hear_kernel(struct voices *voices, char byte) {
    pthread_mutex_lock(&voices->lock);
    if (add(&voices->kernel, byte)) fprintf(stderr, "guest %u: %s\n", voices->guest, voices->kernel.text);
    pthread_mutex_unlock(&voices->lock);
}

struct voice voices_get(struct voices *voices, unsigned processor) {
    pthread_mutex_lock(&voices->lock);
    struct voice voice = voices->of[processor];
    pthread_mutex_unlock(&voices->lock);
    return voice;
}
