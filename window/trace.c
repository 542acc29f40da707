/* See trace.h. Without WINDOW_TRACE this file is empty. */
#define _GNU_SOURCE
#include "trace.h"

#ifdef WINDOW_TRACE

#include "bytes.h"
#include <errno.h>
#include <inttypes.h>
#include <stdio.h>
#include <stdlib.h>
#include <time.h>

static const uint32_t NOTHING = UINT32_MAX;

struct trace {
    FILE *file;
    int cause; /* the first failure of a write, or 0 */
    uint32_t frames;
    uint64_t *of_frame;            /* each frame's content in the record */
    uint64_t of_page[TRACE_PAGES]; /* each page's */
    uint32_t held[TRACE_PAGES];    /* the frame that each page holds in the record */
};

struct trace *trace_open(const char *path, uint32_t frames) {
    struct trace *trace = calloc(1, sizeof *trace);
    if (trace == NULL) return NULL;
    trace->frames = frames;
    trace->of_frame = calloc(frames, sizeof *trace->of_frame);
    trace->file = trace->of_frame != NULL ? fopen(path, "we") : NULL;
    if (trace->file == NULL) {
        free(trace->of_frame);
        free(trace);
        return NULL;
    }
    for (uint32_t i = 0; i < TRACE_PAGES; i++) trace->held[i] = NOTHING;
    if (fprintf(trace->file, "pageshare trace 1\npages %d frames %" PRIu32 "\n", TRACE_PAGES, frames) < 0) trace->cause = errno;
    return trace;
}

int trace_close(struct trace *trace) {
    if (fclose(trace->file) != 0 && trace->cause == 0) trace->cause = errno;
    int cause = trace->cause;
    free(trace->of_frame);
    free(trace);
    return cause;
}

/* A content's number: 0 for zeros alone. */
static uint64_t content_of(const uint8_t *bytes) {
    enum { SALT = 1 };
    if (is_zero(bytes)) return 0;
    uint64_t sum = fingerprint_of(SALT, bytes);
    return sum == 0 ? 1 : sum;
}

static bool is_recorded(const struct trace *trace, uint32_t page) { return trace != NULL && page < TRACE_PAGES; }

static void write_event(struct trace *trace, const char *event, uint32_t page) {
    if (fprintf(trace->file, "%s %" PRIu32 "\n", event, page) < 0 && trace->cause == 0) trace->cause = errno;
}

static void write_content(struct trace *trace, const char *event, uint32_t page, uint64_t content) {
    if (fprintf(trace->file, "%s %" PRIu32 " %" PRIu64 "\n", event, page, content) < 0 && trace->cause == 0) trace->cause = errno;
}

void trace_content(struct trace *trace, uint32_t page, const uint8_t *bytes) {
    if (!is_recorded(trace, page)) return;
    uint64_t content = content_of(bytes);
    if (content == trace->of_page[page]) return;
    trace->of_page[page] = content;
    write_content(trace, "write", page, content);
}

void trace_copy(struct trace *trace, uint32_t page, const uint8_t *bytes) {
    if (!is_recorded(trace, page)) return;
    trace->of_page[page] = content_of(bytes);
    write_content(trace, "write", page, trace->of_page[page]);
}

void trace_shows(struct trace *trace, uint32_t page, const uint8_t *bytes) {
    if (is_recorded(trace, page)) write_content(trace, "shows", page, content_of(bytes));
}

void trace_frame(struct trace *trace, uint32_t frame, const uint8_t *bytes) {
    if (trace == NULL || frame >= trace->frames) return;
    uint64_t content = content_of(bytes);
    if (content == trace->of_frame[frame]) return;
    trace->of_frame[frame] = content;
    write_content(trace, "trim", frame, content);
}

void trace_guard(struct trace *trace, uint32_t page) {
    if (is_recorded(trace, page)) write_event(trace, "guard", page);
}

void trace_unguard(struct trace *trace, uint32_t page) {
    if (is_recorded(trace, page)) write_event(trace, "unguard", page);
}

void trace_lend(struct trace *trace, uint32_t page, uint32_t frame) {
    if (!is_recorded(trace, page)) return;
    write_event(trace, "copy", page);
    write_content(trace, "lend", page, frame);
    trace->held[page] = frame;
}

void trace_map(struct trace *trace, uint32_t page) {
    if (is_recorded(trace, page)) write_event(trace, "map", page);
}

void trace_release(struct trace *trace, uint32_t page) {
    if (!is_recorded(trace, page) || trace->held[page] == NOTHING) return;
    write_event(trace, "release", page);
    trace->held[page] = NOTHING;
}

void trace_discard(struct trace *trace, uint32_t page) {
    if (!is_recorded(trace, page)) return;
    trace->of_page[page] = 0;
    write_event(trace, "discard", page);
}

void trace_dawdle(void) {
    const struct timespec pause = {.tv_nsec = 50000};
    nanosleep(&pause, NULL);
}

#else

typedef int empty; /* (a file of C has at least one declaration) */

#endif
