/*
 * A record of what windows do, for tests: an event on a line, as the proved program of window_events plays them. Without
 * WINDOW_TRACE nothing of it is compiled. All calls are made with the windows' lock, and with a trace of NULL do nothing.
 */
#ifndef PAGESHARE_WINDOW_TRACE_H
#define PAGESHARE_WINDOW_TRACE_H

#include <stdbool.h>
#include <stdint.h>

struct trace;

#ifdef WINDOW_TRACE

enum { TRACE_PAGES = 4096 }; /* pages of a record, by their numbers; events of others aren't recorded */

/* Returns NULL, with errno. */
struct trace *trace_open(const char *path, uint32_t frames);
/* Returns 0, or the errno of the first write that failed. */
int trace_close(struct trace *trace);

/* What a page that isn't guarded contains now, or did before it was guarded: a write, if that is new. */
void trace_content(struct trace *trace, uint32_t page, const uint8_t *bytes);
/* A page has a private copy with these bytes: a write, whether or not it is new. */
void trace_copy(struct trace *trace, uint32_t page, const uint8_t *bytes);
/* A page that shows its frame was read. */
void trace_shows(struct trace *trace, uint32_t page, const uint8_t *bytes);
/* A lender answered that a frame, which nobody held as far as the record goes, has these bytes. */
void trace_frame(struct trace *trace, uint32_t frame, const uint8_t *bytes);
void trace_guard(struct trace *trace, uint32_t page);
void trace_unguard(struct trace *trace, uint32_t page);
/* A guarded page is equal to its frame: copied and lent. */
void trace_lend(struct trace *trace, uint32_t page, uint32_t frame);
void trace_map(struct trace *trace, uint32_t page);
void trace_release(struct trace *trace, uint32_t page);
void trace_discard(struct trace *trace, uint32_t page);
/* Gives others time to write, where that must not matter. */
void trace_dawdle(void);

#else

static inline void trace_content(struct trace *trace, uint32_t page, const uint8_t *bytes) {
    (void)trace, (void)page, (void)bytes;
}
static inline void trace_copy(struct trace *trace, uint32_t page, const uint8_t *bytes) { (void)trace, (void)page, (void)bytes; }
static inline void trace_shows(struct trace *trace, uint32_t page, const uint8_t *bytes) { (void)trace, (void)page, (void)bytes; }
static inline void trace_frame(struct trace *trace, uint32_t frame, const uint8_t *bytes) {
    (void)trace, (void)frame, (void)bytes;
}
static inline void trace_guard(struct trace *trace, uint32_t page) { (void)trace, (void)page; }
static inline void trace_unguard(struct trace *trace, uint32_t page) { (void)trace, (void)page; }
static inline void trace_lend(struct trace *trace, uint32_t page, uint32_t frame) { (void)trace, (void)page, (void)frame; }
static inline void trace_map(struct trace *trace, uint32_t page) { (void)trace, (void)page; }
static inline void trace_release(struct trace *trace, uint32_t page) { (void)trace, (void)page; }
static inline void trace_discard(struct trace *trace, uint32_t page) { (void)trace, (void)page; }
static inline void trace_dawdle(void) {}

#endif

#endif
