#define _GNU_SOURCE
#include "pausing.h"
#include "connection.h"
#include "counts_file.h"
#include "trouble.h"

/* (what is due each second is due a little earlier; a hundredth of that time goes into bringing pages home) */
static const uint64_t period_ns = 900000000, home_ns = 9000000;

static struct {
    uint64_t next_ns;
    uint8_t *at; /* pages before it have come home */
    enum counts_state state;
    unsigned limit;
} my;

bool pausing_is_on(void) { return my.state != COUNTS_SHARES; }
enum counts_state pausing_state(void) { return my.state; }
unsigned pausing_limit(void) { return my.limit; }

/* Brings parts home for a moment. Where the system has no memory for one, that one is tried again later. */
static enum counts_state bring_home(void) {
    struct window_result result = {.status = WINDOW_OK};
    const uint64_t end_ns = clock_ns(CLOCK_THREAD_CPUTIME_ID) + home_ns;
    bool is_any = true;
    if (ranges_are_watched()) return COUNTS_WAITS;
    while (is_any && clock_ns(CLOCK_THREAD_CPUTIME_ID) < end_ns) {
        uint8_t *before = my.at;
        is_any = ranges_bring_home(&my.at, &result);
        if (result.status == WINDOW_OK) continue;
        my.at = before;
        return COUNTS_WAITS;
    }
    if (is_any) return COUNTS_COMES_HOME;
    result = ranges_end_windows();
    return result.status == WINDOW_OK ? COUNTS_PAUSED : result.status == WINDOW_PINNED ? COUNTS_STAYS : COUNTS_WAITS;
}

void pausing_heed(bool is_memory_short) {
    uint64_t now = now_ns();
    if (now < my.next_ns) return;
    my.next_ns = now + period_ns;
    const struct counts_wanted wanted = counts_file_wanted();
    bool pauses = wanted.sharing == COUNTS_PAUSE;
    my.limit = wanted.limit <= COUNTS_LIMIT_MOST ? (unsigned)wanted.limit : 0;
    if (pauses != pausing_is_on()) {
        log_note(pauses ? "an operator pauses sharing: all of this process's memory becomes its own"
                        : "sharing goes on, as an operator wants");
        my.at = NULL;
        my.state = pauses ? COUNTS_COMES_HOME : COUNTS_SHARES;
    }
    if (my.state == COUNTS_COMES_HOME || my.state == COUNTS_WAITS) my.state = is_memory_short ? COUNTS_WAITS : bring_home();
}
