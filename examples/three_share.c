/*
 * Three equal pages of two guests come to share one frame: examples/three-share.journal in calls of the C library.
 *
 * `make embed` builds and runs it. By hand: cc three_share.c $(pkg-config --cflags --libs pageshare)
 */
#include "pageshare.h"
#include <stdio.h>

/* Prints an answer, and returns whether the request was served. */
static bool show(const char *request, struct pageshare_answer answer) {
    if (answer.status != PAGESHARE_OK) {
        printf("%s: refused: %s\n", request, pageshare_status_text(answer.status));
        return false;
    }
    printf("%s: %s", request, pageshare_verdict_text(answer.verdict));
    if (answer.verdict == PAGESHARE_VERDICT_JOINED) printf(" %u", (unsigned)answer.count);
    printf("\n");
    return true;
}

static bool share(struct pageshare *machine) {
    const uint8_t letter[] = {'A'};
    struct pageshare_totals totals;
    uint32_t mpn;
    bool served = show("guest 0 stores to its page 0", pageshare_store(machine, 0, 0, 0, letter, 1)) &&
                  show("guest 0 stores to its page 1", pageshare_store(machine, 0, 1, 0, letter, 1)) &&
                  show("guest 1 stores to its page 0", pageshare_store(machine, 1, 0, 0, letter, 1)) &&
                  show("guest 0 proposes its page 0", pageshare_propose(machine, 0, 0)) &&
                  show("guest 0 proposes its page 1", pageshare_propose(machine, 0, 1)) &&
                  show("guest 1 proposes its page 0", pageshare_propose(machine, 1, 0));
    if (!served || pageshare_report(machine, &totals) != PAGESHARE_OK) return false;
    printf("%u pages mapped to %u frames: %u reclaimed\n", (unsigned)totals.mapped, (unsigned)totals.frames,
           (unsigned)totals.reclaimed);
    if (pageshare_frame(machine, 1, 0, &mpn) != PAGESHARE_OK) return false;
    printf("guest 1 finds its page 0 in frame %u\n", (unsigned)mpn);
    return true;
}

int main(void) {
    struct pageshare machine = PAGESHARE_NONE;
    const uint32_t pages[] = {2, 1}, salts[] = {0, 0};
    const struct pageshare_config config = {.frames = 3, .pages = pages, .salts = salts, .guests = 2};
    uint32_t status = pageshare_make(&machine, &config);
    if (status != PAGESHARE_OK) {
        fprintf(stderr, "no machine: %s\n", pageshare_status_text(status));
        return 1;
    }
    bool shared = share(&machine);
    pageshare_free(&machine);
    return shared ? 0 : 1;
}
