/*
 * Times looks at a window of so many pages: of pages that nobody else has, and of pages of which each two are equal and are lent. Prints
 * the processor milliseconds of a look once nothing changes any more, the median and the most of some.
 *
 *     looks PAGES
 *
 * benches/looks.py builds it.
 */
#define _GNU_SOURCE
#include "../../window/lender/domain_lender.h"
#include "../../window/window.h"
#include <stdio.h>
#include <stdlib.h>
#include <string.h>
#include <sys/mman.h>

enum { SETTLING = 40, LOOKS = 33, FRAMES_MORE = 16, PAGES_MOST = 1 << 22 };

static void must(bool is_good, const char *what) {
    if (is_good) return;
    fprintf(stderr, "looks: %s\n", what);
    exit(1);
}

static double look_ms(struct windows *windows) {
    struct windows_counts before, after;
    windows_count(windows, &before);
    windows_look(windows);
    windows_count(windows, &after);
    return (double)(after.look_ns - before.look_ns) / 1e6;
}

static int by_size(const void *one, const void *other) {
    const double *a = one, *b = other;
    return (*a > *b) - (*a < *b);
}

/* Each `equal` pages in a row have the same bytes. */
static void fill(unsigned char *at, size_t pages, size_t equal) {
    for (size_t page = 0; page < pages; page++) {
        const uint64_t number = page / equal + 1;
        memcpy(at + page * WINDOW_PAGE_BYTES, &number, sizeof number);
    }
}

/* As much of this as one lender can have. The system has mappings for fewer pages by far. */
static uint32_t for_lender(size_t pages) { return (uint32_t)(pages < LENDER_PAGES_MOST ? pages : LENDER_PAGES_MOST); }

static void time_looks(size_t pages, size_t equal) {
    const struct windows_config config = {.pins = WINDOWS_PINS_NEVER, .tuning = {.rest_most = 7}};
    const struct lender_config lending = {.slots = for_lender(pages),
                                          .frames = for_lender(pages / equal + FRAMES_MORE),
                                          .recent = (uint32_t)pages,
                                          .hash = PAGESHARE_FOLD};
    struct windows *windows;
    struct lender *lender;
    struct window *window;
    struct windows_counts counts;
    double times[LOOKS];
    unsigned char *at =
        mmap(NULL, pages * WINDOW_PAGE_BYTES, PROT_READ | PROT_WRITE, MAP_PRIVATE | MAP_ANONYMOUS | MAP_NORESERVE, -1, 0);
    must(at != MAP_FAILED, "no memory");
    must(lender_make(&lender, &lending).status == LENDER_OK, "no lender");
    must(windows_make(&windows, &config).status == WINDOW_OK, "no windows");
    must(windows_attach(windows, lender_interface(lender)).status == WINDOW_OK, "the lender is refused");
    must(window_make(&window, windows, at, pages * WINDOW_PAGE_BYTES, WINDOW_NO_CHILD).status == WINDOW_OK, "no window");
    fill(at, pages, equal);
    for (int i = 0; i < SETTLING; i++) windows_look(windows);
    for (int i = 0; i < LOOKS; i++) times[i] = look_ms(windows);
    qsort(times, LOOKS, sizeof times[0], by_size);
    windows_count(windows, &counts);
    printf("%zu pages, %zu lent: %.1f ms a look, at most %.1f ms\n", pages, counts.lent, times[LOOKS / 2], times[LOOKS - 1]);
    window_free(window, WINDOW_DROP);
    windows_free(windows);
    lender_free(lender);
    munmap(at, pages * WINDOW_PAGE_BYTES);
}

int main(int argc, char **argv) {
    const size_t pages = argc == 2 ? strtoul(argv[1], NULL, 10) : 0;
    if (pages < 2 || pages > PAGES_MOST) {
        fprintf(stderr, "looks PAGES: 2 to %d pages\n", PAGES_MOST);
        return 2;
    }
    time_looks(pages, 1);
    time_looks(pages, 2);
    return 0;
}
