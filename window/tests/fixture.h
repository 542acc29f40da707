/* A set of windows, a lender of this process, and memory for tests. */
#ifndef PAGESHARE_WINDOW_FIXTURE_H
#define PAGESHARE_WINDOW_FIXTURE_H

#include "../lender/domain_lender.h"
#include "check.h"
#include "looks.h"
#include <fcntl.h>
#include <sys/mman.h>
#include <unistd.h>

enum { PAGE = WINDOW_PAGE_BYTES };

static const struct windows_config never_pinned = {.pins = WINDOWS_PINS_NEVER}, maybe_pinned = {.pins = WINDOWS_PINS_POSSIBLE};

struct fixture {
    struct windows *windows;
    struct lender *lender;
};

static inline struct fixture fixture_make(const struct windows_config *config, uint32_t frames) {
    struct fixture fixture = {0};
    const struct lender_config lending = {.slots = 200000, .frames = frames, .recent = 300000, .hash = PAGESHARE_FOLD};
    struct lender_result made = lender_make(&fixture.lender, &lending);
    check(made.status == LENDER_OK, "a lender is made");
    must(windows_make(&fixture.windows, config), "windows_make");
    if (made.status != LENDER_OK || fixture.windows == NULL) exit(1);
    must(windows_attach(fixture.windows, lender_interface(fixture.lender)), "windows_attach");
    return fixture;
}

/* All windows are freed by now; their slots are released here. */
static inline void fixture_free(struct fixture *fixture) {
    struct pageshare_domain_totals totals;
    struct lender_counts counts;
    must(look(fixture->windows), "the last look");
    lender_count(fixture->lender, &totals, &counts);
    check(totals.slots == 0 && totals.frames == 0, "no slot is left");
    windows_free(fixture->windows);
    lender_free(fixture->lender);
}

static inline uint8_t *memory(size_t pages) {
    void *at = mmap(NULL, pages * PAGE, PROT_READ | PROT_WRITE, MAP_PRIVATE | MAP_ANONYMOUS | MAP_NORESERVE, -1, 0);
    if (at == MAP_FAILED) perror("mmap"), exit(1);
    return at;
}

static inline struct window *window_over(struct fixture *fixture, uint8_t *at, size_t pages) {
    struct window *window;
    must(window_make(&window, fixture->windows, at, pages * PAGE, WINDOW_NO_CHILD), "window_make");
    if (window == NULL) exit(1);
    return window;
}

/* What most tests begin with: windows of such a set, a lender with so many frames, and a window over so many pages of memory. */
#define FIXTURE(CONFIG, FRAMES, COUNT)                                                                                           \
    struct fixture fixture = fixture_make(CONFIG, FRAMES);                                                                       \
    uint8_t *at = memory(COUNT);                                                                                                 \
    struct window *window = window_over(&fixture, at, COUNT)

/* And what they end with. */
static inline void fixture_end(struct fixture *fixture, struct window *window) {
    must(window_free(window, WINDOW_DROP), "window_free");
    fixture_free(fixture);
}

/* Fills each page with a byte that it shares with every `apart`-th other. */
static inline void fill(uint8_t *at, size_t pages, size_t apart) {
    for (size_t i = 0; i < pages; i++) memset(at + i * PAGE, (int)(i % apart % 250 + 1), PAGE);
}

static inline struct windows_counts counts_of(const struct fixture *fixture) {
    struct windows_counts counts;
    windows_count(fixture->windows, &counts);
    return counts;
}

/* How many slots the lender has. */
static inline uint32_t slots_of(const struct fixture *fixture) {
    struct pageshare_domain_totals totals;
    struct lender_counts counts;
    lender_count(fixture->lender, &totals, &counts);
    return totals.slots;
}

/* Looks until so many pages are lent, at most 40 times. Returns how many are. */
static inline size_t look_until(struct fixture *fixture, size_t lent) {
    for (int i = 0; i < 40 && counts_of(fixture).lent != lent; i++) look(fixture->windows);
    return counts_of(fixture).lent;
}

static inline void look_often(struct fixture *fixture, int looks) {
    for (int i = 0; i < looks; i++) look(fixture->windows);
}

static inline bool are_bytes(const uint8_t *at, int byte) {
    for (size_t i = 0; i < PAGE; i++)
        if (at[i] != byte) return false;
    return true;
}

/* Mappings of the system that meet pages. */
static inline size_t mappings_in(const uint8_t *at, size_t pages) {
    char line[512];
    uintptr_t begin, end;
    size_t count = 0;
    FILE *file = fopen("/proc/self/maps", "r");
    while (file != NULL && fgets(line, sizeof line, file) != NULL)
        if (sscanf(line, "%lx-%lx ", &begin, &end) == 2 && begin < (uintptr_t)at + pages * PAGE && end > (uintptr_t)at) count++;
    if (file != NULL) fclose(file);
    return count;
}

/* Whether a page takes memory: the kernel's page of zeros is none. */
static inline bool takes_memory(const struct fixture *fixture, const uint8_t *at) {
    uint8_t found = PAGE_PRESENT;
    bool is_huge;
    check(pagemap_find(&fixture->windows->pagemap, at, 1, NULL, &found, &is_huge) == 0, "pagemap_find");
    return found != PAGE_NONE;
}

/* Whether nothing is there, not even the kernel's page of zeros: who watches for missing pages hears of a read. */
static inline bool is_missing(const uint8_t *at) {
    uint64_t entry = 0;
    int fd = open("/proc/self/pagemap", O_RDONLY | O_CLOEXEC);
    check(pread(fd, &entry, sizeof entry, (off_t)((uintptr_t)at / PAGE * sizeof entry)) == sizeof entry,
          "an entry of the pagemap");
    close(fd);
    return entry >> 62 == 0;
}

/* A file of a page that is full of a byte. */
static inline int file_of(int byte) {
    char bytes[PAGE];
    int fd = memfd_create("disk", MFD_CLOEXEC);
    memset(bytes, byte, sizeof bytes);
    check(fd >= 0 && write(fd, bytes, sizeof bytes) == PAGE, "a file");
    return fd;
}

/* A number behind a word of a file such as /proc/self/status; -1 if there is none. */
static inline long number_in(const char *path, const char *word) {
    char line[256];
    long number = -1;
    FILE *file = fopen(path, "r");
    if (file == NULL) return -1;
    while (fgets(line, sizeof line, file) != NULL)
        if (strncmp(line, word, strlen(word)) == 0 && sscanf(line + strlen(word), "%ld", &number) == 1) break;
    fclose(file);
    return number;
}

#endif
