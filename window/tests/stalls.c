/*
 * How long a guest's write waits while another guest's pages are trimmed and discarded: at most 1 ms of what the writer waits
 * for others. On a busy machine a thread may lose its processor for longer, so that half of the writes' longest waits count, each the
 * longest of some. And calls of a monitor go on while the lender of a large guest goes. Prints a table, and "stalls: ok" (status 0) or
 * what isn't so (status 1).
 */
#define _GNU_SOURCE
#include "fixture.h"
#include <pthread.h>
#include <time.h>

enum { MANY = 131072, FEW = 4096, PARTS = 64, MOST_US = 1000, LARGE = 1 << 22, MOST_PART = 4, TRIES = 8 };

static uint8_t *few;
static atomic_bool stop;
static atomic_uint longest_us, writes; /* since they were set to 0 */

static uint64_t clock_us(void) {
    struct timespec now;
    clock_gettime(CLOCK_MONOTONIC, &now);
    return (uint64_t)now.tv_sec * 1000000u + (uint64_t)now.tv_nsec / 1000u;
}

static void *write_on(void *opaque) {
    const struct timespec pause = {.tv_nsec = 200000};
    (void)opaque;
    for (size_t page = 0; !atomic_load(&stop); page = (page + 1) % FEW) {
        uint64_t begun = clock_us();
        ((volatile uint8_t *)few)[page * PAGE + 9]++;
        unsigned took = (unsigned)(clock_us() - begun);
        if (took > atomic_load(&longest_us)) atomic_store(&longest_us, took);
        atomic_fetch_add(&writes, 1);
        nanosleep(&pause, NULL);
    }
    return NULL;
}

static int compare(const void *left, const void *right) {
    unsigned a = *(const unsigned *)left, b = *(const unsigned *)right;
    return (a > b) - (a < b);
}

struct matter {
    const char *name;
    struct fixture fixture;
    struct window *window;
};

static void do_part(struct matter *matter, size_t first, size_t count) {
    switch (matter->name[0]) {
    case 'n': usleep(2000); break;
    case 'd': must(window_discard(matter->window, first, count), "window_discard"); break;
    default: check(lender_trim(matter->fixture.lender) == 0, "a trim"); break;
    }
}

/* Does something to all pages, in parts, and prints the writes' longest waits. */
static void measure(struct matter *matter, const char *name) {
    unsigned waits[PARTS];
    matter->name = name;
    for (size_t i = 0; i < PARTS; i++) {
        atomic_store(&longest_us, 0);
        atomic_store(&writes, 0);
        do_part(matter, i * (MANY / PARTS), MANY / PARTS);
        while (atomic_load(&writes) == 0) usleep(100);
        waits[i] = atomic_load(&longest_us);
    }
    qsort(waits, PARTS, sizeof waits[0], compare);
    printf("| %-8s | %6u | %6u |\n", name, waits[PARTS / 2], waits[PARTS - 1]);
    check(waits[PARTS / 2] <= MOST_US, "a write waits for at most 1 ms");
}

static atomic_ulong longest_call_us;

static void *call_on(void *opaque) {
    bool is_its;
    while (!atomic_load(&stop)) {
        uint64_t begun = clock_us();
        window_run(opaque, 0, 1, &is_its);
        uint64_t took = clock_us() - begun;
        if (took > atomic_load(&longest_call_us)) atomic_store(&longest_call_us, took);
    }
    return NULL;
}

/* Whether no call waited for most of the time in which the windows lost their lender. */
static bool goes_on(struct windows *windows) {
    atomic_store(&longest_call_us, 0);
    uint64_t begun = clock_us();
    windows_detach(windows);
    uint64_t took = clock_us() - begun;
    usleep(1000);
    return atomic_load(&longest_call_us) < took / MOST_PART;
}

/* A monitor's calls don't wait until all of a large guest's pages have lost their lender. (A busy computer may stop a thread as long.) */
static void lose_lender(void) {
    struct fixture fixture = fixture_make(&never_pinned, FEW);
    struct window *window = window_over(&fixture, memory(LARGE), LARGE);
    pthread_t caller;
    bool is_good = false;
    atomic_store(&stop, false);
    check(pthread_create(&caller, NULL, call_on, window) == 0, "a thread that calls");
    for (int tries = 0; tries < TRIES && !is_good; tries++) {
        is_good = goes_on(fixture.windows);
        must(windows_attach(fixture.windows, lender_interface(fixture.lender)), "windows_attach");
    }
    check(is_good, "calls go on while a lender goes");
    atomic_store(&stop, true);
    pthread_join(caller, NULL);
    fixture_end(&fixture, window);
}

int main(void) {
    const struct windows_config config = {.pins = WINDOWS_PINS_NEVER};
    struct matter matter = {.fixture = fixture_make(&config, MANY)};
    uint8_t *many = memory(MANY);
    pthread_t writer;
    few = memory(FEW);
    matter.window = window_over(&matter.fixture, many, MANY);
    struct window *other = window_over(&matter.fixture, few, FEW);
    for (uint32_t i = 0; i < MANY; i++) memcpy(many + (size_t)i * PAGE, &(uint32_t){i % (MANY / 2) + 1}, 4);
    for (uint32_t i = 0; i < FEW; i++) memcpy(few + (size_t)i * PAGE, &(uint32_t){i + 1}, 4);
    look_often(&matter.fixture, 14);
    printf("%zu of %d pages are lent\n| while    | longest wait of a write, us: half of the times at most | and ever "
           "|\n|---|---|---|\n",
           counts_of(&matter.fixture).lent, MANY + FEW);
    check(pthread_create(&writer, NULL, write_on, NULL) == 0, "a thread that writes");
    measure(&matter, "nothing");
    for (size_t i = 0; i < MANY; i += 2) many[i * PAGE + 100] = 1; /* (both of those that are alike) */
    must(windows_look(matter.fixture.windows), "windows_look");
    measure(&matter, "trim");
    measure(&matter, "discard");
    atomic_store(&stop, true);
    pthread_join(writer, NULL);
    must(window_free(matter.window, WINDOW_DROP), "window_free");
    must(window_free(other, WINDOW_DROP), "window_free");
    fixture_free(&matter.fixture);
    lose_lender();
    puts(check_count() == 0 ? "stalls: ok" : "stalls: WRONG");
    return check_count() == 0 ? 0 : 1;
}
