/*
 * A stand-in for a monitor whose memory others reach, to be run under libpageshare-window.so beside others of its kind: by random ways, many at a
 * time, of threads that each have pages of their own and a shadow of each byte of these. Words:
 *
 *     reach SEED SECONDS names|numbers|instructions
 *
 * How calls are made: by their names; by their names and numbers; or past the C library (PAGESHARE_FILTER=1). Beside the threads many others wait
 * in reads by O_DIRECT all the time. At the end the memory is given to a device and locked, and compared once more. The last line says how often
 * each way was taken and how many pages were wrong. Status 0 if none was, 3 where a thread hangs, 2 where it can't run.
 */
#define _GNU_SOURCE
#include "../offered.h"
#include "ways.h"
#include <errno.h>
#include <fcntl.h>
#include <linux/vfio.h>
#include <pthread.h>
#include <signal.h>
#include <sys/ioctl.h>
#include <sys/syscall.h>

enum { WORKERS = 5, STRIP = 768, WAITERS = 320, PATIENCE_SECONDS = 40, STACK = 65536 };

static struct worker workers[WORKERS];
static atomic_bool over;

/* ---- threads that make one way after another ---- */

static void *work(void *of) {
    struct worker *worker = of;
    while (!atomic_load(&over)) {
        for (uint64_t i = draw(&worker->seed, 40) + 1; i > 0 && !atomic_load(&over); i--) way_take(worker);
        usleep((useconds_t)draw(&worker->seed, 500000)); /* (what is idle can be lent) */
        pages_check((struct run){worker->first, worker->count}, "at any time");
        atomic_fetch_add(&worker->rounds, 1);
    }
    return NULL;
}

/* ---- threads that wait in a read ---- */

struct waiter {
    size_t page;
    int ends[2];
};
static struct waiter waiters[WAITERS];
static atomic_size_t came; /* reads that have ended */

/* (a pipe that was opened with O_DIRECT gives one packet after another: such a read counts as one that pins its page) */
static void *wait_always(void *of) {
    const struct waiter *waiter = of;
    ssize_t got;
    while ((got = read(waiter->ends[0], page_at(waiter->page), PAGE)) != 0) {
        if (got == PAGE) atomic_fetch_add(&came, 1);
        else if (errno != EINTR) note_wrong(waiter->page, "a read of a waiting thread");
    }
    return NULL;
}

static void start(pthread_t *thread, void *(*does)(void *), void *of) {
    pthread_attr_t small;
    pthread_attr_init(&small);
    pthread_attr_setstacksize(&small, STACK);
    if (pthread_create(thread, &small, does, of) != 0) perror("pthread_create"), exit(2);
}

/* Sends each of some waiting threads a page, and waits until it has come. */
static void wake_some(uint64_t *seed) {
    static uint8_t data[PAGE];
    struct waiter *waiter = &waiters[draw(seed, WAITERS)];
    const uint64_t content = draw(seed, CONTENTS);
    const size_t before = atomic_load(&came);
    const struct run its = {waiter->page, 1};
    pages_check(its, "before a read");
    content_fill(data, content);
    if (write(waiter->ends[1], data, PAGE) != PAGE) perror("write"), exit(2);
    for (unsigned i = 0; i < PATIENCE_SECONDS * 1000 && atomic_load(&came) == before; i++) usleep(1000);
    if (atomic_load(&came) == before) puts("HANGS: a waiting thread"), fflush(stdout), _exit(3);
    pages_are(its, content);
    pages_check(its, "after a read");
}

/* ---- the end ---- */

/* Watches that no thread stands still, and lets waiting ones read. */
static void watch(unsigned seconds, uint64_t seed) {
    unsigned long before[WORKERS] = {0};
    time_t moved[WORKERS], end = time(NULL) + (time_t)seconds;
    for (size_t i = 0; i < WORKERS; i++) moved[i] = time(NULL);
    while (time(NULL) < end) {
        usleep(20000);
        wake_some(&seed);
        for (size_t i = 0; i < WORKERS; i++) {
            unsigned long rounds = atomic_load(&workers[i].rounds);
            if (rounds != before[i]) moved[i] = time(NULL);
            before[i] = rounds;
            if (time(NULL) - moved[i] < PATIENCE_SECONDS) continue;
            printf("HANGS: thread %zu in %s\n", i, atomic_load(&workers[i].now));
            fflush(stdout);
            _exit(3);
        }
    }
}

static long own_kib(void) {
    char line[256];
    long kib = -1;
    FILE *file = fopen("/proc/self/status", "r");
    while (file && kib < 0 && fgets(line, sizeof line, file))
        if (sscanf(line, "RssAnon: %ld", &kib) != 1) kib = -1;
    if (file) fclose(file);
    return kib;
}

/* Lending ends, and then all memory is locked: it is the range, and no copy of the host's frames. */
static void end_lending(void) {
    enum { MORE_KIB = 48 << 10 };
    struct vfio_iommu_type1_dma_map map = {.argsz = sizeof map};
    int file = open("/dev/null", O_RDWR | O_CLOEXEC);
    const struct run all = {0, pages.count};
    if (ioctl(file, VFIO_IOMMU_MAP_DMA, &map) == 0) note_wrong(0, "/dev/null maps memory");
    pages_check(all, "once a device has the memory");
    bool is_locked = mlockall(MCL_CURRENT) == 0;
    if (!is_locked) printf("mlockall: %s\n", strerror(errno));
    pages_check(all, "once it is locked");
    if (own_kib() > (long)(pages.count * PAGE / 1024) + MORE_KIB) note_wrong(0, "locked memory has a copy of the frames");
    munlockall();
    close(file);
}

static void run(uint64_t seed, unsigned seconds) {
    pthread_t threads[WORKERS], waiting[WAITERS];
    for (size_t i = 0; i < WAITERS; i++) {
        waiters[i].page = (size_t)WORKERS * STRIP + i;
        if (pipe2(waiters[i].ends, O_DIRECT | O_CLOEXEC) != 0) perror("pipe2"), exit(2);
        start(&waiting[i], wait_always, &waiters[i]);
    }
    for (size_t i = 0; i < WORKERS; i++) {
        workers[i] = (struct worker){.seed = seed * 1000003 + i, .first = i * STRIP, .count = STRIP, .is_first = i == 0};
        start(&threads[i], work, &workers[i]);
    }
    watch(seconds, seed + 17);
    atomic_store(&over, true);
    for (size_t i = 0; i < WORKERS; i++) pthread_join(threads[i], NULL);
    for (size_t i = 0; i < WAITERS; i++) close(waiters[i].ends[1]), pthread_join(waiting[i], NULL);
}

int main(int count, char **words) {
    char ways[1024];
    if (count != 4) return fputs("reach: SEED SECONDS names|numbers|instructions\n", stderr), 2;
    uint64_t seed = strtoul(words[1], NULL, 10);
    unsigned seconds = (unsigned)strtoul(words[2], NULL, 10);
    const enum how how = *words[3] == 'i' ? BY_INSTRUCTION : strcmp(words[3], "numbers") == 0 ? BY_NUMBER : BY_NAME;
    if (!pages_make((size_t)WORKERS * STRIP + WAITERS) || !ways_begin(seed, seconds, how)) return perror("reach"), 2;
    pages_offer((struct run){0, pages.count});
    run(seed, seconds);
    long lends = library_count("lends"), lent = library_count("lent"), most = library_count("hold_most_ns");
    pages_check((struct run){0, pages.count}, "at the end");
    end_lending();
    ways_print(ways, sizeof ways);
    printf("seed %lu lends %ld lent %ld hold_most_us %ld wrong %lu: %s\n", (unsigned long)seed, lends, lent, most / 1000,
           wrong_count(), ways);
    return wrong_count() == 0 ? 0 : 1;
}
