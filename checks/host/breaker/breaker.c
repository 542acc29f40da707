/*
 * A stand-in for a monitor that does all that a monitor may, to be run under libpageshare-window.so beside others of its kind: threads make
 * random calls of random parts of a range that is offered, and compare it with a shadow of each byte. Words:
 *
 *     breaker [--seed N] [--seconds N] [--pages N] [--threads N] [--folder PATH] [--direct] [--devices] [--refusals] [--huge]
 *
 * --direct: a file in the folder is also read and written by O_DIRECT; --devices: io_uring reads to registered buffers; --refusals: the system
 * may refuse any call; --huge: the range may be huge pages, and now and then all of it is written so that nothing of it can be shared. The
 * last line says how often each call was made, how many pages were lent, and what was wrong. The status is 0 if nothing was, 3 where a call doesn't return,
 * 2 where it can't run.
 */
#define _GNU_SOURCE
#include "../offered.h"
#include "calls.h"
#include <getopt.h>
#include <limits.h>
#include <pthread.h>
#include <signal.h>
#include <stdio.h>
#include <stdlib.h>
#include <string.h>
#include <sys/mman.h>
#include <time.h>
#include <unistd.h>

enum { CALLS_MOST = 120, PATIENCE_SECONDS = 15, CYCLE_MS = 3200, QUIET_MS = 1500, HUGE_MS = 1200, SHORTLY_MS = 400 };

static struct {
    uint64_t seed;
    unsigned seconds, threads;
    size_t pages;
    const char *folder;
    bool is_direct, has_devices;
} settings = {.seed = 1, .seconds = 10, .threads = 2, .pages = 1024, .folder = "/var/tmp"};

static struct caller callers[CALLERS_MOST];
static pthread_rwlock_t alone; /* read by calls about the pages of one thread, written by those about the pages of all */
static atomic_bool over;
static atomic_long quiet_until_ms;

static long now_ms(void) {
    struct timespec now;
    clock_gettime(CLOCK_MONOTONIC, &now);
    return now.tv_sec * 1000 + now.tv_nsec / 1000000;
}

static void pause_us(uint64_t us) {
    const struct timespec pause = {.tv_sec = (time_t)(us / 1000000), .tv_nsec = (long)(us % 1000000) * 1000};
    nanosleep(&pause, NULL);
}

/* The first page of a block of the caller's, and of one that anybody may use. */
static size_t own_block(struct caller *caller) {
    size_t blocks = shadow.count / CALL_PAGES / settings.threads;
    return (draw(&caller->seed, blocks) * settings.threads + caller->number) * CALL_PAGES;
}

/* A call of pages of a block. */
static void call_in(struct caller *caller, size_t block) {
    size_t first = draw(&caller->seed, CALL_PAGES), most = draw(&caller->seed, 8) == 0 ? CALL_PAGES : draw(&caller->seed, 12) + 1;
    pthread_rwlock_rdlock(&alone);
    call_random(caller, block + first, most > CALL_PAGES - first ? CALL_PAGES - first : most);
    size_t other = own_block(caller) + draw(&caller->seed, CALL_PAGES);
    run_check((struct run){other, 1}, "at any time");
    pthread_rwlock_unlock(&alone);
}

/* Calls in a row, most of them of the pages of one block, so that others can be idle. */
static void call_some(struct caller *caller) {
    size_t block = own_block(caller);
    for (uint64_t i = draw(&caller->seed, CALLS_MOST); i > 0 && !atomic_load(&over); i--) {
        call_in(caller, draw(&caller->seed, 8) == 0 ? own_block(caller) : block);
        if (draw(&caller->seed, 4) == 0) pause_us(draw(&caller->seed, 2000));
    }
}

/* While nobody else makes calls: a fork, or a call of pages of all threads. */
static void call_alone(struct caller *caller) {
    pthread_rwlock_wrlock(&alone);
    children_reap(false);
    if (draw(&caller->seed, 2) == 0) {
        call_fork(caller);
    } else {
        size_t first = draw(&caller->seed, shadow.count);
        caller->is_alone = true;
        call_random(caller, first, shadow.count - first);
        caller->is_alone = false;
    }
    run_check((struct run){0, shadow.count}, "alone");
    pthread_rwlock_unlock(&alone);
}

/* Everything is offered again, and left alone until it can be lent. */
static void begin_again(struct caller *caller) {
    pthread_rwlock_wrlock(&alone);
    call_restore(caller);
    atomic_store(&quiet_until_ms, now_ms() + QUIET_MS + (calls_are_of_huge_pages ? HUGE_MS : 0));
    pthread_rwlock_unlock(&alone);
}

/* Near the end of the time in which everything is left alone, and so is lent: nothing of what can be written can be shared any more. */
static void write_apart(struct caller *caller) {
    pthread_rwlock_wrlock(&alone);
    call_write_apart(caller);
    pthread_rwlock_unlock(&alone);
}

static void *work(void *of) {
    struct caller *caller = of;
    /* (with huge pages it takes longer until all is lent) */
    const long more_ms = calls_are_of_huge_pages ? HUGE_MS : 0;
    long next_ms = now_ms() + CYCLE_MS + more_ms, apart_ms = LONG_MAX;
    while (!atomic_load(&over)) {
        if (caller->number == 0 && now_ms() >= next_ms) {
            begin_again(caller);
            next_ms = now_ms() + CYCLE_MS + more_ms;
            if (calls_are_of_huge_pages) apart_ms = atomic_load(&quiet_until_ms) - (long)draw(&caller->seed, SHORTLY_MS);
        }
        if (caller->number == 0 && now_ms() >= apart_ms) {
            write_apart(caller);
            apart_ms = LONG_MAX;
        }
        if (now_ms() >= atomic_load(&quiet_until_ms)) {
            call_some(caller);
            if (draw(&caller->seed, 3) == 0) call_alone(caller);
        }
        atomic_fetch_add(&caller->calls, 1);
        pause_us(draw(&caller->seed, 150000));
    }
    call_end_device(caller);
    return NULL;
}

/* ---- what ends it ---- */

static void say_calls(const char *what) {
    printf("%s; seed %lu\n", what, (unsigned long)settings.seed);
    for (unsigned i = 0; i < settings.threads; i++) {
        const char *now = atomic_load(&callers[i].now);
        printf("thread %u: %s of pages %zu to %zu, after %lu calls\n", i, now ? now : "no call",
               atomic_load(&callers[i].now_first), atomic_load(&callers[i].now_first) + atomic_load(&callers[i].now_count),
               atomic_load(&callers[i].calls));
    }
    fflush(stdout);
}

static struct sigaction before_segv, before_bus;

/* Says what was being done; then the program dies as it would have. */
static void on_death(int number, siginfo_t *info, void *context) {
    char what[128];
    (void)context;
    snprintf(what, sizeof what, "DIES by signal %d at %p (the range begins at %p)", number, info->si_addr, (void *)shadow.range);
    say_calls(what);
    sigaction(number, number == SIGBUS ? &before_bus : &before_segv, NULL);
}

/* Sleeps until the time is over. No thread may make no call for long. */
static void watch(void) {
    unsigned long before[CALLERS_MOST] = {0};
    long moved_ms[CALLERS_MOST];
    for (unsigned i = 0; i < settings.threads; i++) moved_ms[i] = now_ms();
    for (long end_ms = now_ms() + 1000L * settings.seconds; now_ms() < end_ms;) {
        pause_us(200000);
        for (unsigned i = 0; i < settings.threads; i++) {
            unsigned long calls = atomic_load(&callers[i].calls);
            if (calls != before[i]) moved_ms[i] = now_ms();
            before[i] = calls;
            if (now_ms() - moved_ms[i] < 1000L * PATIENCE_SECONDS) continue;
            say_calls("HANGS");
            _exit(3);
        }
    }
}

static void watch_end(int number) {
    (void)number;
    say_calls("HANGS at the end");
    _exit(3);
}

/* ---- */

static bool read_words(int count, char **words) {
    static const struct option options[] = {{"seed", 1, NULL, 's'},    {"seconds", 1, NULL, 't'},  {"pages", 1, NULL, 'p'},
                                            {"threads", 1, NULL, 'n'}, {"folder", 1, NULL, 'f'},   {"direct", 0, NULL, 'd'},
                                            {"devices", 0, NULL, 'v'}, {"refusals", 0, NULL, 'r'}, {"huge", 0, NULL, 'h'},
                                            {NULL, 0, NULL, 0}};
    for (int option; (option = getopt_long(count, words, "", options, NULL)) != -1;) {
        switch (option) {
        case 's': settings.seed = strtoul(optarg, NULL, 10); break;
        case 't': settings.seconds = (unsigned)strtoul(optarg, NULL, 10); break;
        case 'p': settings.pages = strtoul(optarg, NULL, 10); break;
        case 'n': settings.threads = (unsigned)strtoul(optarg, NULL, 10); break;
        case 'f': settings.folder = optarg; break;
        case 'd': settings.is_direct = true; break;
        case 'v': settings.has_devices = true; break;
        case 'r': calls_may_be_refused = true; break;
        case 'h': calls_are_of_huge_pages = true; break;
        default: return false;
        }
    }
    size_t unit = (size_t)CALL_PAGES * settings.threads;
    return settings.threads > 0 && settings.threads <= CALLERS_MOST && settings.pages >= unit && settings.pages % unit == 0;
}

static bool make_caller(unsigned number) {
    struct caller *caller = &callers[number];
    caller->seed = settings.seed * 1000003 + number;
    caller->number = number;
    caller->aside = mmap(NULL, CALL_PAGES * PAGE, PROT_READ | PROT_WRITE, MAP_PRIVATE | MAP_ANONYMOUS, -1, 0);
    if (caller->aside == MAP_FAILED) return false;
    if (settings.has_devices) caller->device.is_there = ring_make(&caller->device.ring) && pipe(caller->device.ends) == 0;
    return !settings.has_devices || caller->device.is_there;
}

static bool prepare(void) {
    pthread_rwlockattr_t kind;
    const struct sigaction death = {.sa_sigaction = on_death, .sa_flags = SA_SIGINFO}, end = {.sa_handler = watch_end};
    sigaction(SIGSEGV, &death, &before_segv);
    sigaction(SIGBUS, &death, &before_bus);
    sigaction(SIGALRM, &end, NULL);
    pthread_rwlockattr_init(&kind);
    pthread_rwlockattr_setkind_np(&kind, PTHREAD_RWLOCK_PREFER_WRITER_NONRECURSIVE_NP);
    pthread_rwlock_init(&alone, &kind);
    if (!shadow_make(settings.pages) || !files_make(settings.folder, settings.is_direct)) return false;
    for (unsigned i = 0; i < settings.threads; i++)
        if (!make_caller(i)) return false;
    begin_again(&callers[0]);
    return true;
}

int main(int count, char **words) {
    pthread_t threads[CALLERS_MOST];
    char calls[4096];
    unsigned long made = 0;
    if (!read_words(count, words)) return fputs("breaker: unknown words\n", stderr), 2;
    if (!prepare()) return perror("breaker"), 2;
    for (unsigned i = 0; i < settings.threads; i++)
        if (pthread_create(&threads[i], NULL, work, &callers[i]) != 0) return 2;
    watch();
    atomic_store(&over, true);
    alarm(PATIENCE_SECONDS);
    for (unsigned i = 0; i < settings.threads; i++) pthread_join(threads[i], NULL);
    run_check((struct run){0, shadow.count}, "at the end");
    children_reap(true);
    for (unsigned i = 0; i < settings.threads; i++) made += atomic_load(&callers[i].calls);
    calls_print(calls, sizeof calls);
    printf("seed %lu rounds %lu lends %ld lent %ld taken_home %ld splits %ld made_whole %ld wrong %lu: %s\n",
           (unsigned long)settings.seed, made, library_count("lends"), library_count("lent"), library_count("taken_home"),
           library_count("splits"), library_count("made_whole"), wrong_count(), calls);
    return wrong_count() == 0 ? 0 : 1;
}
