#define _GNU_SOURCE
/*
 * A process of the trial: two threads change pages that are offered for sharing, and compare each with a shadow that isn't. Where there is KVM,
 * a guest of a third thread's does so with pages of its own.
 */
#include "tiny.h"
#include "trial.h"
#include "trouble.h"
#include <pthread.h>
#include <stdatomic.h>
#include <sys/mman.h>
#include <sys/prctl.h>
#include <sys/wait.h>

enum {
    WORKED = MEMBER_MIB * (1 << 20) / PAGE,
    PAGES = WORKED + TINY_PAGES_MOST, /* the last are a guest's */
    THREADS = 2,
    OWN = WORKED / THREADS, /* pages of a thread, which no other thread touches */
    HOT = OWN / 8,          /* the first of these, to which it comes more often */
    CONTENTS = 300,         /* that pages of all processes have */
    RUN_MOST = 16,          /* pages that are discarded together */
    STEPS = 16,             /* between two pauses; a guest's are one by one */
    WORDS = 40,             /* that fill pages of all guests */
    FORK_US = 250000
};
static const struct timespec pause_of_steps = {.tv_nsec = 2000000};

static uint8_t *memory, *shadow;
static atomic_bool is_over;
static atomic_int outcome; /* the process's status: the first thing that went wrong, or 0 */

struct worker {
    pthread_t thread;
    uint64_t seed;
    size_t first, count; /* its own pages */
    struct member_counts done;
};

static uint64_t draw(struct worker *worker, uint64_t below) {
    worker->seed = worker->seed * 6364136223846793005u + 1442695040888963407u;
    return (worker->seed >> 33) % below;
}

/* Notes what went wrong. Returns whether it is the first thing. */
static bool note(int what) {
    int none = 0;
    return atomic_compare_exchange_strong(&outcome, &none, what);
}

/* Says once what is wrong with a page. */
static void say_wrong(const char *when, const uint8_t *found, const uint8_t *wanted, size_t page) {
    size_t at = 0;
    while (at + 1 < PAGE && found[at] == wanted[at]) at++;
    if (note(MEMBER_WRONG))
        log_line("process %d: byte %zu of page %zu %s is %02x, and %02x was written", (int)getpid(), at, page, when, found[at],
                 wanted[at]);
}

static bool compare(const char *when, size_t page) {
    const uint8_t *found = memory + page * PAGE, *wanted = shadow + page * PAGE;
    if (memcmp(found, wanted, PAGE) == 0) return true;
    say_wrong(when, found, wanted, page);
    return false;
}

/* A page of one content, written to the shadow first. */
static void write_page(size_t page, uint64_t content) {
    uint64_t words[PAGE / sizeof(uint64_t)];
    for (size_t i = 0; i < sizeof words / sizeof *words; i++) words[i] = content * 0x9E3779B97F4A7C15u + i;
    memcpy(shadow + page * PAGE, words, PAGE);
    memcpy(memory + page * PAGE, words, PAGE);
}

static void write_some(struct worker *worker, size_t page) {
    enum { MOST = 64 };
    size_t bytes = 1 + draw(worker, MOST), at = page * PAGE + draw(worker, PAGE - MOST);
    for (size_t i = 0; i < bytes; i++) shadow[at + i] = (uint8_t)draw(worker, 256);
    memcpy(memory + at, shadow + at, bytes);
}

static void discard(struct worker *worker, size_t page) {
    size_t left = worker->first + worker->count - page, pages = 1 + draw(worker, RUN_MOST);
    if (pages > left) pages = left;
    if (madvise(memory + page * PAGE, pages * PAGE, MADV_DONTNEED) != 0) {
        if (note(MEMBER_CANT)) trouble("madvise (MADV_DONTNEED)");
        return;
    }
    memset(shadow + page * PAGE, 0, pages * PAGE);
    worker->done.discarded += pages;
}

static void step(struct worker *worker) {
    size_t page = worker->first + draw(worker, draw(worker, 4) == 0 ? worker->count : HOT);
    uint64_t what = draw(worker, 32);
    compare("before a write", page);
    worker->done.compared++;
    if (what >= 16) return;
    if (what == 0) {
        discard(worker, page);
        return;
    }
    if (what < 7) write_page(page, draw(worker, CONTENTS));
    else if (what < 9) write_page(page, CONTENTS + worker->seed);
    else write_some(worker, page);
    worker->done.written++;
}

static void *work(void *of) {
    struct worker *worker = of;
    while (!atomic_load(&is_over) && atomic_load(&outcome) == 0) {
        for (int i = 0; i < STEPS; i++) step(worker);
        nanosleep(&pause_of_steps, NULL);
    }
    return NULL;
}

/* ---- a guest under KVM ---- */

static void fill_page(uint8_t *at, uint16_t word) {
    for (size_t i = 0; i < PAGE; i += sizeof word) memcpy(at + i, &word, sizeof word);
}

/* Changes a page of the guest's: by the guest, by this process, or by giving it up. Returns false, with errno, where KVM doesn't run the guest. */
static bool change(struct worker *worker, size_t page) {
    uint16_t word = (uint16_t)draw(worker, draw(worker, 8) == 0 ? 1 << 16 : WORDS);
    uint64_t what = draw(worker, 8);
    if (what == 0) discard(worker, page);
    if (what == 0 || what > 3) return true;
    fill_page(shadow + page * PAGE, word);
    worker->done.written++;
    if (what > 1) return tiny_fill(page - worker->first, word);
    fill_page(memory + page * PAGE, word);
    return true;
}

/* The guest compares a page, whose words are all the same; then it may be changed. */
static bool step_of_guest(struct worker *worker) {
    size_t page = worker->first + draw(worker, worker->count);
    uint16_t word;
    bool is_so = false;
    memcpy(&word, shadow + page * PAGE, sizeof word);
    if (!tiny_compare(page - worker->first, word, &is_so)) return false;
    worker->done.by_guest++;
    if (!is_so && note(MEMBER_WRONG))
        log_line("process %d: page %zu isn't filled with %04x for its guest under KVM", (int)getpid(), page, word);
    return change(worker, page);
}

static void *work_by_guest(void *of) {
    bool is_good = true;
    while (is_good && !atomic_load(&is_over) && atomic_load(&outcome) == 0) {
        is_good = step_of_guest(of);
        if (!is_good && note(MEMBER_CANT)) trouble("a guest under KVM");
        nanosleep(&pause_of_steps, NULL);
    }
    return NULL;
}

static void compare_all(const char *when) {
    for (size_t page = 0; page < PAGES; page++) compare(when, page);
}

/* Forks a child, which compares all pages if it has them. Returns whether there was one, and it found nothing wrong. */
static bool have_child(bool compares) {
    int status = 0;
    pid_t child = fork();
    if (child == 0) {
        if (compares) compare_all("in a child");
        _exit(atomic_load(&outcome));
    }
    if (child < 0) return false;
    while (waitpid(child, &status, 0) < 0 && errno == EINTR) {
    }
    if (compares && status != 0) note(MEMBER_WRONG);
    return true;
}

static bool make_memory(void) {
    const int rights = PROT_READ | PROT_WRITE, kind = MAP_PRIVATE | MAP_ANONYMOUS;
    const size_t bytes = (size_t)PAGES * PAGE;
    memory = mmap(NULL, bytes, rights, kind, -1, 0);
    shadow = mmap(NULL, bytes, rights, kind, -1, 0);
    if (memory == MAP_FAILED || shadow == MAP_FAILED) return trouble("memory for the trial");
    for (size_t page = 0; page < WORKED; page++)
        if (page % 8 != 0) write_page(page, page % CONTENTS);
    /* (the kernel may have no KSM; the library takes the offer all the same) */
    madvise(memory, bytes, MADV_MERGEABLE);
    return madvise(memory, bytes, MADV_DONTFORK) == 0 || trouble("madvise (MADV_DONTFORK)");
}

/* Children come and go until the time is over, or something is wrong. They don't have the memory. */
static void fork_until(uint64_t end_ns, struct member_counts *done) {
    const struct timespec pause = {.tv_nsec = FORK_US * 1000};
    while (now_ns() < end_ns && atomic_load(&outcome) == 0) {
        nanosleep(&pause, NULL);
        done->children += have_child(false);
    }
}

/* The last worker has a guest. */
static bool start_threads(struct worker *workers, size_t count) {
    for (size_t i = 0; i < count; i++) {
        const bool has_guest = i == THREADS;
        workers[i] =
            (struct worker){.seed = (uint64_t)getpid() * count + i, .first = i * OWN, .count = has_guest ? TINY_PAGES_MOST : OWN};
        int cause = pthread_create(&workers[i].thread, NULL, has_guest ? work_by_guest : work, &workers[i]);
        if (cause != 0) return (errno = cause, trouble("a thread of the trial")); /* (the others end with the process) */
    }
    return true;
}

/* At the end a child inherits all pages, which have left sharing for it, and compares them too. */
static void compare_at_end(struct member_counts *done) {
    compare_all("at the end");
    if (madvise(memory, (size_t)PAGES * PAGE, MADV_DOFORK) == 0) done->children += have_child(true);
    compare_all("after a child had them");
    done->compared += 2 * PAGES;
}

int member_run(unsigned seconds) {
    struct worker workers[THREADS + 1];
    struct member_counts done = {0};
    prctl(PR_SET_NAME, "pageshare-check");
    if (!make_memory()) return MEMBER_CANT;
    done.kvm_cause = (uint64_t)tiny_make(memory + (size_t)WORKED * PAGE, TINY_PAGES_MOST);
    const size_t count = done.kvm_cause == 0 ? THREADS + 1 : THREADS;
    if (!start_threads(workers, count)) return MEMBER_CANT;
    fork_until(now_ns() + (uint64_t)seconds * 1000000000u, &done);
    atomic_store(&is_over, true);
    for (size_t i = 0; i < count; i++) {
        pthread_join(workers[i].thread, NULL);
        done.by_guest += workers[i].done.by_guest;
        done.compared += workers[i].done.compared;
        done.written += workers[i].done.written;
        done.discarded += workers[i].done.discarded;
    }
    compare_at_end(&done);
    if (write(STDOUT_FILENO, &done, sizeof done) != sizeof done) return trouble("the trial's counts"), MEMBER_CANT;
    return atomic_load(&outcome);
}
