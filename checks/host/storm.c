/*
 * A stand-in for a busy monitor, to be run under libpageshare-window.so beside others of its kind: threads write, check, discard and read
 * pages of one range as fast as they can, by O_DIRECT and by io_uring with registered buffers, too; other ranges come, leave in part and
 * go; children are forked; and a signal arrives each 5 ms. Words: SECONDS MIB THREADS [direct] [devices] [leave] [huge]. With huge the memory
 * is huge pages to begin with, and becomes so again: now and then all of it is written so that nothing of it can be shared.
 *
 * The last line says how many pages were checked, and how often they were wrong (status 1 if any was; 2 where the program can't run).
 */
#define _GNU_SOURCE
#include "breaker/ring.h"
#include <errno.h>
#include <fcntl.h>
#include <pthread.h>
#include <signal.h>
#include <stdatomic.h>
#include <stdint.h>
#include <stdio.h>
#include <stdlib.h>
#include <string.h>
#include <sys/mman.h>
#include <sys/syscall.h>
#include <sys/time.h>
#include <sys/uio.h>
#include <sys/wait.h>
#include <time.h>
#include <unistd.h>

enum {
    PAGE = 4096,
    WORDS = PAGE / 8,
    THREADS_MOST = 16,
    BLOCKS = 8,
    LEAVING = 256,
    BASE = 50,
    APART = 1000,
    APART_SECONDS = 4,
    HUGE_BYTES = 2 << 20,
    EVERY_US = 5000,
    PRINTED_MOST = 10
};

/* What a page holds: one word at one place, another everywhere else. */
struct want {
    uint64_t all, one;
    size_t at;
};

static uint64_t *memory;
static struct want *wants;
static size_t pages;
static uint64_t threads;
static int direct = -1;
static bool has_devices, has_huge;
static atomic_bool over;
static atomic_ulong wrong, rounds, discards, reads, device_reads, leaves, forks;

static uint64_t draw(uint64_t *seed, uint64_t below) {
    *seed = *seed * 6364136223846793005u + 1442695040888963407u;
    return (*seed >> 33) % below;
}

static void note_wrong(const char *what, size_t page, uint64_t found, uint64_t wanted) {
    if (atomic_fetch_add(&wrong, 1) < PRINTED_MOST) printf("WRONG %s, page %zu: %lx, not %lx\n", what, page, found, wanted);
}

static void check_words(const char *what, size_t page, const uint64_t *words, const struct want *want) {
    for (size_t i = 0; i < WORDS; i++) {
        uint64_t found = ((const volatile uint64_t *)words)[i], wanted = i == want->at ? want->one : want->all;
        if (found == wanted) continue;
        note_wrong(what, page, found, wanted);
        return;
    }
}

/* ---- what is done to a page ---- */

/* With huge pages, in each other period what is written is like nothing else. */
static bool is_apart(void) { return has_huge && time(NULL) / APART_SECONDS % 2 == 1; }

static uint64_t *words_of(size_t page) { return memory + page * WORDS; }

static void set_all(size_t page, uint64_t word) { wants[page] = (struct want){.all = word, .one = word}; }

static void write_all(size_t page, uint64_t word) {
    for (size_t i = 0; i < WORDS; i++) words_of(page)[i] = word;
    set_all(page, word);
}

static void write_one(size_t page, uint64_t *seed) {
    struct want *want = &wants[page];
    words_of(page)[want->at] = want->all;
    want->at = draw(seed, WORDS);
    want->one = words_of(page)[want->at] = draw(seed, 4);
}

static void discard(size_t page) {
    if (madvise(words_of(page), PAGE, MADV_DONTNEED) != 0) note_wrong(strerror(errno), page, 0, 0);
    set_all(page, 0);
    atomic_fetch_add(&discards, 1);
}

/* A file of BLOCKS pages, each full of its number. */
static void read_block(size_t page, uint64_t *seed) {
    uint64_t block = draw(seed, BLOCKS), half = draw(seed, WORDS / 64) * 512; /* (O_DIRECT takes whole sectors) */
    uint8_t *at = (uint8_t *)words_of(page);
    const struct iovec parts[] = {{at, half}, {at + half, PAGE - half}};
    off_t from = (off_t)(block * PAGE);
    ssize_t got;
    do got = draw(seed, 2) == 0 ? pread(direct, at, PAGE, from) : preadv(direct, parts, 2, from);
    while (got < 0 && errno == EINTR);
    if (got != PAGE) note_wrong("a read by O_DIRECT is short", page, (uint64_t)got, PAGE);
    set_all(page, block);
    atomic_fetch_add(&reads, 1);
}

/* A device pins a page for a while, in which things are done to it; then it reads to it. */
static void read_by_device(struct ring *ring, size_t page, uint64_t *seed) {
    uint64_t block = draw(seed, BLOCKS);
    uint8_t *at = (uint8_t *)words_of(page);
    if (!ring_pin(ring, at, PAGE)) return;
    if (draw(seed, 4) == 0) usleep((useconds_t)draw(seed, 100000));
    switch (draw(seed, 16)) {
    case 0: mprotect(at, PAGE, PROT_READ | PROT_WRITE); break;
    case 1: mlock2(at, PAGE, 0), syscall(SYS_munlock, at, PAGE); break; /* (under the sanitizers munlock does nothing) */
    case 2: madvise(at, PAGE, MADV_DODUMP); break;
    case 3: madvise(at, PAGE, MADV_MERGEABLE); break;
    default: write_all(page, draw(seed, 8)); break;
    }
    if (!ring_begin_read(ring, direct, at, PAGE, (off_t)(block * PAGE))) note_wrong("a device doesn't read", page, 0, 0);
    ssize_t got = ring_end_read(ring);
    if (got != PAGE) note_wrong("a device's read is short", page, (uint64_t)got, PAGE);
    set_all(page, block);
    check_words("read by a device", page, words_of(page), &wants[page]);
    ring_unpin(ring);
    atomic_fetch_add(&device_reads, 1);
}

static void change(size_t page, uint64_t *seed, struct ring *ring) {
    switch (draw(seed, 16)) {
    case 0: discard(page); break;
    case 1:
    case 2:
    case 3:
    case 4: write_one(page, seed); break;
    case 5:
        if (direct >= 0) read_block(page, seed);
        break;
    case 6: madvise(words_of(page), PAGE, draw(seed, 2) == 0 ? MADV_COLD : MADV_PAGEOUT); break;
    case 7:
        if (ring && draw(seed, 64) == 0) read_by_device(ring, page, seed);
        break;
    default: write_all(page, is_apart() ? APART + page : draw(seed, 8)); break;
    }
}

static void *work(void *of) {
    uint64_t me = (uint64_t)(uintptr_t)of, seed = me * 77 + (uint64_t)getpid();
    struct ring ring;
    bool has_ring = has_devices && me < 2 && ring_make(&ring);
    while (!atomic_load(&over)) {
        size_t page = draw(&seed, pages / threads) * threads + me;
        check_words("own", page, words_of(page), &wants[page]);
        change(page, &seed, has_ring ? &ring : NULL);
        if (atomic_fetch_add(&rounds, 1) % 64 == 0) usleep(200);
    }
    return NULL;
}

/* ---- ranges that come, leave in part, and go ---- */

enum leaving {
    PROTECTED,
    PROTECTED_AND_BACK,
    LOCKED,
    MOVED,
    UNMERGEABLE,
    INHERITED,
    INHERITED_IN_PART,
    WIPED,
    REPLACED,
    UNMAPPED,
    STAYS,
    LEAVINGS
};

static uint64_t word_of(size_t page) { return BASE + page % 8; }

static void check_range(const char *what, const uint64_t *at, size_t from, size_t to) {
    for (size_t page = from; page < to; page++) {
        const struct want want = {.all = word_of(page), .one = word_of(page)};
        check_words(what, page, at + (page - from) * WORDS, &want);
    }
}

/* Waits for a child, whatever signals come. Returns its status, or -1 where there is no such child. */
static int wait_for(pid_t child) {
    int status = -1;
    pid_t ended;
    do ended = waitpid(child, &status, 0);
    while (ended < 0 && errno == EINTR);
    return ended == child ? status : -1;
}

/* A child has the range as it was, whatever the parent writes later. */
static void check_child(uint64_t *at) {
    pid_t child = fork();
    if (child == 0) {
        unsigned long before = atomic_load(&wrong);
        usleep(1000);
        check_range("in a child", at, 0, LEAVING);
        fflush(stdout);
        _exit(atomic_load(&wrong) != before);
    }
    if (child < 0) return;
    for (size_t page = 0; page < LEAVING; page++) at[page * WORDS] = 1;
    int status = wait_for(child);
    if (status != 0) note_wrong("a child found something wrong", 0, (uint64_t)status, 0);
    for (size_t page = 0; page < LEAVING; page++) at[page * WORDS] = word_of(page);
}

/* What is in the place of a part that left: the part, something else, or nothing. */
enum place { THE_PART, SOMETHING, NOTHING_THERE };

/* A part leaves. */
static enum place leave(enum leaving way, uint64_t *all, size_t from, size_t count) {
    const int rights = PROT_READ | PROT_WRITE, kind = MAP_PRIVATE | MAP_ANONYMOUS;
    uint64_t *at = all + from * WORDS, *to = NULL;
    size_t bytes = count * PAGE;
    switch (way) {
    case PROTECTED: mprotect(at, bytes, PROT_READ); return THE_PART;
    case PROTECTED_AND_BACK: mprotect(at, bytes, PROT_READ), mprotect(at, bytes, rights); return THE_PART;
    case LOCKED: mlock2(at, bytes, 0); return THE_PART;
    case MOVED:
        to = mmap(NULL, bytes, PROT_NONE, kind, -1, 0);
        if (mremap(at, bytes, bytes, MREMAP_MAYMOVE | MREMAP_FIXED, to) != to) return munmap(to, bytes), THE_PART;
        check_range("moved", to, from, from + count);
        munmap(to, bytes);
        return NOTHING_THERE;
    case UNMERGEABLE: madvise(all, LEAVING * PAGE, MADV_UNMERGEABLE); return THE_PART;
    case INHERITED: madvise(all, LEAVING * PAGE, MADV_DOFORK), check_child(all); return THE_PART;
    case INHERITED_IN_PART: madvise(at, bytes, MADV_DOFORK); return THE_PART;
    case WIPED: madvise(at, bytes, MADV_WIPEONFORK); return THE_PART;
    case REPLACED: mmap(at, bytes, rights, kind | MAP_FIXED, -1, 0); return SOMETHING;
    case UNMAPPED: munmap(at, bytes); return NOTHING_THERE;
    default: return THE_PART;
    }
}

static void *come_and_go(void *of) {
    uint64_t seed = 99 + (uint64_t)(uintptr_t)of + (uint64_t)getpid();
    while (!atomic_load(&over)) {
        uint64_t *all = mmap(NULL, LEAVING * PAGE, PROT_READ | PROT_WRITE, MAP_PRIVATE | MAP_ANONYMOUS, -1, 0);
        if (all == MAP_FAILED) exit(2);
        for (size_t i = 0; i < LEAVING * WORDS; i++) all[i] = word_of(i / WORDS);
        madvise(all, LEAVING * PAGE, MADV_MERGEABLE);
        madvise(all, LEAVING * PAGE, MADV_DONTFORK);
        usleep((useconds_t)(1200000 + draw(&seed, 800000)));
        size_t from = draw(&seed, LEAVING - 40), count = 1 + draw(&seed, 32);
        enum place part = leave((enum leaving)draw(&seed, LEAVINGS), all, from, count);
        check_range("before a part", all, 0, from);
        if (part == THE_PART) check_range("a part", all + from * WORDS, from, from + count);
        check_range("behind a part", all + (from + count) * WORDS, from + count, LEAVING);
        /* (by now another thread may have mapped something where nothing was left) */
        size_t first = part == NOTHING_THERE ? from : LEAVING, rest = part == NOTHING_THERE ? LEAVING - from - count : 0;
        if (first > 0) munmap(all, first * PAGE);
        if (rest > 0) munmap(all + (LEAVING - rest) * WORDS, rest * PAGE);
        atomic_fetch_add(&leaves, 1);
    }
    return NULL;
}

/* ---- */

static void on_signal(int number) { (void)number; }

static void make_file(void) {
    char name[] = "/var/tmp/storm-XXXXXX";
    uint64_t words[WORDS];
    int file = mkstemp(name);
    for (uint64_t block = 0; block < BLOCKS && file >= 0; block++) {
        for (size_t i = 0; i < WORDS; i++) words[i] = block;
        if (write(file, words, PAGE) != PAGE) exit(2);
    }
    fsync(file), close(file);
    direct = open(name, O_RDONLY | O_DIRECT | O_CLOEXEC);
    if (direct < 0) perror("O_DIRECT");
    unlink(name);
}

static void fork_until(unsigned seconds) {
    struct timeval now, end;
    gettimeofday(&end, NULL);
    end.tv_sec += seconds;
    do {
        usleep(100000);
        fflush(stdout);
        pid_t child = fork();
        if (child == 0) _exit(0);
        if (child > 0 && wait_for(child) == 0) atomic_fetch_add(&forks, 1);
        gettimeofday(&now, NULL);
    } while (now.tv_sec < end.tv_sec);
}

static void run(unsigned seconds, bool leaves_too) {
    const struct sigaction action = {.sa_handler = on_signal};
    const struct itimerval often = {{0, EVERY_US}, {0, EVERY_US}};
    pthread_t ids[THREADS_MOST + 2];
    size_t count = 0;
    sigaction(SIGALRM, &action, NULL);
    setitimer(ITIMER_REAL, &often, NULL);
    for (uint64_t i = 0; i < threads; i++)
        if (pthread_create(&ids[count++], NULL, work, (void *)(uintptr_t)i) != 0) exit(2);
    for (uint64_t i = 0; i < 2 && leaves_too; i++)
        if (pthread_create(&ids[count++], NULL, come_and_go, (void *)(uintptr_t)i) != 0) exit(2);
    fork_until(seconds);
    atomic_store(&over, true);
    for (size_t i = 0; i < count; i++) pthread_join(ids[i], NULL);
}

int main(int count, char **words) {
    bool is_direct = false, leaves_too = false;
    if (count < 4) return 2;
    for (int i = 4; i < count; i++) {
        is_direct |= strcmp(words[i], "direct") == 0;
        has_devices |= strcmp(words[i], "devices") == 0;
        leaves_too |= strcmp(words[i], "leave") == 0;
        has_huge |= strcmp(words[i], "huge") == 0;
    }
    threads = strtoul(words[3], NULL, 10) % (THREADS_MOST + 1);
    if (threads == 0) return 2;
    pages = strtoul(words[2], NULL, 10) * 256 / threads * threads;
    uint8_t *at = mmap(NULL, pages * PAGE + HUGE_BYTES, PROT_READ | PROT_WRITE, MAP_PRIVATE | MAP_ANONYMOUS, -1, 0);
    memory = (uint64_t *)(void *)(at + (HUGE_BYTES - (uintptr_t)at % HUGE_BYTES) % HUGE_BYTES);
    wants = calloc(pages, sizeof *wants);
    if (at == MAP_FAILED || !wants) return 2;
    if (has_huge) madvise(memory, pages * PAGE, MADV_HUGEPAGE);
    if (is_direct || has_devices) make_file();
    has_devices &= direct >= 0;
    madvise(memory, pages * PAGE, MADV_MERGEABLE);
    madvise(memory, pages * PAGE, MADV_DONTFORK);
    run((unsigned)strtoul(words[1], NULL, 10), leaves_too);
    for (size_t page = 0; page < pages; page++) check_words("at the end", page, words_of(page), &wants[page]);
    printf("rounds %lu discards %lu reads %lu devices' %lu leaves %lu forks %lu wrong %lu\n", rounds, discards, reads,
           device_reads, leaves, forks, wrong);
    return wrong != 0;
}
