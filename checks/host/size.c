/*
 * A stand-in for a monitor with a guest of a real size, to be run under libpageshare-window.so beside others of its kind. Words:
 *
 *     size NUMBER MIB PRIVATE_MIB SECONDS EQUAL ZERO RUN WRITTEN HUGE LATE LOCAL
 *
 * Of the guest's MIB the last PRIVATE_MIB are like nothing else, and never written: they are read at random. Of the others EQUAL of 100 runs
 * of RUN pages are the same in all processes, ZERO of 100 are zeros, and all else is this process's own, by its NUMBER. WRITTEN MiB of pages
 * are written in each second, anywhere there, four times as many are read, and some are discarded. With HUGE 1 the memory may be huge pages.
 * With LOCAL 1 nineteen of 20 accesses are to one page in 20. After LATE seconds 1,024 pages in runs of 16, which are accessed at no other
 * time, become the same in all processes; with LATE 0 none do.
 *
 * At the end each byte is compared, and one line of JSON is printed. The status is 1 if a page was wrong, 2 where the program can't run.
 */
#define _GNU_SOURCE
#include "offered.h"
#include <fcntl.h>
#include <pthread.h>
#include <stdatomic.h>
#include <sys/mman.h>
#include <time.h>

enum { PAGE = 4096, HUGE_BYTES = 2 << 20, PAGES_OF_MIB = 256, TIMES = 40, READS = 2000000, SPARES = 2000, DISCARD_EACH = 64 };
enum { LATE_RUNS = 64, LATE_RUN = 16, LATE = LATE_RUNS * LATE_RUN, NEAR_EACH = 20 };

static struct {
    uint64_t number, pages, private_pages, seconds, equal, zero, run, written, late;
    bool is_huge, is_local;
} words;
static uint8_t *memory, *private_memory;
static uint64_t *contents; /* of each page; 0: zeros */
static atomic_bool over;
static uint64_t times[TIMES], worst_ns, accesses; /* how many accesses took less than 2^i ns, and not less than half of it */
static bool *is_late;                             /* of each page */
static uint64_t late[LATE];                       /* the pages that become the same late */
static double late_s = -1, late_half_s = -1,
              late_95_s = -1; /* when they did, and when so many of them were lent; -1: that didn't come */

static uint64_t clock_ns(clockid_t clock) {
    struct timespec now;
    clock_gettime(clock, &now);
    return (uint64_t)now.tv_sec * 1000000000u + (uint64_t)now.tv_nsec;
}

static uint64_t draw(uint64_t *seed, uint64_t below) {
    *seed = *seed * 6364136223846793005u + 1442695040888963407u;
    return (*seed >> 33) % below;
}

static void fill(uint8_t *page, uint64_t content) {
    uint64_t word = content * 2654435761u + 88172645463325252u, *at = (uint64_t *)(void *)page;
    for (size_t i = 0; i < PAGE / sizeof *at; i++) {
        word ^= word << 13, word ^= word >> 7, word ^= word << 17;
        at[i] = content == 0 ? 0 : word;
    }
}

static uint64_t own(uint64_t page) { return (words.number + 1) * UINT64_C(1000000000) + page; }

static uint64_t shared_pages(void) { return words.pages - words.private_pages; }

static uint8_t *at_page(uint64_t page) {
    return page < shared_pages() ? memory + page * PAGE : private_memory + (page - shared_pages()) * PAGE;
}

/* What a page is to begin with. */
static uint64_t content_of(uint64_t page) {
    uint64_t run = page / words.run, part = (run * 2654435761u >> 7) % 100;
    if (page >= shared_pages()) return own(page);
    return part < words.equal ? 1000 + page : part < words.equal + words.zero ? 0 : own(page);
}

/* ---- what the guest does ---- */

static void note_access(uint64_t begun) {
    uint64_t took = clock_ns(CLOCK_MONOTONIC) - begun;
    unsigned class = 0;
    while (class + 1 < TIMES && (UINT64_C(1) << class) <= took) class ++;
    times[class]++;
    accesses++;
    if (took > worst_ns) worst_ns = took;
}

static void access_page(uint64_t page, uint64_t turn, uint64_t *seed) {
    volatile uint64_t *at = (volatile uint64_t *)(void *)at_page(page);
    uint64_t begun = clock_ns(CLOCK_MONOTONIC);
    (void)at[1];
    if (turn % 4 == 0) {
        contents[page] = UINT64_C(1000000000000) * (words.number + 1) + turn;
        fill(at_page(page), contents[page]);
    }
    note_access(begun);
    if (turn % DISCARD_EACH != 1 || draw(seed, 4) != 0) return;
    madvise(at_page(page), PAGE, MADV_DONTNEED);
    contents[page] = 0;
}

/* The page that is accessed next. */
static uint64_t draw_page(uint64_t *seed) {
    uint64_t most = shared_pages(), near = most / NEAR_EACH, page = draw(seed, most);
    if (words.is_local && draw(seed, NEAR_EACH) != 0) page = most / 3 + page % near;
    return page;
}

static void *work(void *unused) {
    uint64_t seed = words.number * 77 + 5, begun = clock_ns(CLOCK_MONOTONIC);
    for (uint64_t turn = 0; !atomic_load(&over); turn++) {
        uint64_t page = draw_page(&seed);
        if (!is_late[page]) access_page(page, turn, &seed);
        uint64_t due = begun + turn * (UINT64_C(1000000000) / 4 / PAGES_OF_MIB) / words.written;
        if (due > clock_ns(CLOCK_MONOTONIC)) usleep(1000);
    }
    return unused;
}

/* Runs of pages that are to become the same late. */
static void choose_late(void) {
    uint64_t runs = shared_pages() / LATE_RUN;
    for (uint64_t i = 0, run = words.number * 977; words.late > 0 && i < LATE; i++) {
        if (i % LATE_RUN == 0) {
            run = (run + UINT64_C(2654435761)) % runs;
            while (is_late[run * LATE_RUN]) run = (run + 1) % runs;
        }
        late[i] = run * LATE_RUN + i % LATE_RUN;
        is_late[late[i]] = true;
    }
}

/* How many of the late pages show a frame: their memory is a file's, or wasn't touched since it was mapped. */
static unsigned count_late(int pagemap) {
    const uint64_t present = UINT64_C(1) << 63, of_file = UINT64_C(1) << 61;
    unsigned count = 0;
    for (size_t i = 0; i < LATE; i++) {
        uint64_t entry = present;
        off_t at = (off_t)((uintptr_t)at_page(late[i]) / PAGE * sizeof entry);
        if (pread(pagemap, &entry, sizeof entry, at) == sizeof entry && ((entry & of_file) != 0 || (entry & present) == 0))
            count++;
    }
    return count;
}

static void *be_late(void *unused) {
    uint64_t begun = clock_ns(CLOCK_MONOTONIC);
    int pagemap = open("/proc/self/pagemap", O_RDONLY);
    while (clock_ns(CLOCK_MONOTONIC) - begun < words.late * UINT64_C(1000000000) && !atomic_load(&over)) usleep(10000);
    for (size_t i = 0; i < LATE; i++) {
        contents[late[i]] = UINT64_C(7000000000000) + i;
        fill(at_page(late[i]), contents[late[i]]);
    }
    late_s = (double)clock_ns(CLOCK_MONOTONIC) / 1e9;
    while (late_95_s < 0 && !atomic_load(&over)) {
        double now_s = (double)clock_ns(CLOCK_MONOTONIC) / 1e9;
        unsigned count = count_late(pagemap);
        if (late_half_s < 0 && count >= LATE / 2) late_half_s = now_s;
        if (count >= LATE * 95 / 100) late_95_s = now_s;
        usleep(100000);
    }
    return unused;
}

/* The nanoseconds of processor time that a random read of the private memory takes; each depends on the one before it. */
static double read_at_random(void) {
    uint64_t bytes = words.private_pages * PAGE, at = 1, sum = 0, begun = clock_ns(CLOCK_THREAD_CPUTIME_ID);
    for (size_t i = 0; i < READS && bytes > 0; i++) {
        at = at * 6364136223846793005u + 1442695040888963407u + sum;
        sum = *(const volatile uint64_t *)(const void *)(private_memory + (at >> 20) % (bytes / 64) * 64) & 1;
    }
    return (double)(clock_ns(CLOCK_THREAD_CPUTIME_ID) - begun) / READS;
}

/* ---- what the system has ---- */

/* KiB of huge pages of memory, of which it alone is in its mappings; and how many mappings the process has. */
static long huge_kib(const uint8_t *at, uint64_t pages, long *mappings) {
    const uintptr_t first = (uintptr_t)at, last = first + pages * PAGE;
    char line[512];
    unsigned long begin = 0, end = 0;
    long kib = 0, one = 0;
    *mappings = 0;
    FILE *file = fopen("/proc/self/smaps", "r");
    while (file && fgets(line, sizeof line, file)) {
        unsigned long from = 0, to = 0;
        bool is_mapping = sscanf(line, "%lx-%lx ", &from, &to) == 2;
        if (is_mapping) begin = from, end = to, ++*mappings;
        bool is_here = begin < last && end > first;
        if (!is_mapping && is_here && sscanf(line, "AnonHugePages: %ld", &one) == 1) kib += one;
    }
    if (file) fclose(file);
    return kib;
}

/* How many mappings more the monitor can have, up to SPARES. */
static unsigned spare_mappings(void) {
    static void *at[SPARES];
    unsigned count = 0;
    while (count < SPARES) {
        /* (each is of another kind than what is before it, so that none is joined) */
        int rights = count % 2 == 0 ? PROT_READ : PROT_NONE;
        at[count] = mmap(NULL, PAGE, rights, MAP_PRIVATE | MAP_ANONYMOUS, -1, 0);
        if (at[count] == MAP_FAILED) break;
        count++;
    }
    for (unsigned i = 0; i < count; i++) munmap(at[i], PAGE);
    return count;
}

/* ---- */

/* Memory that is offered, with nothing beside it. */
static uint8_t *offered(uint64_t pages) {
    size_t bytes = pages * PAGE;
    uint8_t *at = mmap(NULL, bytes + 3 * HUGE_BYTES, PROT_NONE, MAP_PRIVATE | MAP_ANONYMOUS | MAP_NORESERVE, -1, 0);
    if (at == MAP_FAILED) return NULL;
    at += HUGE_BYTES + (HUGE_BYTES - (uintptr_t)at % HUGE_BYTES) % HUGE_BYTES;
    if (mprotect(at, bytes, PROT_READ | PROT_WRITE) != 0) return NULL;
    madvise(at, bytes, words.is_huge ? MADV_HUGEPAGE : MADV_NOHUGEPAGE);
    return at;
}

static void offer(uint8_t *at, uint64_t pages) {
    madvise(at, pages * PAGE, MADV_MERGEABLE);
    madvise(at, pages * PAGE, MADV_DONTFORK);
}

static bool make(void) {
    contents = calloc(words.pages, sizeof *contents);
    is_late = calloc(words.pages, sizeof *is_late);
    memory = offered(shared_pages());
    private_memory = offered(words.private_pages);
    if (!contents || !is_late || !memory || !private_memory) return false;
    choose_late();
    for (uint64_t page = 0; page < words.pages; page++) {
        contents[page] = content_of(page);
        fill(at_page(page), contents[page]);
    }
    offer(memory, shared_pages());
    offer(private_memory, words.private_pages);
    return true;
}

static uint64_t count_wrong(void) {
    static uint8_t wanted[PAGE] __attribute__((aligned(8)));
    uint64_t wrong = 0;
    for (uint64_t page = 0; page < words.pages; page++) {
        fill(wanted, contents[page]);
        wrong += memcmp(wanted, at_page(page), PAGE) != 0;
    }
    return wrong;
}

/* The bound below which all but one in so many accesses stayed, in nanoseconds. */
static uint64_t bound_of(uint64_t each) {
    uint64_t above = 0;
    for (unsigned class = TIMES; class -- > 0;) {
        above += times[class];
        if (above * each > accesses) return UINT64_C(1) << class;
    }
    return 0;
}

static bool read_words(int count, char **given) {
    uint64_t *const to[] = {&words.number, &words.pages, &words.private_pages, &words.seconds,
                            &words.equal,  &words.zero,  &words.run,           &words.written};
    enum { NUMBERS = sizeof to / sizeof to[0] };
    if (count != NUMBERS + 4) return false;
    for (size_t i = 0; i < NUMBERS; i++) *to[i] = strtoull(given[i + 1], NULL, 10);
    words.pages *= PAGES_OF_MIB;
    words.private_pages *= PAGES_OF_MIB;
    words.is_huge = given[NUMBERS + 1][0] == '1';
    words.late = strtoull(given[NUMBERS + 2], NULL, 10);
    words.is_local = given[NUMBERS + 3][0] == '1';
    return words.private_pages > 0 && words.pages > words.private_pages && words.run > 0;
}

static void show(const char *name, double value) { printf("\"%s\":%.2f,", name, value); }

/* What the guest does for its time. Returns false where it can't. */
static bool live(void) {
    pthread_t worker, latecomer;
    bool is_late_too = words.late > 0;
    if (words.written > 0 && pthread_create(&worker, NULL, work, NULL) != 0) return false;
    if (is_late_too && pthread_create(&latecomer, NULL, be_late, NULL) != 0) return false;
    sleep((unsigned)words.seconds);
    atomic_store(&over, true);
    if (words.written > 0) pthread_join(worker, NULL);
    if (is_late_too) pthread_join(latecomer, NULL);
    return true;
}

int main(int count, char **given) {
    long mappings = 0;
    if (!read_words(count, given) || !make()) return 2;
    double first_ns = read_at_random();
    long huge_first = huge_kib(private_memory, words.private_pages, &mappings),
         other_first = huge_kib(memory, shared_pages(), &mappings);
    puts("filled"), fflush(stdout);
    if (!live()) return 2;
    long huge_last = huge_kib(private_memory, words.private_pages, &mappings),
         other_last = huge_kib(memory, shared_pages(), &mappings);
    unsigned spare = spare_mappings();
    double last_ns = read_at_random();
    uint64_t wrong = count_wrong();
    printf("{");
    show("late_s", late_s), show("late_half_s", late_half_s), show("late_95_s", late_95_s);
    printf(
        "\"read_first_ns\":%.1f,\"read_last_ns\":%.1f,\"huge_first_kib\":%ld,\"huge_last_kib\":%ld,\"other_huge_first_kib\":%ld,"
        "\"other_huge_last_kib\":%ld,\"mappings\":%ld,\"spare_mappings\":%u,\"accesses\":%lu,\"bound_10000_ns\":%lu,\"worst_ns\":"
        "%"
        "lu,"
        "\"wrong\":%lu}\n",
        first_ns, last_ns, huge_first, huge_last, other_first, other_last, mappings, spare, (unsigned long)accesses,
        (unsigned long)bound_of(10000), (unsigned long)worst_ns, (unsigned long)wrong);
    return wrong != 0;
}
