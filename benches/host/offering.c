/*
 * A stand-in for a monitor whose memory is offered to whoever shares equal pages, by pageshare or by KSM. Words:
 *
 *     offering NUMBER MIB RUN HUGE
 *
 * Of each ten runs of RUN pages six have contents that all such programs have, each of them once and in an order of its own; one is zeros; three
 * are like nothing else. With HUGE 1 the memory may be huge pages. It prints `filled EQUAL ZEROS`, both in pages, and offers its memory after the
 * next line of its input. From then on it reads a page each 200 us and compares it, and each 4 ms writes to one of the equal pages, of which it
 * takes every 32nd, what the page has already. At one more line it compares each page, and prints a line of JSON: what it saw, the processor time
 * of its calls of madvise, and the longest waits in nanoseconds. The status is 1 if a page was wrong, 2 where it can't run.
 */
#define _GNU_SOURCE
#include <poll.h>
#include <stdbool.h>
#include <stdint.h>
#include <stdio.h>
#include <stdlib.h>
#include <string.h>
#include <sys/mman.h>
#include <time.h>
#include <unistd.h>

enum { PAGE = 4096, WORDS = PAGE / 8, PAGES_OF_MIB = 256, HUGE_BYTES = 2 << 20, TEN = 10, EQUAL = 6, ZEROS = 1 };
enum { NAP_NS = 200000, WRITE_EACH = 20, BUSY_EACH = 32, WAITS = 4000000, LONGEST = 400 };

static struct {
    uint64_t number, pages, run, equal_runs, step;
    bool is_huge;
} words;
static uint8_t *memory;
static uint64_t wrong;

struct waits {
    uint64_t count;
    uint32_t ns[WAITS];
};
static struct waits reads, writes;

static uint64_t clock_ns(clockid_t clock) {
    struct timespec now;
    clock_gettime(clock, &now);
    return (uint64_t)now.tv_sec * 1000000000u + (uint64_t)now.tv_nsec;
}

static uint64_t draw(uint64_t below) {
    static uint64_t seed = 7;
    seed = seed * 6364136223846793005u + 1442695040888963407u;
    return (seed >> 33) % below;
}

/* ---- what pages have ---- */

static uint64_t common_divisor(uint64_t one, uint64_t other) { return other == 0 ? one : common_divisor(other, one % other); }

/* The runs that all programs have come in an order of each program's own: every so many-th, which meets them all. */
static void choose_order(void) {
    words.step = 7919 + 2 * words.number;
    while (common_divisor(words.step, words.equal_runs) != 1) words.step++;
}

/* 0: zeros. */
static uint64_t content_of(uint64_t page) {
    const uint64_t run = page / words.run, kind = run % TEN, nth = run / TEN * EQUAL + kind;
    if (run < words.pages / words.run && kind < EQUAL)
        return 1 + nth * words.step % words.equal_runs * words.run + page % words.run;
    if (run < words.pages / words.run && kind < EQUAL + ZEROS) return 0;
    return ((words.number + 1) << 40) + page;
}

static uint64_t next_word(uint64_t word) {
    word ^= word << 13, word ^= word >> 7;
    return word ^ word << 17;
}

static uint64_t first_word(uint64_t content) { return content == 0 ? 0 : next_word(content * 2654435761u + 88172645463325252u); }

static uint64_t *at_page(uint64_t page) { return (uint64_t *)(void *)(memory + page * PAGE); }

static void fill(uint64_t page) {
    uint64_t word = first_word(content_of(page)), *at = at_page(page);
    for (size_t i = 0; i < WORDS; i++, word = next_word(word)) at[i] = word;
}

static void compare(uint64_t page) {
    uint64_t word = first_word(content_of(page)), differ = 0;
    const uint64_t *at = at_page(page);
    for (size_t i = 0; i < WORDS; i++, word = next_word(word)) differ |= at[i] ^ word;
    wrong += differ != 0;
}

/* ---- what the program does ---- */

static void note(struct waits *waits, uint64_t begun) {
    uint64_t took = clock_ns(CLOCK_MONOTONIC) - begun;
    if (waits->count < WAITS) waits->ns[waits->count++] = took < UINT32_MAX ? (uint32_t)took : UINT32_MAX;
}

static void read_one(void) {
    uint64_t page = draw(words.pages), begun = clock_ns(CLOCK_MONOTONIC);
    (void)*(const volatile uint64_t *)at_page(page);
    note(&reads, begun);
    compare(page);
}

static void write_one(void) {
    const uint64_t nth = draw(words.equal_runs * words.run / BUSY_EACH) * BUSY_EACH, run = nth / words.run;
    const uint64_t page = (run / EQUAL * TEN + run % EQUAL) * words.run + nth % words.run, word = first_word(content_of(page));
    uint64_t begun = clock_ns(CLOCK_MONOTONIC);
    *(volatile uint64_t *)at_page(page) = word;
    note(&writes, begun);
}

static bool has_line(void) {
    struct pollfd input = {.fd = STDIN_FILENO, .events = POLLIN};
    return poll(&input, 1, 0) != 0;
}

static void wait_for_line(void) {
    char text[16];
    if (read(STDIN_FILENO, text, sizeof text) <= 0) exit(2);
}

static void work(void) {
    const struct timespec nap = {.tv_nsec = NAP_NS};
    for (uint64_t turn = 0; !has_line(); turn++) {
        nanosleep(&nap, NULL);
        read_one();
        if (turn % WRITE_EACH == 0) write_one();
    }
}

/* Returns the processor time that the calls took. */
static uint64_t offer(void) {
    uint64_t begun = clock_ns(CLOCK_THREAD_CPUTIME_ID);
    if (madvise(memory, words.pages * PAGE, MADV_DONTFORK) < 0 || madvise(memory, words.pages * PAGE, MADV_MERGEABLE) < 0)
        exit(2);
    return clock_ns(CLOCK_THREAD_CPUTIME_ID) - begun;
}

/* Prepares a range that begins where a huge page could. */
static void prepare(void) {
    const size_t bytes = words.pages * PAGE;
    uint8_t *at = mmap(NULL, bytes + HUGE_BYTES, PROT_READ | PROT_WRITE, MAP_PRIVATE | MAP_ANONYMOUS | MAP_NORESERVE, -1, 0);
    if (at == MAP_FAILED) exit(2);
    memory = at + (HUGE_BYTES - (uintptr_t)at % HUGE_BYTES) % HUGE_BYTES;
    if (words.is_huge && madvise(memory, bytes, MADV_HUGEPAGE) < 0) exit(2);
    for (uint64_t page = 0; page < words.pages; page++) fill(page);
}

/* ---- what it says ---- */

static int longest_first(const void *left, const void *right) {
    uint32_t a = *(const uint32_t *)left, b = *(const uint32_t *)right;
    return (a < b) - (a > b);
}

static void say(const char *name, struct waits *waits) {
    qsort(waits->ns, waits->count, sizeof waits->ns[0], longest_first);
    printf(", \"%s\": %llu, \"%s_waits\": [", name, (unsigned long long)waits->count, name);
    for (size_t i = 0; i < LONGEST && i < waits->count; i++) printf("%s%u", i > 0 ? ", " : "", waits->ns[i]);
    printf("]");
}

int main(int count, char **given) {
    if (count != 5) return 2;
    words.number = strtoull(given[1], NULL, 10), words.pages = strtoull(given[2], NULL, 10) * PAGES_OF_MIB;
    words.run = strtoull(given[3], NULL, 10), words.is_huge = strtoull(given[4], NULL, 10) != 0;
    const uint64_t tens = words.run > 0 ? words.pages / words.run / TEN : 0,
                   left = words.run > 0 ? words.pages / words.run % TEN : 0;
    if (tens == 0) return 2;
    words.equal_runs = tens * EQUAL + (left < EQUAL ? left : EQUAL);
    choose_order();
    prepare();
    printf("filled %llu %llu\n", (unsigned long long)(words.equal_runs * words.run),
           (unsigned long long)((tens * ZEROS + (left > EQUAL ? ZEROS : 0)) * words.run));
    fflush(stdout);
    wait_for_line();
    const uint64_t advice_ns = offer();
    work();
    wait_for_line();
    for (uint64_t page = 0; page < words.pages; page++) compare(page);
    printf("{\"wrong\": %llu, \"advice_ns\": %llu", (unsigned long long)wrong, (unsigned long long)advice_ns);
    say("reads", &reads);
    say("writes", &writes);
    printf("}\n");
    return wrong != 0;
}
