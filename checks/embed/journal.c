/*
 * Replays a journal text by calls of the C library: reads standard input, and writes what `pageshare replay` writes. For
 * checks/embed.py, whose journals are well formed and have no close, which C doesn't ask. Three words are of this program alone:
 * `store-page PPN BYTES`, `lend PPN BYTES` and `take-back PPN`, with the 4,096 bytes of a page; what is taken back is written
 * behind its verdict. Stops with status 2 at a text that it does not know.
 *
 * With the word `region` behind it, the frames are in a memory file, of which each frame that is free is punched out after each
 * call; and lends that follow on each other are one list. What is written is the same.
 */
#define _GNU_SOURCE
#include "pageshare.h"
#include <inttypes.h>
#include <stdio.h>
#include <stdlib.h>
#include <string.h>
#include <sys/mman.h>
#include <unistd.h>

static const char *const VERDICTS[] = {
    NULL,     "no-page", "unmapped", "already", "joined",   "paired", "hinted",   "kept",   "replaced", "ineligible",
    "mapped", "stored",  "copied",   "taken",   "no-frame", "bytes",  "released", "totals", "closed",
};

static _Noreturn void stop(const char *what) {
    fprintf(stderr, "journal: %s\n", what);
    exit(2);
}

/* The next word of the line that strtok_r walks, as a number. */
static uint32_t number(char **line) {
    char *word = strtok_r(NULL, " ", line);
    if (word == NULL) stop("a number is missing");
    return (uint32_t)strtoul(word, NULL, 10);
}

/* The numbers up to the line's end. */
static size_t numbers(char **line, uint32_t list[64]) {
    size_t count = 0;
    for (char *word = strtok_r(NULL, " ", line); word != NULL; word = strtok_r(NULL, " ", line)) {
        if (count == 64) stop("more than 64 guests");
        list[count++] = (uint32_t)strtoul(word, NULL, 10);
    }
    return count;
}

static size_t bytes(char **line, uint8_t *list, size_t most) {
    char *word = strtok_r(NULL, " ", line);
    size_t count = word == NULL ? 0 : strlen(word) / 2;
    if (count < 1 || count > most) stop("too few bytes, or too many");
    for (size_t i = 0; i < count; i++) {
        const char pair[] = {word[2 * i], word[2 * i + 1], 0};
        list[i] = (uint8_t)strtoul(pair, NULL, 16);
    }
    return count;
}

static void print_totals(const struct pageshare_totals *t) {
    printf(" entries %" PRIu32 " mapped %" PRIu32 " shared %" PRIu32 " frames %" PRIu32 " reclaimed %" PRIu32 " hints %" PRIu32,
           t->entries, t->mapped, t->shared, t->frames, t->reclaimed, t->hints);
}

static void print_answer(uint32_t guest, struct pageshare_answer answer, const uint8_t *room,
                         const struct pageshare_totals *totals) {
    if (answer.status != PAGESHARE_OK) stop("a request was refused");
    printf("%" PRIu32 " %s", guest, VERDICTS[answer.verdict]);
    switch (answer.verdict) {
    case PAGESHARE_VERDICT_JOINED:
        printf(" %" PRIu32, answer.count);
        break;
    case PAGESHARE_VERDICT_BYTES:
        putchar(' ');
        for (uint32_t i = 0; i < answer.count; i++) printf("%02x", room[i]);
        break;
    case PAGESHARE_VERDICT_RELEASED:
        printf(answer.count == 1 ? " freed" : " held");
        break;
    case PAGESHARE_VERDICT_TOTALS:
        print_totals(totals);
        break;
    default:
        break;
    }
    putchar('\n');
}

/* The machine, and the region of its frames, if it has one. */
struct replay {
    struct pageshare machine;
    uint32_t frames, pages[64], salts[64];
    size_t guests;
    uint8_t *region;
};

static size_t region_bytes(const struct replay *t) {
    return (size_t)t->frames * PAGESHARE_PAGE_BYTES;
}

static void make(struct replay *t, bool in_region) {
    struct pageshare_config config = {t->frames, t->pages, t->salts, t->guests, PAGESHARE_SHA256, NULL, 0};
    if (in_region) {
        int file = memfd_create("frames", MFD_CLOEXEC);
        if (file < 0 || ftruncate(file, (off_t)region_bytes(t)) != 0) stop("no memory file");
        void *at = mmap(NULL, region_bytes(t), PROT_READ | PROT_WRITE, MAP_SHARED, file, 0);
        if (at == MAP_FAILED || close(file) != 0) stop("no mapping");
        config.region = t->region = at;
        config.region_bytes = region_bytes(t);
    }
    if (pageshare_make(&t->machine, &config) != PAGESHARE_OK) stop("no machine");
}

/* Gives the memory of each frame that no page has back to the system. */
static void punch(struct replay *t) {
    bool *taken = calloc(t->frames, sizeof *taken);
    if (taken == NULL) stop("out of memory");
    for (uint32_t guest = 0; guest < t->guests; guest++)
        for (uint32_t ppn = 0; ppn < t->pages[guest]; ppn++) {
            uint32_t mpn;
            if (pageshare_frame(&t->machine, guest, ppn, &mpn) == PAGESHARE_OK) taken[mpn] = true;
        }
    for (uint32_t mpn = 0; mpn < t->frames; mpn++)
        if (!taken[mpn] && madvise(t->region + (size_t)mpn * PAGESHARE_PAGE_BYTES, PAGESHARE_PAGE_BYTES, MADV_REMOVE) != 0)
            stop("not punched");
    free(taken);
}

enum { MOST_LENT = 16 };

/* Lends that wait for the end of their list. */
static struct pageshare_lending waiting[MOST_LENT];
static uint8_t waiting_pages[MOST_LENT][PAGESHARE_PAGE_BYTES];
static size_t waiting_count = 0;

static void lend_waiting(struct replay *t) {
    struct pageshare_answer answers[MOST_LENT];
    if (waiting_count == 0) return;
    if (pageshare_lend_many(&t->machine, waiting, waiting_count, answers) != PAGESHARE_OK) stop("no machine");
    for (size_t i = 0; i < waiting_count; i++) print_answer(waiting[i].guest, answers[i], NULL, NULL);
    waiting_count = 0;
    punch(t);
}

static void wait_to_lend(struct replay *t, uint32_t guest, char **line) {
    if (waiting_count == MOST_LENT) lend_waiting(t);
    uint8_t *page = waiting_pages[waiting_count];
    waiting[waiting_count] = (struct pageshare_lending){guest, number(line), page};
    if (bytes(line, page, PAGESHARE_PAGE_BYTES) != PAGESHARE_PAGE_BYTES) stop("not a whole page");
    waiting_count++;
}

/* Serves a request of a whole page, if this is one. */
static bool serve_whole(struct pageshare *machine, uint32_t guest, const char *word, char **line) {
    static uint8_t page[PAGESHARE_PAGE_BYTES];
    bool is_store = strcmp(word, "store-page") == 0, is_return = strcmp(word, "take-back") == 0;
    if (!is_store && !is_return && strcmp(word, "lend") != 0) return false;
    uint32_t ppn = number(line);
    if (!is_return && bytes(line, page, sizeof page) != sizeof page) stop("not a whole page");
    struct pageshare_answer answer = is_return ? pageshare_take_back(machine, guest, ppn, page)
                                     : is_store ? pageshare_store_page(machine, guest, ppn, page)
                                                : pageshare_lend(machine, guest, ppn, page);
    print_answer(guest, answer, NULL, NULL);
    if (answer.verdict != PAGESHARE_VERDICT_RELEASED) return true;
    for (size_t i = 0; i < sizeof page; i++) printf("%02x", page[i]);
    putchar('\n');
    return true;
}

static void serve(struct pageshare *machine, uint32_t guest, const char *word, char **line) {
    struct pageshare_answer answer;
    struct pageshare_totals totals;
    uint8_t room[64];
    if (serve_whole(machine, guest, word, line)) {
        return;
    } else if (strcmp(word, "propose") == 0) {
        answer = pageshare_propose(machine, guest, number(line));
    } else if (strcmp(word, "release") == 0) {
        answer = pageshare_release(machine, guest, number(line));
    } else if (strcmp(word, "count") == 0) {
        answer = pageshare_count(machine, guest, &totals);
    } else if (strcmp(word, "store") == 0) {
        uint32_t ppn = number(line), at = number(line);
        size_t length = bytes(line, room, 64);
        answer = pageshare_store(machine, guest, ppn, at, room, length);
    } else if (strcmp(word, "load") == 0) {
        uint32_t ppn = number(line), at = number(line), length = number(line);
        answer = pageshare_load(machine, guest, ppn, at, room, length);
    } else {
        stop("an unknown request");
    }
    print_answer(guest, answer, room, &totals);
}

/* Serves the line of a request, or puts it off where it lends a page to a machine in a region. */
static void serve_line(struct replay *t, uint32_t guest, char **line) {
    const char *word = strtok_r(NULL, " ", line);
    if (word == NULL) stop("a request is missing");
    if (t->region != NULL && strcmp(word, "lend") == 0) {
        wait_to_lend(t, guest, line);
        return;
    }
    lend_waiting(t);
    serve(&t->machine, guest, word, line);
    if (t->region != NULL) punch(t);
}

int main(int count, char **words) {
    static struct replay replay = {.machine = PAGESHARE_NONE};
    struct pageshare_totals totals;
    static char text[65536];
    bool made = false, in_region = count > 1 && strcmp(words[1], "region") == 0;
    while (fgets(text, sizeof text, stdin) != NULL) {
        char *line = text;
        text[strcspn(text, "\n")] = 0;
        const char *word = strtok_r(text, " ", &line);
        if (word == NULL || strcmp(word, "pageshare") == 0) continue;
        if (strcmp(word, "frames") == 0) {
            replay.frames = number(&line);
        } else if (strcmp(word, "pages") == 0) {
            replay.guests = numbers(&line, replay.pages);
        } else if (strcmp(word, "salts") == 0) {
            if (numbers(&line, replay.salts) != replay.guests) stop("not as many salts as guests");
        } else {
            if (!made) make(&replay, in_region);
            made = true;
            if (strcmp(word, "end") == 0) break;
            serve_line(&replay, (uint32_t)strtoul(word, NULL, 10), &line);
        }
    }
    if (made) lend_waiting(&replay);
    if (pageshare_report(&replay.machine, &totals) != PAGESHARE_OK) stop("no machine");
    printf("report");
    print_totals(&totals);
    putchar('\n');
    pageshare_free(&replay.machine);
    if (replay.region != NULL && munmap(replay.region, region_bytes(&replay)) != 0) stop("no mapping");
    return 0;
}
