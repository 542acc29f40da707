/*
 * Two guests' pages, a third of them equal, are lent to a machine whose frames are in a memory file. They are read through a second
 * mapping of it, and half of them taken back. What is free is given back to the system. Prints what the file holds at each step.
 *
 * `make embed` builds and runs it. By hand, on Linux: cc lend.c $(pkg-config --cflags --libs pageshare)
 */
#define _GNU_SOURCE
#include "pageshare.h"
#include <stdio.h>
#include <stdlib.h>
#include <string.h>
#include <sys/mman.h>
#include <sys/stat.h>
#include <unistd.h>

enum { PAGE = PAGESHARE_PAGE_BYTES, GUESTS = 2, PAGES = 5000, FRAMES = GUESTS * PAGES };

/* The file of the frames, the library's mapping of it, and one for reading, as a monitor's guests would have. */
struct memory {
    int file;
    uint8_t *written;
    const uint8_t *read;
};

static void stop(const char *what) {
    perror(what);
    exit(1);
}

static struct memory open_memory(void) {
    struct memory memory = {memfd_create("frames", MFD_CLOEXEC), NULL, NULL};
    if (memory.file < 0 || ftruncate(memory.file, (off_t)FRAMES * PAGE) != 0) stop("memfd");
    void *written = mmap(NULL, (size_t)FRAMES * PAGE, PROT_READ | PROT_WRITE, MAP_SHARED, memory.file, 0);
    void *read = mmap(NULL, (size_t)FRAMES * PAGE, PROT_READ, MAP_SHARED, memory.file, 0);
    if (written == MAP_FAILED || read == MAP_FAILED) stop("mmap");
    memory.written = written;
    memory.read = read;
    return memory;
}

/* What the system holds for the file, in pages. */
static long held(const struct memory *memory) {
    struct stat status;
    if (fstat(memory->file, &status) != 0) stop("fstat");
    return (long)(status.st_blocks * 512 / PAGE);
}

/* The content of a page: each third page is the same for both guests, and the others are a guest's own. */
static void fill(uint8_t *page, uint32_t guest, uint32_t ppn) {
    uint32_t number = ppn % 3 == 0 ? ppn : ppn + (guest + 1) * FRAMES;
    for (size_t i = 0; i < PAGE; i += sizeof number) memcpy(page + i, &number, sizeof number);
}

static void lend_all(struct pageshare *machine, const struct memory *memory) {
    uint8_t page[PAGE];
    for (uint32_t guest = 0; guest < GUESTS; guest++) {
        for (uint32_t ppn = 0; ppn < PAGES; ppn++) {
            fill(page, guest, ppn);
            struct pageshare_answer answer = pageshare_lend(machine, guest, ppn, page);
            if (answer.status != PAGESHARE_OK || answer.frame == PAGESHARE_NO_FRAME) stop("lend");
            if (memcmp(memory->read + (size_t)answer.frame * PAGE, page, PAGE) != 0) stop("a frame holds other bytes");
        }
    }
}

/* Every page that is lent, read through the mapping. */
static void check_all(struct pageshare *machine, const struct memory *memory) {
    uint8_t page[PAGE];
    uint32_t frame;
    for (uint32_t guest = 0; guest < GUESTS; guest++) {
        for (uint32_t ppn = 0; ppn < PAGES; ppn++) {
            if (pageshare_frame(machine, guest, ppn, &frame) != PAGESHARE_OK) continue;
            fill(page, guest, ppn);
            if (memcmp(memory->read + (size_t)frame * PAGE, page, PAGE) != 0) stop("a page reads other bytes");
        }
    }
}

/* Takes back every second page of each guest, and gives the frames that this frees back to the system. */
static void take_back_half(struct pageshare *machine, const struct memory *memory) {
    uint8_t page[PAGE], wanted[PAGE];
    for (uint32_t guest = 0; guest < GUESTS; guest++) {
        for (uint32_t ppn = 0; ppn < PAGES; ppn += 2) {
            struct pageshare_answer answer = pageshare_take_back(machine, guest, ppn, page);
            fill(wanted, guest, ppn);
            if (answer.verdict != PAGESHARE_VERDICT_RELEASED || memcmp(page, wanted, PAGE) != 0) stop("take back");
            if (answer.freed == PAGESHARE_NO_FRAME) continue;
            if (madvise(memory->written + (size_t)answer.freed * PAGE, PAGE, MADV_REMOVE) != 0) stop("madvise");
        }
    }
}

static void show(const char *when, struct pageshare *machine, const struct memory *memory) {
    struct pageshare_totals totals;
    if (pageshare_report(machine, &totals) != PAGESHARE_OK) stop("report");
    printf("%s: %u pages lent, %u frames, the file holds %ld pages\n", when, (unsigned)totals.mapped, (unsigned)totals.frames,
           held(memory));
}

int main(void) {
    const uint32_t pages[GUESTS] = {PAGES, PAGES}, salts[GUESTS] = {0, 0};
    struct memory memory = open_memory();
    struct pageshare machine = PAGESHARE_NONE;
    struct pageshare_config config = {FRAMES, pages, salts, GUESTS, PAGESHARE_FOLD, memory.written, (size_t)FRAMES * PAGE};
    uint32_t status = pageshare_make(&machine, &config);
    if (status != PAGESHARE_OK) {
        fprintf(stderr, "no machine: %s\n", pageshare_status_text(status));
        return 1;
    }
    show("before", &machine, &memory);
    lend_all(&machine, &memory);
    check_all(&machine, &memory);
    show("lent", &machine, &memory);
    take_back_half(&machine, &memory);
    check_all(&machine, &memory);
    show("half taken back", &machine, &memory);
    pageshare_free(&machine);
    return 0;
}
