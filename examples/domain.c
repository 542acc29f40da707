/*
 * Three clients with 10,000 pages lend those that another page is equal to, and one of them leaves. The frames are in a memory file,
 * and every page that is lent is read through a second mapping of it, which can't be written. What is free is given back to the
 * system. Prints what the file holds at each step.
 *
 * `make embed` builds and runs it. By hand, on Linux: cc -Ilib/include examples/domain.c out/libpageshare.a
 */
#define _GNU_SOURCE
#include "pageshare.h"
#include <stdio.h>
#include <stdlib.h>
#include <string.h>
#include <sys/mman.h>
#include <sys/stat.h>
#include <unistd.h>

enum { PAGE = PAGESHARE_PAGE_BYTES, CLIENTS = 3, PAGES = 10000, FRAMES = 5000, MACHINES = 2, SALT = 41, PART = 500 };

/* The file of the frames, the library's mapping of it, and one for reading, as the clients would have. */
struct memory {
    int file;
    uint8_t *written;
    const uint8_t *read;
};

/* A page that is lent, where it is. */
struct lent {
    bool is;
    uint64_t slot;
    uint32_t frame;
};

static struct lent lent[PAGES];

static void stop(const char *what) {
    perror(what);
    exit(1);
}

static struct memory open_memory(void) {
    const size_t bytes = (size_t)MACHINES * FRAMES * PAGE;
    struct memory memory = {memfd_create("frames", MFD_CLOEXEC), NULL, NULL};
    if (memory.file < 0 || ftruncate(memory.file, (off_t)bytes) != 0) stop("memfd");
    void *written = mmap(NULL, bytes, PROT_READ | PROT_WRITE, MAP_SHARED, memory.file, 0);
    void *read = mmap(NULL, bytes, PROT_READ, MAP_SHARED, memory.file, 0);
    if (written == MAP_FAILED || read == MAP_FAILED) stop("mmap");
    memory.written = written;
    memory.read = read;
    return memory;
}

/* What the system holds for the file, in pages. */
static long held(const struct memory *memory) {
    struct stat status;
    if (fstat(memory->file, &status) != 0) stop("fstat");
    return (long)(status.st_blocks * 512 / PAGE);
}

/*
 * The content of a page. Page n is client n % 3's. Of nine pages in a row three are equal, one of each client. Three are like no
 * other, and three are equal to a page of the same client nine pages on.
 */
static void fill(uint8_t *page, uint32_t n) {
    uint32_t number = n / 9;
    if (n / 3 % 3 == 1) number = PAGES + n;
    if (n / 3 % 3 == 2) number = 2 * PAGES + n / 18 * CLIENTS + n % CLIENTS;
    for (size_t i = 0; i < PAGE; i += sizeof number) memcpy(page + i, &number, sizeof number);
}

/* A look of a client at its pages: it asks about those that aren't lent, and lends those that another page is equal to. */
static void look(struct pageshare_domain *domain, uint32_t client) {
    for (uint32_t n = client; n < PAGES; n += CLIENTS) {
        const uint64_t name = n;
        uint8_t page[PAGE], seen = 0;
        if (lent[n].is) continue;
        fill(page, n);
        uint64_t fingerprint = pageshare_domain_fingerprint(SALT, page);
        if (pageshare_domain_seen(domain, client, &name, &fingerprint, 1, &seen) != PAGESHARE_OK) stop("seen");
        if (!seen) continue;
        struct pageshare_loan loan = pageshare_domain_lend(domain, client, page);
        if (loan.status != PAGESHARE_OK) stop("lend");
        lent[n] = (struct lent){true, loan.slot, loan.frame};
    }
}

/* Every page that is lent, each byte read through the mapping for reading. */
static void check_all(const struct memory *memory) {
    uint8_t page[PAGE];
    for (uint32_t n = 0; n < PAGES; n++) {
        if (!lent[n].is) continue;
        fill(page, n);
        if (memcmp(memory->read + (size_t)lent[n].frame * PAGE, page, PAGE) != 0) stop("a frame holds other bytes");
    }
}

static void give_back(const struct memory *memory, uint32_t frame) {
    if (frame == PAGESHARE_NO_FRAME) return;
    if (madvise(memory->written + (size_t)frame * PAGE, PAGE, MADV_REMOVE) != 0) stop("madvise");
}

/* Takes back one page of a client: from then on it is in the client's own memory again. */
static void take_back(struct pageshare_domain *domain, const struct memory *memory, uint32_t n) {
    uint32_t freed;
    if (pageshare_domain_release(domain, n % CLIENTS, lent[n].slot, &freed) != PAGESHARE_OK) stop("release");
    lent[n].is = false;
    give_back(memory, freed);
}

/* A client's process has ended: its slots are released, some at a time. */
static void leave(struct pageshare_domain *domain, const struct memory *memory, uint32_t client) {
    uint32_t freed[PART];
    size_t count = 1;
    for (uint32_t n = client; n < PAGES; n += CLIENTS) lent[n].is = false;
    while (count != 0) {
        if (pageshare_domain_leave(domain, client, freed, PART, &count) != PAGESHARE_OK) stop("leave");
        for (size_t i = 0; i < count; i++) give_back(memory, freed[i]);
    }
}

static void show(const char *when, struct pageshare_domain *domain, const struct memory *memory) {
    struct pageshare_domain_totals totals;
    if (pageshare_domain_report(domain, &totals) != PAGESHARE_OK) stop("report");
    check_all(memory);
    printf("%s: %u clients, %u pages lent, %u frames, %u reclaimed, the file holds %ld pages\n", when, (unsigned)totals.clients,
           (unsigned)totals.slots, (unsigned)totals.frames, (unsigned)totals.reclaimed, held(memory));
}

int main(void) {
    struct memory memory = open_memory();
    struct pageshare_domain domain = PAGESHARE_DOMAIN_NONE;
    struct pageshare_domain_config config = {.size = sizeof config,
                                             .machines = MACHINES,
                                             .slots = PAGES,
                                             .frames = FRAMES,
                                             .clients = CLIENTS,
                                             .recent = PAGES,
                                             .hash = PAGESHARE_FOLD,
                                             .salt = 7,
                                             .seed = 9,
                                             .region = memory.written,
                                             .region_bytes = (size_t)MACHINES * FRAMES * PAGE};
    uint32_t client, status = pageshare_domain_make(&domain, &config);
    if (status != PAGESHARE_OK) {
        fprintf(stderr, "no domain: status %u\n", (unsigned)status);
        return 1;
    }
    for (uint32_t i = 0; i < CLIENTS; i++)
        if (pageshare_domain_enter(&domain, &client) != PAGESHARE_OK || client != i) stop("enter");
    for (uint32_t i = 0; i < CLIENTS; i++) look(&domain, i);
    show("looked once", &domain, &memory);
    for (uint32_t i = 0; i < CLIENTS; i++) look(&domain, i);
    show("looked twice", &domain, &memory);
    for (uint32_t n = 0; n < 18; n++)
        if (lent[n].is) take_back(&domain, &memory, n);
    show("some written to", &domain, &memory);
    leave(&domain, &memory, 1);
    show("one has left", &domain, &memory);
    pageshare_domain_free(&domain);
    return 0;
}
