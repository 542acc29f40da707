/*
 * A stand-in for a monitor with a malloc of its own, to be run under libpageshare-window.so. As some do, this malloc gives memory back to the
 * system while it has its lock. So the library must not call it while it has a lock itself: each would wait for the other one. Nor may its
 * thread call it, whose advice goes to the system as it is. Prints what isn't so, and at last "own-malloc: good" (status 0) or
 * "own-malloc: WRONG" (1).
 */
#define _GNU_SOURCE
#include "offered.h"
#include <errno.h>
#include <fcntl.h>
#include <malloc.h>
#include <pthread.h>
#include <stdatomic.h>
#include <sys/prctl.h>

enum { PAGE = 4096, PAGES = 1024, SECONDS = 30, RUN_SECONDS = 8, LEAST_CLASS = 5, CLASSES = 40, OFTEN = 64 };
enum { ARENA_BYTES = 256 << 20 };

/* ---- malloc ---- */

struct block {
    size_t class;
    union {
        struct block *next; /* of a free one */
        char bytes[1];
        max_align_t aligned;
    };
};

static pthread_mutex_t lock = PTHREAD_MUTEX_INITIALIZER;
static _Alignas(PAGE) char arena[ARENA_BYTES];
static size_t used;
static struct block *free_blocks[CLASSES];
static _Atomic(uint8_t *) range; /* that was offered */
static atomic_ulong calls, given_back, not_zeros, by_library;

static void fill_page(size_t page) { memset(range + page * PAGE, (int)(1 + page / 2 % 100), PAGE); }

/* Gives a page back, and uses it again. With the lock. */
static void give_back(void) {
    size_t page = atomic_fetch_add(&given_back, 1) % PAGES;
    uint8_t *at = range + page * PAGE;
    if (madvise(at, PAGE, MADV_DONTNEED) != 0) abort();
    for (size_t i = 0; i < PAGE; i++) not_zeros += at[i] != 0;
    fill_page(page);
}

/* Whether the caller is the library's thread. */
static bool is_library(void) {
    char name[16] = "";
    prctl(PR_GET_NAME, name);
    return strcmp(name, "pageshare") == 0;
}

static struct block *take(size_t class) {
    struct block *block = free_blocks[class];
    size_t bytes = offsetof(struct block, bytes) + ((size_t)1 << class);
    if (block == NULL) {
        if (bytes > ARENA_BYTES - used) return NULL;
        block = (struct block *)(void *)(arena + used);
        used += (bytes + 15) / 16 * 16;
    } else free_blocks[class] = block->next;
    block->class = class;
    return block;
}

/* (apart from malloc: a compiler makes calloc of that and of zeros) */
static void *allocate(size_t bytes) {
    size_t class = LEAST_CLASS;
    while (class < CLASSES - 1 && (size_t)1 << class < bytes) class ++;
    by_library += is_library();
    pthread_mutex_lock(&lock);
    struct block *block = take(class);
    if (range != NULL && calls++ % OFTEN == 0) give_back();
    pthread_mutex_unlock(&lock);
    if (block == NULL) errno = ENOMEM;
    return block ? block->bytes : NULL;
}

void *malloc(size_t bytes) { return allocate(bytes); }

static struct block *block_of(void *at) { return (struct block *)(void *)((char *)at - offsetof(struct block, bytes)); }

void free(void *at) {
    if (at == NULL) return;
    struct block *block = block_of(at);
    pthread_mutex_lock(&lock);
    block->next = free_blocks[block->class];
    free_blocks[block->class] = block;
    pthread_mutex_unlock(&lock);
}

void *calloc(size_t count, size_t bytes) {
    void *at = allocate(count * bytes);
    return at ? memset(at, 0, count * bytes) : NULL;
}

void *realloc(void *before, size_t bytes) {
    void *at = malloc(bytes);
    size_t had = before ? (size_t)1 << block_of(before)->class : 0;
    if (at && before) memcpy(at, before, had < bytes ? had : bytes);
    if (at) free(before);
    return at;
}

/* (nothing here asks for more than malloc's alignment) */
void *memalign(size_t alignment, size_t bytes) {
    if (alignment > 16) abort();
    return malloc(bytes);
}
void *aligned_alloc(size_t alignment, size_t bytes) { return memalign(alignment, bytes); }
int posix_memalign(void **at, size_t alignment, size_t bytes) { return (*at = memalign(alignment, bytes)) ? 0 : ENOMEM; }

/* ---- the monitor ---- */

static atomic_bool over;

static void *use_memory(void *unused) {
    void *volatile held[64] = {NULL};
    for (size_t i = 0; !atomic_load(&over); i++) {
        free(held[i % 64]);
        held[i % 64] = malloc(1 + i * 7919 % 4000);
        if (i % 256 == 0) usleep(1000);
    }
    return unused;
}

/* Then each look of the library looks at all descriptors anew. */
static void *use_files(void *unused) {
    while (!atomic_load(&over)) {
        int file = open("/dev/null", O_RDWR | O_CLOEXEC);
        if (file < 0 || close(file) != 0) exit(2);
        usleep(1000);
    }
    return unused;
}

static uint8_t *offered(void) {
    uint8_t *at = mmap(NULL, PAGES * PAGE, PROT_READ | PROT_WRITE, MAP_PRIVATE | MAP_ANONYMOUS, -1, 0);
    if (at == MAP_FAILED) exit(2);
    for (size_t page = 0; page < PAGES; page++) memset(at + page * PAGE, (int)(1 + page / 2 % 100), PAGE);
    madvise(at, PAGES * PAGE, MADV_MERGEABLE);
    madvise(at, PAGES * PAGE, MADV_DONTFORK);
    return at;
}

int main(void) {
    static void *(*const uses[])(void *) = {use_memory, use_memory, use_files};
    pthread_t threads[3];
    uint8_t *at = offered();
    bool is_lent = wait_for_count("lent", PAGES, SECONDS);
    alarm(SECONDS); /* (a thread that waits for ever ends the program) */
    atomic_store(&range, at);
    for (size_t i = 0; i < 3; i++)
        if (pthread_create(&threads[i], NULL, uses[i], NULL) != 0) exit(2);
    long looks = library_count("looks");
    sleep(RUN_SECONDS);
    atomic_store(&over, true);
    for (size_t i = 0; i < 3; i++) pthread_join(threads[i], NULL);
    looks = library_count("looks") - looks;
    printf("  %lu calls of malloc, %lu pages given back, %ld looks meanwhile\n", calls, given_back, looks);
    if (!is_lent || looks == 0) printf("not so: pages are lent, and looked at\n");
    if (not_zeros > 0) printf("not so: what is given back is zeros, but for %lu bytes\n", not_zeros);
    if (by_library > 0) printf("not so: the library's thread calls no malloc, but for %lu times\n", by_library);
    bool is_good = is_lent && looks > 0 && not_zeros == 0 && by_library == 0;
    printf("own-malloc: %s\n", is_good ? "good" : "WRONG");
    return is_good ? 0 : 1;
}
