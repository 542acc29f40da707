#define _GNU_SOURCE
#include "tables.h"
#include "trouble.h"
#include <pthread.h>
#include <stddef.h>
#include <sys/mman.h>

/* A block that is so large is a mapping of its own. */
enum { LARGE = 1 << 18, STEP = 512 /* pages that are looked at together */ };

/* What stands before each block. A mapping begins with a page of which this is the end, so that the block is whole pages. */
struct head {
    struct head *before, *next; /* in the list of mappings, the newest one first; itself, if it is none */
    size_t bytes;               /* of the block */
    size_t looked_at;           /* 1: its pages of zeros were given back */
};
_Static_assert(sizeof(struct head) % 16 == 0, "blocks are aligned to 16 bytes");

/* What the library gets. Where it is refused a block, `at` is one that it doesn't touch. */
struct tried {
    bool ok;
    void *at;
};
struct tried rattle_alloc(size_t bytes, size_t align);
struct tried rattle_realloc(void *at, size_t kept, size_t bytes, size_t align);
void rattle_dealloc(void *at);
void *__wrap_memset(void *at, int byte, size_t bytes);
void *__real_memset(void *at, int byte, size_t bytes); /* the C library's */

static _Alignas(16) unsigned char nothing[16];
static pthread_mutex_t lock = PTHREAD_MUTEX_INITIALIZER; /* round the list */
static struct head mappings = {.before = &mappings, .next = &mappings};
static bool are_made; /* the library has all its tables, so other threads write to them */

static void *block_of(struct head *head) { return head + 1; }
static struct head *head_of(void *block) { return (struct head *)block - 1; }
static size_t mapped_bytes(const struct head *head) { return PAGE + head->bytes; }

static bool is_zero(const uint8_t *page) {
    const uint64_t *words = (const uint64_t *)(const void *)page;
    for (size_t i = 0; i < PAGE / sizeof *words; i++)
        if (words[i] != 0) return false;
    return true;
}

/* Whole pages from `at` on; those that have no memory aren't read. Returns how many are given back. */
static size_t give_back(uint8_t *at, size_t pages) {
    unsigned char has_memory[STEP];
    size_t given = 0;
    if (mincore(at, pages * PAGE, has_memory) != 0) return 0;
    for (size_t i = 0, end; i < pages; i = end + 1) {
        for (end = i; end < pages && (has_memory[end] & 1) != 0 && is_zero(at + end * PAGE); end++) {
        }
        if (end > i && madvise(at + i * PAGE, (end - i) * PAGE, MADV_DONTNEED) == 0) given += end - i;
    }
    return given;
}

/* Returns how many pages of a block are given back. */
static size_t give_block_back(struct head *head) {
    size_t given = 0;
    for (size_t at = 0; at + PAGE <= head->bytes; at += (size_t)STEP * PAGE) {
        size_t pages = (head->bytes - at) / PAGE;
        given += give_back((uint8_t *)block_of(head) + at, pages < STEP ? pages : STEP);
    }
    head->looked_at = 1;
    return given;
}

/*
 * Gives zeros of the blocks back that weren't looked at, with the lock. The library fills one table after the other, and asks for the
 * next block when the one before is filled. So the tables of zeros never take memory all at once. A block that isn't filled yet stays
 * right, too.
 */
static void give_new_back(void) {
    for (struct head *head = mappings.next; head != &mappings && !head->looked_at; head = head->next) give_block_back(head);
}

static struct head *map_block(size_t bytes) {
    uint8_t *at = mmap(NULL, PAGE + bytes, PROT_READ | PROT_WRITE, MAP_PRIVATE | MAP_ANONYMOUS, -1, 0);
    if (at == MAP_FAILED) return NULL;
    struct head *head = head_of(at + PAGE);
    pthread_mutex_lock(&lock);
    if (!are_made) give_new_back();
    *head = (struct head){.before = &mappings, .next = mappings.next, .bytes = bytes};
    mappings.next->before = head;
    mappings.next = head;
    pthread_mutex_unlock(&lock);
    return head;
}

struct tried rattle_alloc(size_t bytes, size_t align) {
    struct head *head = NULL;
    (void)align; /* (at most 16) */
    if (bytes > SIZE_MAX - 2 * PAGE) return (struct tried){false, nothing};
    if (bytes >= LARGE) head = map_block(bytes);
    else if ((head = malloc(sizeof *head + bytes)) != NULL) *head = (struct head){.before = head, .next = head, .bytes = bytes};
    return head ? (struct tried){true, block_of(head)} : (struct tried){false, nothing};
}

void rattle_dealloc(void *at) {
    struct head *head = head_of(at);
    if (head->next == head) {
        free(head);
        return;
    }
    pthread_mutex_lock(&lock);
    head->before->next = head->next;
    head->next->before = head->before;
    pthread_mutex_unlock(&lock);
    munmap((uint8_t *)at - PAGE, mapped_bytes(head));
}

/* Whether a range lies in the block of a mapping. With the lock. */
static bool is_in_mapping(const uint8_t *at, size_t bytes) {
    for (struct head *head = mappings.next; head != &mappings; head = head->next) {
        size_t from = (size_t)((uintptr_t)at - (uintptr_t)block_of(head));
        if (from <= head->bytes && bytes <= head->bytes - from) return true;
    }
    return false;
}

/*
 * The library fills its tables of zeros by memset, which the host is linked to call as this function (ld's --wrap). Whole pages of
 * a mapping are zeros as soon as they are given back, and a new mapping's are zeros already. So such a table costs no memory, and no
 * time. Everything else is memset's.
 */
void *__wrap_memset(void *at, int byte, size_t bytes) {
    uint8_t *begin = at, *end = begin + bytes;
    if (byte != 0 || bytes < LARGE) return __real_memset(at, byte, bytes);
    uint8_t *first = begin + (PAGE - (uintptr_t)begin % PAGE) % PAGE, *last = end - (uintptr_t)end % PAGE;
    pthread_mutex_lock(&lock);
    bool is_given = !are_made && is_in_mapping(begin, bytes) && madvise(first, (size_t)(last - first), MADV_DONTNEED) == 0;
    pthread_mutex_unlock(&lock);
    if (!is_given) return __real_memset(at, byte, bytes);
    __real_memset(begin, 0, (size_t)(first - begin));
    __real_memset(last, 0, (size_t)(end - last));
    return at;
}

/* A block that can't be had leaves the old one as it is. */
struct tried rattle_realloc(void *at, size_t kept, size_t bytes, size_t align) {
    struct tried made = rattle_alloc(bytes, align);
    if (!made.ok) return (struct tried){false, at};
    size_t before = head_of(at)->bytes;
    (void)kept; /* (how much of it is in use) */
    memcpy(made.at, at, before < bytes ? before : bytes);
    rattle_dealloc(at);
    return made;
}

uint64_t tables_give_zeros_back(void) {
    uint64_t given = 0;
    pthread_mutex_lock(&lock);
    are_made = true;
    for (struct head *head = mappings.next; head != &mappings; head = head->next) given += give_block_back(head);
    pthread_mutex_unlock(&lock);
    return given * PAGE;
}
