/*
 * Memory in which the proved library keeps what it knows of windows (window/pageshare_process.h): each block is a mapping of its own, as tables of windows
 * are. The monitor's malloc may be busy in a thread that waits for one of the locks here.
 */
#include "kernel.h"
#include <string.h>

/* What stands before each block. */
struct head {
    size_t bytes; /* of the block */
    size_t unused;
};
_Static_assert(sizeof(struct head) % 16 == 0, "blocks are aligned to 16 bytes");

/* What the library gets. Where it is refused a block, `at` is one that it doesn't touch. */
struct tried {
    bool ok;
    void *at;
};
struct tried rattle_alloc(size_t bytes, size_t align);
struct tried rattle_realloc(void *at, size_t kept, size_t bytes, size_t align);
void rattle_dealloc(void *at);

struct tried rattle_alloc(size_t bytes, size_t align) {
    static _Alignas(16) unsigned char nothing[16];
    struct head *head = bytes <= SIZE_MAX - sizeof *head ? table_make(1, sizeof *head + bytes) : NULL;
    (void)align; /* (at most 16) */
    if (head == NULL) return (struct tried){false, nothing};
    head->bytes = bytes;
    return (struct tried){true, head + 1};
}

void rattle_dealloc(void *at) {
    struct head *head = (struct head *)at - 1;
    table_free(head, 1, sizeof *head + head->bytes);
}

/* A block that can't be had leaves the old one as it is. */
struct tried rattle_realloc(void *at, size_t kept, size_t bytes, size_t align) {
    const size_t before = ((struct head *)at - 1)->bytes;
    struct tried made = rattle_alloc(bytes, align);
    if (!made.ok) return (struct tried){false, at};
    (void)kept; /* (how much of it is in use) */
    memcpy(made.at, at, before < bytes ? before : bytes);
    rattle_dealloc(at);
    return made;
}
