/* What windows ask of Linux. Calls return 0 or an errno, unless said otherwise. */
#ifndef PAGESHARE_WINDOW_KERNEL_H
#define PAGESHARE_WINDOW_KERNEL_H

#include "lender.h"

enum { NO_FILE = -1, NODE_WORDS = 16 /* memory nodes, 64 in a word */ };

static inline size_t bytes_of(size_t pages) { return pages * WINDOW_PAGE_BYTES; }

/* A userfaultfd of this process. */
struct faults {
    int fd;
    bool moves; /* it has UFFDIO_MOVE */
};

/* `device`: a descriptor of /dev/userfaultfd, or 0: it is opened, or else the system call is tried. */
int faults_open(struct faults *faults, int device, bool never_move);

/* Makes threads wait that touch a missing page (FAULTS_OF_MISSING) or write to a protected one (FAULTS_OF_WRITES). Where it fails nobody waits. */
enum faults_of { FAULTS_OF_MISSING, FAULTS_OF_WRITES };
int faults_watch(const struct faults *faults, void *at, size_t pages, enum faults_of of);
/* Ends that, lifts write protection, and wakes threads that wait. The range may have been mapped anew in between. */
int faults_end_watch(const struct faults *faults, void *at, size_t pages);
/* Wakes threads that wait for pages that have been mapped anew meanwhile. Waits for nobody itself. */
int faults_wake(const struct faults *faults, void *at, size_t pages);
/* Where it fails a part of the pages may be protected. */
int faults_protect(const struct faults *faults, void *at, size_t pages);

/*
 * Moves pages out of their place, and notes of each whether it was moved. It isn't if it is missing, or if the system has it in other
 * uses too, as that of a device that has pinned it. Nobody is woken.
 */
void faults_move(const struct faults *faults, void *to, void *from, size_t pages, bool *moved);
/* Puts a page at its place, where none is: it is moved, or copied if that can't be, or else its mapping is moved: *remapped. */
int faults_put(const struct faults *faults, void *to, void *from, bool *remapped);

/* What a look finds of a page. */
enum { PAGE_NONE, PAGE_PRESENT, PAGE_SWAPPED };

/* How pages with memory of their own are found. */
struct pagemap {
    int fd;
    bool scans; /* it has PAGEMAP_SCAN */
};
int pagemap_open(struct pagemap *pagemap, bool never_scan);
enum { PAGEMAP_MOST = 512 };
/*
 * Finds which of up to PAGEMAP_MOST pages have memory of their own: no file's page, not the page of zeros, no guard's mark. `over`:
 * those that lie over a file's, or NULL if any may; it takes long to tell these from a file's page. `*is_huge`: all of PAGEMAP_MOST
 * pages are one huge page; true also if the system doesn't say.
 */
int pagemap_find(const struct pagemap *pagemap, const void *at, size_t pages, const bool *over, uint8_t *found, bool *is_huge);
/* Whether PAGEMAP_MOST pages are one huge page; false if the system doesn't say. */
bool pagemap_is_huge(const struct pagemap *pagemap, const void *at);
/* Returns 0 if each of up to PAGEMAP_MOST pages is there and guarded against writes, and else an errno. */
int pagemap_are_guarded(const struct pagemap *pagemap, const void *at, size_t pages);
/* Finds which of up to PAGEMAP_MOST pages have memory of their own that isn't swapped out. They may be guarded, but not missing. */
int pagemap_find_copies(const struct pagemap *pagemap, const void *at, size_t pages, bool *own);
/* Finds which of up to PAGEMAP_MOST pages have memory of their own, asked in another way: none if that can't be known. */
void pagemap_find_own(const struct pagemap *pagemap, const void *at, size_t pages, bool *own);
bool pagemap_is_own(const struct pagemap *pagemap, const void *at);

/* A memory policy of mbind. */
struct policy {
    int mode;
    unsigned long nodes[NODE_WORDS];
};

/* What was said of a range of memory. */
struct advice {
    bool dont_fork, wipe_on_fork, dont_dump, no_huge, huge, mergeable;
    bool
        is_reserved; /* the system counts it as memory that it has promised: it wasn't mapped by MAP_NORESERVE. It isn't said again */
    struct policy policy;
};
struct range_facts {
    bool is_private;            /* private anonymous memory, for reading and writing, without a gap */
    bool is_uniform;            /* all of it has the same advice */
    bool is_locked, is_watched; /* a part of it is; by a userfaultfd */
    size_t mappings;            /* of the system, that it meets */
    struct advice advice;
    int policy_cause; /* the errno with which the system didn't tell a memory policy of it, or 0 */
};
int range_read(struct range_facts *facts, const void *at, size_t pages);

/* A mapping of the system. */
struct mapping_facts {
    size_t pages;   /* how many of those that were asked about are in it */
    int protection; /* PROT_READ .. */
    bool is_locked;
    struct advice advice;
};
/* Reads in which mapping a page is, of `most` pages from there on. That takes long where the process has many mappings. */
int mapping_read(struct mapping_facts *facts, const void *at, size_t most);
/* Asks the same, but for what was said of the mapping and whether it is locked. Returns an errno where the system has no such question. */
int mapping_ask(struct mapping_facts *facts, const void *at, size_t most);

/* What is mapped anew: frames, memory in pages of 4,096 bytes, or memory that may be huge pages. */
enum memory { MEMORY_OF_FRAMES, MEMORY_SMALL, MEMORY_HUGE };
/*
 * Says of a range that was mapped anew what was said of the window, but for what it `has` already: what it was copied from had that. NULL: it
 * has nothing. Of frames no memory policy is said, which would be the file's.
 */
int advice_set(const struct advice *advice, const struct advice *has, void *at, size_t pages, enum memory memory);
/* Whether the system may back memory of which this was said by huge pages of PAGEMAP_MOST pages. */
bool advice_allows_huge(const struct advice *advice);
/* The huge page there becomes small pages; huge pages leave the range alone from then on. */
int advice_split(void *at, size_t pages, bool is_huge);
/* Says that huge pages leave the range alone, or puts back what was said before, also of KSM. */
int advice_begin(void *at, size_t pages);
int advice_end(const struct advice *advice, void *at, size_t pages);
/* Says of memory of its own, which was mapped in the place of frames, what was `now` said there, and of huge pages and KSM `before`. */
int advice_give(const struct advice *now, const struct advice *before, void *at, size_t pages);
/* Says one thing of a range. Returns 0 also if the kernel was built without it. */
int advice_say(void *at, size_t pages, int advice);

/* Finds whether `is_it` says so of any locked mapping of the process. It is called with the mapping's bounds. Returns 0 or an errno. */
int locked_find(bool (*is_it)(void *opaque, const uint8_t *begin, const uint8_t *end), void *opaque, bool *any);
/* The same of any that a userfaultfd watches. */
int watched_find(bool (*is_it)(void *opaque, const uint8_t *begin, const uint8_t *end), void *opaque, bool *any);

/*
 * Puts a copy of a mapping that nobody has written to in the place of pages, in one step also for a fork of another thread. What was said
 * of the mapping, such as MADV_DONTFORK, holds of the copy from the beginning. The mapping stays.
 */
int mapping_copy(void *at, const void *from, size_t pages);
/*
 * Puts pages of a file there, from its page `file_page` on, which no child of a fork ever has; or zeros, which the system counts as memory that
 * it has promised, or not. Where it fails nothing has changed.
 */
int mapping_put(void *at, size_t pages, int protection, int file, size_t file_page);
int mapping_put_zeros(void *at, size_t pages, int protection, bool are_reserved);

/*
 * Maps memory for the library itself, as mmap does, far from the places that the system chooses by itself. A process may leave a hole in a
 * range, and unmap the whole range later: what was mapped into the hole meanwhile would go along.
 */
void *map_apart(size_t bytes, int protection, int flags, int file);
/*
 * Unmaps memory of the library itself. The system may refuse that where the process has as many mappings as it may have: then
 * the memory is given back, and unmap_again unmaps the rest later.
 */
void unmap_apart(void *at, size_t bytes);
/* Tries again to unmap what the system refused to unmap. Not with a lock. */
void unmap_again(void);
/* How many times the system refused that, of what is still mapped. */
size_t left_mapped(void);
/*
 * Memory of zeros for a table, in a mapping of its own: the process's malloc may be busy, or another's. NULL if there is none. Its pages take
 * memory as they are written.
 */
void *table_make(size_t count, size_t bytes_each);
/* `table` may be NULL. */
void table_free(void *table, size_t count, size_t bytes_each);

/* Reads how many KiB of this process are locked. */
int locked_kib(size_t *kib);
/* KiB of this process that the kernel's KSM has merged, rounded up; 0 if the system doesn't show them. */
size_t merged_kib(void);
/* The system's limit of a process's mappings. */
size_t mappings_limit(void);

/* Nanoseconds of a clock that only runs forward, and of this thread's processor time. */
uint64_t clock_now_ns(void);
uint64_t clock_spent_ns(void);
/* How often this thread lost its processor to another one. */
uint64_t losses_of_processor(void);

#endif
