/* System calls that fail when a test wants it. Linked with -Wl,--wrap for ioctl, madvise, mremap, fallocate, syscall. */
#ifndef PAGESHARE_WINDOW_FAULTS_H
#define PAGESHARE_WINDOW_FAULTS_H

#include <stdbool.h>
#include <stddef.h>
#include <stdint.h>

/* Each counts calls that are yet to fail. */
struct planned {
    int protects;                 /* write protection fails half-way, having protected half of the range */
    int puts;                     /* a page can't be moved into a window, nor copied, nor remapped */
    int copies;                   /* a mapping can't be copied or moved into a window */
    int releases;                 /* a registration isn't ended */
    int populates;                /* MADV_POPULATE_WRITE fails with EINVAL */
    int reads, huge;              /* MADV_POPULATE_READ, MADV_HUGEPAGE fails with ENOMEM */
    int small;                    /* MADV_NOHUGEPAGE of a part of the window fails with ENOMEM */
    int advices;                  /* the advice of this number fails with ENOMEM, said of half of the pages; 0: none */
    int unmergeables;             /* MADV_UNMERGEABLE of a part of the window fails with ENOMEM */
    int dumps;                    /* MADV_DONTDUMP of a part of the window fails with ENOMEM */
    int punches;                  /* fallocate fails with EINTR */
    int policies, policies_cause; /* a memory policy can't be read, with this errno */
    uintptr_t window, window_end; /* where pages can't be put */
    void (*watches)(uintptr_t at, size_t bytes); /* is called before a part of the window is watched; NULL: nothing */
    void (*maps)(uintptr_t at, size_t bytes);    /* and after something was mapped there that lay elsewhere */
};
extern struct planned planned;

#endif
