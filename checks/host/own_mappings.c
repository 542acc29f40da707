/* A library that is preloaded into a monitor, and gives it OWN_MAPPINGS mappings of its own, as large programs have. */
#define _GNU_SOURCE
#include <stdio.h>
#include <stdlib.h>
#include <sys/mman.h>

enum { PAGE = 4096 };

__attribute__((constructor)) static void begin(void) {
    const char *said = getenv("OWN_MAPPINGS");
    const size_t count = said ? strtoul(said, NULL, 10) : 0;
    if (count == 0) return;
    char *at = mmap(NULL, count * PAGE, PROT_NONE, MAP_PRIVATE | MAP_ANONYMOUS | MAP_NORESERVE, -1, 0);
    if (at == MAP_FAILED) perror("mmap"), exit(2);
    for (size_t i = 0; i < count; i += 2) /* (each neighbour may do something else) */
        if (mprotect(at + i * PAGE, PAGE, PROT_READ) != 0) perror("mprotect"), exit(2);
}
