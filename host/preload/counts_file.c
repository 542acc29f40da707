#define _GNU_SOURCE
#include "counts_file.h"
#include "filter.h"
#include "sharing.h"
#include "trouble.h"
#include <fcntl.h>
#include <stdatomic.h>
#include <sys/mman.h>

static int file = NOTHING;
static _Atomic(const char *) noted;

void counts_file_make(void) {
    file = sharing_own(memfd_create(COUNTS_NAME, MFD_CLOEXEC | MFD_ALLOW_SEALING));
    if (file < 0) return;
    /* (a reader that finds it unsealed, or of another size, leaves it alone) */
    if (ftruncate(file, COUNTS_BYTES) == 0) fcntl(file, F_ADD_SEALS, F_SEAL_SHRINK | F_SEAL_GROW | F_SEAL_SEAL);
    counts_file_write(&(struct windows_counts){.windows = 0}, COUNTS_SHARES, 0, 0);
}

void counts_file_note(const char *why) { atomic_store(&noted, why); }
void counts_file_forget(const char *why) { atomic_compare_exchange_strong(&noted, &why, NULL); }

void counts_file_write(const struct windows_counts *now, enum counts_state state, unsigned percent, unsigned limit) {
    struct counts counts = {.version = COUNTS_VERSION,
                            .pages = now->pages,
                            .mappings = now->mappings,
                            .mappings_most = now->mappings_most,
                            .parts_whole = now->parts_whole,
                            .parts_split = now->parts_split,
                            .parts_huge = now->parts_huge,
                            .round_ns = now->round_ns,
                            .is_filtered = filter_is_on(),
                            .lent = now->lent,
                            .state = state,
                            .zeros = now->zeros_now,
                            .library_bytes = now->table_bytes,
                            .percent = percent,
                            .limit = limit};
    const char *why = atomic_load(&noted);
    char words[COUNTS_WHY_MOST] = "";
    if (why) snprintf(words, sizeof words, "%s", why);
    if (file < 0 || (pwrite(file, &counts, sizeof counts, 0) == (ssize_t)sizeof counts &&
                     pwrite(file, words, sizeof words, COUNTS_WHY_AT) == (ssize_t)sizeof words))
        return;
    close(file);
    file = NOTHING;
}

struct counts_wanted counts_file_wanted(void) {
    static struct counts_wanted wanted;
    struct counts_wanted now;
    if (file >= 0 && pread(file, &now, sizeof now, COUNTS_WANTED_AT) == (ssize_t)sizeof now) wanted = now;
    return wanted;
}
