#define _GNU_SOURCE
#include "strict.h"
#include "../bytes.h"
#include "calls.h"
#include <errno.h>
#include <fcntl.h>
#include <string.h>
#include <sys/mman.h>
#include <unistd.h>

/* Slots have numbers of all sizes. */
enum { APART = 4099, OVERWRITTEN = 0xee };

static uint64_t slot_of(size_t place) {
    uint64_t number = (uint64_t)place * APART;
    return number / WINDOW_SLOT_RESTS << 32 | number % WINDOW_SLOT_RESTS;
}

/* The place of a slot in the list; STRICT_SLOTS if it isn't one that was given. */
static size_t place_of(const struct strict_lender *lender, uint64_t slot) {
    uint64_t number = (slot >> 32) * WINDOW_SLOT_RESTS + (uint32_t)slot, place = number / APART;
    return window_is_slot(slot) && number % APART == 0 && place < lender->slot_count ? (size_t)place : STRICT_SLOTS;
}

static unsigned char *frame_at(const struct strict_lender *lender, uint32_t frame) {
    return lender->bytes + (size_t)frame * WINDOW_PAGE_BYTES;
}

/* Whether a frame in use has this fingerprint. */
static bool has_frame(const struct strict_lender *lender, uint64_t fingerprint) {
    for (uint32_t frame = 0; frame < lender->interface.frame_count; frame++)
        if (lender->frames[frame].users > 0 && lender->frames[frame].fingerprint == fingerprint) return true;
    return false;
}

static int ask(void *opaque, const uint32_t *pages, const uint64_t *fingerprints, const bool *passing, size_t count,
               unsigned char *seen) {
    struct strict_lender *lender = opaque;
    int cause = calls_of_lender(CALL_ASK);
    for (size_t i = 0; i < count && cause == 0; i++) {
        size_t place = fingerprints[i] % STRICT_NOTED;
        bool is_noted = lender->noted[place] == fingerprints[i];
        seen[i] = (is_noted && lender->noted_pages[place] != pages[i]) || has_frame(lender, fingerprints[i]);
        if (is_noted || passing[i]) continue;
        lender->noted[place] = fingerprints[i];
        lender->noted_pages[place] = pages[i];
    }
    return cause;
}

/* The frame that has a page's bytes, or else a free one that gets them; WINDOW_NO_FRAME if there is none. */
static uint32_t frame_for(struct strict_lender *lender, const unsigned char *bytes) {
    uint32_t free = WINDOW_NO_FRAME;
    for (uint32_t frame = lender->interface.frame_count; frame-- > 0;) {
        if (lender->frames[frame].users == 0) free = frame;
        else if (memcmp(frame_at(lender, frame), bytes, WINDOW_PAGE_BYTES) == 0) return frame;
    }
    if (free == WINDOW_NO_FRAME) return free;
    memcpy(frame_at(lender, free), bytes, WINDOW_PAGE_BYTES);
    lender->frames[free].fingerprint = fingerprint_of(STRICT_SALT, bytes);
    return free;
}

static int lend(void *opaque, const uint32_t *pages, size_t count, struct window_loan *loans) {
    struct strict_lender *lender = opaque;
    int cause = calls_of_lender(CALL_LEND);
    for (size_t i = 0; i < count && cause == 0; i++) {
        uint32_t frame = lender->slot_count < STRICT_SLOTS ? frame_for(lender, lender->interface.pages[i]) : WINDOW_NO_FRAME;
        loans[i].frame = frame;
        if (frame == WINDOW_NO_FRAME) continue;
        loans[i].slot = slot_of(lender->slot_count);
        lender->slots[lender->slot_count++] = (struct strict_slot){.page = pages[i], .frame = frame};
        lender->slots_left++;
        lender->frames[frame].users++;
    }
    return cause;
}

static int release(void *opaque, const uint64_t *slots, size_t count) {
    struct strict_lender *lender = opaque;
    int cause = calls_of_lender(CALL_RELEASE);
    for (size_t i = 0; i < count && cause == 0; i++) {
        size_t place = place_of(lender, slots[i]);
        if (place == STRICT_SLOTS || lender->slots[place].is_released) {
            lender->wrong++;
            continue;
        }
        uint32_t frame = lender->slots[place].frame;
        lender->slots[place].is_released = true;
        lender->slots_left--;
        if (--lender->frames[frame].users == 0) memset(frame_at(lender, frame), OVERWRITTEN, WINDOW_PAGE_BYTES);
    }
    return cause;
}

void strict_find_none(struct strict_lender *lender) {
    for (size_t i = 0; i < lender->slot_count; i++) lender->slots[i].is_found = false;
}

bool strict_find(struct strict_lender *lender, uint32_t page, uint64_t slot) {
    size_t place = place_of(lender, slot);
    if (place == STRICT_SLOTS) return false;
    struct strict_slot *found = &lender->slots[place];
    bool is_so = !found->is_released && !found->is_found && found->page == page;
    found->is_found = true;
    return is_so;
}

bool strict_are_all_found(const struct strict_lender *lender) {
    bool are = true;
    for (size_t i = 0; i < lender->slot_count; i++) are = are && lender->slots[i].is_found != lender->slots[i].is_released;
    return are;
}

/* Memory of the lender's own; NULL if the system has none. */
static void *memory_for(size_t bytes) {
    void *at = mmap(NULL, bytes, PROT_READ | PROT_WRITE, MAP_PRIVATE | MAP_ANONYMOUS, -1, 0);
    return at == MAP_FAILED ? NULL : at;
}

bool strict_make(struct strict_lender *lender, uint32_t frames) {
    const size_t bytes = (size_t)frames * WINDOW_PAGE_BYTES;
    *lender = (struct strict_lender){.file = memfd_create("frames", MFD_CLOEXEC | MFD_ALLOW_SEALING)};
    bool is_made = lender->file >= 0 && ftruncate(lender->file, (off_t)bytes) == 0;
    if (!is_made || fcntl(lender->file, F_ADD_SEALS, F_SEAL_SHRINK) != 0) return false;
    void *at = mmap(NULL, bytes, PROT_READ | PROT_WRITE, MAP_SHARED, lender->file, 0);
    lender->bytes = at == MAP_FAILED ? NULL : at;
    lender->frames = memory_for(frames * sizeof *lender->frames);
    lender->slots = memory_for(STRICT_SLOTS * sizeof *lender->slots);
    lender->interface = (struct window_lender){.opaque = lender,
                                               .frames = lender->file,
                                               .frame_count = frames,
                                               .salt = STRICT_SALT,
                                               .pages = memory_for(WINDOW_BATCH * WINDOW_PAGE_BYTES),
                                               .ask = ask,
                                               .lend = lend,
                                               .release = release};
    return lender->bytes != NULL && lender->frames != NULL && lender->slots != NULL && lender->interface.pages != NULL;
}

void strict_free(struct strict_lender *lender) {
    const uint32_t frames = lender->interface.frame_count;
    munmap(lender->bytes, (size_t)frames * WINDOW_PAGE_BYTES);
    munmap(lender->frames, frames * sizeof *lender->frames);
    munmap(lender->slots, STRICT_SLOTS * sizeof *lender->slots);
    munmap(lender->interface.pages, WINDOW_BATCH * WINDOW_PAGE_BYTES);
    close(lender->file);
    lender->slot_count = 0;
}
