#define _GNU_SOURCE
#include "policies.h"
#include <sys/mman.h>

/* As in linux/mempolicy.h, which systems without the kernel's headers lack. */
enum { POLICY_DEFAULT = 0, POLICY_LOCAL = 4 };
/* Frames of a part: 8 MiB to 256 MiB. The kernel has the file's policies locked while it takes those of a part off, and a lend waits. */
enum { PART_LEAST = 2048, PART_MOST = 65536 };
static const uint64_t pause_ns = 1000000000, part_ns = 1000000;

static bool say(void *at, size_t bytes, int policy) { return syscall(SYS_mbind, at, bytes, policy, NULL, 0ul, 0u) == 0; }

/*
 * Takes the policies off the frames [first, end). The kernel leaves a file's policies as they are if the mapping has the policy already
 * that is said. So another one comes first, which replaces all of them by one, in a mapping that is there for this alone.
 */
static bool clear_part(const struct frames *frames, uint32_t first, uint32_t end) {
    size_t bytes = (size_t)(end - first) * PAGE;
    void *at = mmap(NULL, bytes, PROT_NONE, MAP_SHARED | MAP_NORESERVE, frames->file, (off_t)first * PAGE);
    if (at == MAP_FAILED) return false;
    bool good = say(at, bytes, POLICY_LOCAL) && say(at, bytes, POLICY_DEFAULT);
    int cause = errno;
    munmap(at, bytes);
    errno = cause;
    return good;
}

/* The next part has as many frames as take about a millisecond. */
static void set_part(struct policies *policies, uint64_t took_ns) {
    if (took_ns > part_ns && policies->part > PART_LEAST) policies->part /= 2;
    if (took_ns < part_ns / 2 && policies->part < PART_MOST) policies->part *= 2;
}

static void clear_next(struct policies *policies, const struct frames *frames) {
    uint64_t begin = now_ns();
    uint32_t first = policies->next, end = frames->count - first < policies->part ? frames->count : first + policies->part;
    bool good = clear_part(frames, first, end);
    policies->are_none = !good && errno == ENOSYS;
    if (!good && !policies->are_none) seldom_trouble(&policies->trouble, "taking memory policies off the file of frames");
    policies->next = good && end < frames->count ? end : 0;
    set_part(policies, now_ns() - begin);
}

bool policies_clear(struct policies *policies, struct frames *frames) {
    uint64_t begin = now_ns();
    if (policies->are_none || (policies->next == 0 && begin < policies->next_ns)) return false;
    if (policies->next == 0) policies->next_ns = begin + pause_ns;
    if (policies->part == 0) policies->part = PART_MOST;
    do clear_next(policies, frames);
    while (policies->next != 0 && !atomic_load(&frames->is_wanted) && now_ns() - begin < part_ns);
    return policies->next != 0;
}
