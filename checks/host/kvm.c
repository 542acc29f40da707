/*
 * A stand-in for a monitor that says nothing of sharing, to be run under libpageshare-window.so: it gives memory to a guest of KVM, which
 * never runs. Words: DESCRIPTOR of /dev/kvm, SEED, SECONDS. First one thing after the other; then slots are made, changed and deleted,
 * and memory is written, given up and mapped anew at random for so many seconds, beside a copy of each byte. Without PAGESHARE_OFFER=kvm
 * nothing may be lent. Prints what isn't so, and at last "kvm: good" (status 0) or "kvm: WRONG" (1).
 */
#define _GNU_SOURCE
#include "offered.h"
#include <errno.h>
#include <linux/kvm.h>
#include <sys/ioctl.h>
#include <time.h>

enum { PAGE = 4096, PAGES = 512, RANGES = 6, RANGE_PAGES = 128, SECONDS = 30 };

static unsigned wrong;
static int machine;
static uint64_t seed;

static void check(bool is_so, const char *what) {
    if (is_so) return;
    printf("not so: %s (lent %ld)\n", what, library_count("lent"));
    fflush(stdout);
    wrong++;
}

static uint64_t draw(uint64_t below) {
    seed = seed * UINT64_C(6364136223846793005) + 1442695040888963407;
    return (seed >> 33) % below;
}

static uint8_t *memory(size_t pages) {
    uint8_t *at = mmap(NULL, pages * PAGE, PROT_READ | PROT_WRITE, MAP_PRIVATE | MAP_ANONYMOUS, -1, 0);
    if (at == MAP_FAILED) perror("mmap"), exit(2);
    return at;
}

/* Two pages each are equal. */
static void fill(uint8_t *at, size_t pages, unsigned first) {
    for (size_t i = 0; i < pages; i++) memset(at + i * PAGE, (int)(first + i / 2 % 100), PAGE);
}

static bool is_filled(const uint8_t *at, size_t pages, unsigned first) {
    for (size_t i = 0; i < pages * PAGE; i++)
        if (at[i] != (uint8_t)(first + i / PAGE / 2 % 100)) return false;
    return true;
}

/* Gives memory to the guest, or with no bytes takes its slot back. Returns whether KVM has done it. */
static bool give(unsigned slot, uint64_t place, const void *at, size_t bytes, unsigned flags) {
    struct kvm_userspace_memory_region region = {
        .slot = slot, .flags = flags, .guest_phys_addr = place, .memory_size = bytes, .userspace_addr = (uintptr_t)at};
    return ioctl(machine, KVM_SET_USER_MEMORY_REGION, &region) == 0;
}

/* Whether so many pages are lent within some seconds, and still after one more. */
static bool is_lent(long pages) {
    for (unsigned i = 0; i < SECONDS * 50 && library_count("lent") != pages; i++) usleep(20000);
    usleep(300000);
    return library_count("lent") == pages;
}

static void do_steps(bool is_on) {
    const size_t bytes = (size_t)PAGES * PAGE;
    const long all = is_on ? PAGES : 0;
    uint8_t *at = memory(PAGES), *other = memory(PAGES);
    uint8_t *shared = mmap(NULL, bytes, PROT_READ | PROT_WRITE, MAP_SHARED | MAP_ANONYMOUS, -1, 0);
    fill(at, PAGES, 1);
    fill(other, PAGES, 101);
    fill(shared, PAGES, 1);
    sleep(2);
    check(library_count("lent") <= 0, "no memory is lent that no guest has");
    check(give(0, 0, at, bytes, 0), "the guest has memory");
    if (!is_on) sleep(3);
    check(is_on ? is_lent(all) : library_count("lent") <= 0, "all of it is lent where that is asked for");
    check(give(1, 1 << 30, shared, bytes, 0), "the guest has shared memory");
    check(give(2, 2 << 29 | 1 << 28, other, bytes, KVM_MEM_READONLY), "the guest has memory that it can only read");
    check(give(0, 0, at, bytes, KVM_MEM_LOG_DIRTY_PAGES), "changes of its memory are logged");
    check(!is_on || is_lent(all), "only its own memory is lent, and that stays");
    check(!give(0, 0, other, bytes, 0) && errno == EINVAL, "a slot keeps its memory");
    check(!is_on || is_lent(all), "what is refused changes nothing");
    check(give(3, UINT64_C(1) << 32, at, bytes, 0), "a second slot has the same memory");
    check(give(0, 0, at, 0, 0), "the first slot is deleted");
    check(!is_on || is_lent(all), "what another slot has stays");
    check(give(3, UINT64_C(1) << 32, at, 0, 0), "the second slot is deleted");
    check(!is_on || is_lent(0), "what no slot has leaves");
    check(is_filled(at, PAGES, 1) && is_filled(other, PAGES, 101) && is_filled(shared, PAGES, 1), "all bytes are right");
    check(give(0, 0, at, bytes, 0), "the guest has it again");
    check(!is_on || is_lent(all), "and it is lent again");
    check(is_filled(at, PAGES, 1), "all bytes are right again");
    for (unsigned slot = 0; slot < 3; slot++) give(slot, 0, NULL, 0, 0);
    munmap(at, bytes);
    munmap(other, bytes);
    munmap(shared, bytes);
}

/* ---- at random ---- */

static struct {
    uint8_t *at, *copy;
    bool is_given;
} ranges[RANGES];

static void write_pages(size_t i) {
    /* (mostly in the first quarter, so that other pages are idle) */
    size_t first = draw(draw(8) == 0 ? RANGE_PAGES : RANGE_PAGES / 4), count = 1 + draw(RANGE_PAGES - first);
    if (count > 16) count = 16;
    for (size_t page = first; page < first + count; page++) {
        int byte = (int)draw(4); /* (few, so that many are equal; 0 makes zeros) */
        memset(ranges[i].at + page * PAGE, byte, PAGE);
        memset(ranges[i].copy + page * PAGE, byte, PAGE);
    }
}

static void give_up(size_t i) {
    size_t first = draw(RANGE_PAGES), bytes = (1 + draw(RANGE_PAGES - first)) * PAGE;
    if (madvise(ranges[i].at + first * PAGE, bytes, MADV_DONTNEED) == 0) memset(ranges[i].copy + first * PAGE, 0, bytes);
}

/* What the guest has may be unmapped while it has it: then its slot shows what is mapped there later. */
static void map_anew(size_t i) {
    if (mmap(ranges[i].at, RANGE_PAGES * PAGE, PROT_READ | PROT_WRITE, MAP_PRIVATE | MAP_ANONYMOUS | MAP_FIXED, -1, 0) ==
        MAP_FAILED)
        return;
    memset(ranges[i].copy, 0, RANGE_PAGES * PAGE);
}

static void give_or_take(size_t i) {
    bool is_given = !ranges[i].is_given;
    if (give((unsigned)i, (uint64_t)i << 28, ranges[i].at, is_given ? RANGE_PAGES * PAGE : 0, 0)) ranges[i].is_given = is_given;
}

static void do_at_random(unsigned seconds, bool is_on) {
    time_t end = time(NULL) + (time_t)seconds;
    size_t steps = 0;
    long most = 0;
    check(!is_on || is_lent(0), "nothing is lent of what was given back");
    for (size_t i = 0; i < RANGES; i++) ranges[i].at = memory(RANGE_PAGES), ranges[i].copy = calloc(RANGE_PAGES, PAGE);
    for (size_t i = 0; i < RANGES; i++) give_or_take(i);
    for (; time(NULL) < end && !wrong; steps++) {
        size_t i = draw(RANGES);
        switch (draw(400)) {
        case 0: map_anew(i); break;
        case 1:
        case 2: give_up(i); break;
        case 3:
        case 4: give_or_take(i); break;
        default:
            if (draw(40) == 0) usleep((useconds_t)draw(300000));
            else write_pages(i);
        }
        check(memcmp(ranges[i].at, ranges[i].copy, RANGE_PAGES * PAGE) == 0, "each byte is as it was written");
        if (library_count("lent") > most) most = library_count("lent");
    }
    printf("at random: %zu steps, at most %ld pages lent at a time\n", steps, most);
}

int main(int count, char **words) {
    if (count != 4) return 2;
    const char *offer = getenv("PAGESHARE_OFFER");
    seed = strtoull(words[2], NULL, 10);
    machine = ioctl(atoi(words[1]), KVM_CREATE_VM, 0);
    if (machine < 0) return perror("KVM_CREATE_VM"), 2;
    bool is_on = offer && strcmp(offer, "kvm") == 0;
    do_steps(is_on);
    do_at_random((unsigned)atoi(words[3]), is_on);
    puts(wrong ? "kvm: WRONG" : "kvm: good");
    return wrong != 0;
}
