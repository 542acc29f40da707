#define _GNU_SOURCE
#include "kvm_offer.h"
#include "sharing.h"
#include "signals.h"
#include "trouble.h"
#include <linux/kvm.h>
#include <sys/mman.h>
#include <unistd.h>

/* (as KVM's header has them from Linux 6.8 on: its fields begin with those of the older request) */
#define REQUEST_2 _IOW(KVMIO, 0x49, char[160])
enum { GUEST_MEMFD = 1 << 2, SLOTS_MOST = 512 };

/* A range that a virtual machine has in a slot. A slot is deleted by the same descriptor as when it was made. */
struct slot {
    int machine; /* the descriptor */
    uint32_t number;
    void *at;
    size_t bytes; /* 0: the entry is free */
};

static pthread_mutex_t lock = PTHREAD_MUTEX_INITIALIZER; /* round the slots */
static struct slot slots[SLOTS_MOST];

static bool is_wanted(void) {
    const char *offer = getenv("PAGESHARE_OFFER");
    return offer && strcmp(offer, "kvm") == 0;
}

/* What the guest's memory is that a request gives it: nothing of it is offered that the guest can't write, or that is kept from the
 * monitor. */
static struct slot slot_of(int machine, const struct kvm_userspace_memory_region *region) {
    bool is_offered = (region->flags & (KVM_MEM_READONLY | GUEST_MEMFD)) == 0;
    return (struct slot){.machine = machine,
                         .number = region->slot,
                         .at = (void *)(uintptr_t)region->userspace_addr,
                         .bytes = is_offered ? (size_t)region->memory_size : 0};
}

/* Puts a slot in the place of what the machine had by this number, which it returns. Where there is no place, `*slot` is empty. */
static struct slot put(struct slot *slot) {
    struct slot *place = NULL, before = {.bytes = 0};
    sigset_t signals;
    signals_hold(&signals);
    pthread_mutex_lock(&lock);
    for (size_t i = 0; i < SLOTS_MOST; i++) {
        bool is_it = slots[i].bytes > 0 && slots[i].machine == slot->machine && slots[i].number == slot->number;
        if (is_it || (!place && slots[i].bytes == 0)) place = &slots[i];
        if (!is_it) continue;
        before = slots[i];
        break;
    }
    if (place) *place = *slot;
    else slot->bytes = 0;
    pthread_mutex_unlock(&lock);
    signals_let(&signals);
    return before;
}

/* Whether another slot has a part of this range, as an alias at another address of the guest: then it stays offered. */
static bool is_elsewhere(const struct slot *slot) {
    const char *begin = slot->at, *end = begin + slot->bytes;
    bool found = false;
    sigset_t signals;
    signals_hold(&signals);
    pthread_mutex_lock(&lock);
    for (size_t i = 0; i < SLOTS_MOST && !found; i++) {
        const char *at = slots[i].at;
        found = slots[i].bytes > 0 && at < end && at + slots[i].bytes > begin;
    }
    pthread_mutex_unlock(&lock);
    signals_let(&signals);
    return found;
}

/* The kernel's KSM hears nothing of an offer that the monitor didn't make. */
static void offer(const struct slot *slot) {
    if (sharing_offer(slot->at, slot->bytes)) syscall(SYS_madvise, slot->at, slot->bytes, MADV_UNMERGEABLE);
}

static const uint32_t requests[] = {KVM_SET_USER_MEMORY_REGION, REQUEST_2};
enum { REQUESTS = sizeof requests / sizeof *requests };

size_t kvm_offer_requests(uint32_t to[], size_t most) {
    size_t count = is_wanted() && most >= REQUESTS ? REQUESTS : 0;
    memcpy(to, requests, count * sizeof *requests);
    return count;
}

bool kvm_offer_is_about(unsigned long request) { return (request == requests[0] || request == requests[1]) && is_wanted(); }

void kvm_offer_seen(int descriptor, unsigned long request, const void *with) {
    if (!kvm_offer_is_about(request) || !with) return;
    int cause = errno;
    struct slot now = slot_of(descriptor, with), before = put(&now);
    bool is_same = before.bytes == now.bytes && before.at == now.at;
    if (before.bytes > 0 && !is_same && !is_elsewhere(&before))
        sharing_leave(before.at, before.bytes, "the guest has it no longer");
    if (now.bytes > 0 && !is_same) offer(&now);
    errno = cause;
}
