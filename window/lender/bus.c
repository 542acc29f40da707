#define _GNU_SOURCE
#include "bus.h"
#include <errno.h>
#include <fcntl.h>
#include <pthread.h>
#include <signal.h>
#include <string.h>
#include <sys/mman.h>
#include <unistd.h>

enum { FILES = 16, PAGE = 4096, BITS = 64, TRIES = 3, NO_FILE = -1 };

static struct bus *_Atomic caught[FILES];
static struct sigaction before;
static pthread_mutex_t lock = PTHREAD_MUTEX_INITIALIZER;

/* Maps a page that is set aside in a frame's place, which takes no memory. It reads as zeros, as the file does there. */
static bool replace(struct bus *bus, size_t frame) {
    bool is_in_use = bus->in_use && (atomic_load(&bus->in_use[frame / BITS]) >> frame % BITS & 1) != 0;
    void *at = bus->at + frame * PAGE, *got = MAP_FAILED;
    if (is_in_use || bus->used == BUS_MOST) return false;
    for (int i = 0; i < TRIES && got == MAP_FAILED; i++) /* (without it the process ends) */
        got = mmap(at, PAGE, PROT_READ | PROT_WRITE, MAP_SHARED | MAP_FIXED, bus->aside, (off_t)bus->used * PAGE);
    if (got == MAP_FAILED) return false;
    memset(at, 0, PAGE);
    bus->frames[bus->used++] = (uint32_t)frame;
    return true;
}

static bool is_mended(const siginfo_t *info) {
    for (size_t i = 0; info->si_code == BUS_ADRERR && i < FILES; i++) {
        struct bus *bus = atomic_load(&caught[i]);
        size_t from = bus ? (uintptr_t)info->si_addr - (uintptr_t)bus->at : 0;
        if (bus && from / PAGE < bus->count) return replace(bus, from / PAGE);
    }
    return false;
}

static void on_bus_error(int number, siginfo_t *info, void *context) {
    int cause = errno;
    if (!is_mended(info)) {
        if ((before.sa_flags & SA_SIGINFO) != 0) before.sa_sigaction(number, info, context);
        else if (before.sa_handler != SIG_DFL && before.sa_handler != SIG_IGN) before.sa_handler(number);
        else sigaction(number, &before, NULL), raise(number); /* (it comes again once this is left) */
    }
    errno = cause;
}

static int install(void) {
    struct sigaction now = {.sa_sigaction = on_bus_error, .sa_flags = SA_SIGINFO | SA_ONSTACK}, found;
    if (sigaction(SIGBUS, NULL, &found) < 0) return errno;
    if ((found.sa_flags & SA_SIGINFO) != 0 && found.sa_sigaction == on_bus_error) return 0;
    before = found;
    return sigaction(SIGBUS, &now, NULL) == 0 ? 0 : errno;
}

static int set_aside(struct bus *bus) {
    bus->aside = memfd_create("pageshare-aside", MFD_CLOEXEC);
    return bus->aside >= 0 && fallocate(bus->aside, 0, 0, (off_t)BUS_MOST * PAGE) == 0 ? 0 : errno;
}

static int enter(struct bus *bus) {
    for (size_t i = 0; i < FILES; i++) {
        if (atomic_load(&caught[i])) continue;
        int cause = install();
        if (cause == 0) atomic_store(&caught[i], bus);
        return cause;
    }
    return ENOSPC;
}

int bus_catch(struct bus *bus, void *at, size_t count, const _Atomic uint64_t *in_use) {
    *bus = (struct bus){.aside = NO_FILE, .at = at, .count = count, .in_use = in_use};
    int cause = set_aside(bus);
    pthread_mutex_lock(&lock);
    if (cause == 0) cause = enter(bus);
    pthread_mutex_unlock(&lock);
    return cause;
}

void bus_free(struct bus *bus) {
    pthread_mutex_lock(&lock);
    for (size_t i = 0; i < FILES; i++)
        if (atomic_load(&caught[i]) == bus) atomic_store(&caught[i], NULL);
    pthread_mutex_unlock(&lock);
    if (bus->aside >= 0) close(bus->aside);
    bus->aside = NO_FILE;
}

bool bus_map_again(struct bus *bus, int file, bool (*say)(void *at, size_t bytes)) {
    const int rights = PROT_READ | PROT_WRITE, kind = MAP_SHARED | MAP_FIXED | MAP_NORESERVE;
    for (; bus->used > 0; bus->used--) {
        size_t from = (size_t)bus->frames[bus->used - 1] * PAGE;
        void *at = mmap(bus->at + from, PAGE, rights, kind, file, (off_t)from);
        if (at == MAP_FAILED || (say && !say(at, PAGE))) return false;
    }
    return true;
}
