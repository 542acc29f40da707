/*
 * Preloaded into the host by checks/host.py: the file of frames and clients' buffers are files of the file system at SMALL_FOLDER, which
 * has memory for a few pages. The host finds them sealed.
 */
#define _GNU_SOURCE
#include <dlfcn.h>
#include <fcntl.h>
#include <stdarg.h>
#include <stdbool.h>
#include <stdlib.h>
#include <string.h>
#include <sys/mman.h>
#include <sys/stat.h>

#define PUBLIC __attribute__((visibility("default")))

static void *next_of(const char *function) {
    void *next = dlsym(RTLD_NEXT, function);
    if (!next) abort();
    return next;
}

PUBLIC int memfd_create(const char *name, unsigned flags) {
    int (*next)(const char *, unsigned);
    const char *folder = getenv("SMALL_FOLDER");
    bool is_small = strcmp(name, "pageshare-frames") == 0 || strcmp(name, "pageshare-buffer") == 0;
    if (folder && is_small) return open(folder, O_TMPFILE | O_RDWR | O_CLOEXEC, 0600);
    *(void **)&next = next_of("memfd_create");
    return next(name, flags);
}

int fcntl(int file, int what, ...);
PUBLIC int fcntl(int file, int what, ...) {
    int (*next)(int, int, ...);
    va_list more;
    va_start(more, what);
    long value = va_arg(more, long);
    va_end(more);
    *(void **)&next = next_of("fcntl");
    int status = next(file, what, value);
    return what == F_ADD_SEALS ? 0 : status;
}
