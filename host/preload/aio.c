#define _GNU_SOURCE
/*
 * aio_read and the like, interposed in a virtual machine monitor. Threads of the C library make such requests later, by calls that this
 * library doesn't see. So where one has a file by O_DIRECT or the like, devices may pin pages from then on, as with an io_uring. And io_setup
 * of libaio, after which the same is so.
 */
#include "buffers.h"
#include "calls.h"
#include "devices.h"
#include "filter.h"
#include "sharing.h"
#include "trouble.h"
#include <aio.h>
#include <dlfcn.h>

#define PUBLIC __attribute__((visibility("default")))

/* Requests are about to be made; each may be NULL. Returns false, with errno, if lending would have to end for them and can't. */
static bool prepare(const struct aiocb *const *requests, int count) {
    enum devices worst = DEVICES_NONE;
    if (!buffers_may_meet()) return true;
    for (int i = 0; i < count; i++) {
        const struct aiocb *it = requests[i];
        bool meets = it && sharing_meets((const void *)(uintptr_t)it->aio_buf, it->aio_nbytes);
        const enum devices devices = meets ? devices_of_file(it->aio_fildes) : DEVICES_NONE;
        worst = devices > worst ? devices : worst;
    }
    return worst == DEVICES_NONE || sharing_devices(worst);
}

/* The C library's own function. NULL, with errno, if there is none: older ones have it in a library of its own. */
static void *next_of(const char *name) {
    void *next = dlsym(RTLD_NEXT, name);
    if (!next) errno = ENOSYS;
    return next;
}

typedef int request_function(struct aiocb *);
typedef int list_function(int, struct aiocb *const *, int, struct sigevent *);

static int make(const char *name, struct aiocb *request) {
    const struct aiocb *const all[] = {request};
    request_function *next = (request_function *)(uintptr_t)next_of(name);
    return next && prepare(all, 1) ? next(request) : -1;
}

static int make_all(const char *name, int mode, struct aiocb *const *requests, int count, struct sigevent *event) {
    list_function *next = (list_function *)(uintptr_t)next_of(name);
    return next && prepare((const struct aiocb *const *)requests, count) ? next(mode, requests, count, event) : -1;
}

PUBLIC int aio_read(struct aiocb *request) { return make("aio_read", request); }
PUBLIC int aio_write(struct aiocb *request) { return make("aio_write", request); }
PUBLIC int lio_listio(int mode, struct aiocb *const requests[], int count, struct sigevent *event) {
    return make_all("lio_listio", mode, requests, count, event);
}

/* A request for large files looks the same. */
PUBLIC int aio_read64(struct aiocb64 *request) { return make("aio_read64", (struct aiocb *)(void *)request); }
PUBLIC int aio_write64(struct aiocb64 *request) { return make("aio_write64", (struct aiocb *)(void *)request); }
PUBLIC int lio_listio64(int mode, struct aiocb64 *const requests[], int count, struct sigevent *event) {
    return make_all("lio_listio64", mode, (struct aiocb *const *)(const void *)requests, count, event);
}
_Static_assert(sizeof(struct aiocb) == sizeof(struct aiocb64), "requests are of one form");

/* ---- libaio ---- */

/* (libaio returns an errno as a negative number, and leaves errno as it is) */
PUBLIC int io_setup(int most, void *context);
PUBLIC int io_setup(int most, void *context) {
    int before = errno;
    long status = calls_prepare_context() ? filter_pass(SYS_io_setup, most, (long)context, 0, 0, 0) : -1;
    int cause = errno;
    errno = before;
    return status < 0 ? -cause : (int)status;
}

PUBLIC int io_queue_init(int most, void **context);
PUBLIC int io_queue_init(int most, void **context) {
    if (most <= 0) return -EINVAL;
    *context = NULL;
    return io_setup(most, context);
}
