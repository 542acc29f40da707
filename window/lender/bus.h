/*
 * Frames for which the system has no memory, as with vm.overcommit_memory=2. A write to one raises SIGBUS, which would end the process.
 * Here the frame gets other memory in this mapping of the file, until the call that writes is over. Then the caller gives up what was
 * lent there, and has the file mapped again. That memory is set aside before: what the system would have to find then, it hasn't got.
 */
#ifndef WINDOW_BUS_H
#define WINDOW_BUS_H

#include <stdatomic.h>
#include <stdbool.h>
#include <stddef.h>
#include <stdint.h>

/* The most frames to which a call writes: one for each page of a host's packet, and one in reserve for each of 64 machines. */
enum { BUS_MOST = 128 + 64 };

/* Of one file. One thread at a time writes to its frames, and calls what is below. */
struct bus {
    int aside;    /* a file of the memory that is set aside */
    uint8_t *at;  /* the frames, where their file is mapped from its beginning on */
    size_t count; /* how many they are */
    const _Atomic uint64_t
        *in_use; /* a bit for each frame: its memory is there, so a SIGBUS has another cause. NULL: it isn't known */
    size_t used; /* how many frames have other memory now: .. */
    uint32_t frames[BUS_MOST]; /* .. these */
};

#define BUS_NONE                                                                                                                 \
    { .aside = -1 }

/* Catches SIGBUS of frames, of up to 16 files. Each other one goes where it went. `bus` stays where it is. Returns 0 or an errno. */
int bus_catch(struct bus *bus, void *at, size_t count, const _Atomic uint64_t *in_use);
void bus_free(struct bus *bus);

/* Maps the file again where frames have other memory, and calls `say` for each page, if it isn't NULL. Returns false if either fails. */
bool bus_map_again(struct bus *bus, int file, bool (*say)(void *at, size_t bytes));

#endif
