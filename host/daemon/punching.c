#define _GNU_SOURCE
#include "punching.h"
#include "slices.h"
#include <fcntl.h>
#include <poll.h>
#include <sys/eventfd.h>

enum {
    BITS = 64,
    RUN_MOST = 2048,       /* frames in one call of the system */
    PART = 20,             /* one part in so many of the time */
    IDLE_MS = 100,         /* between two looks at what is listed */
    PAUSE_MOST_MS = 1000,  /* also after a call that took long, as one may while a process ends that has many frames mapped */
    SPARE_MOST = 1024,     /* free frames that may keep memory that clients' reads gave them: 4 MiB */
    LOOKED_AT_MOST = 16384 /* frames that are looked at for such memory in one turn */
};
static const uint64_t turn_ns = 200000; /* of calls in a row, before others have the time */

/* Of the bits of a word from that of `frame` on: the number of the first one that is set, or of the next word's first one. */
static uint32_t first_bit(uint64_t word, uint32_t frame) {
    word &= ~UINT64_C(0) << frame % BITS;
    return frame / BITS * BITS + (word ? (uint32_t)__builtin_ctzll(word) : BITS);
}

/* The first frame from `first` on, below `end`, whose bit is `is_set`; else `end`. */
static uint32_t next_with(_Atomic uint64_t *bits, bool is_set, uint32_t first, uint32_t end) {
    while (first < end) {
        uint64_t word = atomic_load(&bits[first / BITS]);
        uint32_t found = first_bit(is_set ? word : ~word, first);
        if (found % BITS != 0 || found == first) return found < end ? found : end;
        first = found; /* (the next word's first frame) */
    }
    return end;
}

static uint32_t smaller(uint32_t one, uint32_t other) { return one < other ? one : other; }

/*
 * Punches the frames from `first` up to `end` out of the file. A private copy that lies over one of them stays. Returns false
 * if the system refuses: then they may have their memory still.
 */
static bool punch(struct punching *punching, uint32_t first, uint32_t end) {
    int how = FALLOC_FL_PUNCH_HOLE | FALLOC_FL_KEEP_SIZE;
    while (fallocate(punching->frames->file, how, (off_t)first * PAGE, (off_t)(end - first) * PAGE) != 0) {
        if (errno == EINTR) continue;
        return seldom_trouble(&punching->trouble, "giving frames' memory back, without which nothing is lent");
    }
    return true;
}

/* What came of a run of free frames. */
enum run { RUN_NONE, RUN_REFUSED, RUN_DONE };

/*
 * Gives back one run of free frames, which begins with the first listed one from next_listed on, if one is listed there. Frames
 * among them that aren't listed have no memory, or should have none. If the system refuses they stay listed: none of them is
 * lent before it doesn't.
 *
 * The lock is held from the look at `in_use` until the memory is given back. So each frame of the run is one that the library
 * says is free, and no lend takes it meanwhile.
 */
static enum run punch_run(struct punching *punching) {
    struct frames *frames = punching->frames;
    uint32_t first = next_with(frames->listed, true, punching->next_listed, frames->count);
    bool is_refused = false;
    punching->next_listed = first;
    if (first == frames->count) return RUN_NONE;
    pthread_mutex_lock(&frames->lending);
    frames_unlist(frames, first, first + 1); /* before the look: if it is in use, it is listed again when it becomes free */
    uint32_t end = next_with(frames->in_use, true, first, smaller(frames->count, first + RUN_MOST));
    if (end > first) {
        frames_unlist(frames, first, end);
        is_refused = !punch(punching, first, end);
        if (is_refused) frames_list(frames, first, end);
    }
    pthread_mutex_unlock(&frames->lending);
    punching->next_listed = end > first ? end : first + 1;
    return is_refused ? RUN_REFUSED : RUN_DONE;
}

/*
 * Gives back runs until a turn's time is over and no lend waits, or nothing is listed any more, or the system refuses. Returns
 * whether it did.
 */
static bool punch_some(struct punching *punching) {
    struct frames *frames = punching->frames;
    uint64_t begin = now_ns();
    enum run run = RUN_DONE;
    while (run != RUN_REFUSED && !atomic_load(&punching->must_end) && atomic_load(&frames->waiting) > 0 &&
           (atomic_load(&frames->is_wanted) || now_ns() - begin < turn_ns)) {
        run = punch_run(punching);
        if (run == RUN_NONE) punching->next_listed = 0;
    }
    if (run == RUN_REFUSED && atomic_load(&frames->is_wanted)) atomic_store(&frames->is_refused, true);
    if (run == RUN_REFUSED || atomic_load(&frames->waiting) == 0) frames_free_again(frames);
    return run == RUN_REFUSED;
}

/* The first byte from `at` on that has memory; the file's end if none has. */
static uint64_t next_memory(const struct frames *frames, uint64_t at) {
    off_t found = lseek(frames->file, (off_t)at, SEEK_DATA);
    return found >= 0 ? (uint64_t)found : (uint64_t)frames->count * PAGE;
}

/*
 * Lists free frames that have memory, of some frames from next_looked_at on. One that is lent meanwhile is listed all the same: what
 * counts is whether it is in use when its turn comes.
 */
static void look_for_memory(struct punching *punching) {
    struct frames *frames = punching->frames;
    uint32_t first = punching->next_looked_at, last = smaller(frames->count, first + LOOKED_AT_MOST);
    while (first < last) {
        uint32_t begin = next_with(frames->in_use, false, first, last), end = next_with(frames->in_use, true, begin, last);
        uint32_t found = begin < end ? (uint32_t)(next_memory(frames, (uint64_t)begin * PAGE) / PAGE) : end;
        if (found < end) frames_list(frames, found, end);
        first = found < end ? end : found;
    }
    punching->next_looked_at = first < frames->count ? first : 0;
}

/* Whether the file has more memory than the frames that are in use or listed. */
static bool has_spare(const struct frames *frames) {
    return frames_memory(frames) / PAGE > (uint64_t)atomic_load(&frames->used) + atomic_load(&frames->waiting) + SPARE_MOST;
}

/* One turn. Returns how many milliseconds are the others' until the next one. */
static int do_turn(struct punching *punching) {
    uint64_t begin = now_ns();
    bool is_spare = has_spare(punching->frames);
    if (is_spare) look_for_memory(punching);
    bool is_refused = punch_some(punching);
    bool is_clearing = policies_clear(&punching->policies, punching->frames);
    if (is_refused) return IDLE_MS;
    uint64_t pause_ms = (now_ns() - begin) * (PART - 1) / 1000000 + 1;
    bool is_done = !is_spare && !is_clearing && atomic_load(&punching->frames->waiting) == 0;
    if (is_done && pause_ms < IDLE_MS) return IDLE_MS;
    return pause_ms < PAUSE_MOST_MS ? (int)pause_ms : PAUSE_MOST_MS;
}

static void *give_back(void *of) {
    struct punching *punching = of;
    struct pollfd ends[] = {{.fd = punching->end, .events = POLLIN}, {.fd = punching->frames->needed, .events = POLLIN}};
    eventfd_t times;
    int pause_ms = IDLE_MS;
    ask_for_short_slices(); /* a lend may wait for this thread */
    while (!atomic_load(&punching->must_end)) {
        int wait_ms = pause_ms < IDLE_MS ? pause_ms : IDLE_MS;
        int count = poll(ends, 2, wait_ms);
        if (count < 0 && errno != EINTR) usleep((useconds_t)wait_ms * 1000);
        bool is_needed = count > 0 && ends[1].revents != 0 && eventfd_read(punching->frames->needed, &times) == 0;
        pause_ms = is_needed ? 0 : pause_ms - wait_ms;
        if (pause_ms == 0) pause_ms = do_turn(punching);
    }
    return NULL;
}

bool punching_start(struct punching *punching, struct frames *frames) {
    *punching = (struct punching){.frames = frames, .end = eventfd(0, EFD_CLOEXEC | EFD_NONBLOCK)};
    if (punching->end < 0) return trouble("eventfd");
    int cause = pthread_create(&punching->thread, NULL, give_back, punching);
    if (cause == 0) return true;
    close(punching->end);
    punching->end = NOTHING;
    return (errno = cause, trouble("a thread that gives memory back"));
}

void punching_end(struct punching *punching) {
    if (punching->end < 0) return;
    atomic_store(&punching->must_end, true); /* (seen soon) */
    if (eventfd_write(punching->end, 1) != 0) trouble("eventfd");
    pthread_join(punching->thread, NULL);
    close(punching->end);
    punching->end = NOTHING;
}

uint64_t punching_ns(const struct punching *punching) {
    clockid_t clock;
    return punching->end >= 0 && pthread_getcpuclockid(punching->thread, &clock) == 0 ? clock_ns(clock) : 0;
}
