#define _GNU_SOURCE
#include "filter.h"
#include "calls.h"
#include "sharing.h"
#include "signals.h"
#include "slices.h"
#include "trouble.h"
#include <linux/audit.h>
#include <linux/filter.h>
#include <linux/seccomp.h>
#include <poll.h>
#include <semaphore.h>
#include <stdatomic.h>
#include <sys/ioctl.h>
#include <sys/mman.h>
#include <sys/prctl.h>

/* From Linux 5.19 on; older headers lack it. */
#ifndef SECCOMP_FILTER_FLAG_WAIT_KILLABLE_RECV
#define SECCOMP_FILTER_FLAG_WAIT_KILLABLE_RECV (1UL << 5)
#endif

static atomic_int listener = NOTHING; /* its descriptor, once there is a filter */

bool filter_is_on(void) { return atomic_load(&listener) >= 0; }

/* ---- calls that pass ---- */

/* A call of the system as a function of its number and five words. The filter knows it by the address behind its instruction. */
long filter_call(long number, long first, long second, long third, long fourth, long fifth) __attribute__((visibility("hidden")));
extern const char filter_behind_call[] __attribute__((visibility("hidden")));
__asm__(".pushsection .text, \"ax\", @progbits\n"
        ".hidden filter_call\n"
        ".hidden filter_behind_call\n"
        ".globl filter_call\n"
        ".globl filter_behind_call\n"
        ".type filter_call, @function\n"
        "filter_call:\n"
        "    movq %rdi, %rax\n"
        "    movq %rsi, %rdi\n"
        "    movq %rdx, %rsi\n"
        "    movq %rcx, %rdx\n"
        "    movq %r8, %r10\n"
        "    movq %r9, %r8\n"
        "    syscall\n"
        "filter_behind_call:\n"
        "    ret\n"
        ".size filter_call, . - filter_call\n"
        ".popsection\n");

long filter_pass(long number, long first, long second, long third, long fourth, long fifth) {
    enum { ERRORS = 4095 };
    if (!filter_is_on()) return syscall(number, first, second, third, fourth, fifth);
    long status = filter_call(number, first, second, third, fourth, fifth);
    if (status >= 0 || status < -ERRORS) return status;
    errno = (int)-status;
    return -1;
}

/* ---- the filter's program ---- */

enum { STEPS_MOST = 64, HALF_BITS = 32 };

struct program {
    unsigned short count;
    struct sock_filter steps[STEPS_MOST];
};

static struct sock_filter *step(struct program *program, uint16_t code, uint32_t with) {
    static struct sock_filter beyond;
    if (program->count >= STEPS_MOST) return &beyond;
    program->steps[program->count] = (struct sock_filter)BPF_STMT(code, with);
    return &program->steps[program->count++];
}

static void load(struct program *program, size_t at) { step(program, BPF_LD | BPF_W | BPF_ABS, (uint32_t)at); }

static void end(struct program *program, uint32_t with) { step(program, BPF_RET | BPF_K, with); }

/* Goes on with the next step if the word is this one, or otherwise with the one behind that. */
static void if_is(struct program *program, uint32_t word) { step(program, BPF_JMP | BPF_JEQ | BPF_K, word)->jf = 1; }

/* Goes on if the word is one of these; lets the call pass if it isn't. */
static void if_any(struct program *program, const uint32_t *words, size_t count) {
    for (size_t i = 0; i < count; i++) step(program, BPF_JMP | BPF_JEQ | BPF_K, words[i])->jt = (uint8_t)(count - i);
    end(program, SECCOMP_RET_ALLOW);
}

/* A step that goes on elsewhere, which `here` says later. */
static struct sock_filter *leap(struct program *program) { return step(program, BPF_JMP | BPF_JA, 0); }

static void here(struct program *program, struct sock_filter *from) {
    from->k = (uint32_t)(&program->steps[program->count] - from - 1);
}

/* Shows a call, unless it is one of filter_call. */
static void show(struct program *program) {
    const uint64_t behind = (uintptr_t)filter_behind_call;
    load(program, offsetof(struct seccomp_data, instruction_pointer));
    struct sock_filter *low = step(program, BPF_JMP | BPF_JEQ | BPF_K, (uint32_t)behind);
    low->jf = 3;
    load(program, offsetof(struct seccomp_data, instruction_pointer) + sizeof(uint32_t));
    if_is(program, (uint32_t)(behind >> HALF_BITS));
    end(program, SECCOMP_RET_ALLOW);
    end(program, SECCOMP_RET_USER_NOTIF);
}

/* (calls whose number alone says that they pass are known to the system beforehand: they don't come here) */
static void write_program(struct program *program) {
    static const uint32_t calls[] = {SYS_io_setup, SYS_io_uring_setup, SYS_process_madvise};
    uint32_t requests[CALLS_REQUESTS_MOST], registering[CALLS_REGISTERING_MOST];
    size_t requests_count = calls_requests(requests), registering_count = calls_registering(registering);
    program->count = 0;
    load(program, offsetof(struct seccomp_data, arch));
    if_any(program, (const uint32_t[]){AUDIT_ARCH_X86_64}, 1);
    load(program, offsetof(struct seccomp_data, nr));
    if_is(program, SYS_ioctl);
    struct sock_filter *to_requests = leap(program);
    if_is(program, SYS_io_uring_register);
    struct sock_filter *to_registering = leap(program);
    if_any(program, calls, sizeof calls / sizeof *calls);
    struct sock_filter *from_calls = leap(program);
    here(program, to_requests);
    load(program, offsetof(struct seccomp_data, args[1]));
    if_any(program, requests, requests_count);
    struct sock_filter *from_requests = leap(program);
    here(program, to_registering);
    load(program, offsetof(struct seccomp_data, args[1]));
    step(program, BPF_ALU | BPF_AND | BPF_K, ~CALLS_BY_RING);
    if_any(program, registering, registering_count);
    here(program, from_calls);
    here(program, from_requests);
    show(program);
}

/* ---- what the listener does ---- */

static atomic_int process; /* the one that it belongs to */
static sem_t begun;        /* it is known whether there is one */

/* A call that was shown, and the answer. (The system's structs may be longer than these: see has_sizes.) */
struct shown {
    struct seccomp_notif call;
    uint64_t room[16];
};
struct answer {
    struct seccomp_notif_resp reply;
    uint64_t room[16];
};

static bool has_sizes(void) {
    struct seccomp_notif_sizes sizes;
    return syscall(SYS_seccomp, SECCOMP_GET_NOTIF_SIZES, 0, &sizes) == 0 && sizes.seccomp_notif <= sizeof(struct shown) &&
           sizes.seccomp_notif_resp <= sizeof(struct answer);
}

/* The caller goes on. */
static void let(struct answer *answer) { answer->reply.flags = SECCOMP_USER_NOTIF_FLAG_CONTINUE; }

/* The call has been made, or can't be. */
static void set(struct answer *answer, long status) {
    if (status == -1) answer->reply.error = -errno;
    else answer->reply.val = status;
}

/* Does what the functions of the C library do before they make a call, if one of this process's threads makes it. */
static void prepare(const struct seccomp_data *data, struct answer *answer) {
    const uint32_t request = (uint32_t)data->args[1];
    const void *with = (const void *)(uintptr_t)data->args[2];
    bool may = true, is_followed = false;
    ssize_t status;
    if (data->nr == SYS_io_setup) may = calls_prepare_context();
    if (data->nr == SYS_io_uring_setup) may = calls_prepare_ring();
    if (data->nr == SYS_io_uring_register) may = calls_prepare_registering((uint32_t)data->args[1]);
    if (data->nr == SYS_ioctl) may = calls_prepare_request(request, with, &is_followed);
    if (!may) return set(answer, -1);
    if (is_followed) {
        /* (what is done then depends on when and how it ends. All threads have the same descriptors, and the same memory) */
        long made = filter_pass(SYS_ioctl, (long)data->args[0], (long)request, (long)with, 0, 0);
        calls_request_made((int)data->args[0], request, with, made);
        return set(answer, made);
    }
    bool is_advice = data->nr == SYS_process_madvise;
    if (is_advice && calls_advise((int)data->args[0], (const struct iovec *)(uintptr_t)data->args[1], data->args[2],
                                  (int)data->args[3], (unsigned)data->args[4], &status))
        return set(answer, status);
    let(answer);
}

/* Whether a thread is one of this process, and isn't amid a call of this library, which may have a lock. */
static bool is_to_wait(int thread) {
    bool is_own = thread > 0 && (syscall(SYS_tgkill, getpid(), thread, 0) == 0 || errno != ESRCH);
    return is_own && !sharing_is_inside_of(thread);
}

static void send_answer(int to, const struct answer *answer) {
    filter_call(SYS_ioctl, to, (long)SECCOMP_IOCTL_NOTIF_SEND, (long)answer, 0, 0);
}

/* Takes one call, as it is shown there, and answers it. `is_standing_by`: what the call does is nothing to this process. Returns false if there
 * are no more. */
static bool answer_one(int from, struct shown *shown, bool is_standing_by) {
    struct answer answer = {.room = {0}};
    *shown = (struct shown){.room = {0}};
    if (filter_call(SYS_ioctl, from, (long)SECCOMP_IOCTL_NOTIF_RECV, (long)shown, 0, 0) < 0) {
        struct pollfd wait = {.fd = from, .events = POLLIN};
        return poll(&wait, 1, -1) >= 0 ? (wait.revents & (POLLNVAL | POLLERR)) == 0 : errno == EINTR;
    }
    answer.reply.id = shown->call.id;
    if (!is_standing_by && is_to_wait((int)shown->call.pid)) prepare(&shown->call.data, &answer);
    else let(&answer);
    send_answer(from, &answer);
    return true;
}

/* What was shown last to the process that has the listener: in memory that children share with it. */
static struct shown *last_shown;

static bool make_room_for_shown(void) {
    const int kind = MAP_SHARED | MAP_ANONYMOUS;
    void *at = mmap(NULL, sizeof *last_shown, PROT_READ | PROT_WRITE, kind, NOTHING, 0);
    last_shown = at == MAP_FAILED ? NULL : at;
    return last_shown != NULL;
}

static void *listen(void *unused) {
    pthread_setname_np(pthread_self(), "pageshare-calls");
    ask_for_short_slices(); /* (callers wait for this thread) */
    while (sem_wait(&begun) != 0) {
    }
    while (filter_is_on() && answer_one(atomic_load(&listener), last_shown, false)) {
    }
    return unused;
}

/* ---- children ---- */

/* Waits until the process that has the listener has ended. Returns false if that can't be known. */
static bool outlives_owner(void) {
    int owner = (int)syscall(SYS_pidfd_open, atomic_load(&process), 0), ended;
    struct pollfd end = {.fd = owner, .events = POLLIN};
    if (owner < 0) return errno == ESRCH;
    do ended = poll(&end, 1, -1);
    while (ended < 0 && errno == EINTR);
    return ended > 0 &&
           (end.revents & POLLIN) != 0; /* (nothing is closed: the number may be another file's of the child by now) */
}

/* Lets the call go on that the process with the listener had taken, if it ended before it answered: the system shows no call twice. */
static void answer_last(int to) {
    struct answer answer = {.reply = {.id = last_shown->call.id}};
    let(&answer);
    send_answer(to, &answer);
}

/* A child of a fork has the filter, too. The process that has the listener answers its calls; and once that has ended, the child itself. */
static void *stand_by(void *unused) {
    struct shown shown;
    int from = atomic_load(&listener);
    if (!outlives_owner()) {
        syscall(SYS_close, from); /* (once there is no listener any more such calls fail) */
        return unused;
    }
    answer_last(from);
    while (answer_one(from, &shown, true)) {
    }
    return unused;
}

static void begin_child(void) {
    if (filter_is_on() && !signals_start(stand_by)) syscall(SYS_close, atomic_load(&listener));
}

/* ---- its beginning ---- */

/* Whether it is to begin: it mustn't take rights from a process that has some to take. */
static bool is_wanted(bool *is_asked) {
    const char *said = getenv("PAGESHARE_FILTER");
    *is_asked = said && strcmp(said, "1") == 0;
    if (said && strcmp(said, "0") == 0) return false;
    if (prctl(PR_GET_NO_NEW_PRIVS, 0, 0, 0, 0) == 1) return true;
    return *is_asked && prctl(PR_SET_NO_NEW_PRIVS, 1, 0, 0, 0) == 0;
}

/* Returns the listener's descriptor, or -1 with errno. The thread that answers is there already: else a call would wait for ever. */
static int install(void) {
    struct program program;
    const unsigned long flags = SECCOMP_FILTER_FLAG_TSYNC | SECCOMP_FILTER_FLAG_TSYNC_ESRCH | SECCOMP_FILTER_FLAG_NEW_LISTENER |
                                SECCOMP_FILTER_FLAG_WAIT_KILLABLE_RECV;
    write_program(&program);
    const struct sock_fprog whole = {.len = program.count, .filter = program.steps};
    return (int)syscall(SYS_seccomp, SECCOMP_SET_MODE_FILTER, flags, &whole);
}

void filter_begin(void) {
    bool is_asked;
    if (!is_wanted(&is_asked)) return;
    atomic_store(&process, getpid());
    bool can = sem_init(&begun, 0, 0) == 0 && has_sizes() && make_room_for_shown() &&
               pthread_atfork(NULL, NULL, begin_child) == 0 && signals_start(listen);
    int made = can ? install() : NOTHING;
    if (made < 0 && is_asked) log_line("PAGESHARE_FILTER=1: %s; calls past the C library are found by scans", strerror(errno));
    if (made >= 0) atomic_store(&listener, sharing_own(made));
    if (made >= 0) devices_watch();
    if (can) sem_post(&begun);
}
