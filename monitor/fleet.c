/*
 * Several guests at once, whose equal pages the library shares.
 *
 *     fleet [OPTION].. PROGRAM                            guests that run the program of guest.c
 *     fleet [OPTION].. --kernel BZIMAGE --initrd FILE     guests that run Linux, whose first process is init.c
 *
 *     --guests N, --mib N, --processors N      how many, and what each has (of Linux one processor)
 *     --seconds N                              how long they run
 *     --rest HUNDREDTHS                        how long a processor rests after each round of its checks
 *     --way lend|plain|ksm                     idle pages are lent; or nothing is done; or they are left to the kernel's KSM
 *     --round MILLISECONDS                     a look at all guests' pages so often
 *     --frames HUNDREDTHS, --slots HUNDREDTHS  frames, and most pages that are lent, of all pages
 *     --renew SECONDS                          so often a guest ends, and another begins in its place
 *     --trace FILE                             a record of events, if windows are built for it
 *     --journal FILE --requests N              what was asked of the domain, and to FILE.replay the lines that `pageshare replay`
 *                                              must print; when so many are written, and after 10 s at least, the run ends
 *     --words TEXT                             more of Linux's command line
 *     --json FILE, --watch                     figures, of which benches/held.py draws a picture; a line a second on a terminal
 *
 * Prints a table at the end. The status is 0 if every processor ran to the end and saw no wrong word, 1 if not, 2 for a bad
 * command line.
 */
#define _GNU_SOURCE
#include "../window/lender/clock.h"
#include "../window/lender/domain_lender.h"
#include "../window/lender/journal.h"
#include "../window/window.h"
#include "count.h"
#include "failure.h"
#include "figures.h"
#include "guest.h"
#include "linux.h"
#include "looker.h"
#include "vm.h"
#include "voices.h"
#include <errno.h>
#include <getopt.h>
#include <inttypes.h>
#include <stdlib.h>
#include <string.h>
#include <sys/mman.h>
#include <sys/resource.h>
#include <unistd.h>

enum { GUESTS = 8, TICK_NS = 10000000, LATE_S = 10, JOURNAL_S = 10, LOOK_MOST = 1024, PAGE = WINDOW_PAGE_BYTES };

enum way { WAY_LEND, WAY_PLAIN, WAY_KSM };
static const char *const WAYS[] = {"lend", "plain", "ksm"};

struct guest {
    struct vm vm;
    uint8_t *ram;
    struct window *window;
    struct voices voices;
};

struct fleet {
    enum way way;
    unsigned guests, mib, seconds, processors, rest, round_ms, frames, slots, renew;
    uint32_t requests;
    bool watch;
    const char *journal_path, *json, *program, *kernel, *initrd, *words, *trace;
    struct journal *journal;
    struct lender *lender;
    struct windows *windows;
    struct looker looker;
    bool looks; /* the looker runs */
    struct figures figures;
    struct guest guest[GUESTS];
    uint64_t began_ns, ended_rounds, ended_wrong; /* of guests that have ended */
    double ksmd_began;
};

static uint32_t pages_of(const struct fleet *fleet) { return fleet->mib * (1u << 20) / PAGE; }
static size_t bytes_of(const struct fleet *fleet) { return (size_t)pages_of(fleet) * PAGE; }

static bool trouble_with(const char *what, struct window_result result) {
    fprintf(stderr, "%s: %s (%s)\n", what, window_status_words(result.status), strerror(result.cause));
    return false;
}

/* A processor wrote a byte to a port. */
static bool wrote(struct processor *processor, uint16_t port, uint8_t byte) {
    struct vm *vm = processor->vm;
    struct guest *guest = vm->opaque;
    struct timespec left = {byte / 100, byte % 100 * 10000000L};
    if (port == PORT_TEXT + processor->number) voices_hear(&guest->voices, processor->number, (char)byte);
    if (port == LINUX_PORT) voices_hear_kernel(&guest->voices, (char)byte);
    while (port == PORT_REST && !atomic_load(&vm->stop) && nanosleep(&left, &left) < 0 && errno == EINTR) {
    }
    return true;
}

/* Reads the number behind a word of a file such as /proc/self/status; 0 if there is none. */
static uint64_t number_in(const char *path, const char *word) {
    char line[256];
    uint64_t number = 0;
    FILE *file = fopen(path, "r");
    if (file == NULL) return 0;
    while (fgets(line, sizeof line, file) != NULL)
        if (strncmp(line, word, strlen(word)) == 0 && sscanf(line + strlen(word), "%" SCNu64, &number) == 1) break;
    fclose(file);
    return number;
}

/* The processor seconds of the kernel's ksmd, whose process the variable KSMD names. */
static double ksmd_seconds(const struct fleet *fleet) {
    char path[64];
    unsigned long user = 0, kernel = 0;
    const char *process = getenv("KSMD");
    if (fleet->way != WAY_KSM || process == NULL) return 0;
    snprintf(path, sizeof path, "/proc/%s/stat", process);
    FILE *file = fopen(path, "r");
    if (file == NULL) return 0;
    if (fscanf(file, "%*d (%*[^)]) %*c %*d %*d %*d %*d %*d %*u %*u %*u %*u %*u %lu %lu", &user, &kernel) != 2) user = kernel = 0;
    fclose(file);
    return (double)(user + kernel) / (double)sysconf(_SC_CLK_TCK);
}

static double process_seconds(void) {
    struct rusage used;
    if (getrusage(RUSAGE_SELF, &used) < 0) return 0;
    return (double)(used.ru_utime.tv_sec + used.ru_stime.tv_sec) + 1e-6 * (double)(used.ru_utime.tv_usec + used.ru_stime.tv_usec);
}

static void take_sample(struct fleet *fleet) {
    struct sample *sample = figures_next(&fleet->figures);
    if (sample == NULL) return;
    sample->at = 1e-9 * (double)(now_ns() - fleet->began_ns);
    sample->processor = process_seconds();
    sample->helper = ksmd_seconds(fleet) - fleet->ksmd_began;
    sample->rounds = fleet->ended_rounds;
    for (unsigned i = 0; i < fleet->guests * fleet->processors; i++)
        sample->rounds += voices_get(&fleet->guest[i / fleet->processors].voices, i % fleet->processors).rounds;
    sample->held = 1024 * (double)number_in("/proc/self/smaps_rollup", "Pss_Anon:");
    if (fleet->way == WAY_LEND) {
        sample->looked = looker_get(&fleet->looker);
        windows_count(fleet->windows, &sample->windows);
        sample->held += (double)sample->looked.lender.frame_bytes;
        /* (all zeros but one page of them, as if that were a frame) */
        size_t zeros = sample->windows.zeros_now > 0 ? sample->windows.zeros_now - 1 : 0;
        sample->saved = sample->looked.totals.reclaimed + zeros;
    } else if (fleet->way == WAY_KSM) {
        sample->saved = number_in("/sys/kernel/mm/ksm/pages_sharing", "");
    }
    if (fleet->watch) figures_watch(&fleet->figures, stderr);
}

/* Memory of a guest. */
static uint8_t *make_memory(const struct fleet *fleet) {
    const int kind = MAP_PRIVATE | MAP_ANONYMOUS | MAP_NORESERVE;
    void *at = mmap(NULL, bytes_of(fleet), PROT_READ | PROT_WRITE, kind, -1, 0);
    if (at == MAP_FAILED) return NULL;
    bool is_ready = madvise(at, bytes_of(fleet), MADV_NOHUGEPAGE) == 0;
    if (fleet->way == WAY_KSM) is_ready = is_ready && madvise(at, bytes_of(fleet), MADV_MERGEABLE) == 0;
    if (is_ready) return at;
    munmap(at, bytes_of(fleet));
    return NULL;
}

static bool make_lender(struct fleet *fleet) {
    const struct windows_config windows = {.pins = WINDOWS_PINS_NEVER, .trace = fleet->trace};
    uint32_t pages = fleet->guests * pages_of(fleet);
    struct lender_config config = {.slots = (uint32_t)((uint64_t)pages * fleet->slots / 100),
                                   .frames = (uint32_t)((uint64_t)pages * fleet->frames / 100),
                                   .recent = pages / 2,
                                   .hash = fleet->journal_path != NULL ? PAGESHARE_SHA256 : PAGESHARE_FOLD};
    if (fleet->journal_path != NULL && (fleet->journal = journal_open(fleet->journal_path, fleet->requests)) == NULL)
        return trouble(fleet->journal_path);
    config.journal = fleet->journal; /* (a replay hashes by SHA-256) */
    struct lender_result made = lender_make(&fleet->lender, &config);
    if (made.status != LENDER_OK) {
        fprintf(stderr, "a lender: %s (%d)\n", lender_status_words(made.status), made.cause);
        return false;
    }
    struct window_result result = windows_make(&fleet->windows, &windows);
    if (result.status == WINDOW_OK) result = windows_attach(fleet->windows, lender_interface(fleet->lender));
    return result.status == WINDOW_OK || trouble_with("windows", result);
}

/* Its first process, of init.c, gets half of the guest's memory. */
static bool set_linux(const struct fleet *fleet, struct guest *guest) {
    char words[1024];
    snprintf(words, sizeof words, "earlyprintk=serial,0x3f8,115200,keep acpi=off guest=%u mib=%u rest=%u %s", guest->vm.number,
             fleet->mib / 2, fleet->rest, fleet->words);
    return linux_set(&guest->vm, fleet->kernel, fleet->initrd, words);
}

static bool make_guest(struct fleet *fleet, unsigned number) {
    struct guest *guest = &fleet->guest[number];
    voices_make(&guest->voices, number);
    guest->ram = make_memory(fleet);
    if (guest->ram == NULL) return trouble("memory for a guest");
    if (fleet->way == WAY_LEND) {
        struct window_result made = window_make(&guest->window, fleet->windows, guest->ram, bytes_of(fleet), WINDOW_NO_CHILD);
        if (made.status != WINDOW_OK) return trouble_with("a guest's window", made);
    }
    guest->vm = (struct vm){.number = number, .wrote = wrote, .opaque = guest, .has_chips = fleet->kernel != NULL};
    return vm_make(&guest->vm, guest->ram, bytes_of(fleet), fleet->processors) &&
           (fleet->kernel != NULL ? set_linux(fleet, guest) : vm_set_guest(&guest->vm, fleet->program, fleet->rest));
}

/* Its processors have stopped. */
static bool free_guest(struct fleet *fleet, unsigned number) {
    struct guest *guest = &fleet->guest[number];
    vm_free(&guest->vm);
    struct window_result freed = window_free(guest->window, WINDOW_DROP);
    guest->window = NULL;
    if (guest->ram != NULL) munmap(guest->ram, bytes_of(fleet));
    guest->ram = NULL;
    return freed.status == WINDOW_OK || trouble_with("a guest's window", freed);
}

/* Ends a guest while the others run, and begins another one. */
static bool renew(struct fleet *fleet, unsigned number) {
    struct guest *guest = &fleet->guest[number];
    uint64_t half_ns = guest->voices.half_ns;
    vm_stop(&guest->vm);
    for (unsigned i = 0; i < fleet->processors; i++) {
        fleet->ended_rounds += voices_get(&guest->voices, i).rounds;
        fleet->ended_wrong += voices_get(&guest->voices, i).wrong;
    }
    if (!free_guest(fleet, number) || !make_guest(fleet, number)) return false;
    guest->voices.half_ns = half_ns;
    return vm_start(&guest->vm);
}

static bool is_over(const struct fleet *fleet) {
    uint64_t passed = now_ns() - fleet->began_ns, second = 1000000000u;
    bool written = fleet->journal != NULL && journal_has_ended(fleet->journal);
    return passed >= fleet->seconds * second || (written && passed >= JOURNAL_S * second);
}

/* The guests run; a sample each second. */
static bool run(struct fleet *fleet) {
    const uint64_t second = 1000000000u;
    uint64_t next = 0, renewed = 0;
    bool right = true;
    while (right && !is_over(fleet)) {
        struct timespec pause = {.tv_nsec = TICK_NS};
        nanosleep(&pause, NULL);
        uint64_t passed = now_ns() - fleet->began_ns;
        if (passed < next * second) continue;
        take_sample(fleet);
        next++;
        /* (the last ones have some time to settle) */
        if (fleet->renew == 0 || passed < (renewed + 1) * fleet->renew * second ||
            passed + LATE_S * second > fleet->seconds * second)
            continue;
        right = renew(fleet, (unsigned)(renewed++ % fleet->guests));
    }
    return right;
}

/* Whether every processor runs and saw nothing wrong; says which doesn't, and adds up what they said. */
static bool judge(struct fleet *fleet, double khz) {
    struct figures *figures = &fleet->figures;
    uint64_t cycles = 0, kilocycles = 0, cost_ns = 0, late = 0;
    bool right = fleet->ended_wrong == 0;
    figures->wrong = fleet->ended_wrong;
    for (unsigned i = 0; i < fleet->guests * fleet->processors; i++) {
        struct guest *guest = &fleet->guest[i / fleet->processors];
        unsigned number = i % fleet->processors;
        const struct voice voice = voices_get(&guest->voices, number);
        bool runs = atomic_load(&guest->vm.processors[number].end) == VM_RUNS && voice.rounds > 0;
        runs = runs && now_ns() - voice.last_ns < LATE_S * 1000000000ull;
        if (!runs) fprintf(stderr, "guest %u, processor %u does not run\n", guest->vm.number, number);
        right = right && runs && voice.wrong == 0;
        figures->wrong += voice.wrong;
        cycles += voice.cycles;
        kilocycles += voice.kilocycles;
        cost_ns += voice.cost_ns;
        late += voice.late;
    }
    if (late == 0) return right;
    figures->write_cycles = (double)cycles / (double)late;
    figures->round_ms = 1e-6 * (double)cost_ns / (double)late;
    if (khz > 0) figures->round_wall_ms = 1000 * (double)kilocycles / (double)late / khz;
    return right;
}

/* Counts the distinct pages that the guests have. They stand still, and nobody looks. */
static bool count_bound(struct fleet *fleet) {
    uint32_t pages = pages_of(fleet);
    const uint8_t **list = malloc((size_t)fleet->guests * pages * sizeof *list);
    uint8_t resident[LOOK_MOST];
    size_t count = 0;
    if (list == NULL) return trouble("memory for a count");
    for (uint32_t at = 0; at < fleet->guests * pages; at++) {
        struct guest *guest = &fleet->guest[at / pages];
        uint32_t page = at % pages, part = pages - page < LOOK_MOST ? pages - page : LOOK_MOST;
        const uint8_t *from = guest->ram + (size_t)page * PAGE;
        if (page % LOOK_MOST == 0 && mincore((void *)(uintptr_t)from, (size_t)part * PAGE, resident) < 0)
            return trouble("mincore");
        if ((resident[page % LOOK_MOST] & 1) == 0) continue;
        list[count++] = from;
        if (guest->window == NULL || window_page_is(guest->window, page) == WINDOW_PAGE_PRIVATE) fleet->figures.own++;
    }
    fleet->figures.bound = count_distinct(list, count);
    free(list);
    return true;
}

/* Writes what was asked for. */
static bool write_figures(struct fleet *fleet) {
    struct figures *figures = &fleet->figures;
    bool right = true;
    figures->name = WAYS[fleet->way];
    figures_print(figures, stdout);
    if (fleet->json != NULL && !figures_json(figures, fleet->json)) right = trouble(fleet->json);
    if (fflush(stdout) != 0) right = trouble("standard output");
    return right;
}

static bool end_journal(struct fleet *fleet) {
    if (fleet->journal == NULL) return true;
    bool ended = journal_has_ended(fleet->journal);
    fleet->figures.requests = journal_close(fleet->journal);
    if (!ended) fprintf(stderr, "%s: the run ended before %" PRIu32 " requests\n", fleet->journal_path, fleet->requests);
    else if (fleet->figures.requests < 0) trouble(fleet->journal_path);
    return fleet->figures.requests > 0;
}

static bool make_fleet(struct fleet *fleet) {
    if (fleet->way == WAY_LEND && !make_lender(fleet)) return false;
    for (unsigned i = 0; i < fleet->guests; i++)
        if (!make_guest(fleet, i)) return false;
    if (!figures_make(&fleet->figures, fleet->seconds + 3)) return trouble("memory for samples");
    fleet->ksmd_began = ksmd_seconds(fleet);
    fleet->began_ns = now_ns();
    for (unsigned i = 0; i < fleet->guests; i++) fleet->guest[i].voices.half_ns = fleet->began_ns + fleet->seconds * 500000000ull;
    if (fleet->way != WAY_LEND) return true;
    errno = looker_start(&fleet->looker, fleet->windows, fleet->lender, fleet->round_ms);
    fleet->looks = errno == 0;
    return fleet->looks || trouble("a thread that looks");
}

/* Ends the thread that looks. Returns whether all looks came out well, and says which did not. */
static bool end_looks(struct fleet *fleet) {
    if (!fleet->looks) return true;
    looker_stop(&fleet->looker);
    fleet->looks = false;
    struct window_result result = fleet->looker.looked.result;
    return result.status == WINDOW_OK || trouble_with("a look", result);
}

static bool run_fleet(struct fleet *fleet) {
    bool right = make_fleet(fleet);
    uint64_t ticks = __builtin_ia32_rdtsc();
    for (unsigned i = 0; i < fleet->guests && right; i++) right = vm_start(&fleet->guest[i].vm);
    right = right && run(fleet);
    double khz = (double)(__builtin_ia32_rdtsc() - ticks) / (1e-6 * (double)(now_ns() - fleet->began_ns));
    if (!right) return false;
    right = judge(fleet, khz);
    for (unsigned i = 0; i < fleet->guests; i++) vm_stop(&fleet->guest[i].vm);
    take_sample(fleet);
    right = end_looks(fleet) && right;
    if (fleet->watch) fputc('\n', stderr);
    fleet->figures.table_bytes = 1024 * (double)number_in("/proc/self/status", "VmPTE:");
    right = count_bound(fleet) && right;
    right = end_journal(fleet) && right;
    return write_figures(fleet) && right;
}

static void free_fleet(struct fleet *fleet) {
    for (unsigned i = 0; i < fleet->guests; i++) vm_stop(&fleet->guest[i].vm);
    end_looks(fleet);
    for (unsigned i = 0; i < fleet->guests; i++) free_guest(fleet, i);
    windows_free(fleet->windows);
    lender_free(fleet->lender);
    free(fleet->figures.samples);
}

/* Reads a number within limits. */
static bool number(const char *text, unsigned least, unsigned most, unsigned *to) {
    char *end;
    unsigned long value = strtoul(text, &end, 10);
    *to = (unsigned)value;
    return *text >= '0' && *text <= '9' && *end == 0 && value >= least && value <= most;
}

static bool word(const char *text, const char *const *words, unsigned count, unsigned *to) {
    for (*to = 0; *to < count; ++*to)
        if (strcmp(text, words[*to]) == 0) return true;
    return false;
}

/* Sets an option of a number or a word. */
static bool set_option(struct fleet *fleet, int option) {
    unsigned found = 0;
    bool right = true;
    switch (option) {
    case 'g': return number(optarg, 1, GUESTS, &fleet->guests);
    case 'm': return number(optarg, GUEST_LEAST >> 20, GUEST_MOST >> 20, &fleet->mib);
    case 's': return number(optarg, 1, 86400, &fleet->seconds);
    case 'p': return number(optarg, 1, VM_PROCESSORS, &fleet->processors);
    case 'r': return number(optarg, 0, 255, &fleet->rest);
    case 'o': return number(optarg, 1, 60000, &fleet->round_ms);
    case 'f': return number(optarg, 1, 100, &fleet->frames);
    case 'l': return number(optarg, 1, 100, &fleet->slots);
    case 'e': return number(optarg, 1, 86400, &fleet->renew);
    case 'q': right = number(optarg, 1000, 400000, &found), fleet->requests = found; return right;
    case 'w': right = word(optarg, WAYS, 3, &found), fleet->way = (enum way)found; return right;
    case 'j': fleet->journal_path = optarg; return true;
    case 'J': fleet->json = optarg; return true;
    case 'k': fleet->kernel = optarg; return true;
    case 'n': fleet->initrd = optarg; return true;
    case 'x': fleet->words = optarg; return true;
    case 't': fleet->trace = optarg; return true;
    case 'W': fleet->watch = true; return true;
    default: return false;
    }
}

static bool read_options(struct fleet *fleet, int count, char **words) {
    static const struct option options[] = {
        {"guests", 1, NULL, 'g'}, {"mib", 1, NULL, 'm'},     {"seconds", 1, NULL, 's'},  {"processors", 1, NULL, 'p'},
        {"rest", 1, NULL, 'r'},   {"round", 1, NULL, 'o'},   {"requests", 1, NULL, 'q'}, {"way", 1, NULL, 'w'},
        {"renew", 1, NULL, 'e'},  {"journal", 1, NULL, 'j'}, {"json", 1, NULL, 'J'},     {"watch", 0, NULL, 'W'},
        {"trace", 1, NULL, 't'},  {"slots", 1, NULL, 'l'},   {"frames", 1, NULL, 'f'},   {"kernel", 1, NULL, 'k'},
        {"initrd", 1, NULL, 'n'}, {"words", 1, NULL, 'x'},   {NULL, 0, NULL, 0}};
    int option;
    while ((option = getopt_long(count, words, "", options, NULL)) != -1)
        if (!set_option(fleet, option)) return false;
    if (fleet->journal_path != NULL && fleet->way != WAY_LEND) return false;
    if ((uint64_t)fleet->guests * pages_of(fleet) > LENDER_PAGES_MOST) return false;
    if (fleet->kernel != NULL) return fleet->initrd != NULL && fleet->processors == 1 && optind == count;
    fleet->program = optind + 1 == count ? words[optind] : NULL;
    return fleet->program != NULL;
}

int main(int count, char **words) {
    static struct fleet fleet = {.guests = 3,
                                 .mib = 128,
                                 .seconds = 30,
                                 .processors = 1,
                                 .rest = 50,
                                 .round_ms = 1000,
                                 .frames = 40,
                                 .slots = 60,
                                 .requests = 100000};
    for (unsigned i = 0; i < GUESTS; i++) fleet.guest[i].vm = VM_NONE;
    if (!read_options(&fleet, count, words)) {
        fputs("fleet: bad command line; fleet.c has its form at its head\n", stderr);
        return 2;
    }
    bool right = run_fleet(&fleet);
    free_fleet(&fleet);
    puts(right ? "fleet: ok" : "fleet: WRONG");
    return right ? 0 : 1;
}
