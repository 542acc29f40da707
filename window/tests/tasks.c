/*
 * A look's tasks. Between any two of them pages are written, given up, cut or unmapped, a transfer of them begins, or their window or all lending
 * ends: no byte and no slot is lost. A look attends first of all and each second, and ends when it is to. One with a share of a processor sleeps,
 * and shares all the same. Prints "tasks: ok" (status 0) or what isn't so (status 1).
 */
#define _GNU_SOURCE
#include "fixture.h"
#include <errno.h>
#include <pthread.h>
#include <sys/syscall.h>
#include <time.h>

/* ---- what happens between two tasks ---- */

enum { PAGES = 64, ZEROS_END = 12, FIRST = 4, COUNT = 30, LOOKS_BEFORE = 2 };

/* A window, and what its pages must contain. */
struct scene {
    struct fixture fixture;
    struct window *window; /* NULL: it has ended */
    uint8_t *at, *due;
    bool is_gone[PAGES]; /* something else lies there */
    struct windows_transfer transfer;
    size_t lent; /* of its pages, where a transfer of them is under way */
    bool is_moving;
};

/* Something happens to the pages from FIRST on. */
typedef void deed(struct scene *scene);

/* What is to happen before the nth task of a kind. */
static struct {
    deed *deed;
    struct scene *scene;
    unsigned kind, nth;
} planned;

struct pageshare_window_task __real_pageshare_window_next_task(struct pageshare_window_tasks *tasks,
                                                               struct pageshare_window_budget *budget, uint64_t now,
                                                               uint64_t spent);
struct pageshare_window_task __wrap_pageshare_window_next_task(struct pageshare_window_tasks *tasks,
                                                               struct pageshare_window_budget *budget, uint64_t now,
                                                               uint64_t spent);
struct pageshare_window_task __wrap_pageshare_window_next_task(struct pageshare_window_tasks *tasks,
                                                               struct pageshare_window_budget *budget, uint64_t now,
                                                               uint64_t spent) {
    const struct pageshare_window_task task = __real_pageshare_window_next_task(tasks, budget, now, spent);
    if (planned.deed == NULL || task.kind != planned.kind || planned.nth-- > 0) return task;
    planned.deed(planned.scene);
    planned.deed = NULL;
    return task;
}

static uint8_t *page_at(const struct scene *scene, size_t page) { return scene->at + page * PAGE; }

/* Each page is changed in one byte. */
static void write_pages(struct scene *scene) {
    for (size_t page = FIRST; page < FIRST + COUNT; page++) scene->at[page * PAGE + 100] = scene->due[page * PAGE + 100] = 99;
}

static void discard(struct scene *scene) {
    must(window_discard(scene->window, FIRST, COUNT), "window_discard");
    memset(scene->due + (size_t)FIRST * PAGE, 0, (size_t)COUNT * PAGE);
}

static size_t lent_in(const struct scene *scene) {
    size_t lent = 0;
    for (size_t page = FIRST; page < FIRST + COUNT; page++) lent += window_page_is(scene->window, page) == WINDOW_PAGE_LENT;
    return lent;
}

static void begin_transfer(struct scene *scene) {
    const struct iovec buffer = {page_at(scene, FIRST), (size_t)COUNT * PAGE};
    scene->transfer = windows_transfer_begin(scene->fixture.windows, &buffer, 1);
    scene->lent = lent_in(scene);
    scene->is_moving = true;
}

static void cut(struct scene *scene) {
    size_t kept = 1;
    must(window_cut(scene->window, FIRST, COUNT, &kept), "window_cut");
    check(kept == 0, "no copy has to stay where it is");
}

static void cut_and_write(struct scene *scene) {
    cut(scene);
    write_pages(scene);
}

/* Nobody may touch a place from now on. */
static void block(struct scene *scene, size_t first, size_t count) {
    const int kind = MAP_PRIVATE | MAP_ANONYMOUS | MAP_NORESERVE | MAP_FIXED;
    check(mmap(page_at(scene, first), count * PAGE, PROT_NONE, kind, -1, 0) != MAP_FAILED, "a place is blocked");
    for (size_t page = first; page < first + count; page++) scene->is_gone[page] = true;
}

static void unmap(struct scene *scene) {
    check(windows_pause(scene->fixture.windows) == 0, "windows_pause");
    block(scene, FIRST, COUNT);
    window_forget(scene->window, FIRST, COUNT);
    windows_resume(scene->fixture.windows);
}

static void drop(struct scene *scene) {
    must(window_free(scene->window, WINDOW_DROP), "window_free");
    scene->window = NULL;
    block(scene, 0, PAGES);
}

static void go_home(struct scene *scene) {
    must(window_free(scene->window, WINDOW_TAKE_HOME), "window_free");
    scene->window = NULL;
    write_pages(scene);
}

static void go_home_and_unmap(struct scene *scene) {
    must(window_free(scene->window, WINDOW_TAKE_HOME), "window_free");
    scene->window = NULL;
    block(scene, 0, PAGES);
}

static void end_lending(struct scene *scene) { windows_end(scene->fixture.windows); }

static void make_window(struct scene *scene) {
    uint8_t *at = memory(PAGES);
    struct window *window = window_over(&scene->fixture, at, PAGES);
    must(window_free(window, WINDOW_DROP), "window_free");
}

/* Pages of zeros, and others of which each fourth is the same. They are found idle by the next look. */
static void make_scene(struct scene *scene, const struct windows_config *config) {
    *scene = (struct scene){.fixture = fixture_make(config, PAGES), .at = memory(PAGES), .due = memory(PAGES)};
    scene->window = window_over(&scene->fixture, scene->at, PAGES);
    for (size_t page = 0; page < PAGES; page++)
        memset(scene->due + page * PAGE, page < ZEROS_END ? 0 : (int)(page % 4 + 1), PAGE);
    memcpy(scene->at, scene->due, (size_t)PAGES * PAGE);
    look_often(&scene->fixture, LOOKS_BEFORE);
    check(counts_of(&scene->fixture).lends == 0, "nothing is lent before pages are idle");
}

static void check_bytes(const struct scene *scene, const char *what) {
    for (size_t page = 0; page < PAGES; page++)
        if (!scene->is_gone[page]) check(memcmp(page_at(scene, page), scene->due + page * PAGE, PAGE) == 0, what);
}

static void check_scene(struct scene *scene, const char *what) {
    check_bytes(scene, what);
    if (scene->is_moving) {
        check(lent_in(scene) == scene->lent, "no page of a transfer is lent");
        windows_transfer_end(scene->fixture.windows, scene->transfer);
    }
    look_often(&scene->fixture, 2);
    check_bytes(scene, what);
    if (scene->window != NULL) must(window_free(scene->window, WINDOW_DROP), "window_free");
    fixture_free(&scene->fixture);
    munmap(scene->at, (size_t)PAGES * PAGE);
    munmap(scene->due, (size_t)PAGES * PAGE);
}

/* The deed is done before the nth task of this kind. Returns false if the look has no such task. */
static bool disturb(const struct windows_config *config, const char *name, deed *done, unsigned kind, unsigned nth) {
    struct scene scene;
    char what[128];
    snprintf(what, sizeof what, "%s before task %u of kind %u: each byte is as it was written", name, nth, kind);
    make_scene(&scene, config);
    planned.scene = &scene;
    planned.kind = kind;
    planned.nth = nth;
    planned.deed = done;
    must(look(scene.fixture.windows), name);
    bool is_done = planned.deed == NULL;
    planned.deed = NULL;
    check_scene(&scene, what);
    return is_done;
}

static void disturbed(const struct windows_config *config) {
    static const struct {
        const char *name;
        deed *deed;
    } deeds[] = {{"pages are written", write_pages},
                 {"pages are discarded", discard},
                 {"a transfer begins", begin_transfer},
                 {"pages are cut", cut},
                 {"pages are cut and written", cut_and_write},
                 {"pages are unmapped", unmap},
                 {"a window is dropped", drop},
                 {"a window's pages go home", go_home},
                 {"a window goes home and is unmapped", go_home_and_unmap},
                 {"lending ends", end_lending},
                 {"another window comes and goes", make_window}};
    unsigned tasks = 0;
    for (size_t i = 0; i < sizeof deeds / sizeof deeds[0]; i++)
        for (unsigned kind = PAGESHARE_WINDOW_TASK_BEGIN; kind <= PAGESHARE_WINDOW_TASK_END; kind++)
            for (unsigned nth = 0; disturb(config, deeds[i].name, deeds[i].deed, kind, nth); nth++) tasks++;
    printf("%u tasks had something happen before them\n", tasks);
    check(tasks > 100, "each kind of task but the return is met");
}

/* ---- a look attends ---- */

static struct {
    struct fixture *fixture;
    unsigned calls, ends_at; /* how often it was called; the call, from 1 on, that ends its look */
    uint64_t looks;          /* before the look under way */
    bool came_first;
} attending;

static bool attend(void *opaque) {
    check(opaque == &attending, "it is called with what was given");
    if (attending.calls == 0) attending.came_first = counts_of(attending.fixture).looks == attending.looks;
    return ++attending.calls != attending.ends_at;
}

/* A look of which the nth call is to end it. Returns how often it called. */
static unsigned look_attended(struct fixture *fixture, unsigned ends_at) {
    attending.fixture = fixture;
    attending.looks = counts_of(fixture).looks;
    attending.calls = 0;
    attending.ends_at = ends_at;
    must(look(fixture->windows), "a look that attends");
    return attending.calls;
}

/* A lender of which some calls take more than a second, or that is away when slots are to be released. */
static struct window_lender lender;
static unsigned slow_calls, slow_most;
static bool is_away;

static void dawdle(void) {
    if (slow_calls == slow_most) return;
    usleep(1050000);
    slow_calls++;
}

static int ask_slowly(void *opaque, const uint32_t *pages, const uint64_t *fingerprints, const bool *passing, size_t count,
                      unsigned char *seen) {
    dawdle();
    return lender.ask(opaque, pages, fingerprints, passing, count, seen);
}

static int lend_slowly(void *opaque, const uint32_t *pages, size_t count, struct window_loan *loans) {
    dawdle();
    return lender.lend(opaque, pages, count, loans);
}

static int release_or_not(void *opaque, const uint64_t *slots, size_t count) {
    return is_away ? ENOTCONN : lender.release(opaque, slots, count);
}

/* A window of a set that attends, whose pages are found idle by the next look. Its lender isn't slow yet. */
static struct window *make_attended(struct fixture *fixture, uint8_t *at, size_t pages) {
    struct windows_config config = never_pinned;
    config.attend = attend;
    config.attend_opaque = &attending;
    *fixture = fixture_make(&config, (uint32_t)pages);
    lender = *lender_interface(fixture->lender);
    struct window_lender slow = lender;
    slow.ask = ask_slowly;
    slow.lend = lend_slowly;
    slow.release = release_or_not;
    slow_calls = slow_most = 0;
    windows_detach(fixture->windows);
    must(windows_attach(fixture->windows, &slow), "windows_attach");
    struct window *window = window_over(fixture, at, pages);
    fill(at, pages, 4);
    for (int i = 0; i < LOOKS_BEFORE; i++)
        check(look_attended(fixture, 0) > 0 && attending.came_first, "a look attends first of all");
    return window;
}

static void attends(void) {
    struct fixture fixture;
    uint8_t *at = memory(PAGES);
    struct window *window = make_attended(&fixture, at, PAGES);
    const uint64_t looks = counts_of(&fixture).looks;
    check(look_attended(&fixture, 1) == 1 && attending.came_first, "a look that is to end attends");
    check(counts_of(&fixture).looks == looks && counts_of(&fixture).lends == 0, "and does nothing else");
    slow_most = 2;
    check(look_attended(&fixture, 0) > 2 && slow_calls == 2, "a look attends each second");
    check(counts_of(&fixture).lent > PAGES / 2, "and goes on then");
    fixture_end(&fixture, window);
    munmap(at, (size_t)PAGES * PAGE);
}

/* A look that is to end shares what it has found, and goes to no other part. */
static void ends(void) {
    enum { MANY = 4 * WINDOWS_HUGE_PAGES };
    struct fixture fixture;
    uint8_t *at = memory(MANY);
    struct window *window = make_attended(&fixture, at, MANY);
    const uint64_t round_ns = counts_of(&fixture).round_ns;
    slow_most = 1;
    check(look_attended(&fixture, 2) > 1, "a look is ended");
    size_t lent = counts_of(&fixture).lent;
    check(lent > 0 && lent <= 2 * WINDOWS_HUGE_PAGES, "it shares what it has found, and nothing else");
    check(round_ns > 0 && counts_of(&fixture).round_ns == round_ns, "it isn't timed as one that has been everywhere");
    check(look_until(&fixture, MANY) == MANY, "later looks share the rest");
    for (size_t page = 0; page < MANY; page++) check(are_bytes(at + page * PAGE, (int)(page % 4 + 1)), "each byte is as it was");
    fixture_end(&fixture, window);
    munmap(at, (size_t)MANY * PAGE);
}

/* A lender that is away when a look begins is asked nothing more in it, and the counts say so. The next look releases the slots. */
static void goes_on_alone(void) {
    struct fixture fixture;
    uint8_t *at = memory(PAGES);
    struct window *window = make_attended(&fixture, at, PAGES);
    check(look_until(&fixture, PAGES) == PAGES, "pages are lent");
    must(window_discard(window, FIRST, COUNT), "window_discard");
    is_away = true;
    const struct window_result result = look(fixture.windows);
    check(result.status == WINDOW_LENDER_FAILED && result.cause == ENOTCONN, "a look says that the lender is away");
    check(counts_of(&fixture).pause == WINDOWS_NO_LENDER, "so do the counts");
    check(counts_of(&fixture).lender_failures == 1 && slots_of(&fixture) == PAGES, "and it is asked nothing more");
    is_away = false;
    must(look(fixture.windows), "a look at the lender that is there again");
    check(counts_of(&fixture).pause == WINDOWS_LENDING && slots_of(&fixture) == PAGES - COUNT, "then the slots are released");
    fixture_end(&fixture, window);
    munmap(at, (size_t)PAGES * PAGE);
}

/* ---- a share of a processor ---- */

static uint64_t spend_ms(uint64_t ms) {
    volatile uint64_t turns = 0;
    const uint64_t begun = clock_spent_ns();
    while (clock_spent_ns() - begun < ms * 1000000) turns++;
    return turns;
}

static void *look_once(void *opaque) {
    struct fixture *fixture = opaque;
    spend_ms(1);
    must(look(fixture->windows), "a look of another thread");
    return NULL;
}

/* Looks until pages are lent, and returns by how much longer that took than the processor time of the looks. */
static double slowness(struct fixture *fixture, size_t pages) {
    const uint64_t begun = clock_now_ns(), spent = counts_of(fixture).look_ns;
    check(look_until(fixture, pages) == pages, "pages are lent, slowly or not");
    return (double)(clock_now_ns() - begun) / (double)(counts_of(fixture).look_ns - spent + 1);
}

static void sleeps(void) {
    enum { MANY = 512, PERCENT = 5, SLOWNESS = 100 / PERCENT, HALF_A_SECOND = 500, SECOND = 1000000000 };
    const uint64_t credit_ns = 60 * (uint64_t)SECOND;
    const struct windows_config config = {.pins = WINDOWS_PINS_NEVER, .percent = PERCENT, .burst = PERCENT};
    FIXTURE(&config, MANY, MANY);
    fill(at, MANY, 4);
    check(slowness(&fixture, MANY) > SLOWNESS / 2, "looks sleep until their processor time is paid for");
    for (size_t page = 0; page < MANY; page++) check(are_bytes(at + page * PAGE, (int)(page % 4 + 1)), "each byte is as it was");
    windows_pace(fixture.windows, 1, 100);
    windows_give_credit(fixture.windows, credit_ns);
    check(windows_budget_of(fixture.windows).percent == 1, "the share is another one");
    memset(at, 77, (size_t)MANY * PAGE);
    look_often(&fixture, 4);
    uint64_t left = windows_budget_of(fixture.windows).credit_ns;
    check(left < credit_ns && left > credit_ns / 2, "a credit pays for looks");
    /* (the budget doesn't pay for what this thread uses while another one looks) */
    pthread_t other;
    check(pthread_create(&other, NULL, look_once, &fixture) == 0 && pthread_join(other, NULL) == 0, "another thread looks");
    left = windows_budget_of(fixture.windows).credit_ns;
    spend_ms(HALF_A_SECOND);
    look_often(&fixture, 1);
    check(left - windows_budget_of(fixture.windows).credit_ns < SECOND / 5, "only what looks use is paid for by the credit");
    windows_pace(fixture.windows, 100, 100);
    fixture_end(&fixture, window);
    munmap(at, (size_t)MANY * PAGE);
}

/* Without a share a thread uses what it likes, and no credit is kept. */
static void never_sleeps(void) {
    enum { MANY = 512 };
    FIXTURE(&never_pinned, MANY, MANY);
    fill(at, MANY, 4);
    windows_pace(fixture.windows, 1, 1);
    windows_give_credit(fixture.windows, 1000);
    check(windows_budget_of(fixture.windows).percent == 100 && windows_budget_of(fixture.windows).credit_ns == 0,
          "it has no share");
    check(look_until(&fixture, MANY) == MANY, "pages are lent");
    check(fixture.windows->budget.owed == 0, "nothing is owed");
    fixture_end(&fixture, window);
    munmap(at, (size_t)MANY * PAGE);
}

int main(void) {
    const struct windows_config guarded = {.pins = WINDOWS_PINS_NEVER, .never_move = true};
    sleeps(); /* (first of all, before this thread has used much) */
    never_sleeps();
    attends();
    ends();
    goes_on_alone();
    disturbed(&never_pinned);
    disturbed(&guarded);
    puts(check_count() == 0 ? "tasks: ok" : "tasks: WRONG");
    return check_count() == 0 ? 0 : 1;
}
