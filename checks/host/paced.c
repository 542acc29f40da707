/*
 * Looks that have a part of a processor, by clocks that this program has: tasks that take processor time, and sleeps that take some themselves,
 * as they do on a busy computer. Each ten seconds one task is long. Prints what the thread got of its part of a processor, and returns 1 if
 * that is too little or too much.
 */
#include "pageshare_window.h"
#include <stdbool.h>
#include <stdint.h>
#include <stdio.h>

enum { TASK_NS = 400000, LONG_TASK_NS = 100000000, SLEEP_NS = 30000, PERCENT = 2, BURST = 25, SECONDS = 100, EACH_SECONDS = 10 };
#define FIRST_LONG_NS UINT64_C(5000000000)
static const uint64_t second_ns = 1000000000, begun_ns = 1000000000;

static uint64_t clock_at_ns, spent_ns;

static void spend(uint64_t ns) {
    clock_at_ns += ns;
    spent_ns += ns;
}

/* How long the next task takes: each ten seconds a long time. */
static uint64_t next_task_ns(void) {
    static uint64_t next_long_ns = FIRST_LONG_NS;
    if (clock_at_ns < next_long_ns) return TASK_NS;
    next_long_ns += EACH_SECONDS * second_ns;
    return LONG_TASK_NS;
}

/* What comes of a task. A look comes to one window of some parts, where nothing is found. */
static struct pageshare_window_outcome outcome_of(const struct pageshare_window_task *task) {
    enum { PARTS = 1000 };
    static bool was_there;
    bool is_window = task->kind == PAGESHARE_WINDOW_TASK_WINDOW;
    if (task->kind == PAGESHARE_WINDOW_TASK_BEGIN) was_there = false;
    const struct pageshare_window_outcome outcome = {
        .parts = PARTS, .goes_on = is_window ? !was_there : task->kind != PAGESHARE_WINDOW_TASK_RELEASE};
    was_there = was_there || is_window;
    return outcome;
}

/* Carries out the next task of a look, or begins one. Returns for how long it worked. */
static uint64_t carry_out(struct pageshare_window_tasks *tasks, struct pageshare_window_budget *budget, uint64_t end_ns) {
    const struct pageshare_window_task task = pageshare_window_next_task(tasks, budget, clock_at_ns, spent_ns);
    const struct pageshare_window_outcome outcome = outcome_of(&task);
    const bool is_sleep = task.kind == PAGESHARE_WINDOW_TASK_SLEEP;
    if (task.kind == PAGESHARE_WINDOW_TASK_OVER) {
        pageshare_window_begin_tasks(tasks);
        return 0;
    }
    if (is_sleep) clock_at_ns += task.ns < end_ns - clock_at_ns ? task.ns : end_ns - clock_at_ns;
    uint64_t worked_ns = is_sleep ? 0 : next_task_ns();
    spend(is_sleep ? SLEEP_NS : worked_ns);
    pageshare_window_task_done(tasks, &task, &outcome, clock_at_ns);
    return worked_ns;
}

int main(void) {
    static struct pageshare_window_tasks tasks;
    struct pageshare_window_budget budget;
    const uint64_t end_ns = begun_ns + SECONDS * second_ns;
    uint64_t worked_ns = 0;
    clock_at_ns = begun_ns;
    pageshare_window_begin(&budget, PERCENT, BURST, clock_at_ns, spent_ns);
    while (clock_at_ns < end_ns) worked_ns += carry_out(&tasks, &budget, end_ns);
    double granted = (double)PERCENT / 100 * SECONDS * (double)second_ns, all = (double)spent_ns / granted,
           work = (double)worked_ns / granted;
    printf("  of its processor time the thread took %.1f %%, and worked for %.1f %%\n", 100 * all, 100 * work);
    return all > 1.01 || work < 0.9;
}
