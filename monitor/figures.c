#define _GNU_SOURCE
#include "figures.h"
#include <errno.h>
#include <inttypes.h>
#include <stdlib.h>

static const double MIB = 1 << 20;

/* Of Linux's structure for a mapping. */
static const double MAPPING_BYTES = 192;

bool figures_make(struct figures *figures, size_t most) {
    figures->most = most;
    figures->samples = calloc(most, sizeof figures->samples[0]);
    return figures->samples != NULL;
}

struct sample *figures_next(struct figures *figures) {
    return figures->count < figures->most ? &figures->samples[figures->count++] : NULL;
}

static const struct sample *last(const struct figures *figures) { return &figures->samples[figures->count - 1]; }

static double ratio(double part, double whole) { return whole > 0 ? part / whole : 0; }

static double most_held(const struct figures *figures) {
    double most = 0;
    for (size_t i = 0; i < figures->count; i++)
        if (figures->samples[i].held > most) most = figures->samples[i].held;
    return most;
}

/* The first sample that has 98 % of the most pages saved at once; the last one if nothing was saved. */
static const struct sample *settled(const struct figures *figures) {
    uint64_t most = 0;
    for (size_t i = 0; i < figures->count; i++)
        if (figures->samples[i].saved > most) most = figures->samples[i].saved;
    for (size_t i = 0; i < figures->count; i++)
        if (most > 0 && figures->samples[i].saved * 100 >= most * 98) return &figures->samples[i];
    return last(figures);
}

static size_t can_be_saved(const struct figures *figures) { return figures->bound.pages - figures->bound.distinct; }

/* Bytes for what is beside pages: all that the process holds, but frames and the guests' own pages; and the system's mappings. */
static double beside(const struct figures *figures) {
    const struct sample *now = last(figures);
    double pages = (double)now->looked.totals.frames + (double)figures->own;
    return now->held - pages * WINDOW_PAGE_BYTES + MAPPING_BYTES * (double)now->windows.mappings;
}

/* The same for each byte that is lent. */
static double beside_ratio(const struct figures *figures) {
    return ratio(beside(figures), (double)last(figures)->windows.lent * WINDOW_PAGE_BYTES);
}

void figures_watch(const struct figures *figures, FILE *to) {
    const struct sample *now = last(figures);
    const struct sample *before = figures->count > 1 ? now - 1 : now;
    double passed = now->at - before->at;
    fprintf(to,
            "\r\033[K%5.0f s  %.1f MiB held  %zu pages lent, %" PRIu32
            " shared  %.1f MiB reclaimed  %.0f lends/s  %.0f copies/s  %" PRIu64 " rounds",
            now->at, now->held / MIB, now->windows.lent, now->looked.totals.shared, (double)now->saved * WINDOW_PAGE_BYTES / MIB,
            ratio((double)(now->windows.lends - before->windows.lends), passed),
            ratio((double)(now->windows.copied - before->windows.copied), passed), now->rounds);
    fflush(to);
}

/* Microseconds of a lend: the questions, the lends, and from hold to wake, of pages that were lent or given back as zeros. */
static double lend_us(const struct windows_counts *counts) {
    return 1e-3 * ratio((double)(counts->ask_ns + counts->lend_ns + counts->map_ns), (double)(counts->lends + counts->zeros));
}

static double map_us(const struct windows_counts *counts) {
    return 1e-3 * ratio((double)counts->map_ns, (double)(counts->lends + counts->zeros));
}

static void print_lending(const struct figures *figures, FILE *to) {
    const struct sample *now = last(figures);
    const struct windows_counts *counts = &now->windows;
    fprintf(to,
            "lends                     %" PRIu64 ", and %" PRIu64 " pages of zeros, %.1f us each, %.1f of it held and mapped\n",
            counts->lends, counts->zeros, lend_us(counts), map_us(counts));
    fprintf(to, "held at most              %.0f us\n", 1e-3 * (double)counts->hold_most_ns);
    fprintf(to,
            "copies found              %" PRIu64 "; %" PRIu64 " pages changed before they were mapped, %" PRIu64
            " weren't held\n",
            counts->copied, counts->changed, counts->pinned);
    fprintf(to, "asked                     %" PRIu64 ", of which others had %" PRIu64 "\n", counts->asked, counts->seen);
    fprintf(to, "at the end                %zu pages lent in %" PRIu32 " frames, %zu mappings\n", counts->lent,
            now->looked.totals.frames, counts->mappings);
    fprintf(to, "beside pages              %.2f MiB (%.2f %% of what is lent)\n", beside(figures) / MIB,
            100 * beside_ratio(figures));
    fprintf(to, "pages not lent            %" PRIu64 " without a frame, %" PRIu64 " without a mapping\n", counts->no_frame,
            counts->no_mapping);
    fprintf(to, "processor s of looks      %.2f in %" PRIu64 " looks\n", 1e-9 * (double)now->looked.thread_ns, now->looked.looks);
}

void figures_print(struct figures *figures, FILE *to) {
    const struct sample *now = last(figures), *then = settled(figures);
    fprintf(to, "way                       %s\n", figures->name);
    fprintf(to, "MiB                       %.1f before, %.1f settled at %.0f s, %.1f at the end\n", most_held(figures) / MIB,
            then->held / MIB, then->at, now->held / MIB);
    fprintf(to, "pages saved of the bound  %" PRIu64 " of %zu (%.1f %%); %zu pages, %zu distinct\n", now->saved,
            can_be_saved(figures), 100 * ratio((double)now->saved, (double)can_be_saved(figures)), figures->bound.pages,
            figures->bound.distinct);
    fprintf(to, "rounds                    %" PRIu64 ", %.1f ms of a processor each (in %.1f ms); %" PRIu64 " wrong\n",
            now->rounds, figures->round_ms, figures->round_wall_ms, figures->wrong);
    fprintf(to, "a seldom write            %.0f cycles\n", figures->write_cycles);
    fprintf(to, "processor s               %.1f, and %.2f of ksmd\n", now->processor, now->helper);
    fprintf(to, "page tables, KiB          %.0f\n", figures->table_bytes / 1024);
    if (now->windows.lends > 0) print_lending(figures, to);
    if (figures->requests > 0) fprintf(to, "requests of the journal   %" PRId64 "\n", figures->requests);
}

static bool closed(FILE *file, int written) {
    int cause = written < 0 ? errno : 0;
    if (fclose(file) != 0 && cause == 0) cause = errno;
    errno = cause;
    return cause == 0;
}

bool figures_json(struct figures *figures, const char *path) {
    const struct sample *now = last(figures), *then = settled(figures);
    const struct windows_counts *counts = &now->windows;
    FILE *file = fopen(path, "w");
    if (file == NULL) return false;
    fprintf(file, "{\"way\": \"%s\", \"mib_before\": %.1f, \"mib_settled\": %.1f, \"settled_s\": %.0f, \"mib_end\": %.1f,\n",
            figures->name, most_held(figures) / MIB, then->held / MIB, then->at, now->held / MIB);
    fprintf(file,
            " \"saved\": %" PRIu64 ", \"bound\": %zu, \"pages\": %zu, \"distinct\": %zu, \"rounds\": %" PRIu64
            ", \"round_ms\": %.2f,\n",
            now->saved, can_be_saved(figures), figures->bound.pages, figures->bound.distinct, now->rounds, figures->round_ms);
    fprintf(file, " \"round_wall_ms\": %.2f,\n", figures->round_wall_ms);
    fprintf(file,
            " \"wrong\": %" PRIu64 ", \"write_cycles\": %.0f, \"processor_s\": %.2f, \"ksmd_s\": %.2f, \"table_bytes\": %.0f,\n",
            figures->wrong, figures->write_cycles, now->processor, now->helper, figures->table_bytes);
    fprintf(file,
            " \"lends\": %" PRIu64 ", \"zeros\": %" PRIu64
            ", \"lend_us\": %.2f, \"map_us\": %.2f, \"hold_most_us\": %.0f, \"copied\": %" PRIu64 ", \"changed\": %" PRIu64 ",\n",
            counts->lends, counts->zeros, lend_us(counts), map_us(counts), 1e-3 * (double)counts->hold_most_ns, counts->copied,
            counts->changed);
    fprintf(file,
            " \"lent\": %zu, \"frames\": %" PRIu32 ", \"shared\": %" PRIu32
            ", \"mappings\": %zu, \"beside\": %.4f, \"look_s\": %.2f, \"requests\": %" PRId64 ",\n",
            counts->lent, now->looked.totals.frames, now->looked.totals.shared, counts->mappings, beside_ratio(figures),
            1e-9 * (double)now->looked.thread_ns, figures->requests);
    fprintf(file, " \"samples\": [");
    for (size_t i = 0; i < figures->count; i++)
        fprintf(file, "%s[%.1f, %.1f]", i == 0 ? "" : ", ", figures->samples[i].at, figures->samples[i].held / MIB);
    return closed(file, fputs("]}\n", file));
}
