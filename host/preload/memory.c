#define _GNU_SOURCE
#include "memory.h"
#include "lines.h"
#include "trouble.h"

static const double short_percent = 10;

/* The number behind a word in the first line of a file that begins so; -1 if there is none. */
static double number_behind(const char *path, const char *line_begin, const char *word) {
    struct lines lines;
    double number = -1;
    if (lines_open(&lines, path) != 0) return number;
    for (const char *line; number < 0 && (line = lines_next(&lines));) {
        const char *at = strncmp(line, line_begin, strlen(line_begin)) == 0 ? strstr(line, word) : NULL;
        if (at && sscanf(at + strlen(word), "%lf", &number) != 1) number = -1;
    }
    lines_close(&lines);
    return number;
}

bool memory_is_short(void) {
    double all = number_behind("/proc/meminfo", "MemTotal", ":"), available = number_behind("/proc/meminfo", "MemAvailable", ":");
    if (all > 0 && available >= 0 && available * 100 < all * short_percent) return true;
    return number_behind("/proc/pressure/memory", "some", "avg10=") > short_percent;
}
