#include "count.h"
#include "../window/lender.h"
#include <stdlib.h>
#include <string.h>

static int compare(const void *left, const void *right) {
    return memcmp(*(const uint8_t *const *)left, *(const uint8_t *const *)right, WINDOW_PAGE_BYTES);
}

struct counted count_distinct(const uint8_t **pages, size_t count) {
    struct counted counted = {count, 0};
    qsort(pages, count, sizeof pages[0], compare);
    for (size_t i = 0; i < count; i++)
        if (i == 0 || compare(&pages[i - 1], &pages[i]) != 0) counted.distinct++;
    return counted;
}
