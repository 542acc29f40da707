/* The one maker with a config beside the calls of 0.1.0, the names of statuses and verdicts, and the library's version and level. */
#include "pageshare.h"
#include "check.h"
#include <string.h>

static const uint32_t PAGES[] = {2, 1}, SALTS[] = {0, 7};
static const struct pageshare_config CONFIG = {.frames = 3, .pages = PAGES, .salts = SALTS, .guests = 2};

/* The status of making a machine with this config, which is freed again. */
static uint32_t made(const struct pageshare_config *config) {
    struct pageshare machine = PAGESHARE_NONE;
    uint32_t status = pageshare_make(&machine, config);
    CHECK(pageshare_free(&machine) == (status == PAGESHARE_OK ? PAGESHARE_OK : PAGESHARE_ERROR_NO_MACHINE));
    return status;
}

static void makes_by_config(void) {
    struct pageshare machine = PAGESHARE_NONE;
    struct pageshare_config config = CONFIG;
    const uint32_t none[] = {0, 1};
    CHECK(made(&CONFIG) == PAGESHARE_OK);
    config.hash = PAGESHARE_SHA256_WIDE;
    CHECK(made(&config) == PAGESHARE_OK);
    /* each cause alone, and with the ones that are checked after it */
    config.guests = 65;
    config.pages = none;
    CHECK(made(&config) == PAGESHARE_ERROR_GUESTS);
    config.frames = 0;
    CHECK(made(&config) == PAGESHARE_ERROR_FRAMES);
    config.hash = 3;
    CHECK(made(&config) == PAGESHARE_ERROR_HASH);
    config = CONFIG;
    config.pages = none;
    config.region = &machine;
    CHECK(made(&config) == PAGESHARE_ERROR_PAGES);
    config.pages = PAGES;
    CHECK(made(&config) == PAGESHARE_ERROR_REGION);
    CHECK(pageshare_make(&machine, &CONFIG) == PAGESHARE_OK);
    CHECK(pageshare_make(&machine, &config) == PAGESHARE_ERROR_IN_USE);
    CHECK(pageshare_free(&machine) == PAGESHARE_OK);
}

/* A config that is written in the call, with members of any number, and the calls of 0.1.0. */
static void makes_in_each_form(void) {
    struct pageshare machine = PAGESHARE_NONE;
    CHECK(pageshare_make(&machine, &(struct pageshare_config){.frames = 3, .pages = PAGES, .salts = SALTS, .guests = 2}) == PAGESHARE_OK);
    CHECK(pageshare_free(&machine) == PAGESHARE_OK);
    CHECK(pageshare_make(&machine, (&(struct pageshare_config){.frames = 3, .pages = PAGES, .salts = SALTS, .guests = 2, .hash = 1})) == PAGESHARE_OK);
    CHECK(pageshare_free(&machine) == PAGESHARE_OK);
    CHECK(pageshare_make(&machine, &(struct pageshare_config){3, PAGES, SALTS, 2, PAGESHARE_FOLD, NULL, 0}) == PAGESHARE_OK);
    CHECK(pageshare_free(&machine) == PAGESHARE_OK);
    CHECK(pageshare_make(&machine, 3, PAGES, 2, SALTS, 2) == PAGESHARE_OK);
    CHECK(pageshare_free(&machine) == PAGESHARE_OK);
    CHECK(pageshare_make_with(&machine, &CONFIG) == PAGESHARE_OK);
    CHECK(pageshare_free(&machine) == PAGESHARE_OK);
    uint32_t (*by_lists)(struct pageshare *, uint32_t, const uint32_t *, size_t, const uint32_t *, size_t) = pageshare_make;
    CHECK(by_lists(&machine, 3, PAGES, 2, SALTS, 2) == PAGESHARE_OK);
    CHECK(pageshare_free(&machine) == PAGESHARE_OK);
}

/* Each number has a text of its own, and numbers that mean nothing have one for all of them. */
static void names_numbers(void) {
    static const char *const VERDICTS[] = {
        "none",   "no-page", "unmapped", "already", "joined",   "paired", "hinted",   "kept",   "replaced", "ineligible",
        "mapped", "stored",  "copied",   "taken",   "no-frame", "bytes",  "released", "totals", "closed",
    };
    for (uint32_t i = PAGESHARE_VERDICT_NONE; i <= PAGESHARE_VERDICT_CLOSED; i++)
        CHECK(strcmp(pageshare_verdict_text(i), VERDICTS[i]) == 0);
    CHECK(strcmp(pageshare_verdict_text(PAGESHARE_VERDICT_CLOSED + 1), "unknown verdict") == 0);
    CHECK(strcmp(pageshare_verdict_text(UINT32_MAX), "unknown verdict") == 0);
    for (uint32_t i = PAGESHARE_OK; i <= PAGESHARE_ERROR_PROCESSOR; i++) {
        const char *text = pageshare_status_text(i);
        /* (15 to 24 have names where the header has domains) */
        bool is_named = strcmp(text, "unknown status") != 0;
        CHECK(is_named || (i > PAGESHARE_ERROR_HASH && i < PAGESHARE_ERROR_PROCESSOR));
        for (uint32_t j = PAGESHARE_OK; j < i; j++) CHECK(!is_named || strcmp(text, pageshare_status_text(j)) != 0);
    }
    CHECK(strcmp(pageshare_status_text(PAGESHARE_OK), "ok") == 0);
    CHECK(strcmp(pageshare_status_text(PAGESHARE_ERROR_NO_PAGE), "no such page") == 0);
    CHECK(strcmp(pageshare_status_text(PAGESHARE_ERROR_PROCESSOR + 1), "unknown status") == 0);
    CHECK(strcmp(pageshare_status_text(UINT32_MAX), "unknown status") == 0);
}

int main(void) {
    makes_by_config();
    makes_in_each_form();
    names_numbers();
    CHECK(strcmp(pageshare_version(), PAGESHARE_VERSION) == 0);
    CHECK(pageshare_level() == 2 || pageshare_level() == 3);
    CHECK(pageshare_check_processor() == PAGESHARE_OK);
    if (failures == 0) puts("ok");
    return failures != 0;
}
