#define _GNU_SOURCE
#include "refusals.h"
#include "trouble.h"

static const uint64_t minute_ns = UINT64_C(60000000000);
static const char *const causes[REFUSALS] = {
    [REFUSAL_UNTRUSTED] = "it could write shared pages (see --trust-peers)",
    [REFUSAL_TOO_OFTEN] = "it or its user connects too often (see --connection-rate)",
    [REFUSAL_FULL] = "there are as many clients, or connections of it, as may be (see --clients)",
    [REFUSAL_SYSTEM] = "the system refused it descriptors or memory",
};
static const char *const words[REFUSALS] = {
    [REFUSAL_UNTRUSTED] = "that could write shared pages",
    [REFUSAL_TOO_OFTEN] = "that came too often",
    [REFUSAL_FULL] = "above --clients",
    [REFUSAL_SYSTEM] = "for want of descriptors or memory",
};

/* How many of each cause, with commas between, such as "3 that came too often, 1 above --clients". */
static void list(const struct refusals *refusals, char *text, size_t room) {
    size_t used = 0;
    text[0] = 0;
    for (size_t why = REFUSAL_NONE + 1; why < REFUSALS && used < room; why++)
        if (refusals->pending[why])
            used += (size_t)snprintf(text + used, room - used, "%s%llu %s", used ? ", " : "",
                                     (unsigned long long)refusals->pending[why], words[why]);
}

void refusals_report(struct refusals *refusals, const char *domain) {
    char parts[256];
    uint64_t now, pending = 0;
    for (size_t why = 0; why < REFUSALS; why++) pending += refusals->pending[why];
    if (pending == 0 || (now = now_ns()) < refusals->next_ns) return;
    const struct ucred *last = &refusals->last;
    if (pending > 1) {
        list(refusals, parts, sizeof parts);
        log_line("domain %s: %llu connections weren't taken: %s", domain, (unsigned long long)pending, parts);
    }
    log_line("domain %s: process %d of user %u isn't taken: %s", domain, (int)last->pid, (unsigned)last->uid,
             causes[refusals->why]);
    refusals->next_ns = now + minute_ns;
    memset(refusals->pending, 0, sizeof refusals->pending);
}

void refusals_count(struct refusals *refusals, const char *domain, const struct ucred *peer, enum refusal why) {
    refusals->total++;
    refusals->pending[why]++;
    refusals->last = *peer;
    refusals->why = why;
    refusals_report(refusals, domain);
}
