#define _GNU_SOURCE
#include "settings.h"
#include "check/check.h"
#include "trouble.h"
#include <ctype.h>
#include <grp.h>

const char settings_help[] =
    "pageshare-host: processes of virtual machine monitors share their guests' equal pages\n"
    "\n"
    "  pageshare-host --domain NAME=SOCKET [--domain NAME=SOCKET ..] [OPTIONS]     serves clients\n"
    "  pageshare-host --status SOCKET [--json | --prometheus] [--watch]            prints what a domain's clients share\n"
    "  pageshare-host --pause NAME|PID | --resume NAME|PID                         switches a guest's sharing off and on\n"
    "  pageshare-host --limit NAME|PID=PERCENT|none                                the most of a processor that it may use\n"
    "  pageshare-host --check [--seconds N]                                        what this computer has, and a trial\n"
    "\n"
    "Of the domain named before it, or before the first one of all domains:\n"
    "  --memory SIZE          the most memory that shared pages take (default 1G; 512M, 16G, ..)\n"
    "  --lent SIZE            the most memory of guests that may be lent at a time (default four times --memory)\n"
    "  --clients N            the most clients at a time (default 64)\n"
    "  --client-memory SIZE   the most memory that one client may have lent (default: no limit)\n"
    "  --client-rate N        the most messages that are taken of one client in a second (default 20000)\n"
    "  --client-cpu PERCENT   the most of one processor that a client is told to use, 1 to 100 (default: the client decides)\n"
    "  --connection-rate N    the most connections that are taken of one user in a second (default 64)\n"
    "  --group NAME           the group of the socket\n"
    "  --mode OCTAL           the mode of the socket (default 0660)\n"
    "  --trust-peers          takes clients that are root or the host's own user, although these could write shared pages\n"
    "\n"
    "Of the host:\n"
    "  --user NAME            becomes this user after it has opened /dev/userfaultfd\n"
    "  --settings FILE        reads options from a file: NAME VALUE or NAME = VALUE in a line, and comments behind a #\n"
    "  --seconds N            how long --check tries sharing (default 20)\n"
    "  --help, --version\n"
    "\n"
    "A client is a monitor that was started with PAGESHARE_SOCKET=SOCKET LD_PRELOAD=libpageshare-window.so.\n";

static const struct domain_settings usual = {
    .memory = UINT64_C(1) << 30, .clients = 64, .client_rate = 20000, .connection_rate = 64, .mode = 0660, .group = (gid_t)-1};

enum { LINE_MOST = 512 };
static const uint64_t memory_least = 1 << 20, memory_most = UINT64_C(1) << 38; /* 1 MiB, 256 GiB: frames of 64 machines */

/* Prints the wrong line or word. Returns false. */
static bool wrong(const char *option, const char *value, const char *why) {
    log_line("--%s %s: %s", option, value ? value : "", why);
    return false;
}

static bool read_number(const char *option, const char *value, int base, uint64_t least, uint64_t most, uint64_t *number) {
    char *end = NULL;
    errno = 0;
    unsigned long long got = isdigit((unsigned char)*value) ? strtoull(value, &end, base) : 0;
    if (!end || end == value || *end || errno != 0) return wrong(option, value, "not a number");
    if (got < least || got > most) return wrong(option, value, "out of range");
    *number = got;
    return true;
}

/* A size: bytes, or with one of K, M, G or T behind the number. */
static bool read_size(const char *option, const char *value, uint64_t *bytes) {
    static const char units[] = "KMGT";
    char digits[32];
    size_t length = strlen(value);
    const char *unit = length > 1 ? strchr(units, value[length - 1]) : NULL;
    unsigned shift = unit ? 10 * (unsigned)(unit - units + 1) : 0;
    if (unit) length--;
    if (length == 0 || length >= sizeof digits) return wrong(option, value, "not a size, such as 512M or 16G");
    memcpy(digits, value, length);
    digits[length] = 0;
    if (!read_number(option, digits, 10, 1, memory_most >> shift, bytes)) return false;
    *bytes <<= shift;
    return *bytes >= memory_least || wrong(option, value, "less than 1M");
}

static bool read_text(const char *option, const char *value, char *to, size_t most) {
    if (!*value) return wrong(option, value, "is empty");
    if (strlen(value) >= most) return wrong(option, value, "is too long");
    memcpy(to, value, strlen(value) + 1);
    return true;
}

static bool is_name(const char *text) {
    for (; *text; text++)
        if (!isalnum((unsigned char)*text) && !strchr("-_.", *text)) return false;
    return true;
}

/* NAME=SOCKET: a domain, which begins with what was said of all. */
static bool read_domain(struct settings *settings, const char *value) {
    const char *equals = strchr(value, '=');
    char name[NAME_MOST];
    if (!equals || equals == value || !equals[1]) return wrong("domain", value, "not NAME=SOCKET");
    size_t length = (size_t)(equals - value);
    if (length >= sizeof name) return wrong("domain", value, "the name is too long");
    memcpy(name, value, length);
    name[length] = 0;
    if (!is_name(name)) return wrong("domain", value, "a name has letters, digits, '-', '_' and '.' alone");
    if (settings->domain_count == DOMAINS_MOST) return wrong("domain", value, "too many domains for one host");
    for (size_t i = 0; i < settings->domain_count; i++)
        if (strcmp(settings->domains[i].name, name) == 0 || strcmp(settings->domains[i].socket, equals + 1) == 0)
            return wrong("domain", value, "there is one of this name or socket already");
    struct domain_settings *domain = &settings->domains[settings->domain_count];
    *domain = settings->usual;
    memcpy(domain->name, name, length + 1);
    if (!read_text("domain", equals + 1, domain->socket, sizeof domain->socket)) return false;
    settings->domain_count++;
    return true;
}

static bool read_group(const char *value, gid_t *group) {
    uint64_t number;
    const struct group *found = getgrnam(value);
    if (found) {
        *group = found->gr_gid;
        return true;
    }
    if (!isdigit((unsigned char)*value)) return wrong("group", value, "there is no such group");
    if (!read_number("group", value, 10, 0, UINT32_MAX - 1, &number)) return false;
    *group = (gid_t)number;
    return true;
}

static bool read_file(struct settings *settings, const char *path);

/* The options that take no value. Returns whether it is one. */
static bool read_switch(struct settings *settings, struct domain_settings *domain, const char *option) {
    if (strcmp(option, "trust-peers") == 0) domain->trust_peers = true;
    else if (strcmp(option, "json") == 0) settings->form = STATUS_JSON;
    else if (strcmp(option, "prometheus") == 0) settings->form = STATUS_PROMETHEUS;
    else if (strcmp(option, "watch") == 0) settings->watch = true;
    else if (strcmp(option, "check") == 0) settings->task = TASK_CHECK;
    else if (strcmp(option, "help") == 0) settings->task = TASK_HELP;
    else if (strcmp(option, "version") == 0) settings->task = TASK_VERSION;
    else return false;
    return true;
}

static bool read_numbers(struct domain_settings *domain, const char *option, const char *value, bool *known) {
    const struct {
        const char *option;
        uint32_t *to;
        int base;
        uint32_t least, most;
    } numbers[] = {{"clients", &domain->clients, 10, 1, CLIENTS_MOST},
                   {"client-rate", &domain->client_rate, 10, 1, UINT32_MAX},
                   {"client-cpu", &domain->client_cpu, 10, 1, 100},
                   {"connection-rate", &domain->connection_rate, 10, 1, UINT32_MAX},
                   {"mode", &domain->mode, 8, 0, 0777}};
    uint64_t number;
    *known = true;
    if (strcmp(option, "memory") == 0) return read_size(option, value, &domain->memory);
    if (strcmp(option, "lent") == 0) return read_size(option, value, &domain->lent);
    if (strcmp(option, "client-memory") == 0) return read_size(option, value, &domain->client_memory);
    for (size_t i = 0; i < sizeof numbers / sizeof *numbers; i++) {
        if (strcmp(option, numbers[i].option) != 0) continue;
        if (!read_number(option, value, numbers[i].base, numbers[i].least, numbers[i].most, &number)) return false;
        *numbers[i].to = (uint32_t)number;
        return true;
    }
    *known = false;
    return true;
}

/* NAME=PERCENT: a guest, and the most of a processor that its sharing may use. */
static bool read_limit(struct settings *settings, const char *value) {
    const char *equals = strchr(value, '=');
    uint64_t percent = 0;
    size_t length = equals ? (size_t)(equals - value) : 0;
    if (length == 0 || length >= sizeof settings->guest) return wrong("limit", value, "not NAME=PERCENT, or NAME=none");
    if (strcmp(equals, "=none") != 0 && !read_number("limit", equals + 1, 10, 1, 100, &percent)) return false;
    memcpy(settings->guest, value, length);
    settings->guest[length] = 0;
    settings->percent = (unsigned)percent;
    settings->task = TASK_LIMIT;
    return true;
}

/* How long a trial is. (--check-member is for the trial itself: it makes this process one of those that share.) */
static bool read_seconds(struct settings *settings, const char *option, const char *value, bool *known) {
    uint64_t number = 0;
    bool is_member = strcmp(option, "check-member") == 0;
    *known = is_member || strcmp(option, "seconds") == 0;
    if (!*known) return true;
    if (!read_number(option, value, 10, 1, CHECK_SECONDS_MOST, &number)) return false;
    settings->seconds = (unsigned)number;
    if (is_member) settings->task = TASK_MEMBER;
    return true;
}

/* One option. `value` is NULL if none follows; `used` says whether it was one of the option's. */
static bool read_option(struct settings *settings, const char *option, const char *value, bool *used) {
    struct domain_settings *domain = settings->domain_count ? &settings->domains[settings->domain_count - 1] : &settings->usual;
    bool known;
    *used = !read_switch(settings, domain, option);
    if (!*used) return true;
    if (!value) return wrong(option, NULL, "unknown, or its value is missing (see --help)");
    bool good = read_numbers(domain, option, value, &known);
    if (!known) good = read_seconds(settings, option, value, &known);
    if (known) return good;
    if (strcmp(option, "domain") == 0) return read_domain(settings, value);
    if (strcmp(option, "group") == 0) return read_group(value, &domain->group);
    if (strcmp(option, "user") == 0) return read_text(option, value, settings->user, sizeof settings->user);
    if (strcmp(option, "settings") == 0) return read_file(settings, value);
    if (strcmp(option, "limit") == 0) return read_limit(settings, value);
    bool pauses = strcmp(option, "pause") == 0;
    if (pauses || strcmp(option, "resume") == 0) {
        settings->task = pauses ? TASK_PAUSE : TASK_RESUME;
        return read_text(option, value, settings->guest, sizeof settings->guest);
    }
    if (strcmp(option, "status") != 0) return wrong(option, value, "unknown option (see --help)");
    settings->task = TASK_STATUS;
    return read_text(option, value, settings->status, sizeof settings->status);
}

static const char blanks[] = " \t\r\n";

/* Cuts a comment off a line: it begins with a '#' that is the line's first character, or that blanks stand before. */
static void cut_comment(char *line) {
    for (char *at = strchr(line, '#'); at; at = strchr(at + 1, '#'))
        if (at == line || strchr(blanks, at[-1])) {
            *at = 0;
            return;
        }
}

/* A line of the settings file: an option, and its value behind blanks, or behind a '=' that may have blanks around it. */
static bool read_line(struct settings *settings, char *line) {
    char *option, *value, *end;
    bool used;
    cut_comment(line);
    option = line + strspn(line, blanks);
    for (end = option + strlen(option); end > option && strchr(blanks, end[-1]); end--) {
    }
    *end = 0;
    if (!*option) return true;
    end = option + strcspn(option, " \t\r\n=");
    value = end + strspn(end, blanks);
    bool has_equals = *value == '=';
    if (has_equals) value += 1 + strspn(value + 1, blanks);
    *end = 0;
    if (strcmp(option, "settings") == 0) return wrong(option, value, "not in a settings file");
    if (has_equals && !*value) return wrong(option, "=", "its value is missing");
    if (!read_option(settings, option, *value ? value : NULL, &used)) return false;
    return used || !*value || wrong(option, value, "takes no value");
}

static bool read_file(struct settings *settings, const char *path) {
    FILE *file = fopen(path, "re");
    char line[LINE_MOST];
    bool good = true;
    if (!file) return trouble(path);
    for (unsigned number = 1; good && fgets(line, sizeof line, file); number++) {
        good = strlen(line) + 1 < sizeof line || wrong("settings", path, "a line is too long");
        good = good && read_line(settings, line);
        if (!good) log_line("%s: line %u", path, number);
    }
    if (good && ferror(file)) good = trouble(path);
    fclose(file);
    return good;
}

bool settings_read(struct settings *settings, int count, char **words) {
    *settings = (struct settings){.usual = usual, .seconds = CHECK_SECONDS};
    for (int i = 1; i < count; i++) {
        bool used;
        if (strncmp(words[i], "--", 2) != 0) return wrong("", words[i], "not an option (see --help)");
        if (!read_option(settings, words[i] + 2, i + 1 < count ? words[i + 1] : NULL, &used)) return false;
        i += used;
    }
    if (settings->task == TASK_SERVE && settings->domain_count == 0)
        return wrong("domain", "NAME=SOCKET", "is missing (see --help)");
    return true;
}
