#define _GNU_SOURCE
#include "naming.h"
#include <ctype.h>
#include <dirent.h>
#include <errno.h>
#include <fcntl.h>
#include <stdio.h>
#include <string.h>
#include <sys/stat.h>
#include <unistd.h>

enum {
    NO_FILE = -1,
    WORDS_MOST = 65536 /* of a command line that is longer the rest isn't looked at */
};

size_t naming_read(uint64_t process, const char *what, char *text, size_t room) {
    char path[128];
    size_t done = 0;
    snprintf(path, sizeof path, "/proc/%llu/%s", (unsigned long long)process, what);
    int file = open(path, O_RDONLY | O_CLOEXEC);
    for (ssize_t got; file >= 0 && done + 1 < room && (got = read(file, text + done, room - done - 1)) > 0;) done += (size_t)got;
    if (file >= 0) close(file);
    text[done] = 0;
    return done;
}

static bool may_stay(char byte) {
    return isascii((unsigned char)byte) && (isalnum((unsigned char)byte) || strchr("._+:@-", byte));
}

/* Copies a value, in which each comma is written twice. */
static void copy_value(const char *value, const char *end, char name[GUEST_NAME_MOST]) {
    size_t length = 0;
    for (; value < end && length + 1 < GUEST_NAME_MOST; value += *value == ',' ? 2 : 1)
        name[length++] = may_stay(*value) ? *value : '?';
    name[length] = 0;
}

/* The end of a part of an option's value: at a comma that isn't written twice, or the end. */
static const char *part_end(const char *part, const char *end) {
    while (part < end && (*part != ',' || (part + 1 < end && part[1] == ','))) part += *part == ',' ? 2 : 1;
    return part;
}

/* The value of -name: its part that says guest=, or its first one if that has no name of its own. */
static void read_option(const char *option, const char *end, char name[GUEST_NAME_MOST]) {
    static const char guest[] = "guest=";
    const size_t length = sizeof guest - 1;
    for (const char *part = option, *next; part < end; part = next + 1) {
        next = part_end(part, end);
        bool is_said = (size_t)(next - part) >= length && memcmp(part, guest, length) == 0;
        if (is_said) copy_value(part + length, next, name);
        else if (part == option && !memchr(part, '=', (size_t)(next - part))) copy_value(part, next, name);
    }
}

void naming_of_guest(uint64_t process, char name[GUEST_NAME_MOST]) {
    static char words[WORDS_MOST + 1];
    const char *end = words + naming_read(process, "cmdline", words, sizeof words);
    bool is_next = false;
    name[0] = 0;
    for (const char *word = words, *zero; word < end; word = zero + 1) {
        zero = memchr(word, 0, (size_t)(end - word));
        if (!zero) return; /* a word that was cut off */
        if (is_next) {
            read_option(word, zero, name);
            return;
        }
        is_next = strcmp(word, "-name") == 0 || strcmp(word, "--name") == 0;
    }
}

/* A size that a line of a process's status has, in bytes. */
static uint64_t size_in(const char *text, const char *name) {
    unsigned long long kibibytes = 0;
    const char *line = strstr(text, name);
    return line && sscanf(line + strlen(name), "%llu kB", &kibibytes) == 1 ? kibibytes * 1024 : 0;
}

struct naming_memory naming_memory_of(uint64_t process) {
    char text[4096];
    naming_read(process, "status", text, sizeof text);
    return (struct naming_memory){
        .size = size_in(text, "\nVmSize:"), .resident = size_in(text, "\nVmRSS:"), .tables = size_in(text, "\nVmPTE:")};
}

/* Reads a text of a thread, or an empty one if there is none. */
static void read_thread(uint64_t process, const char *thread, const char *what, char *text, size_t room) {
    char path[64];
    snprintf(path, sizeof path, "task/%.20s/%s", thread, what);
    naming_read(process, path, text, room);
}

/* The processor time of a thread, whose name may contain anything. */
static uint64_t time_of(uint64_t process, const char *thread) {
    char text[1024];
    unsigned long long user = 0, system = 0;
    const long ticks = sysconf(_SC_CLK_TCK);
    read_thread(process, thread, "stat", text, sizeof text);
    const char *end = strrchr(text, ')');
    if (!end || ticks <= 0 || sscanf(end, ") %*c %*d %*d %*d %*d %*d %*u %*u %*u %*u %*u %llu %llu", &user, &system) != 2)
        return 0;
    return (user + system) * (UINT64_C(1000000000) / (uint64_t)ticks);
}

uint64_t naming_processor_of(uint64_t process) {
    char path[64], name[32];
    uint64_t taken = 0;
    snprintf(path, sizeof path, "/proc/%llu/task", (unsigned long long)process);
    DIR *threads = opendir(path);
    for (const struct dirent *it; threads && (it = readdir(threads)) != NULL;) {
        if (*it->d_name == '.') continue;
        read_thread(process, it->d_name, "comm", name, sizeof name);
        if (strcmp(name, "pageshare\n") == 0) taken += time_of(process, it->d_name);
    }
    if (threads) closedir(threads);
    return taken;
}

/* Whether a descriptor of a process, by the name of its entry, has the library's name for its file of counts. */
static bool is_counts(int folder, const char *descriptor) {
    static const char wanted[] = "/memfd:" COUNTS_NAME " (deleted)";
    char target[sizeof wanted];
    ssize_t length = readlinkat(folder, descriptor, target, sizeof target);
    return length == (ssize_t)sizeof wanted - 1 && memcmp(target, wanted, sizeof wanted - 1) == 0;
}

/* Opens a file again that is open, by its descriptor. */
static int open_again(int descriptor, int flags) {
    char path[64];
    snprintf(path, sizeof path, "/proc/self/fd/%d", descriptor);
    return open(path, flags | O_CLOEXEC | O_NONBLOCK);
}

/* Whether a file is the library's file of counts: any path can have its name, but only a file in memory has seals. */
static bool is_sealed(int file) {
    const int due = F_SEAL_SHRINK | F_SEAL_GROW;
    struct stat facts;
    int seals = fcntl(file, F_GET_SEALS);
    return seals >= 0 && (seals & due) == due && fstat(file, &facts) == 0 && facts.st_size == COUNTS_BYTES && facts.st_nlink == 0;
}

/* Opens a file by another process's descriptor, if it is its file of counts: to open anything else might do something. Returns it, or -1. */
static int open_sealed(int folder, const char *descriptor, int flags) {
    struct stat facts;
    int found = is_counts(folder, descriptor) ? openat(folder, descriptor, O_PATH | O_CLOEXEC) : NO_FILE;
    if (found < 0) return NO_FILE;
    int looked_at = fstat(found, &facts) == 0 && S_ISREG(facts.st_mode) ? open_again(found, O_RDONLY) : NO_FILE;
    close(found);
    bool is_it = looked_at >= 0 && is_sealed(looked_at);
    int file = is_it ? open_again(looked_at, flags) : NO_FILE;
    if (looked_at >= 0) close(looked_at);
    return file;
}

int naming_open_counts(uint64_t process, int flags) {
    char path[64];
    int file = NO_FILE;
    snprintf(path, sizeof path, "/proc/%llu/fd", (unsigned long long)process);
    DIR *descriptors = opendir(path);
    if (!descriptors) return NO_FILE;
    for (const struct dirent *it; file < 0 && (it = readdir(descriptors)) != NULL;)
        if (*it->d_name != '.') file = open_sealed(dirfd(descriptors), it->d_name, flags);
    closedir(descriptors);
    if (file < 0) errno = ENOENT;
    return file;
}

bool naming_read_counts(int file, struct counts *counts) {
    bool is_read = pread(file, counts, sizeof *counts, 0) == (ssize_t)sizeof *counts && counts->version == COUNTS_VERSION;
    if (!is_read) *counts = (struct counts){0};
    return is_read;
}

/* Reads why nothing is lent. A process can write anything there. */
static void read_why(int file, char why[COUNTS_WHY_MOST]) {
    ssize_t got = pread(file, why, COUNTS_WHY_MOST - 1, COUNTS_WHY_AT);
    why[got > 0 ? got : 0] = 0;
    for (char *at = why; *at; at++)
        if (*at < ' ' || *at > '~' || *at == '"' || *at == '\\') *at = '?';
}

bool naming_counts_of(uint64_t process, struct counts *counts, char why[COUNTS_WHY_MOST]) {
    int file = naming_open_counts(process, O_RDONLY);
    *counts = (struct counts){0};
    *why = 0;
    if (file < 0) return false;
    bool is_read = naming_read_counts(file, counts);
    if (is_read) read_why(file, why);
    close(file);
    return is_read;
}
