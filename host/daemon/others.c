#define _GNU_SOURCE
#include "others.h"
#include "lines.h"
#include <dirent.h>
#include <fcntl.h>
#include <stdio.h>
#include <stdlib.h>
#include <string.h>
#include <sys/stat.h>
#include <unistd.h>

enum { TEXT_MOST = 65536 }; /* of an environment or a command line that is longer the rest isn't looked at */

/* The first word of a process's file that contains this text, or NULL. */
static const char *word_with(const char *text, size_t bytes, const char *wanted) {
    for (const char *word = text; word < text + bytes; word += strlen(word) + 1)
        if (strstr(word, wanted)) return word;
    return NULL;
}

/* Whether two paths name one socket. */
static bool is_same_socket(const char *one, const char *other) {
    struct stat first, second;
    if (strcmp(one, other) == 0) return true;
    return stat(one, &first) == 0 && stat(other, &second) == 0 && first.st_ino == second.st_ino && first.st_dev == second.st_dev;
}

/* Whether a process was started with this socket, and has the library. */
static bool has_library(uint64_t process, const char *socket, char text[TEXT_MOST]) {
    static const char name[] = "PAGESHARE_SOCKET=";
    struct lines lines;
    char path[64];
    bool has = false;
    const char *word = word_with(text, naming_read(process, "environ", text, TEXT_MOST), name);
    if (!word || strncmp(word, name, sizeof name - 1) != 0 || !is_same_socket(word + sizeof name - 1, socket)) return false;
    snprintf(path, sizeof path, "/proc/%llu/maps", (unsigned long long)process);
    if (lines_open(&lines, path) != 0) return false;
    for (const char *line; !has && (line = lines_next(&lines)) != NULL;) has = strstr(line, "/libpageshare-window.so") != NULL;
    lines_close(&lines);
    return has;
}

/* Why a process that the library is in isn't a client: by what it says, or by its command line. */
static void find_why(uint64_t process, char text[TEXT_MOST], char why[COUNTS_WHY_MOST]) {
    struct counts counts;
    const char *words = "it offers nothing: it doesn't say MADV_MERGEABLE";
    bool offers = naming_counts_of(process, &counts, why);
    size_t bytes = offers ? 0 : naming_read(process, "cmdline", text, TEXT_MOST);
    if (offers && *why) return;
    if (offers) words = "it isn't connected, and its log says why";
    else if (word_with(text, bytes, "mem-merge=off")) words = "it offers nothing: mem-merge=off, in libvirt <nosharepages/>";
    else if (word_with(text, bytes, "merge=off")) words = "it offers nothing: its memory has merge=off";
    snprintf(why, COUNTS_WHY_MOST, "%s", words);
}

size_t others_find(const char *socket, others_is_client *is_client, const void *of, struct other found[OTHERS_MOST]) {
    static char text[TEXT_MOST];
    struct stat folder;
    DIR *processes = opendir("/proc");
    size_t count = 0;
    for (const struct dirent *it; processes && count < OTHERS_MOST && (it = readdir(processes)) != NULL;) {
        uint64_t process = strtoull(it->d_name, NULL, 10); /* (0 of what is no process) */
        if (process == 0 || is_client(of, process) || !has_library(process, socket, text)) continue;
        struct other *other = &found[count++];
        other->process = process;
        other->user = fstatat(dirfd(processes), it->d_name, &folder, 0) == 0 ? folder.st_uid : 0;
        naming_of_guest(process, other->name);
        find_why(process, text, other->why);
    }
    if (processes) closedir(processes);
    return count;
}
