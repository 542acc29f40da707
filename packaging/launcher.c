/*
 * The program `pageshare` as it is installed: starts the build for this processor, PREFIX/libexec/pageshare/pageshare-v3 or -v2.
 *
 * PAGESHARE_LEVEL=v2 or v3 chooses by hand. `pageshare --version` prints the commit and the kit of the build below the program's
 * own line. The launcher finds the builds from where it lies itself, so the installed folders may be moved together.
 */
#define _XOPEN_SOURCE 700
#include "../lib/src/processor.h"
#include <errno.h>
#include <limits.h>
#include <spawn.h>
#include <stdio.h>
#include <stdlib.h>
#include <string.h>
#include <sys/auxv.h>
#include <sys/wait.h>
#include <unistd.h>

extern char **environ;

/* The status of a command that could not be started, as a shell has it. */
enum { NOT_STARTED = 127, FAILED = 1, NO_LEVEL = 2 };

static int failed(const char *what, int error) {
    fprintf(stderr, "pageshare: %s: %s\n", what, strerror(error));
    return NOT_STARTED;
}

/* The level to start, 2 or 3, or 0 if PAGESHARE_LEVEL names another one. */
static unsigned chosen_level(void) {
    const char *by_hand = getenv("PAGESHARE_LEVEL");
    if (by_hand == NULL || *by_hand == '\0') return processor_level() >= 3 ? 3 : 2;
    if (strcmp(by_hand, "v2") == 0) return 2;
    if (strcmp(by_hand, "v3") == 0) return 3;
    return 0;
}

/* Writes the path of that level's build, or returns an error's number. (/proc need not be mounted.) */
static int find_build(char path[PATH_MAX], unsigned level) {
    static const char *const PATHS[] = {"/../libexec/pageshare/pageshare-v2", "/../libexec/pageshare/pageshare-v3"};
    const char *build = PATHS[level - 2];
    const char *own = (const char *)getauxval(AT_EXECFN);
    if (own == NULL) return ENOENT;
    if (realpath(own, path) == NULL) return errno;
    char *name = strrchr(path, '/');
    if (name == NULL || (size_t)(name - path) + strlen(build) >= PATH_MAX) return ENAMETOOLONG;
    strcpy(name, build);
    return 0;
}

/* Runs the build, which prints its version, and prints what it was built from. */
static int print_version(const char *path, char **words) {
    pid_t child;
    int status = 0;
    int error = posix_spawn(&child, path, NULL, NULL, words, environ);
    if (error != 0) return failed(path, error);
    while (waitpid(child, &status, 0) < 0) {
        if (errno != EINTR) return failed("waitpid", errno);
    }
    if (!WIFEXITED(status)) return FAILED;
    if (WEXITSTATUS(status) != 0) return WEXITSTATUS(status);
    if (printf("commit %s\nproved and compiled by %s\n", PAGESHARE_COMMIT, PAGESHARE_KIT) < 0 || fflush(stdout) != 0) return FAILED;
    return 0;
}

int main(int count, char **words) {
    char path[PATH_MAX];
    static char name[] = "pageshare";
    unsigned level = chosen_level();
    if (level == 0) {
        fputs("pageshare: PAGESHARE_LEVEL is v2 or v3\n", stderr);
        return NO_LEVEL;
    }
    if (level > processor_level()) {
        fprintf(stderr, "pageshare: this processor is older than x86-64-v%u\n", level);
        return NOT_STARTED;
    }
    int error = find_build(path, level);
    if (error != 0) return failed("the installed builds", error);
    if (count > 0) words[0] = name;
    if (count == 2 && (strcmp(words[1], "--version") == 0 || strcmp(words[1], "-V") == 0)) return print_version(path, words);
    execv(path, words);
    return failed(path, errno);
}
