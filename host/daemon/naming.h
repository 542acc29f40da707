/* What can be seen of a client's process from outside: the name of its guest, its page tables, and what the library takes and counts. */
#ifndef HOST_NAMING_H
#define HOST_NAMING_H

#include "counts.h"
#include <stdbool.h>
#include <stddef.h>

enum { GUEST_NAME_MOST = 64 };

/*
 * Finds the name that QEMU's command line gives a process's guest (-name), without what else that option has. Anybody may write
 * anything there: of it letters, digits and "._+:@-" stay, and each other byte becomes '?'. An empty name: there is none, or the command
 * line can't be read.
 */
void naming_of_guest(uint64_t process, char name[GUEST_NAME_MOST]);
/* Reads what a file of a process has, as far as the buffer holds it. Returns how many bytes; one more zero stands behind them. */
size_t naming_read(uint64_t process, const char *what, char *text, size_t room);
/* A process's memory, in bytes: all, what is there of it, and its page tables. Zeros, if that can't be seen. */
struct naming_memory {
    uint64_t size, resident, tables;
};
struct naming_memory naming_memory_of(uint64_t process);
/* The processor time of the thread by which the library looks in a process, in nanoseconds; 0 if there is none. */
uint64_t naming_processor_of(uint64_t process);
/* Reads what the library counts in a process, and why nothing is lent, as the process says. Returns false if nothing can be read; then all is
 * zeros, and no words. */
bool naming_counts_of(uint64_t process, struct counts *counts, char why[COUNTS_WHY_MOST]);
/* Opens the file of these counts, with flags of open(2). Returns it, or -1 with errno: ENOENT if the process has none. */
int naming_open_counts(uint64_t process, int flags);
/* Reads the counts alone of that file. */
bool naming_read_counts(int file, struct counts *counts);

#endif
