/* The library's side of counts.h: the thread that looks writes what it counts there, and reads what an operator wants. */
#ifndef HOST_COUNTS_FILE_H
#define HOST_COUNTS_FILE_H

#include "counts.h"
#include "window.h"

/* Makes the file. Without one nothing is written. */
void counts_file_make(void);
/* Why nothing is lent of some memory, in words that stay. Any thread may say so. */
void counts_file_note(const char *why);
/* That is so no longer. */
void counts_file_forget(const char *why);
/* Of one processor the thread may use `percent`; `limit` is the operator's limit of that, or 0. */
void counts_file_write(const struct windows_counts *now, enum counts_state state, unsigned percent, unsigned limit);
/* What an operator wants, or wanted last if the system refuses to say. */
struct counts_wanted counts_file_wanted(void);

#endif
