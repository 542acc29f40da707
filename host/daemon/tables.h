/*
 * Memory of the library's tables. They are written once when a domain is made, most of them with zeros. A page of zeros needs no memory
 * until something else is written to it. So a domain takes memory for the pages that it lends, not for those that it may lend.
 *
 * tables.c defines the functions that the library gets its memory by.
 */
#ifndef HOST_TABLES_H
#define HOST_TABLES_H

#include <stdint.h>

/*
 * Gives those pages of tables back to the system that contain nothing but zeros. They read as before. Until it is called, one thread
 * makes tables, and each new one gives back the zeros of those before it. It is called once, when all are made, and no call of the
 * library runs meanwhile. Returns how many bytes it gives back.
 */
uint64_t tables_give_zeros_back(void);

#endif
