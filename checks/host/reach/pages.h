/* Memory that is offered, and a shadow of each byte: a page is full of one word, but for one word of it. Each page is one thread's. */
#ifndef REACH_PAGES_H
#define REACH_PAGES_H

#include <stdbool.h>
#include <stddef.h>
#include <stdint.h>

enum { PAGE = 4096, WORDS = PAGE / 8, CONTENTS = 24 };

struct want {
    uint64_t all, one;
    size_t at;
};

struct run {
    size_t first, count;
};

struct pages {
    size_t count;
    uint8_t *at;
    struct want *wants;
};
extern struct pages pages;

/* Takes memory for so many pages, with contents. Returns false, with errno. */
bool pages_make(size_t count);
uint8_t *page_at(size_t page);
size_t bytes_of(struct run run);
/* Offers them; no child of a fork has them. */
void pages_offer(struct run run);

/* A number below `below`, by a generator whose state begins as any number. */
uint64_t draw(uint64_t *seed, uint64_t below);
/* Fills a page that others have, too, with a content: its word. 0: zeros. */
void content_fill(uint8_t *page, uint64_t content);
/* Writes a content, or a word. */
void page_write(size_t page, uint64_t content);
void page_write_word(size_t page, size_t at, uint64_t word);
/* Pages have this content from now on, since somebody else has written it. */
void pages_are(struct run run, uint64_t content);

/* Compares pages with their shadow. */
void pages_check(struct run run, const char *when);
/* Counts something that is wrong, and prints the first ones. */
void note_wrong(size_t page, const char *what);
unsigned long wrong_count(void);

#endif
