/* A page of text that grows as it is written. */
#ifndef PAGE_H
#define PAGE_H

#include <stddef.h>
#include <stdint.h>

/* Starts as all zero.  Where there is no memory left the program ends with
 * status 2. */
struct page {
    char *at;
    size_t length;
    size_t room;
    size_t line;            /* where the last line begins */
};

void put_bytes(struct page *page, const void *bytes, size_t count);
void put_text(struct page *page, const char *text);
void put_many(struct page *page, char byte, size_t count);

/* Puts a path as it is shown: a control byte as a question mark. */
void put_path(struct page *page, const char *path);

/* Puts what the listing says of a deck that is refused. */
void put_refusal(struct page *page, unsigned refusal, unsigned line);

/* Ends the line, which loses the blanks at its end. */
void end_line(struct page *page);

/* Room for so many things, all zero; the program ends where there is none. */
void *get_room(size_t count, size_t size);

#endif
