/* A page of text that grows as it is written; see page.h. */
#include "page.h"

#include <stdio.h>
#include <stdlib.h>
#include <string.h>

enum { FIRST_ROOM = 4096 };

static void no_memory(void)
{
    fputs("hec1: no memory\n", stderr);
    exit(2);
}

void *get_room(size_t count, size_t size)
{
    void *at = calloc(count > 0 ? count : 1, size);

    if (at == NULL)
        no_memory();
    return at;
}

static char *more(struct page *page, size_t count)
{
    size_t room = page->room > 0 ? page->room : FIRST_ROOM;

    while (room - page->length < count) {
        if (room > SIZE_MAX / 2)
            no_memory();
        room *= 2;
    }
    if (room > page->room) {
        page->at = realloc(page->at, room);
        if (page->at == NULL)
            no_memory();
        page->room = room;
    }
    page->length += count;
    return page->at + page->length - count;
}

void put_bytes(struct page *page, const void *bytes, size_t count)
{
    if (count > 0)          /* nothing may well be nowhere */
        memcpy(more(page, count), bytes, count);
}

void put_text(struct page *page, const char *text)
{
    put_bytes(page, text, strlen(text));
}

void put_many(struct page *page, char byte, size_t count)
{
    memset(more(page, count), byte, count);
}

void put_path(struct page *page, const char *path)
{
    for (; *path != '\0'; path++) {
        unsigned char byte = (unsigned char)*path;

        put_many(page, byte < ' ' || byte == 127 ? '?' : *path, 1);
    }
}

void put_refusal(struct page *page, unsigned refusal, unsigned line)
{
    char text[32];

    sprintf(text, "REFUSED %u %u", refusal, line);
    put_text(page, text);
}

void end_line(struct page *page)
{
    while (page->length > page->line && page->at[page->length - 1] == ' ')
        page->length--;
    put_many(page, '\n', 1);
    page->line = page->length;
}
