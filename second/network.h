/* The stream network in print: a row for each block of a deck, in the deck's
 * order, with the hydrographs held side by side. */
#ifndef NETWORK_H
#define NETWORK_H

#include "engine.h"
#include "page.h"

/* Puts the drawing of a deck on the page, or the line of its listing where it
 * is refused.  The room is what the engine is lent. */
void write_network(const char *path, const uint8_t *deck, size_t length,
                   const struct room *room, struct page *page);

#endif
