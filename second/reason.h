/* Why a line is refused by 6 or by 7: which field it is, by which rule, and what
 * stands in it.  The line alone is known, and the form in force. */
#ifndef REASON_H
#define REASON_H

#include <stdbool.h>
#include <stddef.h>
#include <stdint.h>

/* A number of a field, two words and three more numbers go before a text from a
 * line of 80 bytes; a number has at most 20 digits. */
enum { REASON_ROOM = 256 };

/* Puts the text for the line that the bytes begin with into REASON_ROOM bytes
 * and returns how many it takes; none where there is nothing to say.  A number
 * other than 6 stands for 7. */
size_t write_reason(uint32_t number, bool free_form, const uint8_t *bytes,
                    size_t length, char *text);

#endif
