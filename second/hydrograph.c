/* The hydrograph in print; see hydrograph.h. */
#include "hydrograph.h"

#include "cards.h"

#include <inttypes.h>
#include <stdio.h>
#include <string.h>

enum {
    UNITS = 60,             /* in a millionth of a cfs */
    MILLION = 1000000
};

static bool is(struct text line, const char *identifier)
{
    return line.length >= 2 && memcmp(line.at, identifier, 2) == 0;
}

/* The engine does not answer the minutes, so the card is read once more.  The
 * deck was accepted: there is one IT before ZZ, and before it are only texts,
 * controls and blank lines. */
uint32_t minutes_of(const uint8_t *deck, size_t length)
{
    struct reader reader = { deck, deck + length, 0 };
    struct text line;
    struct fields fields;
    bool free_form = false;
    int64_t minutes = 0;

    while (next_line(&reader, &line) == LINE_READ && !is(line, "IT"))
        if (is(line, "*F"))
            free_form = line.at[2] == 'R';
    split_fields(line, free_form, &fields);
    read_number(fields.at[0], 0, &minutes);
    return (uint32_t)minutes;
}

/* The millionths are rounded before they are cut in two, since a fraction may
 * be rounded up to a whole cfs. */
size_t write_hydrograph(const uint64_t *ordinates, unsigned nq,
                        uint32_t minutes, char *text)
{
    char *at = text + sprintf(text, "interval,minutes,cfs,units\n");

    for (unsigned k = 0; k < nq; k++) {
        uint64_t millionths = (ordinates[k] + UNITS / 2) / UNITS;

        at += sprintf(at, "%u,%" PRIu32 ",%" PRIu64 ".%06" PRIu64 ",%" PRIu64
                      "\n", k + 1, (k + 1) * minutes, millionths / MILLION,
                      millionths % MILLION, ordinates[k]);
    }
    return (size_t)(at - text);
}
