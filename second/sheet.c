/* The sheet for people; see sheet.h.  The first part reads a block's cards,
 * the second works the sheet, the third writes it. */
#include "sheet.h"

#include <inttypes.h>
#include <stdio.h>
#include <string.h>

/* ---- The cards -------------------------------------------------------- */

/* What the deck says of one block: depths in ten-thousandths of an inch, unit
 * ordinates in hundredths of a cfs. */
struct cards {
    struct text name;
    uint32_t minutes;
    uint32_t nq;
    bool with_total;
    uint32_t total;
    uint32_t initial_loss;
    uint32_t uniform_loss;
    unsigned rains;
    uint32_t rain[ORDINATE_LIMIT];
    unsigned units;
    uint32_t unit[UNIT_ORDINATE_LIMIT];
};

static bool is(struct text line, const char *identifier)
{
    return line.length >= 2 && memcmp(line.at, identifier, 2) == 0;
}

/* Reads the values of a card and returns how many there are.  The deck was
 * accepted, so a field that is no number is one that nobody reads. */
static unsigned read_values(struct text line, bool free_form, unsigned places,
                            uint32_t *values)
{
    struct fields fields;
    int64_t number;

    split_fields(line, free_form, &fields);
    for (unsigned k = 0; k < fields.count; k++) {
        read_number(fields.at[k], places, &number);
        values[k] = (uint32_t)number;
    }
    return fields.count;
}

static void take_it(struct text line, bool free_form, struct cards *cards)
{
    uint32_t value[FIELD_LIMIT] = { 0 };

    read_values(line, free_form, 0, value);
    cards->minutes = value[0];
    cards->nq = value[3];
}

/* A card of the block.  PI and UI go on where their last card stopped. */
static void take_card(struct text line, bool free_form, struct cards *cards)
{
    uint32_t value[FIELD_LIMIT] = { 0 };

    if (is(line, "PB")) {
        read_values(line, free_form, 4, value);
        cards->with_total = true;
        cards->total = value[0];
    } else if (is(line, "PI")) {
        cards->rains += read_values(line, free_form, 4,
                                    cards->rain + cards->rains);
    } else if (is(line, "LU")) {
        read_values(line, free_form, 4, value);
        cards->initial_loss = value[0];
        cards->uniform_loss = value[1];
    } else if (is(line, "UI")) {
        cards->units += read_values(line, free_form, 2,
                                    cards->unit + cards->units);
    }
}

static void read_cards(const uint8_t *deck, size_t length, unsigned block,
                       struct cards *cards)
{
    struct reader reader = { deck, deck + length, 0 };
    struct text line;
    bool free_form = false;
    unsigned blocks = 0;

    memset(cards, 0, sizeof *cards);
    while (blocks <= block && next_line(&reader, &line) == LINE_READ) {
        if (is(line, "ZZ"))
            return;
        if (is(line, "*F"))
            free_form = line.at[2] == 'R';
        else if (is(line, "IT"))
            take_it(line, free_form, cards);
        else if (is(line, "KK") && ++blocks == block)
            read_name(line, free_form, &cards->name);
        else if (blocks == block)
            take_card(line, free_form, cards);
    }
}

/* ---- The work --------------------------------------------------------- */

enum {
    DEPTH_UNITS = 60,       /* in a ten-thousandth of an inch */
    WHOLE = 100             /* the ratio 1.00 */
};

static uint64_t least(uint64_t a, uint64_t b)
{
    return a < b ? a : b;
}

/* All that has fallen when so many intervals are over, before any ratio. */
static uint64_t fallen(const struct cards *cards, unsigned intervals)
{
    uint64_t part = 0, all = 0;

    for (unsigned k = 0; k < cards->rains; k++) {
        all += cards->rain[k];
        if (k < intervals)
            part += cards->rain[k];
    }
    if (!cards->with_total)
        return part * DEPTH_UNITS;
    if (all == 0)
        return 0;
    return (uint64_t)cards->total * DEPTH_UNITS * part / all;
}

/* The rain of an interval, from 0, under the ratio. */
static uint64_t rain_of(const struct cards *cards, unsigned k, uint64_t ratio)
{
    return ratio * fallen(cards, k + 1) / WHOLE
         - ratio * fallen(cards, k) / WHOLE;
}

/* Rain, loss and excess of each interval.  The rain fills the initial loss,
 * and the uniform loss of a whole interval comes off what is left. */
static void work_depths(const struct cards *cards, struct sheet *sheet)
{
    uint64_t unfilled = (uint64_t)cards->initial_loss * DEPTH_UNITS;
    uint64_t uniform = (uint64_t)cards->uniform_loss * cards->minutes;

    for (unsigned k = 0; k < sheet->nq; k++) {
        uint64_t rain = rain_of(cards, k, sheet->ratio);
        uint64_t filling = least(unfilled, rain);

        unfilled -= filling;
        sheet->rain[k] = rain;
        sheet->loss[k] = filling + least(uniform, rain - filling);
        sheet->excess[k] = rain - sheet->loss[k];
    }
}

/* Whether the excess of interval k has a share at ordinate i, both from 0. */
static bool falls(const struct sheet *sheet, unsigned k, unsigned i)
{
    return i >= k && i - k < sheet->units;
}

static uint64_t share(const struct sheet *sheet, unsigned k, unsigned i)
{
    return sheet->unit[i - k] * sheet->excess[k];
}

/* Adds down the column of an ordinate. */
static uint64_t column_sum(const struct sheet *sheet, unsigned i)
{
    uint64_t sum = 0;

    for (unsigned k = 0; k < sheet->nq; k++)
        if (falls(sheet, k, i))
            sum += share(sheet, k, i);
    return sum;
}

void make_sheet(const uint8_t *deck, size_t length, unsigned block,
                uint32_t ratio, struct sheet *sheet)
{
    struct cards cards;

    read_cards(deck, length, block, &cards);
    memset(sheet, 0, sizeof *sheet);
    memcpy(sheet->name, cards.name.at, cards.name.length);
    sheet->ratio = ratio;
    sheet->nq = cards.nq;
    sheet->units = cards.units;
    for (unsigned j = 0; j < cards.units; j++)
        sheet->unit[j] = cards.unit[j];
    work_depths(&cards, sheet);
    for (unsigned i = 0; i < sheet->nq; i++)
        sheet->sum[i] = column_sum(sheet, i);
}

bool sums_are(const struct sheet *sheet, const uint64_t *ordinates)
{
    return memcmp(sheet->sum, ordinates, sheet->nq * sizeof *ordinates) == 0;
}

/* ---- The text --------------------------------------------------------- */

/* Of how many units how many millionths of an inch or a cfs are made. */
struct scale {
    uint64_t millionths;
    uint64_t units;
};

static const struct scale inches = { 5, 3 };    /* 600,000 units are one */
static const struct scale cfs = { 1, 60 };      /* 60,000,000 units are one */

/* Without scales the figures are whole units. */
struct table {
    const char *title;
    const struct scale *depth;
    const struct scale *flow;
};

static const struct table in_units = { "units", NULL, NULL };
static const struct table for_reading = { "inches and cfs", &inches, &cfs };

/* Each add_ function puts its text at a place and returns the place behind. */

static char *add_number(char *at, uint64_t number)
{
    return at + sprintf(at, "%" PRIu64, number);
}

/* Six places, half a millionth rounded up. */
static char *add_figure(char *at, uint64_t units, const struct scale *scale)
{
    uint64_t millionths;

    if (scale == NULL)
        return add_number(at, units);
    millionths = (2 * units * scale->millionths + scale->units)
               / (2 * scale->units);
    return at + sprintf(at, "%" PRIu64 ".%06" PRIu64, millionths / 1000000,
                        millionths % 1000000);
}

static char *add_cell(char *at, uint64_t units, const struct scale *scale)
{
    *at++ = ',';
    return add_figure(at, units, scale);
}

static char *add_head(char *at, const struct sheet *sheet,
                      const struct table *table)
{
    at += sprintf(at, "%s,%u.%02u,%s\ninterval,rain,loss,excess", table->title,
                  (unsigned)sheet->ratio / WHOLE,
                  (unsigned)sheet->ratio % WHOLE, sheet->name);
    for (unsigned i = 1; i <= sheet->nq; i++)
        at = add_cell(at, i, NULL);
    *at++ = '\n';
    return at;
}

/* Where no share falls the cell stays empty; a share of 0 is a figure. */
static char *add_row(char *at, const struct sheet *sheet,
                     const struct table *table, unsigned k)
{
    at = add_number(at, k + 1);
    at = add_cell(at, sheet->rain[k], table->depth);
    at = add_cell(at, sheet->loss[k], table->depth);
    at = add_cell(at, sheet->excess[k], table->depth);
    for (unsigned i = 0; i < sheet->nq; i++) {
        if (falls(sheet, k, i))
            at = add_cell(at, share(sheet, k, i), table->flow);
        else
            *at++ = ',';
    }
    *at++ = '\n';
    return at;
}

static char *add_sums(char *at, const struct sheet *sheet,
                      const struct table *table)
{
    at += sprintf(at, "sum,,,");
    for (unsigned i = 0; i < sheet->nq; i++)
        at = add_cell(at, sheet->sum[i], table->flow);
    *at++ = '\n';
    return at;
}

static char *add_table(char *at, const struct sheet *sheet,
                       const struct table *table)
{
    at = add_head(at, sheet, table);
    for (unsigned k = 0; k < sheet->nq; k++)
        if (sheet->excess[k] > 0)
            at = add_row(at, sheet, table, k);
    return add_sums(at, sheet, table);
}

size_t write_sheet(const struct sheet *sheet, char *text)
{
    char *at = add_table(text, sheet, &in_units);

    return (size_t)(add_table(at, sheet, &for_reading) - text);
}
