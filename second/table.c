/* The runoff summary in print; see table.h.  The first part works the figures,
 * the second writes cells, the third the plain table, the fourth the one
 * across. */
#include "table.h"

#include "records.h"

#include <inttypes.h>
#include <stdbool.h>
#include <stdio.h>
#include <stdlib.h>
#include <string.h>

/* ---- Figures ---------------------------------------------------------- */

enum {
    UNITS_PER_HUNDREDTH_CFS = 600000,
    /* Flow units for a minute.  A cfs for a minute is 60 cubic feet, so a cubic
     * foot has a million; an acre-foot has 43,560 of those, and an inch over a
     * hundredth of a square mile is 6.4 / 12 acre-feet. */
    PER_THOUSANDTH_ACRE_FOOT = 43560000,
    PER_THOUSANDTH_INCH = 23232000
};

/* Half up.  No figure passes 64 bits: 300 ordinates of 6e12 units, for 1,440
 * minutes each, come to less than 2.6e18. */
static uint64_t rounded(uint64_t number, uint64_t by)
{
    return (number + by / 2) / by;
}

static enum operation operation_of(unsigned kind)
{
    static const enum operation of_kind[] = {
        HYDROGRAPH_AT, HYDROGRAPH_AT, HYDROGRAPH_AT, COMBINED_AT, ROUTED_TO,
        ROUTED_TO
    };

    return of_kind[kind];
}

static bool same_station(const struct figures *a, const struct figures *b)
{
    return a->operation == b->operation && a->name_length == b->name_length
        && memcmp(a->name, b->name, a->name_length) == 0;
}

static void work_flow(const struct worked *worked, struct figures *row)
{
    uint64_t sum = 0, peak = 0;
    unsigned interval = 0;      /* of the peak, from 1; 0 while there is none */

    for (unsigned k = 0; k < worked->nq; k++) {
        sum += worked->flow[k];
        if (worked->flow[k] > peak) {
            peak = worked->flow[k];
            interval = k + 1;
        }
    }
    row->peak = rounded(peak, UNITS_PER_HUNDREDTH_CFS);
    row->minutes = worked->minutes * interval;
    row->acre_feet = rounded(sum * worked->minutes, PER_THOUSANDTH_ACRE_FOOT);
    if (worked->area > 0)
        row->inches = rounded(sum * worked->minutes,
                              (uint64_t)PER_THOUSANDTH_INCH * worked->area);
}

/* The rows of the deck that is being worked, as many as there can be. */
struct rows {
    size_t count;
    struct figures row[BLOCK_LIMIT * RATIO_LIMIT];
};

static void keep_row(void *keeper, const struct worked *worked)
{
    struct rows *rows = keeper;
    struct figures *row = &rows->row[rows->count++];

    *row = (struct figures){
        .operation = operation_of(worked->kind), .combined = worked->taken,
        .name_length = worked->name_length, .area = worked->area
    };
    memcpy(row->name, worked->name, worked->name_length);
    work_flow(worked, row);
}

/* Each ratio has the blocks of the first, in the same order. */
static void count_repeats(struct table_deck *deck)
{
    unsigned blocks = deck->answer.blocks;

    for (size_t k = 0; k < deck->rows; k++) {
        struct figures *row = &deck->row[k];
        size_t first = k - k % blocks;

        row->repeat = 1;
        for (size_t before = first; before < k; before++)
            row->repeat += same_station(&deck->row[before], row);
    }
}

/* The deck was accepted: all ID lines stand before the one IT. */
static void keep_texts(const uint8_t *deck, size_t length, struct page *texts)
{
    struct reader reader = { deck, deck + length, 0 };
    struct text line;

    while (next_line(&reader, &line) == LINE_READ) {
        unsigned first = 2;

        if (line.length == 0)
            continue;
        if (identify(line) == REC_IT)
            return;
        while (first < line.length && line.at[first] == ' ')
            first++;
        if (identify(line) == REC_ID && first < line.length) {
            put_bytes(texts, line.at + first, line.length - first);
            end_line(texts);
        }
    }
}

void work_table(const char *path, const uint8_t *deck, size_t length,
                const struct room *room, struct table_deck *worked)
{
    static struct rows rows;
    const struct viewer viewer = { keep_row, &rows };

    memset(worked, 0, sizeof *worked);
    worked->path = path;
    rows.count = 0;
    worked->answer = view_deck(deck, length, &viewer, room);
    if (worked->answer.refusal != 0)
        return;
    worked->rows = rows.count;
    worked->row = get_room(rows.count, sizeof *worked->row);
    memcpy(worked->row, rows.row, rows.count * sizeof *worked->row);
    count_repeats(worked);
    keep_texts(deck, length, &worked->texts);
}

void free_table(struct table_deck *worked)
{
    free(worked->row);
    free(worked->texts.at);
}

/* ---- Cells ------------------------------------------------------------ */

enum figure {
    PEAK,
    TIME,
    VOLUME,
    DEPTH,
    AREA,
    FIGURES
};

static const char *const figure_head[FIGURES] = {
    "PEAK CFS", "TIME H:MM", "ACRE-FEET", "INCHES", "SQ MILES"
};

struct cell {
    char text[48];
    size_t length;
};

/* A cell of a table, or of its head. */
static struct cell cell_of(const char *text)
{
    struct cell cell;

    cell.length = (size_t)snprintf(cell.text, sizeof cell.text, "%s", text);
    return cell;
}

static struct cell cell_of_number(uint64_t number)
{
    struct cell cell;

    cell.length = (size_t)sprintf(cell.text, "%" PRIu64, number);
    return cell;
}

/* A number counted in units of its last place, of which there are so many. */
static struct cell cell_of_places(uint64_t number, int places)
{
    struct cell cell;
    uint64_t one = places == 2 ? 100 : 1000;

    cell.length = (size_t)sprintf(cell.text, "%" PRIu64 ".%0*" PRIu64,
                                  number / one, places, number % one);
    return cell;
}

static struct cell cell_of_time(uint32_t minutes)
{
    struct cell cell;

    cell.length = (size_t)sprintf(cell.text, "%" PRIu32 ":%02" PRIu32,
                                  minutes / 60, minutes % 60);
    return cell;
}

/* A station without the figure has a dash, and so has no station at all. */
static struct cell cell_of_figure(const struct figures *row, enum figure figure)
{
    if (row == NULL || (figure == TIME && row->minutes == 0)
        || (figure >= DEPTH && row->area == 0))
        return cell_of("-");
    switch (figure) {
    case PEAK:
        return cell_of_places(row->peak, 2);
    case TIME:
        return cell_of_time(row->minutes);
    case VOLUME:
        return cell_of_places(row->acre_feet, 3);
    case DEPTH:
        return cell_of_places(row->inches, 3);
    default:
        return cell_of_places(row->area, 2);
    }
}

/* combined 0: the number is not shown. */
static struct cell cell_of_operation(enum operation operation,
                                     unsigned combined)
{
    static const char *const word[] = {
        "HYDROGRAPH AT", "COMBINED AT", "ROUTED TO"
    };
    struct cell cell;

    if (operation != COMBINED_AT || combined == 0)
        return cell_of(word[operation]);
    cell.length = (size_t)sprintf(cell.text, "%u %s", combined,
                                  word[operation]);
    return cell;
}

static struct cell cell_of_name(const struct figures *row)
{
    struct cell cell;

    cell.length = row->name_length;
    memcpy(cell.text, row->name, row->name_length);
    return cell;
}

static void widen(size_t *width, struct cell cell)
{
    if (cell.length > *width)
        *width = cell.length;
}

/* Two blanks stand before every column but the first. */
static void put_gap(struct page *page)
{
    if (page->length > page->line)
        put_text(page, "  ");
}

static void put_left(struct page *page, struct cell cell, size_t width)
{
    put_gap(page);
    put_bytes(page, cell.text, cell.length);
    put_many(page, ' ', width - cell.length);
}

static void put_right(struct page *page, struct cell cell, size_t width)
{
    put_gap(page);
    put_many(page, ' ', width - cell.length);
    put_bytes(page, cell.text, cell.length);
}

/* The path, and the ratio where the deck has a JR. */
static void put_run(struct page *page, const struct table_deck *deck,
                    unsigned ratio)
{
    put_path(page, deck->path);
    if (deck->answer.refusal == 0 && deck->answer.ratios.given) {
        struct cell cell = cell_of_places(deck->answer.ratios.value[ratio], 2);

        put_text(page, ", ratio ");
        put_bytes(page, cell.text, cell.length);
    }
}

/* ---- The plain table -------------------------------------------------- */

struct plain {
    size_t operation;
    size_t name;
    size_t figure[FIGURES];
};

static struct plain plain_widths(const struct table_deck *deck)
{
    struct plain width = { strlen("OPERATION"), strlen("STATION"), { 0 } };

    for (unsigned figure = 0; figure < FIGURES; figure++)
        widen(&width.figure[figure], cell_of(figure_head[figure]));
    for (size_t k = 0; k < deck->rows; k++) {
        const struct figures *row = &deck->row[k];

        widen(&width.operation,
              cell_of_operation(row->operation, row->combined));
        widen(&width.name, cell_of_name(row));
        for (unsigned figure = 0; figure < FIGURES; figure++)
            widen(&width.figure[figure], cell_of_figure(row, figure));
    }
    return width;
}

static void put_plain_row(struct page *page, const struct figures *row,
                          const struct plain *width)
{
    put_left(page, cell_of_operation(row->operation, row->combined),
             width->operation);
    put_left(page, cell_of_name(row), width->name);
    for (unsigned figure = 0; figure < FIGURES; figure++)
        put_right(page, cell_of_figure(row, figure), width->figure[figure]);
    end_line(page);
}

static void write_plain(const struct table_deck *deck, struct page *page)
{
    struct plain width = plain_widths(deck);

    put_text(page, "RUNOFF SUMMARY: ");
    put_run(page, deck, 0);
    end_line(page);
    put_bytes(page, deck->texts.at, deck->texts.length);
    page->line = page->length;
    end_line(page);
    put_left(page, cell_of("OPERATION"), width.operation);
    put_left(page, cell_of("STATION"), width.name);
    for (unsigned figure = 0; figure < FIGURES; figure++)
        put_right(page, cell_of(figure_head[figure]), width.figure[figure]);
    end_line(page);
    for (size_t k = 0; k < deck->rows; k++)
        put_plain_row(page, &deck->row[k], &width);
}

/* ---- The table across ------------------------------------------------- */

/* A station of any deck. */
struct station {
    const struct figures *first;    /* where it was met */
    unsigned combined;              /* 0: the columns do not agree */
    bool with_area;
    size_t next;                    /* in the same chain, plus 1 */
};

struct across {
    const struct table_deck *deck;
    size_t decks;
    size_t columns;
    size_t stations;
    struct station *station;
    size_t chains;
    size_t *chain;          /* the first station of each, plus 1 */
    uint16_t **block;       /* by deck and station: the block, from 1, or 0 */
    size_t *width;          /* of each column */
    size_t operation_width;
    size_t name_width;
    size_t head_width;
};

static bool accepted(const struct table_deck *deck)
{
    return deck->answer.refusal == 0;
}

static size_t chain_of(const struct across *across, const struct figures *row)
{
    size_t number = row->operation;

    for (unsigned k = 0; k < row->name_length; k++)
        number = number * 131 + row->name[k];
    return number % across->chains;
}

/* The station of a block, which may be a new one. */
static struct station *station_of(struct across *across,
                                  const struct figures *row)
{
    size_t *link = &across->chain[chain_of(across, row)];

    while (*link != 0) {
        struct station *station = &across->station[*link - 1];

        if (same_station(station->first, row)
            && station->first->repeat == row->repeat)
            return station;
        link = &station->next;
    }
    *link = ++across->stations;

    struct station *station = &across->station[across->stations - 1];

    *station = (struct station){ row, row->combined, false, 0 };
    return station;
}

/* Areas and numbers combined are the same under every ratio. */
static void meet_stations(struct across *across, const struct table_deck *deck,
                          size_t *met)
{
    for (unsigned k = 0; k < deck->answer.blocks; k++) {
        const struct figures *row = &deck->row[k];
        struct station *station = station_of(across, row);

        if (station->combined != row->combined)
            station->combined = 0;
        if (row->area > 0)
            station->with_area = true;
        met[k] = (size_t)(station - across->station);
    }
}

static void find_stations(struct across *across)
{
    size_t blocks = 0;
    size_t *met = get_room(across->decks * BLOCK_LIMIT, sizeof *met);

    for (size_t d = 0; d < across->decks; d++)
        blocks += across->deck[d].answer.blocks;
    across->station = get_room(blocks, sizeof *across->station);
    across->chains = 2 * blocks + 1;
    across->chain = get_room(across->chains, sizeof *across->chain);
    across->block = get_room(across->decks, sizeof *across->block);
    for (size_t d = 0; d < across->decks; d++)
        meet_stations(across, &across->deck[d], met + d * BLOCK_LIMIT);
    for (size_t d = 0; d < across->decks; d++) {
        unsigned k = across->deck[d].answer.blocks;

        across->block[d] = get_room(across->stations, sizeof(uint16_t));
        for (; k > 0; k--)
            across->block[d][met[d * BLOCK_LIMIT + k - 1]] = (uint16_t)k;
    }
    free(met);
}

/* What a deck has at a station under a ratio; NULL: it is without it. */
static const struct figures *row_at(const struct across *across, size_t d,
                                    unsigned ratio, size_t station)
{
    const struct table_deck *deck = &across->deck[d];
    unsigned block = across->block[d][station];

    return block == 0 ? NULL
         : &deck->row[(size_t)ratio * deck->answer.blocks + block - 1];
}

static enum figure last_figure(const struct station *station)
{
    return station->with_area ? AREA : VOLUME;
}

static struct cell cell_of_station(const struct station *station)
{
    return cell_of_operation(station->first->operation, station->combined);
}

static void widen_column(const struct across *across, size_t d, unsigned ratio,
                         size_t *width)
{
    for (size_t s = 0; s < across->stations; s++) {
        const struct figures *row = row_at(across, d, ratio, s);

        for (unsigned figure = 0;
             figure <= last_figure(&across->station[s]); figure++)
            widen(width, cell_of_figure(row, figure));
    }
}

static void find_widths(struct across *across)
{
    size_t column = 0;

    across->width = get_room(across->columns, sizeof *across->width);
    across->operation_width = strlen("OPERATION");
    across->name_width = strlen("STATION");
    for (size_t s = 0; s < across->stations; s++) {
        const struct station *station = &across->station[s];

        widen(&across->operation_width, cell_of_station(station));
        widen(&across->name_width, cell_of_name(station->first));
        for (unsigned figure = 0; figure <= last_figure(station); figure++)
            widen(&across->head_width, cell_of(figure_head[figure]));
    }
    for (size_t d = 0; d < across->decks; d++)
        for (unsigned r = 0; r < across->deck[d].answer.ratios.count; r++) {
            widen(&across->width[column], cell_of_number(column + 1));
            widen_column(across, d, r, &across->width[column]);
            column++;
        }
}

static void put_first_text(struct page *page, const struct page *texts)
{
    if (texts->length == 0)
        return;
    put_text(page, ": ");
    put_bytes(page, texts->at,
              (size_t)((char *)memchr(texts->at, '\n', texts->length)
                       - texts->at));
}

static void put_legend(const struct across *across, struct page *page)
{
    size_t width = cell_of_number(across->columns).length;
    size_t column = 0;

    put_text(page, "RUNOFF SUMMARY");
    end_line(page);
    for (size_t d = 0; d < across->decks; d++) {
        const struct table_deck *deck = &across->deck[d];

        for (unsigned r = 0; r < deck->answer.ratios.count; r++) {
            put_right(page, cell_of_number(++column), width);
            put_gap(page);
            put_run(page, deck, r);
            put_first_text(page, &deck->texts);
            end_line(page);
        }
        if (!accepted(deck)) {
            put_right(page, cell_of("-"), width);
            put_gap(page);
            put_run(page, deck, 0);
            put_text(page, ": ");
            put_refusal(page, deck->answer.refusal, deck->answer.line);
            end_line(page);
        }
    }
}

static void put_across_head(const struct across *across, struct page *page)
{
    put_left(page, cell_of("OPERATION"), across->operation_width);
    put_left(page, cell_of("STATION"), across->name_width);
    put_left(page, cell_of(""), across->head_width);
    for (size_t column = 0; column < across->columns; column++)
        put_right(page, cell_of_number(column + 1), across->width[column]);
    end_line(page);
}

/* A row of a station.  The first says which station it is. */
static void put_across_row(const struct across *across, size_t s,
                           enum figure figure, struct page *page)
{
    const struct station *station = &across->station[s];
    bool first = figure == PEAK;
    size_t column = 0;

    put_left(page, first ? cell_of_station(station) : cell_of(""),
             across->operation_width);
    put_left(page, first ? cell_of_name(station->first) : cell_of(""),
             across->name_width);
    put_left(page, cell_of(figure_head[figure]), across->head_width);
    for (size_t d = 0; d < across->decks; d++)
        for (unsigned r = 0; r < across->deck[d].answer.ratios.count; r++)
            put_right(page, cell_of_figure(row_at(across, d, r, s), figure),
                      across->width[column++]);
    end_line(page);
}

static void free_across(struct across *across)
{
    for (size_t d = 0; d < across->decks; d++)
        free(across->block[d]);
    free(across->block);
    free(across->station);
    free(across->chain);
    free(across->width);
}

/* A deck that is refused has no blocks and no ratios, so no column either. */
static void write_across(const struct table_deck *decks, size_t count,
                         struct page *page)
{
    struct across across = { .deck = decks, .decks = count };

    for (size_t d = 0; d < count; d++)
        across.columns += decks[d].answer.ratios.count;
    put_legend(&across, page);
    find_stations(&across);
    find_widths(&across);
    if (across.columns > 0) {
        end_line(page);
        put_across_head(&across, page);
        for (size_t s = 0; s < across.stations; s++)
            for (unsigned figure = 0;
                 figure <= last_figure(&across.station[s]); figure++)
                put_across_row(&across, s, figure, page);
    }
    free_across(&across);
}

void write_table(const struct table_deck *decks, size_t count,
                 struct page *page)
{
    if (count == 1 && !accepted(decks)) {
        put_refusal(page, decks->answer.refusal, decks->answer.line);
        end_line(page);
    } else if (count == 1 && decks->answer.ratios.count == 1) {
        write_plain(decks, page);
    } else {
        write_across(decks, count, page);
    }
}
