/* Counts what decks for the table and the network in print hold: which edges
 * they have, and which wrong rules their tables tell from the right one.
 *
 *   tables FILE...
 *
 * A table is made of each deck alone and of every four that stand together.
 * The figures are worked here once more, by the right rule and by wrong ones;
 * those of the right rule have to make the table that the program prints.  Each
 * line of the counts is a number of tables or of blocks and what was counted.
 * Exit status 0; 1 when one of the counts is 0, when a deck is refused or when
 * such a table differs; 2 when a file cannot be read. */
#include "table.h"

#include <stdio.h>
#include <stdlib.h>
#include <string.h>

enum {
    TOGETHER = 4,
    CFS = 60000000,         /* flow units */
    KIND_POND = 5
};

struct tally {
    const char *what;
    unsigned long count;
};

/* ---- Rules ------------------------------------------------------------ */

enum rule {
    RIGHT,
    ROUNDED_DOWN,
    HALF_DOWN,
    TIME_EARLY,
    LAST_PEAK,
    TRAPEZOID,
    ACRES_OFF,
    FIRST_AREA,
    COMBINED_OFF,
    FIRST_OF_NAME,
    RULES
};

static struct tally rules[RULES] = {
    { "", 0 },
    { "figures rounded down", 0 },
    { "a half rounded down", 0 },
    { "the time one interval early", 0 },
    { "the last interval with the peak", 0 },
    { "trapezoids in place of the sum", 0 },
    { "641 acres in a square mile", 0 },
    { "the area of the first block", 0 },
    { "one more combined than HC says", 0 },
    { "only the first of a name", 0 }
};

static enum rule rule;

/* A fraction in its last place. */
static uint64_t figure(uint64_t above, uint64_t below)
{
    uint64_t whole = above / below, rest = above % below;

    switch (rule) {
    case ROUNDED_DOWN:
        return whole;
    case HALF_DOWN:
        return whole + (rest > below - rest);
    default:
        return whole + (rest >= below - rest);
    }
}

/* Twice the sum, so that trapezoids have no half. */
static uint64_t twice_the_sum(const struct worked *worked)
{
    uint64_t sum = 0;

    for (unsigned k = 0; k < worked->nq; k++)
        sum += 2 * worked->flow[k];
    if (rule == TRAPEZOID)
        sum -= worked->flow[0] + worked->flow[worked->nq - 1];
    return sum;
}

/* From 0. */
static unsigned peak_of(const struct worked *worked)
{
    unsigned peak = 0;

    for (unsigned k = 1; k < worked->nq; k++)
        if (worked->flow[k] > worked->flow[peak]
            || (rule == LAST_PEAK && worked->flow[k] == worked->flow[peak]))
            peak = k;
    return peak;
}

/* ---- Figures ---------------------------------------------------------- */

/* Water is counted in flow units for half a minute, of which a thousandth of an
 * acre-foot has so many. */
enum { PER_FOOT = 2 * 43560 * 1000 };

static uint64_t per_inch(uint32_t area, unsigned acres)
{
    return (uint64_t)PER_FOOT * acres * area / 1200;
}

/* The rows of a deck under the rule. */
struct rows {
    size_t count;
    struct figures row[BLOCK_LIMIT * RATIO_LIMIT];
    uint32_t first_area;
};

static void keep_row(void *keeper, const struct worked *worked)
{
    struct rows *rows = keeper;
    struct figures *row = &rows->row[rows->count++];
    uint64_t water = twice_the_sum(worked) * worked->minutes;
    unsigned peak = peak_of(worked);

    if (rows->count == 1)
        rows->first_area = worked->area;
    *row = (struct figures){
        .operation = worked->kind <= 2 ? HYDROGRAPH_AT
                   : worked->kind == 3 ? COMBINED_AT : ROUTED_TO,
        .combined = worked->taken + (rule == COMBINED_OFF),
        .name_length = worked->name_length,
        .peak = figure(worked->flow[peak], CFS / 100),
        .acre_feet = figure(water, PER_FOOT),
        .area = rule == FIRST_AREA ? rows->first_area : worked->area
    };
    memcpy(row->name, worked->name, worked->name_length);
    if (worked->flow[peak] > 0)
        row->minutes = worked->minutes * (peak + (rule != TIME_EARLY));
    if (worked->area > 0)
        row->inches = figure(water, per_inch(worked->area, rule == ACRES_OFF
                                                           ? 641 : 640));
}

static bool same_name(const struct figures *a, const struct figures *b)
{
    return a->name_length == b->name_length
        && memcmp(a->name, b->name, a->name_length) == 0;
}

static void count_repeats(struct rows *rows, unsigned blocks)
{
    for (size_t k = 0; k < rows->count; k++) {
        rows->row[k].repeat = 1;
        for (size_t before = k / blocks * blocks; before < k; before++)
            rows->row[k].repeat +=
                rule != FIRST_OF_NAME
                && same_name(&rows->row[before], &rows->row[k])
                && rows->row[before].operation == rows->row[k].operation;
    }
}

/* ---- Edges ------------------------------------------------------------ */

enum edge {
    NO_JR,
    ONE_RATIO,
    RATIOS,
    MOST_RATIOS,
    MOST_BLOCKS,
    NO_TEXT,
    TEXTS,
    ID_WITHOUT_TEXT,
    ID_WITH_BLANKS,
    HALF_FOOT,
    UNDER_FOOT,
    HALF_INCH,
    UNDER_INCH,
    HALF_PEAK,
    NO_FLOW,
    NO_AREA,
    LEAST_AREA,
    GREAT_AREA,
    INFLOW_WITH_AREA,
    POND,
    LEAST_MINUTES,
    MOST_MINUTES,
    HUNDRED_HOURS,
    UNDER_TEN,
    NO_HOURS,
    REPEATED,
    OTHER_OPERATION,
    TWENTY_HELD,
    ROUTED_BESIDE,
    JOINED_BESIDE,
    LATE_LINE,
    SHARED,
    ONE_SIDED,
    NO_NUMBER,
    EDGES
};

static struct tally edges[EDGES] = {
    [NO_JR].what = "deck without a JR",
    [ONE_RATIO].what = "deck with one ratio",
    [RATIOS].what = "deck with several ratios",
    [MOST_RATIOS].what = "deck with nine ratios",
    [MOST_BLOCKS].what = "deck of 200 blocks",
    [NO_TEXT].what = "deck without a text of ID",
    [TEXTS].what = "deck with several texts of ID",
    [ID_WITHOUT_TEXT].what = "ID without a text",
    [ID_WITH_BLANKS].what = "ID with blanks at both ends of its text",
    [HALF_FOOT].what = "volume at half a thousandth of an acre-foot",
    [UNDER_FOOT].what = "volume just under such a half",
    [HALF_INCH].what = "depth at half a thousandth of an inch",
    [UNDER_INCH].what = "depth just under such a half",
    [HALF_PEAK].what = "peak at half a hundredth of a cfs",
    [NO_FLOW].what = "block without any flow",
    [NO_AREA].what = "block without an area",
    [LEAST_AREA].what = "area of 0.01",
    [GREAT_AREA].what = "area of 10,000 and more",
    [INFLOW_WITH_AREA].what = "inflow with an area",
    [POND].what = "pond",
    [LEAST_MINUTES].what = "interval of 1 minute",
    [MOST_MINUTES].what = "interval of 1,440 minutes",
    [HUNDRED_HOURS].what = "peak after 100 hours and more",
    [UNDER_TEN].what = "peak at 1 to 9 minutes past the hour",
    [NO_HOURS].what = "peak in the first hour",
    [REPEATED].what = "station that is repeated",
    [OTHER_OPERATION].what = "name with another operation",
    [TWENTY_HELD].what = "block that is the twentieth held",
    [ROUTED_BESIDE].what = "block routed beside others that are held",
    [JOINED_BESIDE].what = "confluence beside others that are held",
    [LATE_LINE].what = "KK on a line of five digits",
    [SHARED].what = "station of two decks that stand together",
    [ONE_SIDED].what = "station that has an area in one of them only",
    [NO_NUMBER].what = "station at which they combine different numbers"
};

enum { LEAST_JOINED = 2, MOST_JOINED = 5 };

static unsigned long combined[MOST_JOINED + 1];
static unsigned long lengths[NAME_LIMIT + 1];
static const char odd_bytes[] = "\"'\\%&<>#$`*,";
static unsigned long odd[sizeof odd_bytes];

static void count_if(bool seen, enum edge edge)
{
    edges[edge].count += seen;
}

/* At a half, or by less than a thousandth of its place under it. */
static void see_half(uint64_t above, uint64_t below, enum edge half)
{
    uint64_t twice = 2 * (above % below);

    count_if(twice == below, half);
    count_if(twice < below && below - twice < below / 500, half + 1);
}

static void see_name(const struct worked *worked)
{
    lengths[worked->name_length]++;
    for (unsigned k = 0; k < sizeof odd_bytes - 1; k++)
        odd[k] += memchr(worked->name, odd_bytes[k], worked->name_length)
                  != NULL;
}

static void see_block(void *keeper, const struct worked *worked)
{
    uint64_t water = twice_the_sum(worked) * worked->minutes;
    unsigned peak = peak_of(worked);
    uint32_t minutes = worked->minutes * (peak + 1);
    bool flows = worked->flow[peak] > 0;

    (void)keeper;
    see_name(worked);
    see_half(water, PER_FOOT, HALF_FOOT);
    if (worked->area > 0)
        see_half(water, per_inch(worked->area, 640), HALF_INCH);
    count_if(worked->flow[peak] % (CFS / 100) == CFS / 200, HALF_PEAK);
    count_if(!flows, NO_FLOW);
    count_if(worked->area == 0, NO_AREA);
    count_if(worked->area == 1, LEAST_AREA);
    count_if(worked->area >= 1000000, GREAT_AREA);
    count_if(worked->area > 0 && worked->kind == 2, INFLOW_WITH_AREA);
    count_if(worked->kind == KIND_POND, POND);
    count_if(worked->minutes == 1, LEAST_MINUTES);
    count_if(worked->minutes == 1440, MOST_MINUTES);
    count_if(flows && minutes >= 6000, HUNDRED_HOURS);
    count_if(flows && minutes % 60 > 0 && minutes % 60 < 10, UNDER_TEN);
    count_if(flows && minutes < 60, NO_HOURS);
    count_if(worked->place == HELD_LIMIT - 1, TWENTY_HELD);
    count_if(worked->kind > 3 && worked->place > 0, ROUTED_BESIDE);
    count_if(worked->kind == 3 && worked->place > 0, JOINED_BESIDE);
    count_if(worked->line >= 10000, LATE_LINE);
    if (worked->kind == 3)
        combined[worked->taken]++;
}

static void see_ids(const uint8_t *deck, size_t length)
{
    struct reader reader = { deck, deck + length, 0 };
    struct text line;

    while (next_line(&reader, &line) == LINE_READ) {
        if (line.length < 2 || memcmp(line.at, "ID", 2) != 0)
            continue;
        count_if(line.length == 2, ID_WITHOUT_TEXT);
        count_if(line.length > 2 && line.at[2] == ' '
                 && line.at[line.length] == ' ', ID_WITH_BLANKS);
    }
}

static void see_deck(const struct table_deck *deck)
{
    const struct ratios *ratios = &deck->answer.ratios;
    size_t texts = 0;

    for (size_t k = 0; k < deck->texts.length; k++)
        texts += deck->texts.at[k] == '\n';
    count_if(!ratios->given, NO_JR);
    count_if(ratios->given && ratios->count == 1, ONE_RATIO);
    count_if(ratios->count > 1, RATIOS);
    count_if(ratios->count == RATIO_LIMIT, MOST_RATIOS);
    count_if(deck->answer.blocks == BLOCK_LIMIT, MOST_BLOCKS);
    count_if(texts == 0, NO_TEXT);
    count_if(texts > 1, TEXTS);
    for (unsigned k = 0; k < deck->answer.blocks; k++) {
        count_if(deck->row[k].repeat > 1, REPEATED);
        for (unsigned before = 0; before < k; before++)
            count_if(same_name(&deck->row[before], &deck->row[k])
                     && deck->row[before].operation != deck->row[k].operation,
                     OTHER_OPERATION);
    }
}

/* The stations that two decks have both. */
static void see_both(const struct table_deck *a, const struct table_deck *b)
{
    for (unsigned i = 0; i < a->answer.blocks; i++)
        for (unsigned k = 0; k < b->answer.blocks; k++) {
            const struct figures *one = &a->row[i], *other = &b->row[k];

            if (!same_name(one, other) || one->operation != other->operation
                || one->repeat != other->repeat)
                continue;
            count_if(true, SHARED);
            count_if((one->area == 0) != (other->area == 0), ONE_SIDED);
            count_if(one->combined != other->combined, NO_NUMBER);
        }
}

/* ---- Tables ----------------------------------------------------------- */

struct file {
    size_t length;
    uint8_t bytes[DECK_LIMIT + 1];
};

static const struct room *room_for_all(void)
{
    static uint64_t work[WORK_WORDS];
    static uint64_t ordinates[ORDINATE_LIMIT];
    static uint8_t records[BLOCK_LIMIT * RATIO_LIMIT * RECORD_BYTES];
    static const struct room room = {
        work, WORK_WORDS, ordinates, ORDINATE_LIMIT, records, sizeof records
    };

    return &room;
}

static bool read_file(const char *path, struct file *file)
{
    FILE *from = fopen(path, "rb");

    if (from == NULL)
        return false;
    file->length = fread(file->bytes, 1, sizeof file->bytes, from);
    return fclose(from) == 0 && file->length > 0;
}

/* The tables of some decks, each alone and all together. */
struct tables {
    struct page page[TOGETHER + 1];
};

static void write_tables(const struct table_deck *decks, size_t count,
                         struct tables *tables)
{
    memset(tables, 0, sizeof *tables);
    for (size_t k = 0; k < count; k++)
        write_table(&decks[k], 1, &tables->page[k]);
    write_table(decks, count, &tables->page[count]);
}

static void free_tables(struct tables *tables)
{
    for (size_t k = 0; k <= TOGETHER; k++)
        free(tables->page[k].at);
}

static unsigned count_different(const struct tables *a, const struct tables *b,
                                size_t count)
{
    unsigned different = 0;

    for (size_t k = 0; k <= count; k++) {
        const struct page *one = &a->page[k], *other = &b->page[k];

        different += one->length != other->length
                  || memcmp(one->at, other->at, one->length) != 0;
    }
    return different;
}

/* The same decks with the figures of the rule. */
static void write_by_rule(const struct table_deck *decks, size_t count,
                          const struct file *files, struct tables *tables)
{
    static struct rows rows[TOGETHER];
    struct table_deck other[TOGETHER];

    for (size_t k = 0; k < count; k++) {
        const struct viewer viewer = { keep_row, &rows[k] };

        rows[k].count = 0;
        view_deck(files[k].bytes, files[k].length, &viewer, room_for_all());
        count_repeats(&rows[k], decks[k].answer.blocks);
        other[k] = decks[k];
        other[k].row = rows[k].row;
    }
    write_tables(other, count, tables);
}

static unsigned long differing;     /* tables of the right rule */

static void count_rules(const struct table_deck *decks, size_t count,
                        const struct file *files)
{
    struct tables program, tables;

    write_tables(decks, count, &program);
    for (unsigned k = RIGHT; k < RULES; k++) {
        rule = k;
        write_by_rule(decks, count, files, &tables);
        rules[k].count += count_different(&program, &tables, count);
        free_tables(&tables);
    }
    rule = RIGHT;
    differing += rules[RIGHT].count;
    rules[RIGHT].count = 0;
    free_tables(&program);
}

static void count_edges(const struct table_deck *decks, size_t count,
                        const struct file *files)
{
    const struct viewer viewer = { see_block, NULL };

    for (size_t k = 0; k < count; k++) {
        view_deck(files[k].bytes, files[k].length, &viewer, room_for_all());
        see_ids(files[k].bytes, files[k].length);
        see_deck(&decks[k]);
        for (size_t other = 0; other < k; other++)
            see_both(&decks[other], &decks[k]);
    }
}

/* False: one of the decks is refused. */
static bool look_at(char **paths, size_t count, const struct file *files)
{
    struct table_deck decks[TOGETHER];
    bool accepted = true;

    for (size_t k = 0; k < count; k++) {
        work_table(paths[k], files[k].bytes, files[k].length, room_for_all(),
                   &decks[k]);
        if (decks[k].answer.refusal != 0) {
            printf("%s is refused\n", paths[k]);
            accepted = false;
        }
    }
    if (accepted) {
        count_rules(decks, count, files);
        count_edges(decks, count, files);
    }
    for (size_t k = 0; k < count; k++)
        free_table(&decks[k]);
    return accepted;
}

/* ---- The counts ------------------------------------------------------- */

/* Prints a count and returns whether it is missing. */
static bool print_count(unsigned long count, const char *what)
{
    printf("%8lu  %s%s\n", count, what, count == 0 ? ": MISSING" : "");
    return count == 0;
}

static unsigned print_tallies(const struct tally *tallies, unsigned count)
{
    unsigned missing = 0;

    for (unsigned k = 0; k < count; k++)
        missing += print_count(tallies[k].count, tallies[k].what);
    return missing;
}

static unsigned print_numbered(const unsigned long *counts, unsigned first,
                               unsigned last, const char *what)
{
    unsigned missing = 0;
    char text[40];

    for (unsigned k = first; k <= last; k++) {
        snprintf(text, sizeof text, "%s %u", what, k);
        missing += print_count(counts[k], text);
    }
    return missing;
}

static unsigned print_odd(void)
{
    unsigned missing = 0;
    char text[] = "name with a .";

    for (unsigned k = 0; k < sizeof odd_bytes - 1; k++) {
        text[sizeof text - 2] = odd_bytes[k];
        missing += print_count(odd[k], text);
    }
    return missing;
}

static unsigned print_all(void)
{
    unsigned missing = 0;

    puts("   count  in the decks of tables");
    missing += print_tallies(edges, EDGES);
    missing += print_numbered(combined, LEAST_JOINED, MOST_JOINED,
                              "confluence of");
    missing += print_numbered(lengths, 1, NAME_LIMIT, "name of length");
    missing += print_odd();
    puts("  tables  that a wrong rule gives other figures");
    missing += print_tallies(rules + 1, RULES - 1);
    if (differing > 0)
        printf("%8lu  tables are not those of the right rule\n", differing);
    return missing;
}

int main(int argc, char **argv)
{
    static struct file files[TOGETHER];
    bool accepted = true;

    for (int first = 1; first < argc; first += TOGETHER) {
        size_t count = 0;

        while (count < TOGETHER && first + (int)count < argc) {
            if (!read_file(argv[first + (int)count], &files[count])) {
                fprintf(stderr, "tables: cannot read %s\n",
                        argv[first + (int)count]);
                return 2;
            }
            count++;
        }
        accepted &= look_at(argv + first, count, files);
    }
    return print_all() > 0 || differing > 0 || !accepted;
}
