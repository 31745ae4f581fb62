/* Counts what cases of the sheet hold (document 02, CR 5): how they are
 * answered, what they name, which edges their sheets have, and which wrong
 * rules they tell from the right one.
 *
 *   sheets < CASES          counts
 *   sheets --text < CASES   the text of each case by the right rule, and '--'
 *
 * The cases are what hec1 --sheet reads.  Each line of the counts is a number
 * of cases and what was counted.  Exit status 0; 1 when one of the counts is 0,
 * which the line then says; 2 when the input is cut short.
 *
 * The engine's source is a part of this one, as in losses.c: rain, excess and
 * sums are the engine's own here, and the text is put together by itself.  So
 * this and sheet.c, which has its own water, can be held against each other. */
#include "engine.c"

#include "bundle.h"

#include <inttypes.h>
#include <stdio.h>

/* ---- What a case asks for --------------------------------------------- */

/* The answer to a case and, where it names a runoff block, that block as the
 * engine has read it; ratio is the place of the one it is worked under. */
struct asked {
    struct named named;
    struct answer answer;
    enum kind kind;
    unsigned ratio;
    struct block block;
    uint32_t minutes;
    uint64_t ordinate[ORDINATE_LIMIT];
};

static const struct room *room_for_all(void)
{
    static uint64_t work[WORK_WORDS];
    static uint64_t ordinates[ORDINATE_LIMIT];
    static uint8_t records[BLOCK_LIMIT * RATIO_LIMIT * RECORD_BYTES];
    static const struct room room = {
        work, WORK_WORDS, ordinates, ORDINATE_LIMIT, records, sizeof records
    };

    return &room;
}

/* Goes through an accepted deck as a pass does, up to the line that closes the
 * block, and keeps the block. */
static void find_block(const struct named_case *sheet, unsigned number,
                       struct asked *asked)
{
    static struct run run;
    struct reader reader = { sheet->deck, sheet->deck + sheet->length, 0 };
    struct text line;

    run = (struct run){ .room = room_for_all(), .ratios = asked->answer.ratios,
                        .place = asked->ratio };
    while (next_line(&reader, &line) != LINE_NONE) {
        if (line.length == 0)
            continue;
        enum record record = identify(line);
        if ((record == REC_KK || record == REC_ZZ) && run.blocks == number)
            break;
        take_line(&run, line);
    }
    asked->kind = kind_of(run.block.seen);
    asked->block = run.block;
    asked->minutes = run.minutes;
}

static void ask(const struct named_case *sheet, struct named named,
                struct asked *asked)
{
    const struct room *room = room_for_all();
    uint64_t block = named.block, ratio = named.ratio;

    asked->named = named;
    asked->answer = run_deck(sheet->deck, sheet->length, named, room);
    asked->kind = KIND_NONE;
    if (asked->answer.refusal != ACCEPTED)
        return;
    memcpy(asked->ordinate, room->ordinates, sizeof asked->ordinate);
    if (block == 0)
        block = asked->answer.blocks;
    if (ratio == 0)
        ratio = asked->answer.ratios.count;
    asked->ratio = (unsigned)ratio - 1;
    find_block(sheet, (unsigned)block, asked);
}

/* ---- Rules ------------------------------------------------------------ */

enum which_ratio {
    NAMED_RATIO,
    FIRST_RATIO,
    LAST_RATIO,
    NO_RATIO
};

enum which_rows {
    WITH_EXCESS,
    WITH_RAIN,
    EVERY_INTERVAL
};

/* A rule is the right one but for what is set here. */
struct sheet_rule {
    enum which_ratio ratio;
    enum which_rows rows;
    bool late;                  /* a share one ordinate late */
    bool last_left_out;         /* of the unit ordinates */
    bool excess_before;         /* shares of the excess of an interval before */
    bool written_over;          /* sums hold the last share alone */
    bool rain_before_ratio;     /* the column of rain */
    bool rain_of_cards;         /* the same, and before any total */
    bool zeros_for_none;        /* written where no share falls */
    bool none_for_zeros;        /* cells empty where the share is 0 */
    bool none_for_no_sum;       /* and sums where no share falls */
    bool no_empty_end;          /* empty cells behind the last share left out */
    bool rows_counted;          /* one after the other, not by interval */
    bool name_to_comma;
    bool rounded_down;
    bool half_down;
    bool hundredths_first;      /* rounded to two places, then written in six */
    bool sums_of_rounded;
    bool loss_of_rounded;
    bool shares_of_rounded;     /* of the excess in rounded inches */
    bool first_for_0;           /* 0 names the first block and ratio */
    bool names_first;           /* 17 before what the deck is refused for */
};

static const struct sheet_rule right_rule;

/* Its count is of the cases to which a rule gives another text. */
static struct wrong_rule {
    struct sheet_rule rule;
    const char *what;
    unsigned long cases;
} wrong_rules[] = {
    { { .late = true }, "(a) the spread begun one interval late", 0 },
    { { .last_left_out = true }, "(b) the last unit ordinate left out", 0 },
    { { .written_over = true },
      "(c) a share written in the sum in place of added", 0 },
    { { .excess_before = true }, "(d) the excess of the interval before", 0 },
    { { .zeros_for_none = true }, "(e) zeros where no share falls", 0 },
    { { .none_for_zeros = true }, "(f) empty cells for a share of 0", 0 },
    { { .none_for_no_sum = true },
      "(g) empty cells for the sum where no share falls", 0 },
    { { .no_empty_end = true },
      "(h) empty cells behind the last share left out", 0 },
    { { .rounded_down = true }, "(i) rounded down in place of half up", 0 },
    { { .half_down = true }, "(j) a half rounded down", 0 },
    { { .hundredths_first = true },
      "(k) inches and cfs rounded from hundredths", 0 },
    { { .sums_of_rounded = true }, "(l) sums of the rounded shares", 0 },
    { { .loss_of_rounded = true },
      "(m) the loss as rounded rain less rounded excess", 0 },
    { { .shares_of_rounded = true },
      "(n) shares of the excess in rounded inches", 0 },
    { { .ratio = FIRST_RATIO }, "(o) the first ratio for the named one", 0 },
    { { .ratio = LAST_RATIO }, "(p) the last ratio for the named one", 0 },
    { { .ratio = NO_RATIO }, "(q) the ratio forgotten", 0 },
    { { .rain_before_ratio = true }, "(r) rain as before the ratio", 0 },
    { { .rain_of_cards = true }, "(s) rain as on the cards, before PB", 0 },
    { { .rows = WITH_RAIN }, "(t) a row for each interval with rain", 0 },
    { { .rows = EVERY_INTERVAL }, "(u) a row for every interval", 0 },
    { { .rows_counted = true }, "(v) rows counted one after the other", 0 },
    { { .name_to_comma = true }, "(w) the name cut at a comma", 0 },
    { { .first_for_0 = true }, "(x) 0 for the first block or ratio", 0 },
    { { .names_first = true },
      "(y) 17 told before what the deck is refused for", 0 }
};

enum { WRONG_RULES = sizeof wrong_rules / sizeof *wrong_rules };

/* ---- The figures of a sheet by a rule --------------------------------- */

/* Depths as they are written, and the sums. */
struct figures {
    uint32_t rain[ORDINATE_LIMIT];
    uint32_t loss[ORDINATE_LIMIT];
    uint32_t excess[ORDINATE_LIMIT];
    uint64_t sum[ORDINATE_LIMIT];
};

static uint32_t ratio_by(const struct sheet_rule *rule,
                         const struct asked *asked)
{
    const struct ratios *ratios = &asked->answer.ratios;

    switch (rule->ratio) {
    case FIRST_RATIO: return ratios->value[0];
    case LAST_RATIO: return ratios->value[ratios->count - 1];
    case NO_RATIO: return WHOLE_RATIO;
    default: return ratios->value[asked->ratio];
    }
}

static void rain_under(const struct asked *asked, const struct storm *storm,
                       uint32_t ratio, uint32_t *rain)
{
    memset(rain, 0, ORDINATE_LIMIT * sizeof *rain);
    find_rain(&asked->block.rain, storm, rain);
    take_ratio(rain, asked->block.rain.count, ratio);
}

static bool has_row(const struct sheet_rule *rule,
                    const struct figures *figures, unsigned k)
{
    return rule->rows == EVERY_INTERVAL || figures->excess[k] > 0
        || (rule->rows == WITH_RAIN && figures->rain[k] > 0);
}

/* Whether interval k has a share at ordinate i; then unit is the place of its
 * unit ordinate.  All count from 0. */
static bool falls(const struct sheet_rule *rule, const struct asked *asked,
                  unsigned k, unsigned i, unsigned *unit)
{
    unsigned units = asked->block.unit_graph.count;
    unsigned first = k + rule->late;

    if (rule->last_left_out && units > 0)
        units--;
    *unit = i - first;
    return i >= first && i - first < units;
}

static uint64_t spread_excess(const struct sheet_rule *rule,
                              const struct figures *figures, unsigned k)
{
    if (rule->excess_before)
        return k > 0 ? figures->excess[k - 1] : 0;
    return figures->excess[k];
}

static void add_up(const struct sheet_rule *rule, const struct asked *asked,
                   struct figures *figures)
{
    unsigned unit;

    memset(figures->sum, 0, sizeof figures->sum);
    for (unsigned k = 0; k < asked->answer.nq; k++)
        for (unsigned i = 0; i < asked->answer.nq; i++)
            if (has_row(rule, figures, k) && falls(rule, asked, k, i, &unit))
                figures->sum[i] = (rule->written_over ? 0 : figures->sum[i])
                    + asked->block.unit_graph.value[unit]
                    * spread_excess(rule, figures, k);
}

/* By the right rule the sums are the ordinates that the engine has answered. */
static void work_by(const struct sheet_rule *rule, const struct asked *asked,
                    struct figures *figures)
{
    static const struct storm none;
    const struct block *block = &asked->block;

    rain_under(asked, &block->storm, ratio_by(rule, asked), figures->rain);
    memcpy(figures->excess, figures->rain, sizeof figures->rain);
    take_loss(figures->excess, block->rain.count, &block->loss,
              asked->minutes);
    for (unsigned k = 0; k < asked->answer.nq; k++)
        figures->loss[k] = figures->rain[k] - figures->excess[k];
    if (rule == &right_rule)
        memcpy(figures->sum, asked->ordinate, sizeof figures->sum);
    else
        add_up(rule, asked, figures);
    if (rule->rain_before_ratio)
        rain_under(asked, &block->storm, WHOLE_RATIO, figures->rain);
    if (rule->rain_of_cards)
        rain_under(asked, &none, WHOLE_RATIO, figures->rain);
}

/* ---- Rounding --------------------------------------------------------- */

static uint64_t half_up(uint64_t number, uint64_t by)
{
    return (2 * number + by) / (2 * by);
}

/* number / by, in millionths. */
static uint64_t round_by(const struct sheet_rule *rule, uint64_t number,
                         uint64_t by)
{
    if (rule->rounded_down)
        return number / by;
    if (rule->half_down)
        return (2 * number + by - 1) / (2 * by);
    if (rule->hundredths_first)
        return 10000 * half_up(number, 10000 * by);
    return half_up(number, by);
}

static uint64_t in_inches(const struct sheet_rule *rule, uint64_t depth)
{
    return round_by(rule, 10 * depth, 6);
}

static uint64_t in_cfs(const struct sheet_rule *rule, uint64_t flow)
{
    return round_by(rule, flow, 60);
}

/* ---- The text by a rule ----------------------------------------------- */

enum { TEXT_ROOM = 2 * (ORDINATE_LIMIT + 3) * (64 + 24 * ORDINATE_LIMIT) };

/* A sheet that is being written: first in units, then for reading. */
struct page {
    const struct sheet_rule *rule;
    const struct asked *asked;
    const struct figures *figures;
    bool in_units;
    char *at;
};

static void put_word(struct page *page, const char *word)
{
    page->at += sprintf(page->at, "%s", word);
}

static void put_figure(struct page *page, uint64_t number)
{
    page->at += sprintf(page->at, "%" PRIu64, number);
}

static void put_cell(struct page *page, uint64_t units, uint64_t millionths)
{
    *page->at++ = ',';
    if (page->in_units)
        put_figure(page, units);
    else
        page->at += sprintf(page->at, "%" PRIu64 ".%06" PRIu64,
                            millionths / 1000000, millionths % 1000000);
}

static uint64_t share_in_cfs(const struct page *page, unsigned k,
                             uint64_t unit_ordinate, uint64_t share)
{
    uint64_t excess = spread_excess(page->rule, page->figures, k);

    if (page->rule->shares_of_rounded)
        return half_up(unit_ordinate * in_inches(page->rule, excess), 100);
    return in_cfs(page->rule, share);
}

/* Returns whether the cell holds a figure. */
static bool put_share(struct page *page, unsigned k, unsigned i)
{
    const struct sheet_rule *rule = page->rule;
    uint64_t ordinate, share;
    unsigned unit;

    if (!falls(rule, page->asked, k, i, &unit)) {
        if (rule->zeros_for_none)
            put_cell(page, 0, 0);
        else
            *page->at++ = ',';
        return rule->zeros_for_none;
    }
    ordinate = page->asked->block.unit_graph.value[unit];
    share = ordinate * spread_excess(rule, page->figures, k);
    if (share == 0 && rule->none_for_zeros) {
        *page->at++ = ',';
        return false;
    }
    put_cell(page, share, share_in_cfs(page, k, ordinate, share));
    return true;
}

static void put_depths(struct page *page, unsigned k)
{
    const struct figures *figures = page->figures;
    uint64_t rain = in_inches(page->rule, figures->rain[k]);
    uint64_t loss = in_inches(page->rule, figures->loss[k]);
    uint64_t excess = in_inches(page->rule, figures->excess[k]);

    if (page->rule->loss_of_rounded)
        loss = rain - excess;
    put_cell(page, figures->rain[k], rain);
    put_cell(page, figures->loss[k], loss);
    put_cell(page, figures->excess[k], excess);
}

static void put_row(struct page *page, unsigned k, unsigned number)
{
    char *end;

    put_figure(page, number);
    put_depths(page, k);
    end = page->at;
    for (unsigned i = 0; i < page->asked->answer.nq; i++)
        if (put_share(page, k, i))
            end = page->at;
    if (page->rule->no_empty_end)
        page->at = end;
    *page->at++ = '\n';
}

/* The column of an ordinate: whether any share falls there, and the sum of
 * those that do, each rounded by itself. */
static bool column(const struct page *page, unsigned i, uint64_t *rounded)
{
    bool any = false;
    unsigned unit;

    *rounded = 0;
    for (unsigned k = 0; k < page->asked->answer.nq; k++)
        if (has_row(page->rule, page->figures, k)
            && falls(page->rule, page->asked, k, i, &unit)) {
            any = true;
            *rounded += in_cfs(page->rule,
                               page->asked->block.unit_graph.value[unit]
                               * spread_excess(page->rule, page->figures, k));
        }
    return any;
}

static void put_sums(struct page *page)
{
    put_word(page, "sum,,,");
    for (unsigned i = 0; i < page->asked->answer.nq; i++) {
        uint64_t sum = page->figures->sum[i], rounded = 0;
        bool any = true;

        if (page->rule->none_for_no_sum || page->rule->sums_of_rounded)
            any = column(page, i, &rounded);
        if (page->rule->none_for_no_sum && !any)
            *page->at++ = ',';
        else
            put_cell(page, sum, page->rule->sums_of_rounded
                     ? rounded : in_cfs(page->rule, sum));
    }
    *page->at++ = '\n';
}

static void put_name(struct page *page)
{
    struct text name = page->asked->block.name;

    for (unsigned k = 0; k < name.length; k++) {
        if (page->rule->name_to_comma && name.at[k] == ',')
            break;
        *page->at++ = (char)name.at[k];
    }
    *page->at++ = '\n';
}

static void put_table(struct page *page, const char *title)
{
    uint32_t ratio = page->asked->answer.ratios.value[page->asked->ratio];
    unsigned rows = 0;

    page->at += sprintf(page->at, "%s,%" PRIu32 ".%02" PRIu32 ",", title,
                        ratio / 100, ratio % 100);
    put_name(page);
    put_word(page, "interval,rain,loss,excess");
    for (unsigned i = 1; i <= page->asked->answer.nq; i++)
        page->at += sprintf(page->at, ",%u", i);
    *page->at++ = '\n';
    for (unsigned k = 0; k < page->asked->answer.nq; k++)
        if (has_row(page->rule, page->figures, k))
            put_row(page, k, page->rule->rows_counted ? ++rows : k + 1);
    put_sums(page);
}

static bool above_all_counts(struct named named)
{
    return named.block > BLOCK_LIMIT || named.ratio > RATIO_LIMIT;
}

/* Returns the bytes of the text. */
static size_t text_by(const struct sheet_rule *rule, const struct asked *asked,
                      char *text)
{
    static struct figures figures;
    struct page page = { rule, asked, &figures, true, text };
    const struct answer *answer = &asked->answer;

    if (answer->refusal != ACCEPTED) {
        if (rule->names_first && above_all_counts(asked->named))
            put_word(&page, "REFUSED 17 0\n");
        else
            page.at += sprintf(page.at, "REFUSED %u %u\n", answer->refusal,
                               answer->line);
    } else if (asked->kind != KIND_RUNOFF) {
        page.at += sprintf(page.at, "NO SHEET %u\n", asked->kind);
    } else {
        work_by(rule, asked, &figures);
        put_table(&page, "units");
        page.in_units = false;
        put_table(&page, "inches and cfs");
    }
    return (size_t)(page.at - text);
}

static bool tells_apart(const struct named_case *sheet,
                        const struct asked *asked,
                        const struct sheet_rule *rule, const char *right,
                        size_t length)
{
    static struct asked other;
    static char wrong[TEXT_ROOM];
    struct named named = asked->named;

    if (rule->first_for_0) {
        named.block += named.block == 0;
        named.ratio += named.ratio == 0;
        ask(sheet, named, &other);
        asked = &other;
    }
    return text_by(rule, asked, wrong) != length
        || memcmp(wrong, right, length) != 0;
}

/* ---- Answers and what is named ---------------------------------------- */

struct tally {
    const char *what;
    unsigned long cases;
};

static void count_if(bool holds, struct tally *tally)
{
    tally->cases += holds;
}

enum { LAST_REFUSAL = OVER_TABLE };

static unsigned long all_cases, sheets_made;
static unsigned long not_made[KIND_POND + 1], refused[LAST_REFUSAL + 1];
static unsigned long places[RATIO_LIMIT];

static void count_answer(const struct asked *asked)
{
    all_cases++;
    if (asked->answer.refusal != ACCEPTED)
        refused[asked->answer.refusal]++;
    else if (asked->kind != KIND_RUNOFF)
        not_made[asked->kind]++;
    else
        sheets_made++;
}

enum naming {
    BLOCK_0,
    BLOCK_0_SHEET,
    LAST_BY_NUMBER,
    RATIO_0_OF_SEVERAL,
    RATIO_0_NO_JR,
    RATIO_1_NO_JR,
    BLOCK_ABOVE,
    RATIO_ABOVE,
    BOTH_ABOVE,
    RATIO_ABOVE_NO_JR,
    FAR_ABOVE,
    ABOVE_AND_REFUSED,
    NAMINGS
};

static struct tally namings[NAMINGS] = {
    [BLOCK_0].what = "block 0",
    [BLOCK_0_SHEET].what = "block 0, and the last one has a sheet",
    [LAST_BY_NUMBER].what = "the last block by its number",
    [RATIO_0_OF_SEVERAL].what = "ratio 0 of several that differ, a sheet",
    [RATIO_0_NO_JR].what = "ratio 0 without JR, a sheet",
    [RATIO_1_NO_JR].what = "ratio 1 without JR, a sheet",
    [BLOCK_ABOVE].what = "block one above the count, refused by 17",
    [RATIO_ABOVE].what = "ratio one above the count, refused by 17",
    [BOTH_ABOVE].what = "both, refused by 17",
    [RATIO_ABOVE_NO_JR].what = "ratio 2 without JR, refused by 17",
    [FAR_ABOVE].what = "block over 200 or ratio over 9, refused by 17",
    [ABOVE_AND_REFUSED].what = "the same in a deck that is refused otherwise"
};

static void count_sheet_names(const struct asked *asked)
{
    const struct ratios *ratios = &asked->answer.ratios;
    bool zero = asked->named.ratio == 0;

    count_if(asked->named.block == 0, &namings[BLOCK_0_SHEET]);
    count_if(zero && ratios->value[0] != ratios->value[ratios->count - 1],
             &namings[RATIO_0_OF_SEVERAL]);
    count_if(zero && !ratios->given, &namings[RATIO_0_NO_JR]);
    count_if(!zero && !ratios->given, &namings[RATIO_1_NO_JR]);
    if (!zero && ratios->given)
        places[asked->ratio]++;
}

/* A case that is refused by 17 says no counts: the deck is asked once more. */
static void count_above(const struct named_case *sheet, struct named named)
{
    static struct asked last;
    bool block, ratio;

    ask(sheet, (struct named){ 0, 0 }, &last);
    block = named.block == last.answer.blocks + UINT64_C(1);
    ratio = named.ratio == last.answer.ratios.count + UINT64_C(1);
    count_if(block && !ratio, &namings[BLOCK_ABOVE]);
    count_if(ratio && !block, &namings[RATIO_ABOVE]);
    count_if(block && ratio, &namings[BOTH_ABOVE]);
    count_if(ratio && !last.answer.ratios.given, &namings[RATIO_ABOVE_NO_JR]);
    count_if(above_all_counts(named), &namings[FAR_ABOVE]);
}

static void count_names(const struct named_case *sheet,
                        const struct asked *asked)
{
    const struct answer *answer = &asked->answer;

    count_if(asked->named.block == 0, &namings[BLOCK_0]);
    if (answer->refusal == SHORT_RESULT_ROOM)
        count_above(sheet, asked->named);
    else if (answer->refusal != ACCEPTED)
        count_if(above_all_counts(asked->named), &namings[ABOVE_AND_REFUSED]);
    else
        count_if(asked->named.block == answer->blocks,
                 &namings[LAST_BY_NUMBER]);
    if (answer->refusal == ACCEPTED && asked->kind == KIND_RUNOFF)
        count_sheet_names(asked);
}

/* ---- Edges of a sheet ------------------------------------------------- */

enum edge {
    PLAIN,
    WITH_PB,
    WITH_JR,
    WITH_BOTH,
    NO_EXCESS,
    NO_EXCESS_BUT_RAIN,
    IN_FIRST,
    IN_LAST,
    IN_LAST_ALONE,
    DRY_BETWEEN,
    LOST_BETWEEN,
    THREE_IN_COLUMN,
    MORE_UNITS,
    UNITS_CUT,
    NO_UNITS,
    ZERO_UNIT_FIRST,
    ZERO_UNIT_BETWEEN,
    ZERO_UNIT_LAST,
    ONE_ORDINATE,
    LONGEST,
    COMMA_IN_NAME,
    NO_LOSS_IN_ROW,
    ONE_UNIT_OF_EXCESS,
    THIRD,
    TWO_THIRDS,
    HALF_SHARE,
    BELOW_HALF_SHARE,
    ABOVE_HALF_SHARE,
    HALF_SUM,
    BELOW_HALF_SUM,
    ABOVE_HALF_SUM,
    HIDDEN_SHARE,
    AT_LIMIT,
    MOST_RAIN,
    SMALL_RATIO,
    LATE_BLOCK,
    LONGEST_DECK,
    EDGES
};

static struct tally edges[EDGES] = {
    [PLAIN].what = "neither PB nor JR",
    [WITH_PB].what = "PB, no JR",
    [WITH_JR].what = "JR, no PB",
    [WITH_BOTH].what = "PB and JR",
    [NO_EXCESS].what = "no excess at all",
    [NO_EXCESS_BUT_RAIN].what = "no excess at all, but rain",
    [IN_FIRST].what = "excess in the first of several intervals",
    [IN_LAST].what = "excess in the last of several intervals",
    [IN_LAST_ALONE].what = "excess in the last of several intervals alone",
    [DRY_BETWEEN].what = "an interval without rain between two rows",
    [LOST_BETWEEN].what = "an interval with all rain lost between two rows",
    [THREE_IN_COLUMN].what = "three shares or more above 0 in a column",
    [MORE_UNITS].what = "more unit ordinates than NQ",
    [UNITS_CUT].what = "a row whose last shares fall behind NQ",
    [NO_UNITS].what = "no unit ordinate, but excess",
    [ZERO_UNIT_FIRST].what = "a share of 0 by the first unit ordinate",
    [ZERO_UNIT_BETWEEN].what = "a share of 0 by one between",
    [ZERO_UNIT_LAST].what = "a share of 0 by the last of several",
    [ONE_ORDINATE].what = "NQ of 1",
    [LONGEST].what = "300 rows, NQ of 300, 150 unit ordinates",
    [COMMA_IN_NAME].what = "a comma in the name",
    [NO_LOSS_IN_ROW].what = "a row without any loss",
    [ONE_UNIT_OF_EXCESS].what = "an excess of one unit",
    [THIRD].what = "a depth a third of a millionth above one, rounded down",
    [TWO_THIRDS].what = "a depth two thirds above one, rounded up",
    [HALF_SHARE].what = "a share at half a millionth of a cfs, rounded up",
    [BELOW_HALF_SHARE].what = "a share one unit below a half",
    [ABOVE_HALF_SHARE].what = "a share one unit above a half",
    [HALF_SUM].what = "a sum of several shares at a half",
    [BELOW_HALF_SUM].what = "one unit below a half",
    [ABOVE_HALF_SUM].what = "one unit above a half",
    [HIDDEN_SHARE].what = "a share above 0 that six places show as 0",
    [AT_LIMIT].what = "a sum at the flow limit",
    [MOST_RAIN].what = "999 inches of rain in an interval",
    [SMALL_RATIO].what = "a ratio below 0.10",
    [LATE_BLOCK].what = "the 128th block or a later one",
    [LONGEST_DECK].what = "a deck of 60,000 bytes"
};

/* A sheet's edges are first seen, then counted: each once in a sheet. */
struct view {
    const struct asked *asked;
    const struct figures *figures;
    bool seen[EDGES];
};

static void see(struct view *view, enum edge edge, bool holds)
{
    view->seen[edge] = view->seen[edge] || holds;
}

static void see_depth(struct view *view, uint32_t depth)
{
    see(view, THIRD, depth % 3 == 2);
    see(view, TWO_THIRDS, depth % 3 == 1);
}

static void see_flow(struct view *view, enum edge half, uint64_t flow)
{
    see(view, half, flow % 60 == 30);
    see(view, half + 1, flow % 60 == 29);
    see(view, half + 2, flow % 60 == 31);
}

static void see_unit(struct view *view, unsigned unit, uint64_t share)
{
    unsigned units = view->asked->block.unit_graph.count;

    see_flow(view, HALF_SHARE, share);
    see(view, HIDDEN_SHARE, share > 0 && share < 30);
    if (share > 0)
        return;
    see(view, ZERO_UNIT_FIRST, unit == 0);
    see(view, ZERO_UNIT_BETWEEN, unit > 0 && unit + 1 < units);
    see(view, ZERO_UNIT_LAST, unit > 0 && unit + 1 == units);
}

static void see_row(struct view *view, unsigned k)
{
    const struct figures *figures = view->figures;
    const struct list *graph = &view->asked->block.unit_graph;
    unsigned nq = view->asked->answer.nq, unit;

    see(view, IN_FIRST, k == 0 && nq > 1);
    see(view, IN_LAST, k + 1 == nq && nq > 1);
    see(view, UNITS_CUT, k + graph->count > nq);
    see(view, NO_UNITS, graph->count == 0);
    see(view, NO_LOSS_IN_ROW, figures->loss[k] == 0);
    see(view, ONE_UNIT_OF_EXCESS, figures->excess[k] == 1);
    see(view, MOST_RAIN, figures->rain[k] == 999 * 600000);
    see_depth(view, figures->rain[k]);
    see_depth(view, figures->loss[k]);
    see_depth(view, figures->excess[k]);
    for (unsigned i = k; i < nq; i++)
        if (falls(&right_rule, view->asked, k, i, &unit))
            see_unit(view, unit, graph->value[unit]
                                 * (uint64_t)figures->excess[k]);
}

static void see_column(struct view *view, unsigned i)
{
    const struct list *graph = &view->asked->block.unit_graph;
    uint64_t sum = view->figures->sum[i];
    unsigned shares = 0, unit;

    for (unsigned k = 0; k <= i; k++)
        shares += view->figures->excess[k] > 0
            && falls(&right_rule, view->asked, k, i, &unit)
            && graph->value[unit] > 0;
    see(view, THREE_IN_COLUMN, shares >= 3);
    see(view, AT_LIMIT, sum == FLOW_LIMIT);
    if (shares > 1)
        see_flow(view, HALF_SUM, sum);
}

/* The intervals that have no row between two that have one. */
static void see_between(struct view *view)
{
    const struct figures *figures = view->figures;
    bool row = false, dry = false, lost = false;

    for (unsigned k = 0; k < view->asked->answer.nq; k++) {
        if (figures->excess[k] > 0) {
            see(view, DRY_BETWEEN, row && dry);
            see(view, LOST_BETWEEN, row && lost);
            row = true;
            dry = lost = false;
        } else {
            dry = dry || figures->rain[k] == 0;
            lost = lost || figures->rain[k] > 0;
        }
    }
}

static void see_sheet(struct view *view)
{
    const struct asked *asked = view->asked;
    const struct block *block = &asked->block;
    bool jr = asked->answer.ratios.given, pb = block->storm.given;
    unsigned nq = asked->answer.nq, rows = 0, wet = 0;

    for (unsigned k = 0; k < nq; k++) {
        wet += view->figures->rain[k] > 0;
        if (view->figures->excess[k] > 0) {
            rows++;
            see_row(view, k);
        }
        see_column(view, k);
    }
    see_between(view);
    see(view, PLAIN, !jr && !pb);
    see(view, WITH_PB, !jr && pb);
    see(view, WITH_JR, jr && !pb);
    see(view, WITH_BOTH, jr && pb);
    see(view, NO_EXCESS, rows == 0);
    see(view, NO_EXCESS_BUT_RAIN, rows == 0 && wet > 0);
    see(view, IN_LAST_ALONE, rows == 1 && view->seen[IN_LAST]);
    see(view, MORE_UNITS, block->unit_graph.count > nq);
    see(view, ONE_ORDINATE, nq == 1);
    see(view, LONGEST, rows == ORDINATE_LIMIT
                       && block->unit_graph.count == UNIT_GRAPH_LIMIT);
    see(view, COMMA_IN_NAME, memchr(block->name.at, ',', block->name.length));
    see(view, SMALL_RATIO, asked->answer.ratios.value[asked->ratio] < 10);
    see(view, LATE_BLOCK, asked->named.block >= 128);
}

static void count_edges(const struct asked *asked, size_t length)
{
    static struct figures figures;
    struct view view = { .asked = asked, .figures = &figures };

    if (asked->answer.refusal != ACCEPTED || asked->kind != KIND_RUNOFF)
        return;
    work_by(&right_rule, asked, &figures);
    see_sheet(&view);
    see(&view, LONGEST_DECK, length == DECK_LIMIT);
    for (unsigned k = 0; k < EDGES; k++)
        count_if(view.seen[k], &edges[k]);
}

/* ---- The cases -------------------------------------------------------- */

static void look_at(const struct named_case *sheet, bool text_alone)
{
    static struct asked asked;
    static char right[TEXT_ROOM];
    size_t length;

    ask(sheet, sheet->named, &asked);
    length = text_by(&right_rule, &asked, right);
    if (text_alone) {
        fwrite(right, 1, length, stdout);
        puts("--");
        return;
    }
    count_answer(&asked);
    count_names(sheet, &asked);
    count_edges(&asked, sheet->length);
    for (unsigned k = 0; k < WRONG_RULES; k++)
        wrong_rules[k].cases += tells_apart(sheet, &asked,
                                            &wrong_rules[k].rule, right,
                                            length);
}

/* Prints a count and returns whether it is missing. */
static bool print_count(unsigned long cases, const char *what)
{
    printf("%8lu  %s%s\n", cases, what, cases == 0 ? ": MISSING" : "");
    return cases == 0;
}

static bool print_numbered(unsigned long cases, const char *what,
                           unsigned number)
{
    char text[40];

    snprintf(text, sizeof text, "%s %u", what, number);
    return print_count(cases, text);
}

static unsigned print_tallies(const struct tally *tallies, unsigned count)
{
    unsigned missing = 0;

    for (unsigned k = 0; k < count; k++)
        missing += print_count(tallies[k].cases, tallies[k].what);
    return missing;
}

/* No deck is refused by 1 here: work words are always enough. */
static unsigned print_all(void)
{
    unsigned missing = 0;

    puts("   cases  of the sheet");
    missing += print_count(all_cases, "all");
    missing += print_count(sheets_made, "sheets");
    for (unsigned k = KIND_INFLOW; k <= KIND_POND; k++)
        missing += print_numbered(not_made[k], "no sheet, kind", k);
    for (unsigned k = LONG_DECK; k <= LAST_REFUSAL; k++)
        missing += print_numbered(refused[k], "refused by", k);
    puts("   cases  that name");
    missing += print_tallies(namings, NAMINGS);
    for (unsigned k = 0; k < RATIO_LIMIT; k++)
        missing += print_numbered(places[k], "by its number, a sheet, ratio",
                                  k + 1);
    puts("   cases  sheets with");
    missing += print_tallies(edges, EDGES);
    puts("   cases  to which a wrong rule gives another text");
    for (unsigned k = 0; k < WRONG_RULES; k++)
        missing += print_count(wrong_rules[k].cases, wrong_rules[k].what);
    return missing;
}

int main(int argc, char **argv)
{
    static struct named_case sheet;
    bool text_alone = argc == 2 && strcmp(argv[1], "--text") == 0;

    if (argc > 1 && !text_alone) {
        fputs("sheets: unknown option\n", stderr);
        return 2;
    }
    while (next_named("sheets", &sheet))
        look_at(&sheet, text_alone);
    return text_alone ? 0 : print_all() > 0;
}
