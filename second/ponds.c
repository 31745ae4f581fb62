/* Counts what the decks of a bundle tell about ponds (document 02, CR 6): which
 * edges the ponds of its accepted decks have, how many decks a wrong rule would
 * answer otherwise, and what the decks with a pond's records are refused for.
 *
 *   ponds < BUNDLE
 *
 * The bundle is what hec1 --bundle reads.  Ponds are counted once under each
 * ratio.  Exit status 0; 1 when one of the counts is 0, which the line then
 * says; 2 when the input is cut short.
 *
 * The engine's source is a part of this one, as in losses.c.  So is that of
 * ponds, under other names: what the engine calls here works by the rule that
 * is in force, which is the right one or a wrong one. */
#define make_pond make_right_pond
#define route_pond route_right_pond
#include "pond.c"
#undef make_pond
#undef route_pond

static bool make_pond(const struct pond_cards *cards, uint32_t minutes,
                      struct pond *pond);
static bool route_pond(const struct pond *pond, uint64_t *flow, unsigned nq);

#include "engine.c"

#include "bundle.h"

#include <stdio.h>

struct tally {
    const char *what;
    unsigned long count;
};

static void count_if(bool holds, struct tally *tally)
{
    tally->count += holds;
}

/* ---- Rules ------------------------------------------------------------ */

/* A rule is the right one but for what is set here. */
struct pond_rule {
    bool half_up;               /* the share of a row */
    bool not_shared;            /* the outflow of the row below */
    bool row_before;            /* of that, at a row's own height alone */
    bool narrow;                /* products of 64 bits */
    bool outflow_once;
    bool not_carried;           /* water from one interval to the next */
    bool old_inflow_alone;
    bool new_inflow_alone;
    bool starts_as_inflow;
    bool water_rounded;         /* to hundredths */
    bool full_refused;          /* the last row's own height is above it */
    bool runs_over;             /* what is above the last row is lost */
    bool level;                 /* SV may stay */
    bool falling;               /* SQ may fall */
    bool shorter_counts;        /* of two lists */
    bool first_unasked;         /* the first row may be any */
    bool worth_unasked;         /* 1,452 V may be less than M Q */
    bool worth_more;            /* 1,452 V must be more than M Q */
    bool unasked;               /* a broken table changes no flow */
};

static const struct pond_rule right_rule;
static const struct pond_rule *rule = &right_rule;

/* Its count is of the decks that a rule answers otherwise. */
static struct wrong_rule {
    struct pond_rule rule;
    struct tally decks;
} wrong_rules[] = {
    { { .half_up = true }, { "(a) outflow rounded half up", 0 } },
    { { .not_shared = true },
      { "(b) the outflow of the row below, not interpolated", 0 } },
    { { .row_before = true },
      { "(c) at a row's own W the outflow of the row before", 0 } },
    { { .narrow = true }, { "(d) the product cut to 64 bits", 0 } },
    { { .outflow_once = true },
      { "(e) the old outflow taken once in place of twice", 0 } },
    { { .not_carried = true }, { "(f) W not carried on", 0 } },
    { { .old_inflow_alone = true }, { "(g) the new inflow forgotten", 0 } },
    { { .new_inflow_alone = true }, { "(h) the old inflow forgotten", 0 } },
    { { .starts_as_inflow = true },
      { "(i) the first outflow equal to the inflow", 0 } },
    { { .water_rounded = true }, { "(j) W rounded to hundredths", 0 } },
    { { .full_refused = true },
      { "(k) 20 where W is that of the last row", 0 } },
    { { .runs_over = true }, { "(l) no 20, W kept at the last row", 0 } },
    { { .level = true }, { "(m) SV asked not to fall, in place of to rise", 0 } },
    { { .falling = true }, { "(n) SQ not asked for anything", 0 } },
    { { .shorter_counts = true },
      { "(o) the shorter of two unequal lists counts", 0 } },
    { { .first_unasked = true }, { "(p) a first row other than 0, 0", 0 } },
    { { .worth_unasked = true }, { "(q) 1,452 V less than M Q", 0 } },
    { { .worth_more = true }, { "(r) 1,452 V equal to M Q refused", 0 } },
    { { .unasked = true }, { "(s) no 19", 0 } }
};

/* Rules that are not the pond's own: what an engine would answer by them is
 * seen from the right answer and from what stands beside it. */
static struct tally area_lost = { "(t) the area not kept", 0 };
static struct tally before_10 = { "(u) 19 told before 10", 0 };
static struct tally by_number = {
    "(v) 19 and 20 told behind 14 and 15, as they are counted", 0
};

enum { WRONG_RULES = sizeof wrong_rules / sizeof *wrong_rules };

static bool make_by_rule(const struct pond_cards *cards, unsigned rows,
                         uint32_t minutes, struct pond *pond)
{
    const uint32_t *storage = cards->storage;
    const uint32_t *outflow = cards->outflow;

    if (rows < 2 || (cards->storages != cards->outflows && !rule->shorter_counts))
        return false;
    if ((storage[0] != 0 || outflow[0] != 0) && !rule->first_unasked)
        return false;
    pond->rows = rows;
    pond->minutes = minutes;
    for (unsigned k = 0; k < rows; k++) {
        uint64_t stored = (uint64_t)storage[k] * UNITS_PER_HUNDREDTH
                        * WATER_PER_STORAGE;
        uint64_t flow = (uint64_t)outflow[k] * UNITS_PER_HUNDREDTH;

        if (k > 0 && storage[k] <= storage[k - 1]
            && !(rule->level && storage[k] == storage[k - 1]))
            return false;
        if (k > 0 && outflow[k] < outflow[k - 1] && !rule->falling)
            return false;
        if (stored < minutes * flow && !rule->worth_unasked
            && !(rule->first_unasked && k == 0))
            return false;
        if (stored == minutes * flow && k > 0 && rule->worth_more)
            return false;
        pond->row[k] = (struct pond_row){ stored + minutes * flow, flow };
    }
    return true;
}

static bool make_pond(const struct pond_cards *cards, uint32_t minutes,
                      struct pond *pond)
{
    unsigned rows = cards->storages < cards->outflows ? cards->storages
                                                      : cards->outflows;

    if (rule == &right_rule)
        return make_right_pond(cards, minutes, pond);
    if (make_by_rule(cards, rows, minutes, pond))
        return true;
    pond->rows = 0;
    return rule->unasked;
}

/* Between two rows, which a wrong table may have in any order. */
static uint64_t outflow_by_rule(const struct pond_row *row, uint64_t water)
{
    bool falls = row[1].outflow < row[0].outflow;
    uint64_t rise = falls ? row[0].outflow - row[1].outflow
                          : row[1].outflow - row[0].outflow;
    uint64_t span = row[1].water - row[0].water;
    uint64_t above = water - row[0].water;
    wide product = (wide)rise * above;
    uint64_t share;

    if (row[1].water <= row[0].water)
        return row[1].outflow;
    if ((rule->not_shared && above < span) || (rule->row_before && above == span))
        return row[0].outflow;
    if (rule->narrow)
        product = (uint64_t)product;
    if (rule->half_up)
        product += span / 2;
    share = (uint64_t)(product / span);
    return falls ? row[0].outflow - share : row[0].outflow + share;
}

/* What water there is after an interval, 0 where a wrong rule takes more. */
static uint64_t water_by_rule(uint64_t water, uint64_t minutes, uint64_t inflow,
                              uint64_t next, uint64_t outflow)
{
    uint64_t gone = (rule->outflow_once ? 1 : 2) * minutes * outflow;

    if (rule->not_carried)
        water = gone = 0;
    if (!rule->new_inflow_alone)
        water += minutes * inflow;
    if (!rule->old_inflow_alone)
        water += minutes * next;
    water -= gone < water ? gone : water;
    if (rule->water_rounded)
        water -= water % UNITS_PER_HUNDREDTH;
    return water;
}

static bool route_by_rule(const struct pond *pond, uint64_t *flow, unsigned nq)
{
    uint64_t top = pond->row[pond->rows - 1].water;
    uint64_t water = 0, outflow = 0, inflow = flow[0];

    if (rule->starts_as_inflow)
        outflow = inflow;
    flow[0] = outflow;
    for (unsigned i = 1; i < nq; i++) {
        uint64_t next = flow[i];
        unsigned k = 0;

        water = water_by_rule(water, pond->minutes, inflow, next, outflow);
        if (water > top && rule->runs_over)
            water = top;
        if (water > top || (water == top && rule->full_refused))
            return false;
        while (k + 2 < pond->rows && water > pond->row[k + 1].water)
            k++;
        outflow = water < pond->row[k].water ? 0
                : outflow_by_rule(&pond->row[k], water);
        inflow = next;
        flow[i] = outflow;
    }
    return true;
}

static bool route_pond(const struct pond *pond, uint64_t *flow, unsigned nq)
{
    if (pond->rows == 0)
        return true;
    if (rule == &right_rule)
        return route_right_pond(pond, flow, nq);
    return route_by_rule(pond, flow, nq);
}

/* ---- How the records are written -------------------------------------- */

/* What the lines of a block look like, so far. */
struct written {
    unsigned lines[2];          /* of SV and SQ */
    bool blank_first[2];        /* the first value is a blank field */
    bool blank_between[2];      /* a line without values stands among them */
    bool fixed_form;
    bool free_form;
    enum record first;          /* of the three */
    enum record last;
};

static void look_at_line(struct written *written, enum record record,
                         struct text line, bool free_form)
{
    struct fields fields;
    unsigned list = record == REC_SQ;

    if (record != REC_RS && record != REC_SV && record != REC_SQ)
        return;
    if (written->first == REC_UNKNOWN)
        written->first = record;
    written->last = record;
    written->free_form = written->free_form || free_form;
    written->fixed_form = written->fixed_form || !free_form;
    if (record == REC_RS || !split_fields(line, free_form, &fields))
        return;
    if (written->lines[list] == 0 && fields.count > 0)
        written->blank_first[list] = fields.at[0].length == 0;
    if (fields.count == 0)
        written->blank_between[list] = true;
    written->lines[list]++;
}

/* ---- Ponds of accepted decks ------------------------------------------ */

enum edge {
    ALL_PONDS,
    TWO_ROWS,
    SOME_ROWS,
    ALL_ROWS,
    SAME_OUTFLOW,
    NO_OUTFLOW,
    WORTH_EXACT,
    WORTH_NEAR,
    LARGEST,
    AT_LAST,
    AT_INNER,
    FALLS_BACK,
    SEVERAL_ROWS,
    HIGHER_PEAK,
    WIDE,
    NO_INFLOW,
    ONE_ORDINATE,
    BELOW_POND,
    BELOW_RUNOFF,
    BELOW_INFLOW,
    BELOW_CONFLUENCE,
    BELOW_ROUTING,
    UNDER_RATIOS,
    ALL_HELD,
    WITH_AREA,
    SPLIT_STORAGE,
    SPLIT_OUTFLOW,
    BLANK_STORAGE,
    BLANK_OUTFLOW,
    EMPTY_LINE,
    SPOKEN_FIRST,
    SPOKEN_LAST,
    BOTH_FORMS,
    EDGES
};

static struct tally edges[EDGES] = {
    [ALL_PONDS].what = "all",
    [TWO_ROWS].what = "two rows",
    [SOME_ROWS].what = "three to nineteen",
    [ALL_ROWS].what = "twenty",
    [SAME_OUTFLOW].what = "the same outflow, above 0, in two rows",
    [NO_OUTFLOW].what = "no outflow in the second row",
    [WORTH_EXACT].what = "1,452 V equal to M Q in a row above the first",
    [WORTH_NEAR].what = "more, but a hundredth would break the rule",
    [LARGEST].what = "99,999.99 and 100,000 in the last row",
    [AT_LAST].what = "W reaches the last row's to the unit",
    [AT_INNER].what = "W reaches an inner row's to the unit",
    [FALLS_BACK].what = "W falls below a row that it had passed",
    [SEVERAL_ROWS].what = "W passes three rows or more in one interval",
    [HIGHER_PEAK].what = "the peak is higher than the inflow's",
    [WIDE].what = "a product over 64 bits",
    [NO_INFLOW].what = "no inflow at all",
    [ONE_ORDINATE].what = "NQ of 1",
    [BELOW_POND].what = "below a pond",
    [BELOW_RUNOFF].what = "below runoff",
    [BELOW_INFLOW].what = "below an inflow",
    [BELOW_CONFLUENCE].what = "below a confluence",
    [BELOW_ROUTING].what = "below a routing",
    [UNDER_RATIOS].what = "under one of several ratios",
    [ALL_HELD].what = "while twenty are held",
    [WITH_AREA].what = "an area above 0",
    [SPLIT_STORAGE].what = "SV on several lines",
    [SPLIT_OUTFLOW].what = "SQ on several lines",
    [BLANK_STORAGE].what = "the first SV a blank field",
    [BLANK_OUTFLOW].what = "the first SQ a blank field",
    [EMPTY_LINE].what = "a line of SV or SQ without values",
    [SPOKEN_FIRST].what = "RS before both others",
    [SPOKEN_LAST].what = "RS behind both others",
    [BOTH_FORMS].what = "records in both forms"
};

static void count_edge(bool holds, enum edge edge)
{
    count_if(holds, &edges[edge]);
}

/* The cards of the open block. */
static struct pond_cards cards_of(const struct block *block)
{
    return (struct pond_cards){
        block->storage.count, block->outflow.count, block->storage.value,
        block->outflow.value
    };
}

static void count_table(const struct pond_cards *cards, uint32_t minutes)
{
    bool same = false, exact = false, near = false;
    unsigned rows = cards->storages;

    for (unsigned k = 1; k < rows; k++) {
        uint64_t worth = (uint64_t)WATER_PER_STORAGE * cards->storage[k];
        uint64_t flow = (uint64_t)minutes * cards->outflow[k];

        same = same || (cards->outflow[k] > 0
                        && cards->outflow[k] == cards->outflow[k - 1]);
        exact = exact || worth == flow;
        near = near || (worth > flow && (worth - WATER_PER_STORAGE < flow
                                         || worth < flow + minutes));
    }
    count_edge(rows == 2, TWO_ROWS);
    count_edge(rows > 2 && rows < ROW_LIMIT, SOME_ROWS);
    count_edge(rows == ROW_LIMIT, ALL_ROWS);
    count_edge(same, SAME_OUTFLOW);
    count_edge(cards->outflow[1] == 0, NO_OUTFLOW);
    count_edge(exact, WORTH_EXACT);
    count_edge(near, WORTH_NEAR);
    count_edge(cards->storage[rows - 1] == SV_FORM.rule[0].high
               && cards->outflow[rows - 1] == SQ_FORM.rule[0].high, LARGEST);
}

/* The row that the water is above, from 0, or at. */
static unsigned row_of(const struct pond *pond, uint64_t water)
{
    unsigned k = 0;

    while (k + 1 < pond->rows && water >= pond->row[k + 1].water)
        k++;
    return k;
}

/* How far the water of a pond is above its last row, 0 if it never is, and in
 * which interval, from 0, that is. */
struct overflow {
    uint64_t by;
    unsigned interval;
};

/* Follows the water; edges are counted where that is asked for. */
static struct overflow follow(const struct pond *pond, const uint64_t *inflow,
                              unsigned nq, bool count)
{
    uint64_t top = pond->row[pond->rows - 1].water;
    uint64_t water = 0, outflow = 0, peak = 0, highest = 0, in = inflow[0];
    bool last = false, inner = false, back = false, several = false;
    bool over_64 = false;
    unsigned row = 0;

    for (unsigned i = 1; i < nq; i++) {
        water += pond->minutes * (inflow[i - 1] + inflow[i]);
        water -= 2 * pond->minutes * outflow;
        in += inflow[i];
        if (water > top)
            return (struct overflow){ water - top, i };

        unsigned next = row_of(pond, water);
        unsigned from = next + 1 < pond->rows ? next : next - 1;
        uint64_t rise = pond->row[from + 1].outflow - pond->row[from].outflow;

        last = last || water == top;
        inner = inner || (next > 0 && next + 1 < pond->rows
                          && water == pond->row[next].water);
        back = back || next < row;
        several = several || next >= row + 3;
        over_64 = over_64
            || (wide)rise * (water - pond->row[from].water) >> 64 != 0;
        outflow = outflow_at(&pond->row[from], water);
        row = next;
        if (outflow > peak)
            peak = outflow;
        if (inflow[i] > highest)
            highest = inflow[i];
    }
    if (inflow[0] > highest)
        highest = inflow[0];
    if (count) {
        count_edge(last, AT_LAST);
        count_edge(inner, AT_INNER);
        count_edge(back, FALLS_BACK);
        count_edge(several, SEVERAL_ROWS);
        count_edge(peak > highest, HIGHER_PEAK);
        count_edge(over_64, WIDE);
        count_edge(in == 0, NO_INFLOW);
    }
    return (struct overflow){ 0, 0 };
}

/* The hydrograph that was held last. */
static const uint64_t *last_held(const struct run *run)
{
    return run->room->work + (size_t)(run->held - 1) * ORDINATE_LIMIT;
}

static void count_written(const struct written *written)
{
    count_edge(written->lines[0] > 1, SPLIT_STORAGE);
    count_edge(written->lines[1] > 1, SPLIT_OUTFLOW);
    count_edge(written->blank_first[0], BLANK_STORAGE);
    count_edge(written->blank_first[1], BLANK_OUTFLOW);
    count_edge(written->blank_between[0] || written->blank_between[1],
               EMPTY_LINE);
    count_edge(written->first == REC_RS, SPOKEN_FIRST);
    count_edge(written->last == REC_RS, SPOKEN_LAST);
    count_edge(written->fixed_form && written->free_form, BOTH_FORMS);
}

/* before: the kind of the block whose hydrograph the pond takes. */
static void look_at_pond(const struct run *run, const struct written *written,
                         enum kind before)
{
    struct pond_cards cards = cards_of(&run->block);
    struct pond pond;

    if (!make_right_pond(&cards, run->minutes, &pond))
        return;
    count_edge(true, ALL_PONDS);
    count_table(&cards, run->minutes);
    follow(&pond, last_held(run), run->nq, true);
    count_edge(run->nq == 1, ONE_ORDINATE);
    count_edge(before == KIND_POND, BELOW_POND);
    count_edge(before == KIND_RUNOFF, BELOW_RUNOFF);
    count_edge(before == KIND_INFLOW, BELOW_INFLOW);
    count_edge(before == KIND_CONFLUENCE, BELOW_CONFLUENCE);
    count_edge(before == KIND_ROUTING, BELOW_ROUTING);
    count_edge(run->ratios.count > 1, UNDER_RATIOS);
    count_edge(run->held == HELD_LIMIT, ALL_HELD);
    count_edge(run->area[run->held - 1] > 0, WITH_AREA);
    count_written(written);
}

/* ---- Passes ----------------------------------------------------------- */

/* What a pass under one ratio alone is refused for, if anything, and by which
 * record, and the block that is open then. */
struct met {
    enum refusal refusal;
    unsigned line;
    enum record record;
    struct text text;
    struct overflow over;
};

static void start_pass(struct run *run, const struct room *room,
                       unsigned place)
{
    run->room = room;
    run->named = (struct named){ 0, 0 };
    run->ratios = (struct ratios){ false, 1, { WHOLE_RATIO } };
    run->place = place;
    run->first_record = 0;
    run->free_form = false;
    run->phase = BEFORE_IT;
    run->blocks = 0;
    run->held = 0;
}

/* Where the open block is a pond that takes a hydrograph: whether and how far
 * its water rises above the table. */
static struct overflow look_ahead(const struct run *run)
{
    struct pond_cards cards = cards_of(&run->block);
    struct pond pond;

    if (kind_of(run->block.seen) != KIND_POND || run->held == 0
        || !make_right_pond(&cards, run->minutes, &pond))
        return (struct overflow){ 0, 0 };
    return follow(&pond, last_held(run), run->nq, false);
}

/* Goes through a deck as a pass of run_deck does.  look: at each pond too, just
 * before the line that closes it. */
static struct met take_alone(const uint8_t *deck, size_t length,
                             struct run *run, bool look)
{
    struct reader reader = { deck, deck + length, 0 };
    struct written written = { 0 };
    struct met met = { ACCEPTED, 0, REC_UNKNOWN, { NULL, 0 }, { 0, 0 } };
    enum kind before = KIND_NONE;

    while (met.refusal == ACCEPTED && run->phase != ENDED) {
        enum line_state state = next_line(&reader, &met.text);
        if (state == LINE_NONE)
            return met;
        if (state == LINE_BAD)
            return (struct met){ .refusal = BAD_LINE, .line = reader.line };
        if (met.text.length == 0)
            continue;
        met.record = identify(met.text);
        look_at_line(&written, met.record, met.text, run->free_form);
        if (run->phase == IN_BLOCK
            && (met.record == REC_KK || met.record == REC_ZZ)) {
            met.over = look_ahead(run);
            if (look && kind_of(run->block.seen) == KIND_POND)
                look_at_pond(run, &written, before);
            before = kind_of(run->block.seen);
            written = (struct written){ 0 };
        }
        met.refusal = take_line(run, met.text);
    }
    met.line = met.refusal == ACCEPTED ? 0 : reader.line;
    return met;
}

/* ---- Refused decks ---------------------------------------------------- */

enum line_fault {
    SECOND_RS,
    RS_STEPS_6,
    RS_START_6,
    RS_UNNAMED_6,
    RS_BESIDE_7,
    RS_STEPS_7,
    RS_STEPS_BLANK,
    RS_START_7,
    RS_WORD_BLANK,
    RS_WORD_SMALL,
    RS_WORD_SPLIT,
    RS_WORD_LONG,
    RS_WORD_OTHER,
    SV_6,
    SV_7,
    SV_8,
    SQ_6,
    SQ_7,
    SQ_8,
    LINE_FAULTS
};

static struct tally line_faults[LINE_FAULTS] = {
    [SECOND_RS].what = "5: a second RS",
    [RS_STEPS_6].what = "6: field 1 of RS",
    [RS_START_6].what = "6: field 3 of RS",
    [RS_UNNAMED_6].what = "6: a later field of RS",
    [RS_BESIDE_7].what = "6 on RS, and another word as well",
    [RS_STEPS_7].what = "7: field 1 of RS",
    [RS_STEPS_BLANK].what = "7: field 1 of RS blank",
    [RS_START_7].what = "7: field 3 of RS",
    [RS_WORD_BLANK].what = "7: no word on RS",
    [RS_WORD_SMALL].what = "7: the word in small letters",
    [RS_WORD_SPLIT].what = "7: a blank in the word",
    [RS_WORD_LONG].what = "7: a word over eight bytes",
    [RS_WORD_OTHER].what = "7: another word",
    [SV_6].what = "6: SV",
    [SV_7].what = "7: SV",
    [SV_8].what = "8: SV",
    [SQ_6].what = "6: SQ",
    [SQ_7].what = "7: SQ",
    [SQ_8].what = "8: SQ"
};

static void count_fault(bool holds, enum line_fault fault)
{
    count_if(holds, &line_faults[fault]);
}

static bool holds_byte(struct text text, uint8_t low, uint8_t high)
{
    for (unsigned k = 0; k < text.length; k++)
        if (text.at[k] >= low && text.at[k] <= high)
            return true;
    return false;
}

/* An RS line that is refused with 6 or 7. */
static void count_rs(enum refusal refusal, struct text line, bool free_form)
{
    struct fields fields;
    struct text word = { NULL, 0 }, steps = word, start = word;
    int64_t number, ignored;

    if (!split_fields(line, free_form, &fields))
        fields.count = FIELD_LIMIT;
    if (fields.count > 0)
        steps = fields.at[0];
    if (fields.count > 1)
        word = fields.at[1];
    if (fields.count > 2)
        start = fields.at[2];

    bool right_word = is_text(word, "STOR", 4);

    if (refusal == MALFORMED) {
        count_fault(!read_number(steps, 0, &number), RS_STEPS_6);
        count_fault(!read_number(start, 0, &ignored), RS_START_6);
        count_fault(fields.count > 3, RS_UNNAMED_6);
        count_fault(!right_word, RS_BESIDE_7);
        return;
    }
    read_number(steps, 0, &number);
    read_number(start, 0, &ignored);
    count_fault(steps.length > 0 && number != 1, RS_STEPS_7);
    count_fault(steps.length == 0, RS_STEPS_BLANK);
    count_fault(ignored != 0, RS_START_7);
    if (right_word)
        return;
    count_fault(word.length == 0, RS_WORD_BLANK);
    count_fault(holds_byte(word, 'a', 'z'), RS_WORD_SMALL);
    count_fault(holds_byte(word, ' ', ' '), RS_WORD_SPLIT);
    count_fault(word.length > 8, RS_WORD_LONG);
    count_fault(word.length > 0 && !holds_byte(word, 'a', 'z')
                && !holds_byte(word, ' ', ' '), RS_WORD_OTHER);
}

static void count_line_fault(const struct met *met, bool free_form)
{
    enum refusal r = met->refusal;

    if (met->record == REC_RS && (r == MALFORMED || r == OUT_OF_LIMITS))
        count_rs(r, met->text, free_form);
    count_fault(met->record == REC_SV && r == MALFORMED, SV_6);
    count_fault(met->record == REC_SV && r == OUT_OF_LIMITS, SV_7);
    count_fault(met->record == REC_SV && r == TOO_MANY_VALUES, SV_8);
    count_fault(met->record == REC_SQ && r == MALFORMED, SQ_6);
    count_fault(met->record == REC_SQ && r == OUT_OF_LIMITS, SQ_7);
    count_fault(met->record == REC_SQ && r == TOO_MANY_VALUES, SQ_8);
}

/* Sets that are 9: what there is of the pond's records, and what beside all of
 * them. */
static struct {
    enum record records[3];
    struct tally decks;
} parts[] = {
    { { REC_RS }, { "9: RS alone", 0 } },
    { { REC_RS, REC_SV }, { "9: RS and SV", 0 } },
    { { REC_RS, REC_SQ }, { "9: RS and SQ", 0 } },
    { { REC_SV }, { "9: SV alone", 0 } },
    { { REC_SQ }, { "9: SQ alone", 0 } },
    { { REC_SV, REC_SQ }, { "9: SV and SQ", 0 } }
}, others[] = {
    { { REC_BA }, { "9: all three and BA", 0 } },
    { { REC_PB }, { "9: all three and PB", 0 } },
    { { REC_PI }, { "9: all three and PI", 0 } },
    { { REC_LU }, { "9: all three and LU", 0 } },
    { { REC_UI }, { "9: all three and UI", 0 } },
    { { REC_QI }, { "9: all three and QI", 0 } },
    { { REC_HC }, { "9: all three and HC", 0 } },
    { { REC_RM }, { "9: all three and RM", 0 } }
};

enum {
    PARTS = sizeof parts / sizeof *parts,
    OTHERS = sizeof others / sizeof *others
};

static unsigned bits_of(const enum record *records)
{
    unsigned bits = 0;

    for (unsigned k = 0; k < 3 && records[k] != REC_UNKNOWN; k++)
        bits |= bit(records[k]);
    return bits;
}

static void count_sets(unsigned seen)
{
    unsigned all = bit(REC_RS) | bit(REC_SV) | bit(REC_SQ);

    for (unsigned k = 0; k < PARTS; k++)
        count_if(seen == bits_of(parts[k].records), &parts[k].decks);
    for (unsigned k = 0; k < OTHERS; k++)
        count_if(seen == (all | bits_of(others[k].records)),
                 &others[k].decks);
}

enum block_fault {
    NONE_HELD,
    NONE_HELD_BROKEN,
    INFLOW_OVER,
    ALL_19,
    NO_PAIR,
    ONE_PAIR,
    MORE_STORAGE,
    MORE_OUTFLOW,
    FIRST_STORAGE,
    FIRST_OUTFLOW,
    SAME_STORAGE,
    FALLING_STORAGE,
    FALLING_OUTFLOW,
    WORTH_LESS,
    WORTH_LEAST,
    LAST_ROW_ALONE,
    BESIDE_14_19,
    BESIDE_15_19,
    ALL_20,
    BY_UNITS,
    BY_LEAST,
    SECOND_INTERVAL,
    LAST_INTERVAL,
    FIRST_RATIO_NOT,
    LAST_RATIO_NOT,
    ONE_RATIO_ALONE,
    OTHER_ACCEPTED,
    OTHER_13,
    OTHER_14,
    OTHER_15,
    BESIDE_14_20,
    BESIDE_15_20,
    BLOCK_FAULTS
};

static struct tally block_faults[BLOCK_FAULTS] = {
    [NONE_HELD].what = "10: a pond, and nothing held",
    [NONE_HELD_BROKEN].what = "10: the same, and its table breaks a rule",
    [INFLOW_OVER].what = "13: the block that a pond would take",
    [ALL_19].what = "19: all",
    [NO_PAIR].what = "19: no values at all",
    [ONE_PAIR].what = "19: one pair",
    [MORE_STORAGE].what = "19: more SV than SQ",
    [MORE_OUTFLOW].what = "19: more SQ than SV",
    [FIRST_STORAGE].what = "19: the first SV alone",
    [FIRST_OUTFLOW].what = "19: the first SQ alone",
    [SAME_STORAGE].what = "19: equal SV alone",
    [FALLING_STORAGE].what = "19: falling SV alone",
    [FALLING_OUTFLOW].what = "19: falling SQ alone",
    [WORTH_LESS].what = "19: 1,452 V under M Q alone",
    [WORTH_LEAST].what = "19: the same, by the least there is",
    [LAST_ROW_ALONE].what = "19: a rule of rows broken in the last one alone",
    [BESIDE_14_19].what = "19: 14 would be met at that line",
    [BESIDE_15_19].what = "19: 15 would be met at that line",
    [ALL_20].what = "20: all",
    [BY_UNITS].what = "20: by M or 2 M, the least that flows can make",
    [BY_LEAST].what = "20: by the least that rows can make",
    [SECOND_INTERVAL].what = "20: in the second interval",
    [LAST_INTERVAL].what = "20: in the last of three intervals or more, and in no other",
    [FIRST_RATIO_NOT].what = "20: the first ratio alone is not refused there",
    [LAST_RATIO_NOT].what = "20: the last ratio alone is not refused there",
    [ONE_RATIO_ALONE].what = "20: one of several ratios alone is",
    [OTHER_ACCEPTED].what = "20: another ratio alone is accepted",
    [OTHER_13].what = "20: another ratio alone meets 13 at another line",
    [OTHER_14].what = "20: another ratio alone meets 14 at that line",
    [OTHER_15].what = "20: another ratio alone meets 15 at that line",
    [BESIDE_14_20].what = "20: 14 would be met at that line",
    [BESIDE_15_20].what = "20: 15 would be met at that line"
};

static void count_block_fault(bool holds, enum block_fault fault)
{
    count_if(holds, &block_faults[fault]);
}

static uint32_t common(uint32_t a, uint32_t b)
{
    while (b != 0) {
        uint32_t rest = a % b;
        a = b;
        b = rest;
    }
    return a;
}

/* Which rule of rows a table of equal counts breaks, each where no other is. */
static void count_broken(const struct pond_cards *cards, uint32_t minutes)
{
    const uint32_t *storage = cards->storage;
    const uint32_t *outflow = cards->outflow;
    unsigned same = 0, down = 0, less_out = 0, less = 0, last = 0;
    uint64_t lack = 0;

    for (unsigned k = 1; k < cards->storages; k++) {
        uint64_t worth = (uint64_t)WATER_PER_STORAGE * storage[k];
        uint64_t flow = (uint64_t)minutes * outflow[k];
        unsigned before = same + down + less_out + less;

        same += storage[k] == storage[k - 1];
        down += storage[k] < storage[k - 1];
        less_out += outflow[k] < outflow[k - 1];
        less += worth < flow;
        if (worth < flow)
            lack = flow - worth;
        if (before == 0 && same + down + less_out + less > 0)
            last = k;
    }

    bool rows = same + down + less_out + less > 0;
    bool first = storage[0] != 0 || outflow[0] != 0;

    count_block_fault(storage[0] != 0 && outflow[0] == 0 && !rows,
                      FIRST_STORAGE);
    count_block_fault(outflow[0] != 0 && storage[0] == 0 && !rows,
                      FIRST_OUTFLOW);
    if (first)
        return;
    count_block_fault(same > 0 && down + less_out + less == 0, SAME_STORAGE);
    count_block_fault(down > 0 && same + less_out + less == 0,
                      FALLING_STORAGE);
    count_block_fault(less_out > 0 && same + down + less == 0,
                      FALLING_OUTFLOW);
    count_block_fault(less > 0 && same + down + less_out == 0, WORTH_LESS);
    count_block_fault(less == 1 && same + down + less_out == 0
                      && lack == common(WATER_PER_STORAGE, minutes),
                      WORTH_LEAST);
    count_block_fault(last + 1 == cards->storages, LAST_ROW_ALONE);
}

static void count_19(const struct run *run)
{
    struct pond_cards cards = cards_of(&run->block);

    count_block_fault(true, ALL_19);
    count_block_fault(cards.storages == 0 && cards.outflows == 0, NO_PAIR);
    count_block_fault(cards.storages == 1 && cards.outflows == 1, ONE_PAIR);
    count_block_fault(cards.storages > cards.outflows, MORE_STORAGE);
    count_block_fault(cards.storages < cards.outflows, MORE_OUTFLOW);
    if (cards.storages == cards.outflows && cards.storages > 1)
        count_broken(&cards, run->minutes);
}

/* met: of each ratio alone. */
static void count_20(const struct met *met, const struct run *run,
                     unsigned line)
{
    unsigned count = run->ratios.count, here = 0;
    bool accepted = false, with_13 = false, with_14 = false, with_15 = false;
    bool units = false, least = false, second = false, at_end = false;
    uint64_t step = (uint64_t)UNITS_PER_HUNDREDTH
                  * common(WATER_PER_STORAGE, run->minutes);

    for (unsigned k = 0; k < count; k++) {
        bool met_here = met[k].refusal == OVER_TABLE && met[k].line == line;

        here += met_here;
        accepted = accepted || met[k].refusal == ACCEPTED;
        with_13 = with_13 || met[k].refusal == FLOW_OVER_LIMIT;
        with_14 = with_14 || (met[k].refusal == TOO_MANY_BLOCKS
                              && met[k].line == line);
        with_15 = with_15 || (met[k].refusal == NOT_ONE_HELD
                              && met[k].line == line);
        if (!met_here)
            continue;
        units = units || met[k].over.by <= 2 * run->minutes;
        least = least || met[k].over.by == step;
        second = second || met[k].over.interval == 1;
        at_end = at_end || (met[k].over.interval > 1
                            && met[k].over.interval + 1 == run->nq);
    }
    count_block_fault(true, ALL_20);
    count_block_fault(units, BY_UNITS);
    count_block_fault(least, BY_LEAST);
    count_block_fault(second, SECOND_INTERVAL);
    count_block_fault(at_end, LAST_INTERVAL);
    count_block_fault(met[0].line != line, FIRST_RATIO_NOT);
    count_block_fault(met[count - 1].line != line, LAST_RATIO_NOT);
    count_block_fault(count > 1 && here == 1, ONE_RATIO_ALONE);
    count_block_fault(accepted, OTHER_ACCEPTED);
    count_block_fault(with_13, OTHER_13);
    count_block_fault(with_14, OTHER_14);
    count_block_fault(with_15, OTHER_15);
}

/* What the deck would be refused for at that line under another rule. */
static enum refusal refused_by(const uint8_t *deck, size_t length,
                               const struct room *room, unsigned line,
                               const struct pond_rule *other)
{
    struct answer answer;

    rule = other;
    answer = run_deck(deck, length, (struct named){ 0, 0 }, room);
    rule = &right_rule;
    return answer.line == line ? (enum refusal)answer.refusal : ACCEPTED;
}

/* Whether the block that a line begins has an RS. */
static bool begins_pond(const uint8_t *deck, size_t length, unsigned line)
{
    struct reader reader = { deck, deck + length, 0 };
    struct text text;

    while (next_line(&reader, &text) == LINE_READ) {
        if (reader.line <= line || text.length == 0)
            continue;
        enum record record = identify(text);
        if (record == REC_KK || record == REC_ZZ)
            return false;
        if (record == REC_RS)
            return true;
    }
    return false;
}

static void look_at_refused(const uint8_t *deck, size_t length,
                            const struct answer *answer,
                            const struct room *room)
{
    static const struct pond_rule no_19 = { .unasked = true };
    static const struct pond_rule no_20 = { .runs_over = true };
    static struct run run;
    struct met met[RATIO_LIMIT];
    struct ratios ratios = { false, 1, { WHOLE_RATIO } };
    struct run at_line = { 0 };

    for (unsigned k = 0; k < ratios.count; k++) {
        start_pass(&run, room, k);
        met[k] = take_alone(deck, length, &run, false);
        if (k == 0)
            ratios = run.ratios;
        if (met[k].line == answer->line
            && met[k].refusal == (enum refusal)answer->refusal)
            at_line = run;
    }

    const struct block *block = &at_line.block;
    struct pond_cards cards = cards_of(block);
    struct pond pond;
    bool is_pond = kind_of(block->seen) == KIND_POND;

    switch ((enum refusal)answer->refusal) {
    case OUT_OF_PLACE:
        count_fault(met[0].record == REC_RS && at_line.phase == IN_BLOCK
                    && (block->seen & bit(REC_RS)), SECOND_RS);
        break;
    case MALFORMED:
    case OUT_OF_LIMITS:
    case TOO_MANY_VALUES:
        count_line_fault(&met[0], at_line.free_form);
        break;
    case NO_SET:
        count_sets(block->seen);
        break;
    case TOO_FEW_HELD:
        count_block_fault(is_pond, NONE_HELD);
        if (is_pond && !make_right_pond(&cards, at_line.minutes, &pond)) {
            count_block_fault(true, NONE_HELD_BROKEN);
            count_if(true, &before_10);
        }
        break;
    case FLOW_OVER_LIMIT:
        count_block_fault(begins_pond(deck, length, answer->line),
                          INFLOW_OVER);
        break;
    case BAD_TABLE: {
        enum refusal beside = refused_by(deck, length, room, answer->line,
                                         &no_19);
        count_19(&at_line);
        count_block_fault(beside == TOO_MANY_BLOCKS, BESIDE_14_19);
        count_block_fault(beside == NOT_ONE_HELD, BESIDE_15_19);
        count_if(beside == TOO_MANY_BLOCKS || beside == NOT_ONE_HELD,
                 &by_number);
        break;
    }
    case OVER_TABLE: {
        enum refusal beside = refused_by(deck, length, room, answer->line,
                                         &no_20);
        count_20(met, &at_line, answer->line);
        count_block_fault(beside == TOO_MANY_BLOCKS, BESIDE_14_20);
        count_block_fault(beside == NOT_ONE_HELD, BESIDE_15_20);
        count_if(beside == TOO_MANY_BLOCKS || beside == NOT_ONE_HELD,
                 &by_number);
        break;
    }
    default:
        break;
    }
}

/* ---- The bundle ------------------------------------------------------- */

/* Whether a line begins with the identifier of a pond's record. */
static bool speaks_of_ponds(const uint8_t *deck, size_t length)
{
    for (size_t k = 0; k + 1 < length; k++)
        if ((k == 0 || deck[k - 1] == '\n')
            && ((deck[k] == 'R' && deck[k + 1] == 'S')
                || (deck[k] == 'S' && (deck[k + 1] == 'V'
                                       || deck[k + 1] == 'Q'))))
            return true;
    return false;
}

static bool same_answer(const struct answer *a, const struct answer *b)
{
    return a->refusal == b->refusal && a->line == b->line && a->nq == b->nq
        && a->blocks == b->blocks;
}

static bool has_area(const struct answer *answer, const uint8_t *record)
{
    for (unsigned k = 0; k < answer->blocks; k++, record += RECORD_BYTES)
        if (record[RECORD_KIND] == KIND_POND
            && memcmp(record + RECORD_AREA, "\0\0\0\0", 4) != 0)
            return true;
    return false;
}

static unsigned long all_decks, accepted_decks, decks_with_ponds;

static void look_at_deck(const uint8_t *deck, size_t length,
                         const struct room *room)
{
    static uint8_t records[BLOCK_LIMIT * RATIO_LIMIT * RECORD_BYTES];
    static struct run run;
    const struct named last = { 0, 0 };
    struct answer right = run_deck(deck, length, last, room);
    unsigned long ponds = edges[ALL_PONDS].count;

    accepted_decks += right.refusal == ACCEPTED;
    if (!speaks_of_ponds(deck, length))
        return;
    memcpy(records, room->records, room->record_bytes);
    for (unsigned k = 0; k < WRONG_RULES; k++) {
        rule = &wrong_rules[k].rule;
        struct answer wrong = run_deck(deck, length, last, room);
        rule = &right_rule;
        count_if(!same_answer(&right, &wrong)
                 || memcmp(records, room->records, room->record_bytes) != 0,
                 &wrong_rules[k].decks);
    }
    if (right.refusal != ACCEPTED) {
        look_at_refused(deck, length, &right, room);
        return;
    }
    count_if(has_area(&right, records), &area_lost);
    for (unsigned k = 0; k < right.ratios.count; k++) {
        start_pass(&run, room, k);
        take_alone(deck, length, &run, true);
    }
    decks_with_ponds += edges[ALL_PONDS].count > ponds;
}

/* Prints a count and returns whether it is 0. */
static unsigned print_count(const struct tally *tally)
{
    printf("%8lu  %s%s\n", tally->count, tally->what,
           tally->count == 0 ? ": MISSING" : "");
    return tally->count == 0;
}

static unsigned print_counts(const struct tally *tallies, unsigned count)
{
    unsigned missing = 0;

    for (unsigned k = 0; k < count; k++)
        missing += print_count(&tallies[k]);
    return missing;
}

static unsigned print_all(void)
{
    unsigned missing = 0;

    puts("   decks");
    printf("%8lu  all\n%8lu  accepted\n%8lu  accepted, with a pond\n",
           all_decks, accepted_decks, decks_with_ponds);
    puts("   ponds  of accepted decks");
    missing += print_counts(edges, EDGES);
    puts("   decks  that a wrong rule would answer otherwise");
    for (unsigned k = 0; k < WRONG_RULES; k++)
        missing += print_count(&wrong_rules[k].decks);
    missing += print_count(&area_lost);
    missing += print_count(&before_10);
    missing += print_count(&by_number);
    puts("   decks  refused at a line of a pond, or where a block with one ends");
    missing += print_counts(line_faults, LINE_FAULTS);
    for (unsigned k = 0; k < PARTS; k++)
        missing += print_count(&parts[k].decks);
    for (unsigned k = 0; k < OTHERS; k++)
        missing += print_count(&others[k].decks);
    missing += print_counts(block_faults, BLOCK_FAULTS);
    return missing;
}

int main(void)
{
    static uint8_t deck[DECK_LIMIT];
    static uint64_t work[WORK_WORDS];
    static uint64_t ordinates[ORDINATE_LIMIT];
    static uint8_t records[BLOCK_LIMIT * RATIO_LIMIT * RECORD_BYTES];
    const struct room room = {
        work, WORK_WORDS, ordinates, ORDINATE_LIMIT, records, sizeof records
    };
    size_t length;

    while (next_deck("ponds", deck, &length)) {
        all_decks++;
        if (length <= DECK_LIMIT)
            look_at_deck(deck, length, &room);
    }
    return print_all() > 0;
}
