/* The hydrograph engine; see engine.h.  The first part holds the water
 * (document 01, 'Water, in whole units'; document 02, CR 1, for rain that
 * comes as a total and a pattern, CR 2 for the losses and CR 3 for ratios of
 * the rain; ponds, CR 6, have a file of their own), the second reads records
 * (whose limits have a file of their own too), the third the blocks, the passes over the deck and the order of
 * the refusals ('What comes back'; CR 4 for the record that says its ratio).
 * Functions that can refuse return the refusal's number, 0 if none. */
#include "engine.h"

#include "cards.h"
#include "pond.h"
#include "records.h"

#include <stdbool.h>
#include <string.h>

enum refusal {
    ACCEPTED = 0,
    SHORT_WORK = 1,
    LONG_DECK = 2,
    BAD_LINE = 3,
    UNKNOWN_RECORD = 4,
    OUT_OF_PLACE = 5,
    MALFORMED = 6,
    OUT_OF_LIMITS = 7,
    TOO_MANY_VALUES = 8,
    NO_SET = 9,
    TOO_FEW_HELD = 10,
    TOO_MANY_HELD = 11,
    BAD_ROUTING = 12,
    FLOW_OVER_LIMIT = 13,
    TOO_MANY_BLOCKS = 14,
    NOT_ONE_HELD = 15,
    NO_END = 16,
    SHORT_RESULT_ROOM = 17,
    NO_PATTERN = 18,
    BAD_TABLE = 19,
    OVER_TABLE = 20
};

enum {
    UNIT_GRAPH_LIMIT = 150,             /* UI values in a block */
    DEPTH_PER_TEN_THOUSANDTH = 60,      /* depth units */
    FLOW_PER_HUNDREDTH = 600000         /* flow units */
};

static const uint64_t FLOW_LIMIT = 6000000000000;

/* ---- Water ------------------------------------------------------------ */

/* Values of a list as counted on the cards: ten-thousandths for PI, hundredths
 * for UI, QI, SV and SQ. */
struct list {
    unsigned count;
    uint32_t value[ORDINATE_LIMIT];
};

/* A storm's total, in ten-thousandths, where the block has one. */
struct storm {
    bool given;
    uint32_t total;
};

/* Card values: losses in ten-thousandths. */
struct loss {
    uint32_t initial;
    uint32_t uniform;
};

/* Card values: K and X in hundredths. */
struct routing {
    uint32_t steps;
    uint32_t k;
    uint32_t x;
};

/* The values of a pattern added up: at most 300 of 200,000. */
static uint32_t total_of(const struct list *list)
{
    uint32_t total = 0;

    for (unsigned i = 0; i < list->count; i++)
        total += list->value[i];
    return total;
}

/* Makes of depths so many times as much, divided by a number.  Running totals
 * are cut, not single depths, so what one interval loses by rounding down a
 * later one gets.  rain may be the depths themselves.  No product passes 6e7
 * units times 6e7 for a total, nor 999 times 3.6e9 for a ratio, which fits. */
static void cut_rain(const uint32_t *depth, unsigned count, uint64_t times,
                     uint64_t by, uint32_t *rain)
{
    uint64_t running = 0;
    uint64_t fallen = 0;

    for (unsigned i = 0; i < count; i++) {
        running += depth[i];
        uint64_t due = times * running / by;
        rain[i] = (uint32_t)(due - fallen);
        fallen = due;
    }
}

/* Rain of each interval of the list, in depth units.  A total is cut in the
 * shares of the pattern, and the last interval makes it whole.  A total of 0
 * is no rain and asks nothing of its pattern, which may be all zero. */
static void find_rain(const struct list *cards, const struct storm *storm,
                      uint32_t *rain)
{
    if (!storm->given)
        for (unsigned i = 0; i < cards->count; i++)
            rain[i] = cards->value[i] * DEPTH_PER_TEN_THOUSANDTH;
    else if (storm->total > 0)
        cut_rain(cards->value, cards->count,
                 (uint64_t)storm->total * DEPTH_PER_TEN_THOUSANDTH,
                 total_of(cards), rain);
    else
        memset(rain, 0, cards->count * sizeof *rain);
}

/* Turns the rain into that of a ratio.  32 bits do for an interval: it is at
 * most 9.99 times 6e7 units, and one more where earlier ones were cut. */
static void take_ratio(uint32_t *rain, unsigned count, uint32_t ratio)
{
    if (ratio != WHOLE_RATIO)
        cut_rain(rain, count, ratio, WHOLE_RATIO, rain);
}

static uint32_t least(uint32_t a, uint32_t b)
{
    return a < b ? a : b;
}

/* Takes the loss off the rain of each interval: what stays is the excess.
 * The initial loss is a depth to be filled, and what is unfilled of it takes
 * its part first.  The uniform loss comes off the rest and is that of a whole
 * interval, however late in the interval the filling ends.  32 bits do: it is
 * at most 200,000 * 1,440 units, the initial loss 200,000 * 60. */
static void take_loss(uint32_t *rain, unsigned count, const struct loss *loss,
                      uint32_t minutes)
{
    uint32_t unfilled = loss->initial * DEPTH_PER_TEN_THOUSANDTH;
    uint32_t uniform = loss->uniform * minutes;

    for (unsigned i = 0; i < count; i++) {
        uint32_t filling = least(unfilled, rain[i]);
        uint32_t rest = rain[i] - filling;

        unfilled -= filling;
        rain[i] = rest - least(uniform, rest);
    }
}

/* Each interval's excess starts a unit graph of its own in that interval.
 * The sums stay below 1e18: 150 values of 1e7 times 6e8 units. */
static void run_off(const uint32_t *excess, unsigned excess_count,
                    const struct list *unit_graph, uint64_t *flow, unsigned nq)
{
    memset(flow, 0, nq * sizeof *flow);
    for (unsigned i = 0; i < excess_count; i++) {
        uint64_t depth = excess[i];
        unsigned count = nq - i;

        if (depth == 0)
            continue;
        if (count > unit_graph->count)
            count = unit_graph->count;
        for (unsigned j = 0; j < count; j++)
            flow[i + j] += unit_graph->value[j] * depth;
    }
}

static void flow_in(const struct list *cards, uint64_t *flow, unsigned nq)
{
    for (unsigned i = 0; i < cards->count; i++)
        flow[i] = (uint64_t)cards->value[i] * FLOW_PER_HUNDREDTH;
    memset(flow + cards->count, 0, (nq - cards->count) * sizeof *flow);
}

/* Adds the hydrographs in the places behind the first one to it. */
static void join(uint64_t *flow, unsigned hydrographs, unsigned nq)
{
    for (unsigned h = 1; h < hydrographs; h++) {
        const uint64_t *other = flow + h * ORDINATE_LIMIT;
        for (unsigned i = 0; i < nq; i++)
            flow[i] += other[i];
    }
}

/* Muskingum in place.  The weights add up to D, so no outflow passes the
 * greatest inflow, and since D is at most 2 * 720,000 no numerator passes
 * 1,440,000 * 6e12 + D, which fits 64 bits. */
static enum refusal route(const struct routing *card, uint32_t minutes,
                          uint64_t *flow, unsigned nq)
{
    uint64_t a = (uint64_t)250 * card->steps * minutes;
    uint64_t b = (uint64_t)3 * card->k * card->x;
    uint64_t c = (uint64_t)3 * card->k * (100 - card->x);
    uint64_t d = a + c;

    if (b > a || a > c)
        return BAD_ROUTING;
    for (uint32_t step = 0; step < card->steps; step++) {
        uint64_t inflow = flow[0];
        uint64_t outflow = inflow;
        uint64_t remainder = 0;
        for (unsigned i = 1; i < nq; i++) {
            uint64_t next = flow[i];
            uint64_t sum = (a + b) * inflow + (a - b) * next
                         + (c - a) * outflow + remainder;
            outflow = sum / d;
            remainder = sum % d;
            inflow = next;
            flow[i] = outflow;
        }
    }
    return ACCEPTED;
}

/* A pond in place. */
static enum refusal fill_pond(const struct list *storage,
                              const struct list *outflow, uint32_t minutes,
                              uint64_t *flow, unsigned nq)
{
    const struct pond_cards cards = {
        storage->count, outflow->count, storage->value, outflow->value
    };
    struct pond pond;

    if (!make_pond(&cards, minutes, &pond))
        return BAD_TABLE;
    if (!route_pond(&pond, flow, nq))
        return OVER_TABLE;
    return ACCEPTED;
}

struct summary {
    uint64_t peak;
    uint64_t sum;
    unsigned interval;
};

/* Peak, its interval and sum.  Only flows within the limit are added up, so
 * the sum fits whatever a block may come to before. */
static enum refusal summarise(const uint64_t *flow, unsigned nq,
                              struct summary *summary)
{
    struct summary s = { flow[0], 0, 1 };

    for (unsigned i = 1; i < nq; i++) {
        if (flow[i] > s.peak) {
            s.peak = flow[i];
            s.interval = i + 1;
        }
    }
    if (s.peak > FLOW_LIMIT)
        return FLOW_OVER_LIMIT;
    for (unsigned i = 0; i < nq; i++)
        s.sum += flow[i];
    *summary = s;
    return ACCEPTED;
}

/* ---- Reading the records ---------------------------------------------- */

/* All fields are read before any is held against its limits, because a
 * malformed field anywhere on the line is answered first. */
static enum refusal read_form(struct text line, bool free_form,
                              const struct form *form, uint32_t *values)
{
    struct fields fields;
    int64_t number[NAMED_FIELD_LIMIT] = { 0 };

    if (!split_fields(line, free_form, &fields) || fields.count > form->fields)
        return MALFORMED;
    for (unsigned k = 0; k < fields.count; k++) {
        const struct rule *rule = &form->rule[k];
        if (rule->holds == A_NUMBER
            && !read_number(fields.at[k], rule->places, &number[k]))
            return MALFORMED;
    }
    for (unsigned k = 0; k < form->fields; k++) {
        if (!within(number[k], &form->rule[k]))
            return OUT_OF_LIMITS;
        values[k] = (uint32_t)number[k];
    }
    return ACCEPTED;
}

/* Puts the values of one more line behind those that the list has. */
static enum refusal read_list(struct text line, bool free_form,
                              const struct form *form, unsigned limit,
                              struct list *list)
{
    const struct rule *rule = &form->rule[0];
    struct fields fields;
    int64_t number[FIELD_LIMIT];

    if (!split_fields(line, free_form, &fields))
        return MALFORMED;
    for (unsigned k = 0; k < fields.count; k++)
        if (!read_number(fields.at[k], rule->places, &number[k]))
            return MALFORMED;
    for (unsigned k = 0; k < fields.count; k++)
        if (!within(number[k], rule))
            return OUT_OF_LIMITS;
    if (fields.count > limit - list->count)
        return TOO_MANY_VALUES;
    for (unsigned k = 0; k < fields.count; k++)
        list->value[list->count++] = (uint32_t)number[k];
    return ACCEPTED;
}

/* JR: a word, and behind it a list of its own.  Every ratio is a field of this
 * one line, so there are never too many. */
static enum refusal read_ratios(struct text line, bool free_form,
                                struct ratios *ratios)
{
    const struct rule *word = &JR_FORM.rule[0], *ratio = &JR_FORM.rule[1];
    struct fields fields;
    int64_t number[FIELD_LIMIT];

    if (!split_fields(line, free_form, &fields) || fields.count == 0
        || !is_word(fields.at[0], word))
        return MALFORMED;
    for (unsigned k = 1; k < fields.count; k++)
        if (!read_number(fields.at[k], ratio->places, &number[k]))
            return MALFORMED;
    if (fields.count == 1)
        return OUT_OF_LIMITS;
    for (unsigned k = 1; k < fields.count; k++)
        if (!within(number[k], ratio))
            return OUT_OF_LIMITS;
    ratios->given = true;
    ratios->count = fields.count - 1;
    for (unsigned k = 1; k < fields.count; k++)
        ratios->value[k - 1] = (uint32_t)number[k];
    return ACCEPTED;
}

/* RS: a word between two numbers, all of which can only be what they are, so
 * that nothing is kept of them.  The word has no form of its own: whatever
 * stands in its field is either the word or outside the limits. */
static enum refusal read_pond(struct text line, bool free_form)
{
    const struct rule *rule = RS_FORM.rule;
    struct fields fields;
    int64_t steps = 0, start = 0;

    if (!split_fields(line, free_form, &fields)
        || fields.count > RS_FORM.fields)
        return MALFORMED;
    if (fields.count > 0 && !read_number(fields.at[0], rule[0].places, &steps))
        return MALFORMED;
    if (fields.count > 2 && !read_number(fields.at[2], rule[2].places, &start))
        return MALFORMED;
    if (!within(steps, &rule[0]) || !within(start, &rule[2])
        || fields.count < 2 || !is_word(fields.at[1], &rule[1]))
        return OUT_OF_LIMITS;
    return ACCEPTED;
}

/* ---- Blocks and the run ----------------------------------------------- */

enum kind {
    KIND_NONE = 0,
    KIND_RUNOFF = 1,
    KIND_INFLOW = 2,
    KIND_CONFLUENCE = 3,
    KIND_ROUTING = 4,
    KIND_POND = 5
};

/* What the open block's records have said so far. */
struct block {
    unsigned seen;              /* one bit for each record met */
    struct text name;
    unsigned line;              /* of its KK */
    uint32_t area;              /* hundredths of a square mile */
    uint32_t combine;
    struct storm storm;
    struct loss loss;
    struct routing routing;
    struct list rain;
    struct list unit_graph;
    struct list inflow;
    struct list storage;
    struct list outflow;
};

enum phase {
    BEFORE_IT,
    BEFORE_KK,
    BEHIND_JR,
    IN_BLOCK,
    ENDED
};

/* The deck is read once for each ratio: the work words hold no more than the
 * hydrographs of one.  The members before free_form outlast a pass. */
struct run {
    const struct room *room;
    struct named named;
    const struct viewer *viewer;    /* NULL: nobody looks on */
    struct ratios ratios;
    unsigned place;             /* the pass's ratio, from 0 */
    size_t first_record;        /* of the pass, from 0 */
    bool free_form;
    unsigned line;              /* that is being read */
    enum phase phase;
    uint32_t minutes;
    unsigned nq;
    unsigned blocks;            /* KK lines met */
    unsigned held;
    uint32_t area[HELD_LIMIT];  /* of each held hydrograph */
    struct block block;
};

static unsigned bit(enum record record)
{
    return 1u << record;
}

/* The arrays of values need no clearing, only their counts. */
static void open_block(struct block *block, struct text name, unsigned line)
{
    block->seen = 0;
    block->name = name;
    block->line = line;
    block->area = 0;
    block->storm = (struct storm){ false, 0 };
    block->rain.count = 0;
    block->unit_graph.count = 0;
    block->inflow.count = 0;
    block->storage.count = 0;
    block->outflow.count = 0;
}

static enum kind kind_of(unsigned seen)
{
    if ((seen & ~bit(REC_PB))
        == (bit(REC_BA) | bit(REC_PI) | bit(REC_LU) | bit(REC_UI)))
        return KIND_RUNOFF;
    if ((seen & ~bit(REC_BA)) == bit(REC_QI))
        return KIND_INFLOW;
    if (seen == bit(REC_HC))
        return KIND_CONFLUENCE;
    if (seen == bit(REC_RM))
        return KIND_ROUTING;
    if (seen == (bit(REC_RS) | bit(REC_SV) | bit(REC_SQ)))
        return KIND_POND;
    return KIND_NONE;
}

static void put_number(uint8_t *at, uint64_t number, unsigned bytes)
{
    for (unsigned k = 0; k < bytes; k++, number >>= 8)
        at[k] = (uint8_t)number;
}

/* The record of the open block, under the pass's ratio. */
static void write_record(uint8_t *record, const struct run *run,
                         enum kind kind, uint32_t area,
                         const struct summary *summary)
{
    struct text name = run->block.name;

    memset(record, 0, RECORD_BYTES);
    memset(record + RECORD_NAME, ' ', NAME_LIMIT);
    memcpy(record + RECORD_NAME, name.at, name.length);
    record[RECORD_KIND] = (uint8_t)kind;
    put_number(record + RECORD_AREA, area, 4);
    put_number(record + RECORD_PEAK, summary->peak, 8);
    put_number(record + RECORD_INTERVAL, summary->interval, 2);
    put_number(record + RECORD_SUM, summary->sum, 8);
    put_number(record + RECORD_RATIO, run->ratios.value[run->place], 2);
    put_number(record + RECORD_PLACE, run->place + 1, 2);
}

/* The ordinates of the named block, where the pass is the named ratio's. */
static void hand_out_ordinates(const struct run *run, const uint64_t *flow)
{
    uint64_t ratio = run->named.ratio;

    if (ratio == 0)
        ratio = run->ratios.count;
    if (ratio == run->place + 1 && run->room->ordinate_words >= run->nq)
        memcpy(run->room->ordinates, flow, run->nq * sizeof *flow);
}

/* Hands out what the caller asked about the block just worked.  Room that is
 * too small is passed over here: a later line may still be refused, and that
 * is answered first. */
static void hand_out(struct run *run, enum kind kind, uint32_t area,
                     const uint64_t *flow, const struct summary *summary)
{
    const struct room *room = run->room;
    size_t records = run->first_record + run->blocks;

    if (room->record_bytes / RECORD_BYTES >= records)
        write_record(room->records + (records - 1) * RECORD_BYTES, run, kind,
                     area, summary);
    if (run->named.block == run->blocks)
        hand_out_ordinates(run, flow);
}

/* Shows the block just worked, whose hydrograph is the last held. */
static void show(const struct run *run, enum kind kind, unsigned taken,
                 const uint64_t *flow)
{
    const struct block *block = &run->block;
    unsigned place = run->held - 1;
    const struct worked worked = {
        block->name.at, block->name.length, kind, block->line, taken, place,
        run->area[place], run->minutes, run->nq, flow
    };

    if (run->viewer != NULL)
        run->viewer->view(run->viewer->keeper, &worked);
}

/* Area of the hydrograph that a block leaves in a place.  Confluence, routing
 * and pond find the areas that they take there and behind it. */
static uint32_t area_left(const struct run *run, enum kind kind,
                          unsigned place, unsigned taken)
{
    uint32_t area = 0;

    if (kind == KIND_RUNOFF || kind == KIND_INFLOW)
        return run->block.area;
    for (unsigned h = 0; h < taken; h++)
        area += run->area[place + h];
    return area;
}

/* Works the open block.  Its hydrograph goes to the place of the first one
 * that it takes, or behind all held if it takes none. */
static enum refusal close_block(struct run *run)
{
    const struct block *block = &run->block;
    enum kind kind = kind_of(block->seen);
    unsigned taken = 0;
    struct summary summary;
    enum refusal refusal = ACCEPTED;
    uint32_t rain[ORDINATE_LIMIT];

    if (kind == KIND_NONE)
        return NO_SET;
    /* Only a block of kind 1 has a total here: with any other set it is 9. */
    if (block->storm.total > 0 && total_of(&block->rain) == 0)
        return NO_PATTERN;
    if (kind == KIND_CONFLUENCE)
        taken = block->combine;
    else if (kind == KIND_ROUTING || kind == KIND_POND)
        taken = 1;
    if (taken > run->held)
        return TOO_FEW_HELD;

    unsigned place = run->held - taken;
    if (place == HELD_LIMIT)
        return TOO_MANY_HELD;

    uint64_t *flow = run->room->work + (size_t)place * ORDINATE_LIMIT;
    switch (kind) {
    case KIND_RUNOFF:
        find_rain(&block->rain, &block->storm, rain);
        take_ratio(rain, block->rain.count, run->ratios.value[run->place]);
        take_loss(rain, block->rain.count, &block->loss, run->minutes);
        run_off(rain, block->rain.count, &block->unit_graph, flow, run->nq);
        break;
    case KIND_INFLOW:
        flow_in(&block->inflow, flow, run->nq);
        break;
    case KIND_CONFLUENCE:
        join(flow, taken, run->nq);
        break;
    case KIND_ROUTING:
        refusal = route(&block->routing, run->minutes, flow, run->nq);
        break;
    case KIND_POND:
        refusal = fill_pond(&block->storage, &block->outflow, run->minutes,
                            flow, run->nq);
        break;
    case KIND_NONE:
        break;
    }
    if (refusal == ACCEPTED)
        refusal = summarise(flow, run->nq, &summary);
    if (refusal != ACCEPTED)
        return refusal;

    run->area[place] = area_left(run, kind, place, taken);
    run->held = place + 1;
    hand_out(run, kind, run->area[place], flow, &summary);
    show(run, kind, taken, flow);
    return ACCEPTED;
}

static bool in_place(const struct run *run, enum record record)
{
    switch (record) {
    case REC_ID:
    case REC_IT:
        return run->phase == BEFORE_IT;
    case REC_JR:
        return run->phase == BEFORE_KK;
    case REC_KK:
    case REC_ZZ:
        return run->phase != BEFORE_IT;
    case REC_PI:
    case REC_UI:
    case REC_QI:
    case REC_SV:
    case REC_SQ:
        return run->phase == IN_BLOCK;
    case REC_BA:
    case REC_PB:
    case REC_LU:
    case REC_HC:
    case REC_RM:
    case REC_RS:
        return run->phase == IN_BLOCK && !(run->block.seen & bit(record));
    default:
        return true;
    }
}

static enum refusal take_it(struct run *run, struct text line)
{
    uint32_t value[NAMED_FIELD_LIMIT];
    enum refusal refusal = read_form(line, run->free_form, &IT_FORM, value);

    if (refusal == ACCEPTED) {
        run->minutes = value[0];
        run->nq = value[3];
        run->phase = BEFORE_KK;
    }
    return refusal;
}

static enum refusal take_jr(struct run *run, struct text line)
{
    run->phase = BEHIND_JR;
    return read_ratios(line, run->free_form, &run->ratios);
}

static enum refusal take_kk(struct run *run, struct text line)
{
    struct text name;
    enum refusal refusal = ACCEPTED;

    if (!read_name(line, run->free_form, &name))
        return MALFORMED;
    if (run->phase == IN_BLOCK)
        refusal = close_block(run);
    if (refusal != ACCEPTED)
        return refusal;
    if (run->blocks == BLOCK_LIMIT)
        return TOO_MANY_BLOCKS;
    run->blocks++;
    run->phase = IN_BLOCK;
    open_block(&run->block, name, run->line);
    return ACCEPTED;
}

static enum refusal take_zz(struct run *run)
{
    enum refusal refusal = ACCEPTED;

    if (run->phase == IN_BLOCK)
        refusal = close_block(run);
    if (refusal != ACCEPTED)
        return refusal;
    if (run->held != 1)
        return NOT_ONE_HELD;
    run->phase = ENDED;
    return ACCEPTED;
}

/* A record inside a block. */
static enum refusal take_data(struct run *run, enum record record,
                              struct text line)
{
    struct block *block = &run->block;
    bool free_form = run->free_form;
    uint32_t value[NAMED_FIELD_LIMIT] = { 0 };
    enum refusal refusal = ACCEPTED;

    switch (record) {
    case REC_BA:
        refusal = read_form(line, free_form, &BA_FORM, &block->area);
        break;
    case REC_HC:
        refusal = read_form(line, free_form, &HC_FORM, &block->combine);
        break;
    case REC_PB:
        refusal = read_form(line, free_form, &PB_FORM, value);
        block->storm = (struct storm){ true, value[0] };
        break;
    case REC_LU:
        refusal = read_form(line, free_form, &LU_FORM, value);
        block->loss = (struct loss){ value[0], value[1] };
        break;
    case REC_RM:
        refusal = read_form(line, free_form, &RM_FORM, value);
        block->routing = (struct routing){ value[0], value[1], value[2] };
        break;
    case REC_PI:
        refusal = read_list(line, free_form, &PI_FORM, run->nq, &block->rain);
        break;
    case REC_UI:
        refusal = read_list(line, free_form, &UI_FORM, UNIT_GRAPH_LIMIT,
                            &block->unit_graph);
        break;
    case REC_QI:
        refusal = read_list(line, free_form, &QI_FORM, run->nq,
                            &block->inflow);
        break;
    case REC_RS:
        refusal = read_pond(line, free_form);
        break;
    case REC_SV:
        refusal = read_list(line, free_form, &SV_FORM, ROW_LIMIT,
                            &block->storage);
        break;
    case REC_SQ:
        refusal = read_list(line, free_form, &SQ_FORM, ROW_LIMIT,
                            &block->outflow);
        break;
    default:
        break;
    }
    block->seen |= bit(record);
    return refusal;
}

/* Everything about one line that is not blank, in the order of the
 * refusals. */
static enum refusal take_line(struct run *run, struct text line)
{
    enum record record = identify(line);

    if (record == REC_UNKNOWN)
        return UNKNOWN_RECORD;
    if (!in_place(run, record))
        return OUT_OF_PLACE;
    switch (record) {
    case REC_FREE:
        run->free_form = true;
        return ACCEPTED;
    case REC_FIX:
        run->free_form = false;
        return ACCEPTED;
    case REC_ID:
    case REC_KM:
        return ACCEPTED;
    case REC_IT:
        return take_it(run, line);
    case REC_JR:
        return take_jr(run, line);
    case REC_KK:
        return take_kk(run, line);
    case REC_ZZ:
        return take_zz(run);
    default:
        return take_data(run, record, line);
    }
}

/* Reads up to ZZ.  On a refusal the reader stands on the refused line. */
static enum refusal take_lines(struct run *run, struct reader *reader)
{
    struct text line;
    enum refusal refusal = ACCEPTED;

    while (refusal == ACCEPTED && run->phase != ENDED) {
        enum line_state state = next_line(reader, &line);
        if (state == LINE_NONE)
            break;
        run->line = reader->line;
        if (state == LINE_BAD)
            refusal = BAD_LINE;
        else if (line.length > 0)
            refusal = take_line(run, line);
    }
    return refusal;
}

/* The checks that belong to no line and come after all lines. */
static enum refusal check_end(const struct run *run)
{
    const struct room *room = run->room;

    if (run->phase != ENDED)
        return NO_END;
    if (room->ordinate_words < run->nq
        || room->record_bytes / RECORD_BYTES < run->first_record
        || run->named.block > run->blocks
        || run->named.ratio > run->ratios.count)
        return SHORT_RESULT_ROOM;
    return ACCEPTED;
}

/* memset with no bytes still wants a valid pointer; a lender of nothing may
 * have none. */
static void clear_words(uint64_t *words, size_t from, size_t count)
{
    if (count > from)
        memset(words + from, 0, (count - from) * sizeof *words);
}

static void clear_bytes(uint8_t *bytes, size_t from, size_t count)
{
    if (count > from)
        memset(bytes + from, 0, count - from);
}

static struct answer refuse(const struct room *room, enum refusal refusal,
                            unsigned line)
{
    clear_words(room->work, 0, room->work_words);
    clear_words(room->ordinates, 0, room->ordinate_words);
    clear_bytes(room->records, 0, room->record_bytes);
    return (struct answer){ .refusal = refusal, .line = line };
}

static struct answer accept(const struct run *run)
{
    const struct room *room = run->room;

    clear_words(room->work, 0, room->work_words);
    clear_words(room->ordinates, run->nq, room->ordinate_words);
    clear_bytes(room->records, run->first_record * RECORD_BYTES,
                room->record_bytes);
    return (struct answer){
        .nq = run->nq, .blocks = run->blocks, .ratios = run->ratios
    };
}

/* One pass over the deck, under the ratio in its place.  At ZZ the last
 * block's hydrograph is the one that is held. */
static enum refusal take_pass(struct run *run, struct reader *reader)
{
    enum refusal refusal;

    run->free_form = false;
    run->phase = BEFORE_IT;
    run->blocks = 0;
    run->held = 0;
    refusal = take_lines(run, reader);
    if (refusal == ACCEPTED && run->phase == ENDED && run->named.block == 0)
        hand_out_ordinates(run, run->room->work);
    run->first_record += run->blocks;
    return refusal;
}

/* What depends on flows, and so on the ratio. */
static bool is_of_flows(enum refusal refusal)
{
    return refusal == FLOW_OVER_LIMIT || refusal == OVER_TABLE;
}

/* Of what the passes are refused for, the earliest line counts.  On one line
 * they differ only where some meet a refusal of flows and others, which do not,
 * come to one that stands behind it.  Behind a line that was refused in one
 * pass no other has to look. */
static struct answer run_passes(struct run *run, const uint8_t *deck,
                                size_t length)
{
    const uint8_t *end = deck + length;
    enum refusal first = ACCEPTED;
    unsigned line = 0;

    for (run->place = 0; run->place < run->ratios.count; run->place++) {
        struct reader reader = { deck, end, 0 };
        enum refusal refusal = take_pass(run, &reader);

        if (refusal == ACCEPTED)
            continue;
        if (first == ACCEPTED || reader.line < line || is_of_flows(refusal))
            first = refusal;
        line = reader.line;
        end = reader.at;
    }
    if (first != ACCEPTED)
        return refuse(run->room, first, line);
    first = check_end(run);
    if (first != ACCEPTED)
        return refuse(run->room, first, 0);
    return accept(run);
}

/* The checks that come before all lines, and then the lines. */
static struct answer run_from_start(struct run *run, const uint8_t *deck,
                                    size_t length)
{
    if (run->room->work_words < WORK_WORDS)
        return refuse(run->room, SHORT_WORK, 0);
    if (length > DECK_LIMIT)
        return refuse(run->room, LONG_DECK, 0);
    run->ratios = (struct ratios){ false, 1, { WHOLE_RATIO } };
    run->first_record = 0;
    return run_passes(run, deck, length);
}

struct answer run_deck(const uint8_t *deck, size_t length, struct named named,
                       const struct room *room)
{
    struct run run;

    run.room = room;
    run.named = named;
    run.viewer = NULL;
    return run_from_start(&run, deck, length);
}

struct answer view_deck(const uint8_t *deck, size_t length,
                        const struct viewer *viewer, const struct room *room)
{
    struct run run;

    run.room = room;
    run.named = (struct named){ 0, 0 };
    run.viewer = viewer;
    return run_from_start(&run, deck, length);
}
