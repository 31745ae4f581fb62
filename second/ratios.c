/* Counts what the decks of a bundle tell about ratios (document 02, CR 3):
 * which JR records its accepted decks have, which wrong rules their runoff
 * blocks tell from the right one, and how its refused decks depend on every
 * ratio being looked at.
 *
 *   ratios < BUNDLE
 *
 * The bundle is what hec1 --bundle reads.  Blocks are counted once under each
 * ratio of a JR: those without PB first, then those with PB.  Exit status 0; 1
 * when one of the counts is 0, which the line then says, or when a refusal is
 * not the first that any ratio meets; 2 when the input is cut short.
 *
 * The engine's source is a part of this one, as in losses.c. */
#include "engine.c"

#include "bundle.h"

#include <stdio.h>

/* Prints a count and returns whether it is 0. */
static unsigned print_count(unsigned long count, const char *what)
{
    printf("%8lu           %s%s\n", count, what, count == 0 ? ": MISSING" : "");
    return count == 0;
}

/* ---- The JR of an accepted deck --------------------------------------- */

enum sort {
    NO_JR,
    ONE_RATIO,
    SOME_RATIOS,
    ALL_RATIOS,
    LEAST_RATIO,
    GREATEST_RATIO,
    RATIO_ONE,
    EQUAL_RATIOS,
    RISING,
    FALLING,
    NO_RUNOFF,
    AT_LIMIT_ONCE,
    SORTS
};

static struct {
    const char *what;
    unsigned long decks;
} sorts[SORTS] = {
    [NO_JR].what = "no JR",
    [ONE_RATIO].what = "one ratio",
    [SOME_RATIOS].what = "two to eight",
    [ALL_RATIOS].what = "nine",
    [LEAST_RATIO].what = "0.01 among them",
    [GREATEST_RATIO].what = "9.99 among them",
    [RATIO_ONE].what = "1.00 among them",
    [EQUAL_RATIOS].what = "two neighbours equal",
    [RISING].what = "two or more, each greater than the one before",
    [FALLING].what = "two or more, each smaller than the one before",
    [NO_RUNOFF].what = "a JR, but no runoff block",
    [AT_LIMIT_ONCE].what = "a flow at the limit under one of several alone"
};

static void count_if(bool holds, enum sort sort)
{
    sorts[sort].decks += holds;
}

static void count_sorts(const struct ratios *ratios, bool runoff)
{
    const uint32_t *value = ratios->value;
    bool least = false, most = false, one = false;
    bool equal = false, rising = true, falling = true;

    if (!ratios->given) {
        count_if(true, NO_JR);
        return;
    }
    for (unsigned k = 0; k < ratios->count; k++) {
        least = least || value[k] == JR_FORM.rule[1].low;
        most = most || value[k] == JR_FORM.rule[1].high;
        one = one || value[k] == WHOLE_RATIO;
        equal = equal || (k > 0 && value[k] == value[k - 1]);
        rising = rising && (k == 0 || value[k] > value[k - 1]);
        falling = falling && (k == 0 || value[k] < value[k - 1]);
    }
    count_if(ratios->count == 1, ONE_RATIO);
    count_if(ratios->count > 1 && ratios->count < RATIO_LIMIT, SOME_RATIOS);
    count_if(ratios->count == RATIO_LIMIT, ALL_RATIOS);
    count_if(least, LEAST_RATIO);
    count_if(most, GREATEST_RATIO);
    count_if(one, RATIO_ONE);
    count_if(equal, EQUAL_RATIOS);
    count_if(rising && ratios->count > 1, RISING);
    count_if(falling && ratios->count > 1, FALLING);
    count_if(!runoff, NO_RUNOFF);
}

/* ---- Wrong rules ------------------------------------------------------ */

/* A runoff block and what it is run under. */
struct basin {
    const struct block *block;
    uint32_t minutes;
    uint32_t ratio;
};

/* A rule gives the excess of each interval. */
typedef void excess_rule(const struct basin *basin, uint32_t *excess);

static void lose(const struct basin *basin, uint32_t *rain)
{
    take_loss(rain, basin->block->rain.count, &basin->block->loss,
              basin->minutes);
}

static void right_rule(const struct basin *basin, uint32_t *rain)
{
    const struct block *block = basin->block;

    find_rain(&block->rain, &block->storm, rain);
    take_ratio(rain, block->rain.count, basin->ratio);
    lose(basin, rain);
}

/* (a) The ratio is put on each interval's rain, which is rounded by itself. */
static void by_interval(const struct basin *basin, uint32_t *rain)
{
    const struct block *block = basin->block;

    find_rain(&block->rain, &block->storm, rain);
    for (unsigned i = 0; i < block->rain.count; i++)
        rain[i] = (uint32_t)((uint64_t)basin->ratio * rain[i] / WHOLE_RATIO);
    lose(basin, rain);
}

/* (b) Every ratio is 1.00. */
static void forgotten(const struct basin *basin, uint32_t *rain)
{
    const struct block *block = basin->block;

    find_rain(&block->rain, &block->storm, rain);
    lose(basin, rain);
}

/* (c) The ratio is put on the values of PI as they stand on the card.  With a
 * total it then changes no more than how the total is shared out. */
static void on_cards(const struct basin *basin, uint32_t *rain)
{
    const struct block *block = basin->block;
    struct storm storm = block->storm;
    struct list cards = block->rain;

    cut_rain(cards.value, cards.count, basin->ratio, WHOLE_RATIO, cards.value);
    if (total_of(&cards) == 0)
        storm.total = 0;
    find_rain(&cards, &storm, rain);
    lose(basin, rain);
}

/* (d) The ratio is put on the total, and what it makes is cut. */
static void on_total(const struct basin *basin, uint32_t *rain)
{
    const struct block *block = basin->block;
    uint64_t depth = (uint64_t)block->storm.total * DEPTH_PER_TEN_THOUSANDTH;

    find_rain(&block->rain, &block->storm, rain);
    if (block->storm.total > 0)
        cut_rain(block->rain.value, block->rain.count,
                 depth * basin->ratio / WHOLE_RATIO, total_of(&block->rain),
                 rain);
    else
        take_ratio(rain, block->rain.count, basin->ratio);
    lose(basin, rain);
}

/* (e) The ratio is put on the excess. */
static void on_excess(const struct basin *basin, uint32_t *rain)
{
    forgotten(basin, rain);
    take_ratio(rain, basin->block->rain.count, basin->ratio);
}

/* Blocks, [0] without PB and [1] with PB, to which a rule gives another
 * hydrograph.  Where there is no total, (d) is the right rule. */
static struct wrong_rule {
    excess_rule *rule;
    const char *what;
    bool totals_only;
    unsigned long blocks[2];
} wrong_rules[] = {
    { by_interval, "(a) each interval's rain rounded by itself", false, { 0 } },
    { forgotten, "(b) the ratio forgotten", false, { 0 } },
    { on_cards, "(c) the ratio on the values of PI", false, { 0 } },
    { on_total, "(d) the ratio on the total, before it is cut", true, { 0 } },
    { on_excess, "(e) the ratio on the excess, behind the losses", false,
      { 0 } }
};

enum { WRONG_RULES = sizeof wrong_rules / sizeof *wrong_rules };

static unsigned long all_blocks[2];

static void flow_by(excess_rule *rule, const struct basin *basin, unsigned nq,
                    uint64_t *flow)
{
    uint32_t excess[ORDINATE_LIMIT];

    rule(basin, excess);
    run_off(excess, basin->block->rain.count, &basin->block->unit_graph, flow,
            nq);
}

static void look_at_block(const struct basin *basin, unsigned nq)
{
    bool total = basin->block->storm.given;
    uint64_t right[ORDINATE_LIMIT], wrong[ORDINATE_LIMIT];

    all_blocks[total]++;
    flow_by(right_rule, basin, nq, right);
    for (unsigned k = 0; k < WRONG_RULES; k++) {
        flow_by(wrong_rules[k].rule, basin, nq, wrong);
        if (memcmp(right, wrong, nq * sizeof *right) != 0)
            wrong_rules[k].blocks[total]++;
    }
}

/* ---- Passes ----------------------------------------------------------- */

/* What a pass under one ratio alone is refused for, if anything; greatest is
 * the greatest flow that stays in the work words. */
struct met {
    enum refusal refusal;
    unsigned line;
    uint64_t greatest;
};

static void start_pass(struct run *run, const struct room *room,
                       unsigned place)
{
    run->room = room;
    run->named = (struct named){ 0, 0 };
    run->ratios = (struct ratios){ false, 1, { WHOLE_RATIO } };
    run->place = place;
    run->first_record = 0;
    run->free_form = false;
    run->phase = BEFORE_IT;
    run->blocks = 0;
    run->held = 0;
}

/* Goes through a deck as a pass of run_deck does.  look: at each runoff block
 * too, just before the line that closes it.  runoff: there was such a block. */
static struct met take_alone(const uint8_t *deck, size_t length,
                             struct run *run, bool look, bool *runoff)
{
    struct reader reader = { deck, deck + length, 0 };
    struct text line;
    enum refusal refusal = ACCEPTED;

    while (refusal == ACCEPTED && run->phase != ENDED) {
        enum line_state state = next_line(&reader, &line);
        if (state == LINE_NONE)
            break;
        if (state == LINE_BAD)
            return (struct met){ BAD_LINE, reader.line, 0 };
        if (line.length == 0)
            continue;
        enum record record = identify(line);
        if (run->phase == IN_BLOCK && (record == REC_KK || record == REC_ZZ)
            && kind_of(run->block.seen) == KIND_RUNOFF) {
            struct basin basin = {
                &run->block, run->minutes, run->ratios.value[run->place]
            };
            *runoff = true;
            if (look && run->ratios.given)
                look_at_block(&basin, run->nq);
        }
        refusal = take_line(run, line);
    }
    return (struct met){ refusal, refusal == ACCEPTED ? 0 : reader.line, 0 };
}

/* How many ratios have a flow at the limit.  The records are the deck's. */
static unsigned count_at_limit(const struct answer *answer,
                               const uint8_t *record)
{
    uint8_t limit[8];
    unsigned found = 0;

    put_number(limit, FLOW_LIMIT, sizeof limit);
    for (unsigned k = 0; k < answer->ratios.count; k++) {
        bool here = false;
        for (unsigned b = 0; b < answer->blocks; b++, record += RECORD_BYTES)
            here = here || memcmp(record + RECORD_PEAK, limit, 8) == 0;
        found += here;
    }
    return found;
}

static void look_at_accepted(const uint8_t *deck, size_t length,
                             const struct answer *answer,
                             const struct room *room)
{
    static struct run run;
    bool runoff = false;

    /* before the passes, which put records of their own in the room */
    count_if(answer->ratios.count > 1
             && count_at_limit(answer, room->records) == 1, AT_LIMIT_ONCE);
    for (unsigned k = 0; k < answer->ratios.count; k++) {
        start_pass(&run, room, k);
        take_alone(deck, length, &run, true, &runoff);
    }
    count_sorts(&answer->ratios, runoff);
}

/* ---- Refused decks ---------------------------------------------------- */

enum case_of_13 {
    FIRST_ELSEWHERE,
    FIRST_NONE,
    LAST_ELSEWHERE,
    LAST_NONE,
    BESIDE_14,
    BESIDE_15,
    SMALLER_ALONE,
    BY_ONE_UNIT,
    CASES_OF_13
};

static struct {
    const char *what;
    unsigned long decks;
} cases_of_13[CASES_OF_13] = {
    [FIRST_ELSEWHERE].what = "the first ratio alone is refused at another line",
    [FIRST_NONE].what = "the first ratio alone is not refused",
    [LAST_ELSEWHERE].what = "the last ratio alone is refused at another line",
    [LAST_NONE].what = "the last ratio alone is not refused",
    [BESIDE_14].what = "another ratio alone meets 14 at that line",
    [BESIDE_15].what = "another ratio alone meets 15 at that line",
    [SMALLER_ALONE].what = "a ratio meets it there, a greater one does not",
    [BY_ONE_UNIT].what = "by one flow unit, under one of several alone"
};

static unsigned long refused_13, wrong_answers;

/* On one line what depends on flows comes before 14 and 15, which are all that
 * another ratio can meet there in its place. */
static bool comes_before(struct met a, struct met b)
{
    if (a.refusal == ACCEPTED || b.refusal == ACCEPTED)
        return a.refusal != ACCEPTED;
    return a.line < b.line
        || (a.line == b.line && is_of_flows(a.refusal)
            && !is_of_flows(b.refusal));
}

static void count_13(const struct met *met, const struct ratios *ratios,
                     unsigned line)
{
    unsigned last = ratios->count - 1;
    unsigned over = 0, by_one = 0;
    bool smaller = false;
    enum refusal beside = ACCEPTED;

    refused_13++;
    if (met[0].line != line)
        cases_of_13[met[0].line > 0 ? FIRST_ELSEWHERE : FIRST_NONE].decks++;
    if (met[last].line != line)
        cases_of_13[met[last].line > 0 ? LAST_ELSEWHERE : LAST_NONE].decks++;
    for (unsigned k = 0; k <= last; k++) {
        bool here = met[k].line == line && met[k].refusal == FLOW_OVER_LIMIT;
        over += met[k].refusal == FLOW_OVER_LIMIT;
        by_one += here && met[k].greatest == FLOW_LIMIT + 1;
        if (met[k].line == line && !here)
            beside = met[k].refusal;
        for (unsigned j = 0; here && j <= last; j++)
            smaller = smaller || (ratios->value[j] > ratios->value[k]
                                  && met[j].line != line);
    }
    cases_of_13[BESIDE_14].decks += beside == TOO_MANY_BLOCKS;
    cases_of_13[BESIDE_15].decks += beside == NOT_ONE_HELD;
    cases_of_13[SMALLER_ALONE].decks += smaller;
    cases_of_13[BY_ONE_UNIT].decks += last > 0 && over == 1 && by_one == 1;
}

/* Each ratio by itself, each time to the end: what comes first of all that
 * they meet must be the engine's answer. */
static void look_at_refused(const uint8_t *deck, size_t length,
                            const struct answer *answer,
                            const struct room *room)
{
    static struct run run;
    struct met met[RATIO_LIMIT], first = { ACCEPTED, 0, 0 };
    struct ratios ratios = { false, 1, { WHOLE_RATIO } };
    bool runoff;

    for (unsigned k = 0; k < ratios.count; k++) {
        start_pass(&run, room, k);
        clear_words(room->work, 0, room->work_words);
        met[k] = take_alone(deck, length, &run, false, &runoff);
        for (size_t w = 0; w < room->work_words; w++)
            if (room->work[w] > met[k].greatest)
                met[k].greatest = room->work[w];
        if (k == 0)
            ratios = run.ratios;
        if (comes_before(met[k], first))
            first = met[k];
    }
    if (first.refusal == ACCEPTED ? answer->refusal != NO_END
        : first.refusal != answer->refusal || first.line != answer->line)
        wrong_answers++;
    if (answer->refusal == FLOW_OVER_LIMIT && ratios.given)
        count_13(met, &ratios, answer->line);
}

/* ---- The bundle ------------------------------------------------------- */

static unsigned print_rule(const struct wrong_rule *rule)
{
    bool missing = rule->blocks[1] == 0
        || (rule->blocks[0] == 0 && !rule->totals_only);

    printf("%8lu %8lu  %s%s\n", rule->blocks[0], rule->blocks[1], rule->what,
           missing ? ": MISSING" : "");
    return missing;
}

static unsigned print_all(void)
{
    unsigned missing = 0;

    puts("   decks           accepted, and their JR");
    for (unsigned k = 0; k < SORTS; k++)
        missing += print_count(sorts[k].decks, sorts[k].what);
    puts("  no PB       PB  runoff blocks under a JR");
    printf("%8lu %8lu  all\n", all_blocks[0], all_blocks[1]);
    puts("  no PB       PB  where a wrong rule gives another hydrograph");
    for (unsigned k = 0; k < WRONG_RULES; k++)
        missing += print_rule(&wrong_rules[k]);
    puts("   decks           with a JR and refused with 13");
    missing += print_count(refused_13, "all");
    for (unsigned k = 0; k < CASES_OF_13; k++)
        missing += print_count(cases_of_13[k].decks, cases_of_13[k].what);
    printf("%8lu           refusals that are not the first of any ratio\n",
           wrong_answers);
    return missing;
}

int main(void)
{
    static uint8_t deck[DECK_LIMIT];
    static uint64_t work[WORK_WORDS];
    static uint64_t ordinates[ORDINATE_LIMIT];
    static uint8_t records[BLOCK_LIMIT * RATIO_LIMIT * RECORD_BYTES];
    const struct room room = {
        work, WORK_WORDS, ordinates, ORDINATE_LIMIT, records, sizeof records
    };
    size_t length;

    while (next_deck("ratios", deck, &length)) {
        struct answer answer = run_deck(deck, length, (struct named){ 0, 0 },
                                        &room);
        if (answer.refusal == ACCEPTED)
            look_at_accepted(deck, length, &answer, &room);
        else if (answer.refusal != LONG_DECK)
            look_at_refused(deck, length, &answer, &room);
    }
    return print_all() > 0 || wrong_answers > 0;
}
