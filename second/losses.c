/* Counts in which ways the initial losses of a bundle are filled, and which
 * wrong rules of loss its decks tell from the right one (document 02, CR 2).
 *
 *   losses < BUNDLE
 *
 * The bundle is what hec1 --bundle reads.  Every runoff block of its accepted
 * decks is looked at, once under each ratio.  Each line printed is a count of
 * blocks without PB, one of blocks with PB, and what was counted.  Exit status
 * 0; 1 when one of the counts is 0, which the line then says; 2 when the input
 * is cut short.
 *
 * The engine's source is a part of this one: so the rain and the right excess
 * are the engine's own, and nothing in the engine has to know of the counts. */
#include "engine.c"

#include "bundle.h"

#include <stdio.h>

/* A runoff block's rain, excess and losses, in depth units. */
struct basin {
    bool with_total;
    unsigned count;
    uint32_t rain[ORDINATE_LIMIT];
    uint32_t excess[ORDINATE_LIMIT];
    uint32_t initial;
    uint32_t uniform;
};

/* A thing that is counted: [0] without PB, [1] with PB. */
struct tally {
    const char *what;
    unsigned long blocks[2];
};

static void count(struct tally *tally, const struct basin *basin)
{
    tally->blocks[basin->with_total]++;
}

/* ---- Ways ------------------------------------------------------------- */

enum way {
    EXCESS_LEFT,
    REST_TAKEN,
    AT_END,
    NEVER,
    NOTHING_TO_FILL,
    REST_IS_UNIFORM,
    IN_FIRST,
    IN_MIDDLE,
    IN_LAST,
    DRY_BETWEEN,
    JUST_BEFORE,
    JUST_BEHIND,
    JUST_NOT,
    WAYS
};

/* The first five are all the ways there are; the others are parts of them. */
static struct tally ways[WAYS] = {
    [EXCESS_LEFT].what = "filled inside an interval, with excess left",
    [REST_TAKEN].what =
        "filled inside an interval, the uniform loss takes the rest",
    [AT_END].what = "filled exactly at an interval's end",
    [NEVER].what = "never filled",
    [NOTHING_TO_FILL].what = "none to fill",
    [REST_IS_UNIFORM].what =
        "the rest of that interval is the uniform loss, to the unit",
    [IN_FIRST].what = "filled in the first interval",
    [IN_MIDDLE].what = "filled in a middle one",
    [IN_LAST].what = "filled in the last one",
    [DRY_BETWEEN].what =
        "a dry interval while a part is filled and a part is not",
    [JUST_BEFORE].what = "filled 0.0001 inch or less before an interval's end",
    [JUST_BEHIND].what = "filled 0.0001 inch or less behind an interval's end",
    [JUST_NOT].what = "never filled, by 0.0001 inch or less"
};

static void count_way(enum way way, const struct basin *basin)
{
    count(&ways[way], basin);
}

/* The initial loss is filled in an interval that leaves so much rain. */
static void count_filled(const struct basin *basin, unsigned interval,
                         uint32_t rest)
{
    if (rest == 0)
        count_way(AT_END, basin);
    else if (basin->excess[interval] > 0)
        count_way(EXCESS_LEFT, basin);
    else
        count_way(REST_TAKEN, basin);
    if (rest > 0 && rest == basin->uniform)
        count_way(REST_IS_UNIFORM, basin);
    if (rest > 0 && rest <= DEPTH_PER_TEN_THOUSANDTH)
        count_way(JUST_BEFORE, basin);
    if (interval == 0)
        count_way(IN_FIRST, basin);
    else if (interval + 1 < basin->count)
        count_way(IN_MIDDLE, basin);
    else
        count_way(IN_LAST, basin);
}

static void count_ways(const struct basin *basin)
{
    uint32_t unfilled = basin->initial;
    bool dry = false;
    unsigned i = 0;

    if (unfilled == 0) {
        count_way(NOTHING_TO_FILL, basin);
        return;
    }
    for (; i < basin->count && basin->rain[i] < unfilled; i++) {
        dry = dry || (basin->rain[i] == 0 && unfilled < basin->initial);
        unfilled -= basin->rain[i];
    }
    if (dry)
        count_way(DRY_BETWEEN, basin);
    if (i < basin->count) {
        count_filled(basin, i, basin->rain[i] - unfilled);
        if (unfilled < basin->initial && unfilled <= DEPTH_PER_TEN_THOUSANDTH)
            count_way(JUST_BEHIND, basin);
    } else {
        count_way(NEVER, basin);
        if (unfilled <= DEPTH_PER_TEN_THOUSANDTH)
            count_way(JUST_NOT, basin);
    }
}

/* ---- Wrong rules ------------------------------------------------------ */

/* The losses, and what a rule carries from interval to interval. */
struct ground {
    uint32_t initial;
    uint32_t uniform;
    uint32_t unfilled;
    uint64_t fallen;
};

/* (a) An interval is lost whole while all rain so far is at most the initial
 * loss, and none of that loss is taken behind it. */
static uint32_t by_whole_intervals(struct ground *ground, uint32_t rain)
{
    ground->fallen += rain;
    if (ground->fallen <= ground->initial)
        return 0;
    return rain - least(ground->uniform, rain);
}

/* (b) The uniform loss is taken first. */
static uint32_t uniform_first(struct ground *ground, uint32_t rain)
{
    uint32_t rest = rain - least(ground->uniform, rain);
    uint32_t filling = least(ground->unfilled, rest);

    ground->unfilled -= filling;
    return rest - filling;
}

/* (c) Of the uniform loss as large a share is taken as is left of the rain:
 * less than all of it only where a part of the rain fills. */
static uint32_t share_of_uniform(struct ground *ground, uint32_t rain)
{
    uint32_t filling = least(ground->unfilled, rain);
    uint32_t rest = rain - filling;

    ground->unfilled -= filling;
    if (rest == 0)
        return 0;
    return rest - least((uint32_t)((uint64_t)ground->uniform * rest / rain),
                        rest);
}

/* (d) What the first interval does not fill is forgotten. */
static uint32_t first_fills_alone(struct ground *ground, uint32_t rain)
{
    uint32_t rest = rain - least(ground->unfilled, rain);

    ground->unfilled = 0;
    return rest - least(ground->uniform, rest);
}

/* (e) Every interval has the whole initial loss to fill. */
static uint32_t whole_again(struct ground *ground, uint32_t rain)
{
    uint32_t rest = rain - least(ground->initial, rain);

    return rest - least(ground->uniform, rest);
}

/* Each rule gives the excess of the next interval; its tally is of the blocks
 * in which it gives another one than the engine. */
static struct wrong_rule {
    uint32_t (*excess)(struct ground *ground, uint32_t rain);
    struct tally told_apart;
} wrong_rules[] = {
    { by_whole_intervals,
      { .what = "(a) the rule of document 01" } },
    { uniform_first,
      { .what = "(b) the uniform loss before the initial one" } },
    { share_of_uniform,
      { .what = "(c) a share of the uniform loss where the filling ends" } },
    { first_fills_alone,
      { .what = "(d) what the first interval does not fill forgotten" } },
    { whole_again,
      { .what = "(e) the initial loss whole again in every interval" } }
};

enum { WRONG_RULES = sizeof wrong_rules / sizeof *wrong_rules };

static bool differs(const struct wrong_rule *rule, const struct basin *basin)
{
    struct ground ground = {
        basin->initial, basin->uniform, basin->initial, 0
    };

    for (unsigned i = 0; i < basin->count; i++)
        if (rule->excess(&ground, basin->rain[i]) != basin->excess[i])
            return true;
    return false;
}

/* ---- Blocks and decks ------------------------------------------------- */

static struct tally all = { .what = "runoff blocks" };

static void look_at_block(const struct block *block, uint32_t minutes,
                          uint32_t ratio)
{
    struct basin basin = {
        .with_total = block->storm.given,
        .count = block->rain.count,
        .initial = block->loss.initial * DEPTH_PER_TEN_THOUSANDTH,
        .uniform = block->loss.uniform * minutes
    };

    find_rain(&block->rain, &block->storm, basin.rain);
    take_ratio(basin.rain, basin.count, ratio);
    memcpy(basin.excess, basin.rain, basin.count * sizeof *basin.rain);
    take_loss(basin.excess, basin.count, &block->loss, minutes);
    count(&all, &basin);
    count_ways(&basin);
    for (unsigned k = 0; k < WRONG_RULES; k++)
        if (differs(&wrong_rules[k], &basin))
            count(&wrong_rules[k].told_apart, &basin);
}

/* Goes through an accepted deck as a pass of run_deck does, with a look at
 * each runoff block just before the line that closes it. */
static void look_at_pass(const uint8_t *deck, size_t length, struct run *run)
{
    struct reader reader = { deck, deck + length, 0 };
    struct text line;

    run->free_form = false;
    run->phase = BEFORE_IT;
    run->blocks = 0;
    run->held = 0;
    while (run->phase != ENDED && next_line(&reader, &line) != LINE_NONE) {
        if (line.length == 0)
            continue;
        enum record record = identify(line);
        if (run->phase == IN_BLOCK && (record == REC_KK || record == REC_ZZ)
            && kind_of(run->block.seen) == KIND_RUNOFF)
            look_at_block(&run->block, run->minutes,
                          run->ratios.value[run->place]);
        take_line(run, line);
    }
}

static void look_at_deck(const uint8_t *deck, size_t length,
                         const struct answer *answer, const struct room *room)
{
    struct run run = { .room = room, .ratios = answer->ratios };

    for (; run.place < answer->ratios.count; run.place++)
        look_at_pass(deck, length, &run);
}

/* ---- The bundle ------------------------------------------------------- */

/* Prints two counts and returns how many of them are 0. */
static unsigned print_tally(const struct tally *tally)
{
    const unsigned long *blocks = tally->blocks;
    unsigned missing = (blocks[0] == 0) + (blocks[1] == 0);

    printf("%8lu %8lu  %s%s\n", blocks[0], blocks[1], tally->what,
           missing > 0 ? ": MISSING" : "");
    return missing;
}

int main(void)
{
    static uint8_t deck[DECK_LIMIT];
    static uint64_t work[WORK_WORDS];
    static uint64_t ordinates[ORDINATE_LIMIT];
    static uint8_t records[BLOCK_LIMIT * RATIO_LIMIT * RECORD_BYTES];
    const struct room room = {
        work, WORK_WORDS, ordinates, ORDINATE_LIMIT, records, sizeof records
    };
    size_t length;
    unsigned missing;

    while (next_deck("losses", deck, &length)) {
        struct answer answer = run_deck(deck, length, (struct named){ 0, 0 },
                                        &room);
        if (answer.refusal == ACCEPTED)
            look_at_deck(deck, length, &answer, &room);
    }
    puts("  no PB       PB  how the initial loss is filled");
    missing = print_tally(&all);
    for (unsigned k = 0; k < WAYS; k++)
        missing += print_tally(&ways[k]);
    puts("  no PB       PB  blocks where a wrong rule gives another excess");
    for (unsigned k = 0; k < WRONG_RULES; k++)
        missing += print_tally(&wrong_rules[k].told_apart);
    return missing > 0;
}
