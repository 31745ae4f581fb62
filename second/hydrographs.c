/* Counts what cases of the hydrograph in print hold: how they are answered, what
 * they name, which edges their texts have, and which wrong rules they tell from
 * the right one.
 *
 *   hydrographs < CASES          counts
 *   hydrographs --text < CASES   the text of each case by the right rule, and
 *                                '--'
 *
 * The cases are what hec1 --hydrograph reads.  Each line of the counts is a
 * number of cases and what was counted.  Exit status 0; 1 when one of the counts
 * is 0, which the line then says; 2 when the input is cut short.
 *
 * The engine's source is a part of this one, as in losses.c: the minutes are
 * those that the engine has read, and the text is put together by itself.  So
 * this and hydrograph.c can be held against each other. */
#include "engine.c"

#include "bundle.h"

#include <inttypes.h>
#include <stdio.h>

/* ---- What a case asks for --------------------------------------------- */

/* The answer to a case and, where there is a text, what it is of.  Block and
 * ratio count from 1. */
struct asked {
    struct named named;
    struct answer answer;
    unsigned block;
    unsigned ratio;
    enum kind kind;
    uint64_t flow[ORDINATE_LIMIT];
};

static const struct room *room_for_all(void)
{
    static uint64_t work[WORK_WORDS];
    static uint64_t ordinates[ORDINATE_LIMIT];
    static uint8_t records[BLOCK_LIMIT * RATIO_LIMIT * RECORD_BYTES];
    static const struct room room = {
        work, WORK_WORDS, ordinates, ORDINATE_LIMIT, records, sizeof records
    };

    return &room;
}

static unsigned place_of(uint64_t number, unsigned count)
{
    return number == 0 ? count : (unsigned)number;
}

static void ask(const struct named_case *one, struct named named,
                struct asked *asked)
{
    const struct room *room = room_for_all();
    unsigned before;

    asked->named = named;
    asked->answer = run_deck(one->deck, one->length, named, room);
    if (asked->answer.refusal != ACCEPTED)
        return;
    asked->block = place_of(named.block, asked->answer.blocks);
    asked->ratio = place_of(named.ratio, asked->answer.ratios.count);
    before = (asked->ratio - 1) * asked->answer.blocks + asked->block - 1;
    asked->kind = room->records[before * RECORD_BYTES + RECORD_KIND];
    memcpy(asked->flow, room->ordinates, sizeof asked->flow);
}

/* What the cards of an accepted deck say beside its flows. */
struct frame {
    uint32_t minutes;
    bool free_form;         /* of IT */
    bool it_behind;         /* a line behind ZZ would be an IT */
};

static bool has_it(const uint8_t *at, const uint8_t *end)
{
    for (bool begins = true; end - at >= 2; begins = *at++ == '\n')
        if (begins && at[0] == 'I' && at[1] == 'T')
            return true;
    return false;
}

static void see_cards(const struct named_case *one, struct frame *frame)
{
    static struct run run;
    const uint8_t *end = one->deck + one->length;
    struct reader reader = { one->deck, end, 0 };
    struct text line;

    run = (struct run){ .room = room_for_all() };
    while (next_line(&reader, &line) == LINE_READ) {
        if (line.length > 0 && run.phase == BEFORE_IT)
            take_line(&run, line);
        else if (line.length > 0 && identify(line) == REC_ZZ)
            break;
    }
    *frame = (struct frame){
        run.minutes, run.free_form, has_it(reader.at, end)
    };
}

/* ---- Rules ------------------------------------------------------------ */

enum which_block {
    NAMED_BLOCK,
    BLOCK_BEFORE,
    BLOCK_BEHIND,
    LAST_BLOCK
};

enum which_ratio {
    NAMED_RATIO,
    FIRST_RATIO,
    LAST_RATIO
};

enum rounding {
    HALF_UP,
    CUT_OFF,
    HALF_DOWN,
    HALF_TO_EVEN,
    FROM_HUNDREDTHS,
    APART               /* whole cfs cut off, and the fraction by itself */
};

/* A rule is the right one but for what is set here. */
struct text_rule {
    enum which_block block;
    enum which_ratio ratio;
    enum rounding rounding;
    bool units_of_rounded;
    bool early;                 /* minutes of the interval's beginning */
    bool hours;                 /* minutes as though M were 60 */
    bool line_less;
    bool no_zeros_behind;       /* no lines behind the last flow */
    bool first_for_0;           /* 0 names the first block and ratio */
    bool names_first;           /* 17 before what the deck is refused for */
};

static const struct text_rule right_rule;

/* Its count is of the cases to which a rule gives another text. */
static struct wrong_rule {
    struct text_rule rule;
    const char *what;
    unsigned long cases;
} wrong_rules[] = {
    { { .block = BLOCK_BEFORE }, "(a) the flows of the block before", 0 },
    { { .block = BLOCK_BEHIND }, "(b) the flows of the block behind", 0 },
    { { .block = LAST_BLOCK }, "(c) the last block for the named one", 0 },
    { { .ratio = FIRST_RATIO }, "(d) the first ratio for the named one", 0 },
    { { .ratio = LAST_RATIO }, "(e) the last ratio for the named one", 0 },
    { { .rounding = CUT_OFF },
      "(f) cut off behind the sixth place, not rounded", 0 },
    { { .rounding = HALF_DOWN }, "(g) a half rounded down", 0 },
    { { .rounding = HALF_TO_EVEN }, "(h) a half rounded to even", 0 },
    { { .rounding = FROM_HUNDREDTHS }, "(i) cfs rounded from hundredths", 0 },
    { { .rounding = APART },
      "(j) the fraction rounded apart from the whole cfs", 0 },
    { { .units_of_rounded = true }, "(k) units rounded to millionths", 0 },
    { { .early = true }, "(l) minutes one interval early", 0 },
    { { .hours = true }, "(m) minutes of whole hours, whatever M is", 0 },
    { { .line_less = true }, "(n) one line less", 0 },
    { { .no_zeros_behind = true }, "(o) no lines behind the last flow", 0 },
    { { .first_for_0 = true }, "(p) 0 for the first block or ratio", 0 },
    { { .names_first = true },
      "(q) 17 told before what the deck is refused for", 0 }
};

enum { WRONG_RULES = sizeof wrong_rules / sizeof *wrong_rules };

static unsigned block_by(const struct text_rule *rule,
                         const struct asked *asked)
{
    unsigned block = asked->block, blocks = asked->answer.blocks;

    switch (rule->block) {
    case BLOCK_BEFORE: return block > 1 ? block - 1 : block;
    case BLOCK_BEHIND: return block < blocks ? block + 1 : block;
    case LAST_BLOCK: return blocks;
    default: return block;
    }
}

static unsigned ratio_by(const struct text_rule *rule,
                         const struct asked *asked)
{
    switch (rule->ratio) {
    case FIRST_RATIO: return 1;
    case LAST_RATIO: return asked->answer.ratios.count;
    default: return asked->ratio;
    }
}

/* What a rule names in place of what the case does; only in a deck that is
 * refused it stays as it is. */
static struct named named_by(const struct text_rule *rule,
                             const struct asked *asked)
{
    struct named named = asked->named;

    if (asked->answer.refusal != ACCEPTED)
        return named;
    if (rule->first_for_0)
        return (struct named){ named.block + (named.block == 0),
                               named.ratio + (named.ratio == 0) };
    return (struct named){ block_by(rule, asked), ratio_by(rule, asked) };
}

/* ---- The text by a rule ----------------------------------------------- */

enum {
    UNITS_PER_MILLIONTH = 60,
    MILLIONTHS = 1000000,
    UNITS_PER_CFS = UNITS_PER_MILLIONTH * MILLIONTHS,
    TEXT_ROOM = 64 * (ORDINATE_LIMIT + 1)
};

static uint64_t half_up(uint64_t number, uint64_t by)
{
    return (2 * number + by) / (2 * by);
}

/* A flow in millionths of a cfs. */
static uint64_t rounded(enum rounding rounding, uint64_t flow)
{
    uint64_t whole = flow / UNITS_PER_MILLIONTH;
    uint64_t rest = flow % UNITS_PER_MILLIONTH;

    switch (rounding) {
    case CUT_OFF: return whole;
    case HALF_DOWN: return whole + (rest > 30);
    case HALF_TO_EVEN: return whole + (rest > 30 || (rest == 30 && whole % 2));
    case FROM_HUNDREDTHS: return 10000 * half_up(flow, FLOW_PER_HUNDREDTH);
    default: return half_up(flow, UNITS_PER_MILLIONTH);
    }
}

static char *put_cfs(char *at, enum rounding rounding, uint64_t flow)
{
    uint64_t whole = flow / UNITS_PER_CFS, millionths;

    if (rounding == APART) {
        millionths = rounded(HALF_UP, flow % UNITS_PER_CFS);
    } else {
        millionths = rounded(rounding, flow);
        whole = millionths / MILLIONTHS;
        millionths %= MILLIONTHS;
    }
    return at + sprintf(at, "%" PRIu64 ".%06" PRIu64, whole, millionths);
}

static unsigned lines_by(const struct text_rule *rule,
                         const struct asked *asked)
{
    unsigned lines = asked->answer.nq - rule->line_less;

    while (rule->no_zeros_behind && lines > 0 && asked->flow[lines - 1] == 0)
        lines--;
    return lines;
}

static bool above_all_counts(struct named named)
{
    return named.block > BLOCK_LIMIT || named.ratio > RATIO_LIMIT;
}

static char *put_refusal(char *at, const struct text_rule *rule,
                         const struct asked *asked)
{
    if (rule->names_first && above_all_counts(asked->named))
        return at + sprintf(at, "REFUSED 17 0\n");
    return at + sprintf(at, "REFUSED %u %u\n", asked->answer.refusal,
                        asked->answer.line);
}

/* Returns the bytes of the text. */
static size_t text_by(const struct text_rule *rule, const struct asked *asked,
                      uint32_t minutes, char *text)
{
    char *at = text;

    if (asked->answer.refusal != ACCEPTED)
        return (size_t)(put_refusal(at, rule, asked) - text);
    if (rule->hours)
        minutes = 60;
    at += sprintf(at, "interval,minutes,cfs,units\n");
    for (unsigned i = 1; i <= lines_by(rule, asked); i++) {
        uint64_t flow = asked->flow[i - 1];

        at += sprintf(at, "%u,%" PRIu32 ",", i, (i - rule->early) * minutes);
        at = put_cfs(at, rule->rounding, flow);
        if (rule->units_of_rounded)
            flow = UNITS_PER_MILLIONTH * rounded(HALF_UP, flow);
        at += sprintf(at, ",%" PRIu64 "\n", flow);
    }
    return (size_t)(at - text);
}

static bool tells_apart(const struct named_case *one,
                        const struct asked *asked, uint32_t minutes,
                        const struct text_rule *rule, const char *right,
                        size_t length)
{
    static struct asked other;
    static char wrong[TEXT_ROOM];
    struct named named = named_by(rule, asked);

    if (named.block != asked->named.block
        || named.ratio != asked->named.ratio) {
        ask(one, named, &other);
        asked = &other;
    }
    return text_by(rule, asked, minutes, wrong) != length
        || memcmp(wrong, right, length) != 0;
}

/* ---- Answers and what is named ---------------------------------------- */

struct tally {
    const char *what;
    unsigned long cases;
};

static void count_if(bool holds, struct tally *tally)
{
    tally->cases += holds;
}

enum { LAST_REFUSAL = OVER_TABLE };

static unsigned long all_cases;
static unsigned long texts[KIND_POND + 1], refused[LAST_REFUSAL + 1];
static unsigned long places[RATIO_LIMIT];

enum naming {
    BLOCK_0,
    LAST_BY_NUMBER,
    RATIO_0_OF_SEVERAL,
    RATIO_0_NO_JR,
    RATIO_1_NO_JR,
    BLOCK_ABOVE,
    RATIO_ABOVE,
    BOTH_ABOVE,
    RATIO_ABOVE_NO_JR,
    FAR_ABOVE,
    ABOVE_AND_REFUSED,
    NAMINGS
};

static struct tally namings[NAMINGS] = {
    [BLOCK_0].what = "block 0 of several, a text",
    [LAST_BY_NUMBER].what = "the last of several by its number, a text",
    [RATIO_0_OF_SEVERAL].what = "ratio 0 of several that differ, a text",
    [RATIO_0_NO_JR].what = "ratio 0 without JR, a text",
    [RATIO_1_NO_JR].what = "ratio 1 without JR, a text",
    [BLOCK_ABOVE].what = "block one above the count, refused by 17",
    [RATIO_ABOVE].what = "ratio one above the count, refused by 17",
    [BOTH_ABOVE].what = "both, refused by 17",
    [RATIO_ABOVE_NO_JR].what = "ratio 2 without JR, refused by 17",
    [FAR_ABOVE].what = "block over 200 or ratio over 9, refused by 17",
    [ABOVE_AND_REFUSED].what = "the same in a deck that is refused otherwise"
};

static void count_answer(const struct asked *asked)
{
    all_cases++;
    if (asked->answer.refusal != ACCEPTED)
        refused[asked->answer.refusal]++;
    else
        texts[asked->kind]++;
}

static void count_text_names(const struct asked *asked)
{
    const struct answer *answer = &asked->answer;
    const struct ratios *ratios = &answer->ratios;
    bool zero = asked->named.ratio == 0, several = answer->blocks > 1;

    count_if(several && asked->named.block == 0, &namings[BLOCK_0]);
    count_if(several && asked->named.block == answer->blocks,
             &namings[LAST_BY_NUMBER]);
    count_if(zero && ratios->value[0] != ratios->value[ratios->count - 1],
             &namings[RATIO_0_OF_SEVERAL]);
    count_if(zero && !ratios->given, &namings[RATIO_0_NO_JR]);
    count_if(!zero && !ratios->given, &namings[RATIO_1_NO_JR]);
    if (!zero && ratios->given)
        places[asked->ratio - 1]++;
}

/* A case that is refused by 17 says no counts: the deck is asked once more. */
static void count_above(const struct named_case *one, struct named named)
{
    static struct asked last;
    bool block, ratio;

    ask(one, (struct named){ 0, 0 }, &last);
    block = named.block == last.answer.blocks + UINT64_C(1);
    ratio = named.ratio == last.answer.ratios.count + UINT64_C(1);
    count_if(block && !ratio, &namings[BLOCK_ABOVE]);
    count_if(ratio && !block, &namings[RATIO_ABOVE]);
    count_if(block && ratio, &namings[BOTH_ABOVE]);
    count_if(ratio && !last.answer.ratios.given, &namings[RATIO_ABOVE_NO_JR]);
    count_if(above_all_counts(named), &namings[FAR_ABOVE]);
}

static void count_names(const struct named_case *one,
                        const struct asked *asked)
{
    if (asked->answer.refusal == ACCEPTED)
        count_text_names(asked);
    else if (asked->answer.refusal == SHORT_RESULT_ROOM)
        count_above(one, asked->named);
    else
        count_if(above_all_counts(asked->named), &namings[ABOVE_AND_REFUSED]);
}

/* ---- Edges of a text -------------------------------------------------- */

enum edge {
    ONE_LINE,
    MOST_LINES,
    OTHER_MINUTES,
    MOST_MINUTES,
    FIXED_IT,
    FREE_IT,
    IT_BEHIND,
    NO_FLOW,
    ZEROS_BEHIND,
    HALF_OF_RUNOFF,
    HALF_OF_CONFLUENCE,
    HALF_OF_ROUTING,
    HALF_OF_POND,
    BELOW_HALF,
    ABOVE_HALF,
    HIDDEN_FLOW,
    UP_TO_WHOLE,
    NOT_UP_TO_WHOLE,
    AT_LIMIT,
    LATE_BLOCK,
    LONGEST_DECK,
    EDGES
};

static struct tally edges[EDGES] = {
    [ONE_LINE].what = "NQ of 1",
    [MOST_LINES].what = "NQ of 300",
    [OTHER_MINUTES].what = "another interval than 60 minutes",
    [MOST_MINUTES].what = "NQ of 300 and intervals of 1,440 minutes",
    [FIXED_IT].what = "IT in fixed form",
    [FREE_IT].what = "IT in free form",
    [IT_BEHIND].what = "a line behind ZZ that would be an IT",
    [NO_FLOW].what = "no flow at all",
    [ZEROS_BEHIND].what = "a flow, and intervals without any at the end",
    [HALF_OF_RUNOFF].what = "a flow of runoff at half a millionth, rounded up",
    [HALF_OF_CONFLUENCE].what = "one of a confluence",
    [HALF_OF_ROUTING].what = "one of a routing",
    [HALF_OF_POND].what = "one of a pond",
    [BELOW_HALF].what = "a flow one unit below a half",
    [ABOVE_HALF].what = "a flow one unit above a half",
    [HIDDEN_FLOW].what = "a flow above 0 that six places show as 0",
    [UP_TO_WHOLE].what = "a flow rounded up to whole cfs",
    [NOT_UP_TO_WHOLE].what = "a flow of 31 units less than whole cfs",
    [AT_LIMIT].what = "a flow at the limit",
    [LATE_BLOCK].what = "the 128th block or a later one",
    [LONGEST_DECK].what = "a deck of 60,000 bytes"
};

/* A text's edges are first seen, then counted: each once in a text. */
static void see_flow(uint64_t flow, enum kind kind, bool *seen)
{
    static const enum edge half_of[] = {
        [KIND_RUNOFF] = HALF_OF_RUNOFF,
        [KIND_CONFLUENCE] = HALF_OF_CONFLUENCE,
        [KIND_ROUTING] = HALF_OF_ROUTING,
        [KIND_POND] = HALF_OF_POND
    };
    uint64_t rest = flow % UNITS_PER_MILLIONTH, part = flow % UNITS_PER_CFS;

    if (rest == 30)         /* inflows are of whole hundredths */
        seen[half_of[kind]] = true;
    seen[BELOW_HALF] |= rest == 29;
    seen[ABOVE_HALF] |= rest == 31;
    seen[HIDDEN_FLOW] |= flow > 0 && flow < 30;
    seen[UP_TO_WHOLE] |= part >= UNITS_PER_CFS - 30;
    seen[NOT_UP_TO_WHOLE] |= part == UNITS_PER_CFS - 31;
    seen[AT_LIMIT] |= flow == FLOW_LIMIT;
}

static void count_edges(const struct named_case *one,
                        const struct asked *asked, const struct frame *frame)
{
    unsigned nq = asked->answer.nq;
    bool seen[EDGES] = {
        [ONE_LINE] = nq == 1,
        [MOST_LINES] = nq == ORDINATE_LIMIT,
        [OTHER_MINUTES] = frame->minutes != 60,
        [MOST_MINUTES] = nq == ORDINATE_LIMIT && frame->minutes == 1440,
        [FIXED_IT] = !frame->free_form,
        [FREE_IT] = frame->free_form,
        [IT_BEHIND] = frame->it_behind,
        [NO_FLOW] = true,
        [LATE_BLOCK] = asked->named.block >= 128,
        [LONGEST_DECK] = one->length == DECK_LIMIT
    };

    for (unsigned k = 0; k < nq; k++) {
        seen[NO_FLOW] &= asked->flow[k] == 0;
        see_flow(asked->flow[k], asked->kind, seen);
    }
    seen[ZEROS_BEHIND] = !seen[NO_FLOW] && asked->flow[nq - 1] == 0;
    for (unsigned k = 0; k < EDGES; k++)
        count_if(seen[k], &edges[k]);
}

/* ---- The cases -------------------------------------------------------- */

static void look_at(const struct named_case *one, bool text_alone)
{
    static struct asked asked;
    static char right[TEXT_ROOM];
    struct frame frame = { 0 };
    size_t length;

    ask(one, one->named, &asked);
    if (asked.answer.refusal == ACCEPTED)
        see_cards(one, &frame);
    length = text_by(&right_rule, &asked, frame.minutes, right);
    if (text_alone) {
        fwrite(right, 1, length, stdout);
        puts("--");
        return;
    }
    count_answer(&asked);
    count_names(one, &asked);
    if (asked.answer.refusal == ACCEPTED)
        count_edges(one, &asked, &frame);
    for (unsigned k = 0; k < WRONG_RULES; k++)
        wrong_rules[k].cases += tells_apart(one, &asked, frame.minutes,
                                            &wrong_rules[k].rule, right,
                                            length);
}

/* Prints a count and returns whether it is missing. */
static bool print_count(unsigned long cases, const char *what)
{
    printf("%8lu  %s%s\n", cases, what, cases == 0 ? ": MISSING" : "");
    return cases == 0;
}

static bool print_numbered(unsigned long cases, const char *what,
                           unsigned number)
{
    char text[40];

    snprintf(text, sizeof text, "%s %u", what, number);
    return print_count(cases, text);
}

static unsigned print_tallies(const struct tally *tallies, unsigned count)
{
    unsigned missing = 0;

    for (unsigned k = 0; k < count; k++)
        missing += print_count(tallies[k].cases, tallies[k].what);
    return missing;
}

/* No deck is refused by 1 here: work words are always enough. */
static unsigned print_all(void)
{
    unsigned missing = 0;

    puts("   cases  of the hydrograph");
    missing += print_count(all_cases, "all");
    for (unsigned k = KIND_RUNOFF; k <= KIND_POND; k++)
        missing += print_numbered(texts[k], "texts, kind", k);
    for (unsigned k = LONG_DECK; k <= LAST_REFUSAL; k++)
        missing += print_numbered(refused[k], "refused by", k);
    puts("   cases  that name");
    missing += print_tallies(namings, NAMINGS);
    for (unsigned k = 0; k < RATIO_LIMIT; k++)
        missing += print_numbered(places[k], "by its number, a text, ratio",
                                  k + 1);
    puts("   cases  texts with");
    missing += print_tallies(edges, EDGES);
    puts("   cases  to which a wrong rule gives another text");
    for (unsigned k = 0; k < WRONG_RULES; k++)
        missing += print_count(wrong_rules[k].cases, wrong_rules[k].what);
    return missing;
}

int main(int argc, char **argv)
{
    static struct named_case one;
    bool text_alone = argc == 2 && strcmp(argv[1], "--text") == 0;

    if (argc > 1 && !text_alone) {
        fputs("hydrographs: unknown option\n", stderr);
        return 2;
    }
    while (next_named("hydrographs", &one))
        look_at(&one, text_alone);
    return text_alone ? 0 : print_all() > 0;
}
