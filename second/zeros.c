/* Counts what the decks of a bundle tell about zeros at the end of a number's
 * fraction (document 02, CR 7): in which fields such zeros stand past the places
 * of the record, how the numbers are written, how many decks a wrong rule would
 * answer otherwise, and what numbers are refused for.
 *
 *   zeros < BUNDLE
 *   zeros --pairs < PAIRS
 *
 * The bundle is what hec1 --bundle reads.  With --pairs its decks are taken two
 * by two, as the deck writer's pairs are, and the pairs are counted in which
 * such zeros stand in one deck or in both.  Exit status 0; 1 when one of the
 * counts is too small, which the line then says, or when a number is not read by
 * the rule as it is stated here; 2 when the input is cut short or the word is
 * unknown.
 *
 * The engine's source is a part of this one, as in losses.c.  So is that of
 * cards, with its reader of numbers under another name: the one that the engine
 * calls here works by the rule that is in force, which is the right one or a
 * wrong one. */
#define read_number read_right_number
#include "cards.c"
#undef read_number

static bool read_number(struct text field, unsigned places, int64_t *value);

#include "engine.c"

#include "bundle.h"

#include <stdio.h>

/* A count, and how much it is to be at least. */
struct tally {
    const char *what;
    unsigned long least;
    unsigned long count;
};

/* ---- How a number is written ------------------------------------------ */

/* The digits of a field in their order; number is false where the field is no
 * number, however many digits that may have. */
struct spelling {
    bool number;
    bool negative;
    bool point;
    unsigned digits;
    unsigned places;            /* of them, behind the point */
    unsigned zeros;             /* of these, zeros at the end */
    uint8_t digit[LINE_LIMIT];
};

static struct spelling spell(struct text field)
{
    struct spelling s = { 0 };
    unsigned k = field.length > 0
        && (field.at[0] == '+' || field.at[0] == '-');

    s.negative = k > 0 && field.at[0] == '-';
    for (; k < field.length; k++) {
        uint8_t byte = field.at[k];
        if (byte == '.' && !s.point) {
            s.point = true;
        } else if (is_digit(byte)) {
            s.digit[s.digits++] = (uint8_t)(byte - '0');
            s.places += s.point;
        } else {
            return s;
        }
    }
    s.number = s.digits > 0;
    while (s.zeros < s.places && s.digit[s.digits - 1 - s.zeros] == 0)
        s.zeros++;
    return s;
}

static unsigned whole_digits(const struct spelling *s)
{
    return s->digits - s->places;
}

static bool is_zero(const struct spelling *s)
{
    for (unsigned k = 0; k < s->digits; k++)
        if (s->digit[k] != 0)
            return false;
    return true;
}

/* ---- Rules ------------------------------------------------------------ */

/* A rule is the right one but for what is set here. */
struct zero_rule {
    bool whole_too;             /* zeros before the point come off */
    bool inner_too;             /* all zeros of the fraction come off */
    bool left_counted;          /* the digit limit counts what is left */
    bool cut;                   /* places too many are cut, whatever they are */
    bool value_kept;            /* the places are shortened, not the value */
    bool places_kept;           /* the value is shortened, not the places */
    bool as_written;            /* nothing comes off */
    bool one_alone;             /* one zero comes off */
    bool one_kept;              /* one place is left where there was any */
    bool minus;                 /* minus zero with zeros is below 0 */
    bool digit_asked;           /* a digit must be left */
};

static const struct zero_rule right_rule;
static const struct zero_rule *rule = &right_rule;

/* A wrong rule is told apart by some decks at least, not by one alone. */
enum { LEAST_DECKS = 10 };

/* Its count is of the decks that a rule answers otherwise. */
static struct wrong_rule {
    struct zero_rule rule;
    struct tally decks;
} wrong_rules[] = {
    { { .whole_too = true },
      { "(a) zeros before the point taken off, 100 read as 1", LEAST_DECKS, 0 } },
    { { .inner_too = true },
      { "(b) all zeros of the fraction taken off, 1.05 read as 1.5",
        LEAST_DECKS, 0 } },
    { { .left_counted = true },
      { "(c) the digit limit counted without the zeros", LEAST_DECKS, 0 } },
    { { .cut = true },
      { "(d) places too many cut, 60.5 read as 60", LEAST_DECKS, 0 } },
    { { .value_kept = true },
      { "(e) the places alone shortened, 1.50 read as 15.0", LEAST_DECKS, 0 } },
    { { .places_kept = true },
      { "(f) the value alone shortened, 1.50 read as 0.15", LEAST_DECKS, 0 } },
    { { .as_written = true },
      { "(g) places counted as written, the rule of document 01",
        LEAST_DECKS, 0 } },
    { { .one_alone = true },
      { "(h) one zero taken off and no more", LEAST_DECKS, 0 } },
    { { .one_kept = true },
      { "(i) one place always left, 60.0 not whole", LEAST_DECKS, 0 } },
    { { .minus = true },
      { "(j) -0.0 taken for a negative number", LEAST_DECKS, 0 } },
    { { .digit_asked = true },
      { "(k) a digit asked for behind the zeros, .0 malformed",
        LEAST_DECKS, 0 } }
};

enum { WRONG_RULES = sizeof wrong_rules / sizeof *wrong_rules };

/* The rule of document 01, by which pairs are told apart. */
static const struct zero_rule former_rule = { .as_written = true };

/* How many zeros the rule in force takes off. */
static unsigned zeros_off(const struct spelling *s)
{
    if (rule->as_written)
        return 0;
    if (rule->one_alone && s->zeros > 1)
        return 1;
    if (rule->one_kept && s->zeros > 0 && s->zeros == s->places)
        return s->zeros - 1;
    return s->zeros;
}

/* Drops every zero of the fraction, wherever it stands. */
static void drop_inner_zeros(struct spelling *s)
{
    unsigned kept = whole_digits(s);

    for (unsigned k = kept; k < s->digits; k++)
        if (s->digit[k] != 0)
            s->digit[kept++] = s->digit[k];
    s->places -= s->digits - kept;
    s->digits = kept;
    s->zeros = 0;
}

/* The first so many digits, of which so many are places, in units of the last
 * place allowed. */
static int64_t value_of(const struct spelling *s, unsigned digits,
                        unsigned places, unsigned allowed)
{
    int64_t number = 0;

    for (unsigned k = 0; k < digits; k++)
        number = number * 10 + s->digit[k];
    for (; places < allowed; places++)
        number *= 10;
    return s->negative ? -number : number;
}

static bool read_by_rule(struct text field, unsigned allowed, int64_t *value)
{
    struct spelling s = spell(field);

    *value = 0;
    if (field.length == 0)
        return true;
    if (!s.number || (s.digits > DIGIT_LIMIT && !rule->left_counted))
        return false;
    if (rule->inner_too)
        drop_inner_zeros(&s);

    unsigned off = zeros_off(&s);
    unsigned digits = s.digits - off;
    unsigned places = s.places - off;

    if (digits > DIGIT_LIMIT || (rule->digit_asked && digits == 0))
        return false;
    if (rule->cut && places > allowed) {
        digits -= places - allowed;
        places = allowed;
    }
    if (places > allowed || (rule->places_kept && s.places > allowed))
        return false;
    while (rule->whole_too && places == 0 && digits > 0
           && s.digit[digits - 1] == 0)
        digits--;
    if (rule->value_kept)
        digits = s.digits;
    if (rule->places_kept)
        places = s.places;
    *value = value_of(&s, digits, places, allowed);
    if (rule->minus && s.negative && *value == 0 && s.zeros > 0)
        *value = -1;
    return true;
}

/* Numbers that the reader reads otherwise than the right rule says as it is
 * stated here. */
static unsigned long misread;

static bool read_number(struct text field, unsigned places, int64_t *value)
{
    int64_t stated;

    if (rule != &right_rule)
        return read_by_rule(field, places, value);

    bool read = read_right_number(field, places, value);
    misread += read != read_by_rule(field, places, &stated)
        || (read && stated != *value);
    return read;
}

/* ---- Where numbers stand ---------------------------------------------- */

/* The columns of counts of a place. */
enum column { FIXED_FORM, FREE_FORM, PLACES_LEFT, OUTSIDE, COLUMNS };

/* Fields are counted from 0 here; a list has all that are left of a line.  The
 * counts are of decks. */
static struct place {
    const char *what;
    enum record record;
    unsigned first;
    unsigned last;
    const struct rule *rule;
    unsigned long decks[COLUMNS];
} places[] = {
    { "IT, field 1", REC_IT, 0, 0, &IT_FORM.rule[0], { 0 } },
    { "IT, field 4", REC_IT, 3, 3, &IT_FORM.rule[3], { 0 } },
    { "JR, a ratio", REC_JR, 1, 9, &JR_FORM.rule[1], { 0 } },
    { "BA", REC_BA, 0, 0, &BA_FORM.rule[0], { 0 } },
    { "PB", REC_PB, 0, 0, &PB_FORM.rule[0], { 0 } },
    { "PI", REC_PI, 0, 9, &PI_FORM.rule[0], { 0 } },
    { "LU, field 1", REC_LU, 0, 0, &LU_FORM.rule[0], { 0 } },
    { "LU, field 2", REC_LU, 1, 1, &LU_FORM.rule[1], { 0 } },
    { "LU, field 3", REC_LU, 2, 2, &LU_FORM.rule[2], { 0 } },
    { "UI", REC_UI, 0, 9, &UI_FORM.rule[0], { 0 } },
    { "QI", REC_QI, 0, 9, &QI_FORM.rule[0], { 0 } },
    { "HC", REC_HC, 0, 0, &HC_FORM.rule[0], { 0 } },
    { "RM, field 1", REC_RM, 0, 0, &RM_FORM.rule[0], { 0 } },
    { "RM, field 2", REC_RM, 1, 1, &RM_FORM.rule[1], { 0 } },
    { "RM, field 3", REC_RM, 2, 2, &RM_FORM.rule[2], { 0 } },
    { "RS, field 1", REC_RS, 0, 0, &RS_FORM.rule[0], { 0 } },
    { "RS, field 3", REC_RS, 2, 2, &RS_FORM.rule[2], { 0 } },
    { "SV", REC_SV, 0, 9, &SV_FORM.rule[0], { 0 } },
    { "SQ", REC_SQ, 0, 9, &SQ_FORM.rule[0], { 0 } }
};

enum { PLACES = sizeof places / sizeof *places };

/* NULL: no number stands in that field. */
static struct place *place_of(enum record record, unsigned field)
{
    for (unsigned k = 0; k < PLACES; k++)
        if (places[k].record == record && field >= places[k].first
            && field <= places[k].last)
            return &places[k];
    return NULL;
}

/* Whether a field may hold what is no number: the fields of IT that nobody
 * reads and the words of JR and RS. */
static bool is_no_number(enum record record, unsigned field)
{
    return (record == REC_IT && (field == 1 || field == 2))
        || (record == REC_JR && field == 0) || (record == REC_RS && field == 1);
}

/* A number on a line, and where it stands. */
struct written {
    struct spelling spelling;
    struct place *place;
    int64_t value;
    bool past;                  /* zeros past the places */
    bool full;                  /* its field of the fixed form is filled */
};

/* ---- Numbers of accepted decks ---------------------------------------- */

enum edge {
    WITHIN,
    NINE_DIGITS,
    NO_WHOLE_DIGIT,
    MINUS_ZERO,
    ZERO_PAST,
    BARE_POINT,
    LEADING_ZEROS,
    WHOLE_ZEROS,
    INNER_ZERO,
    MANY_PAST,
    AT_MOST,
    AT_LEAST,
    FULL_FIELD,
    EDGES
};

static struct tally edges[EDGES] = {
    [WITHIN] = { "zeros at the end, none past the places, as 1.50 on UI", 1, 0 },
    [NINE_DIGITS] = { "zeros past the places, nine digits", 1, 0 },
    [NO_WHOLE_DIGIT] = { "no digit but zeros behind the point, as .0", 1, 0 },
    [MINUS_ZERO] = { "minus zero with zeros, as -0.0", 1, 0 },
    [ZERO_PAST] = { "zero past the places, as 0.000 on UI", 1, 0 },
    [BARE_POINT] = { "a bare point, as 5.", 1, 0 },
    [LEADING_ZEROS] = { "zeros at both ends, as 00.50", 1, 0 },
    [WHOLE_ZEROS] = { "zeros on both sides of the point, as 10.0", 1, 0 },
    [INNER_ZERO] = { "a zero among the places, and zeros past them, as 1.0500",
                     1, 0 },
    [MANY_PAST] = { "four zeros or more past the places", 1, 0 },
    [AT_MOST] = { "the highest value, above 0, and zeros past the places", 1, 0 },
    [AT_LEAST] = { "the lowest value, above 0, and zeros past the places", 1, 0 },
    [FULL_FIELD] = { "a field of the fixed form filled by zeros past the places",
                     1, 0 }
};

/* What one deck has, so that it is counted once. */
struct found {
    bool place[PLACES][2];
    bool edge[EDGES];
};

/* A zero behind the point with another digit than zero behind it. */
static bool has_inner_zero(const struct spelling *s)
{
    for (unsigned k = whole_digits(s); k + s->zeros < s->digits; k++)
        if (s->digit[k] == 0)
            return true;
    return false;
}

static void find_edges(const struct written *w, struct found *found)
{
    const struct spelling *s = &w->spelling;
    const struct rule *limits = w->place->rule;
    unsigned whole = whole_digits(s);
    bool zero = is_zero(s);
    bool *edge = found->edge;

    edge[WITHIN] |= s->zeros > 0 && !w->past;
    edge[NINE_DIGITS] |= w->past && s->digits == DIGIT_LIMIT;
    edge[NO_WHOLE_DIGIT] |= zero && whole == 0;
    edge[MINUS_ZERO] |= zero && s->negative && s->zeros > 0;
    edge[ZERO_PAST] |= zero && w->past && whole > 0;
    edge[BARE_POINT] |= s->point && s->places == 0;
    edge[LEADING_ZEROS] |= s->zeros > 0 && whole > 1 && s->digit[0] == 0;
    edge[WHOLE_ZEROS] |= !zero && s->zeros > 0 && s->zeros == s->places
        && whole > 0 && s->digit[whole - 1] == 0;
    edge[INNER_ZERO] |= w->past && has_inner_zero(s);
    edge[MANY_PAST] |= w->past && s->places >= limits->places + 4u;
    edge[AT_MOST] |= w->past && limits->high > 0 && w->value == limits->high;
    edge[AT_LEAST] |= w->past && limits->low > 0 && w->value == limits->low;
    edge[FULL_FIELD] |= w->past && w->full;
}

static struct written written_at(const struct fields *fields, unsigned k,
                                 struct place *place, bool free_form)
{
    struct written w = {
        spell(fields->at[k]), place, 0, false,
        !free_form && fields->at[k].length
                      == FIELD_WIDTH - (k == 0 ? IDENTIFIER_WIDTH : 0u)
    };

    w.past = w.spelling.places > place->rule->places
          && w.spelling.places - w.spelling.zeros <= place->rule->places;
    read_right_number(fields->at[k], place->rule->places, &w.value);
    return w;
}

static void look_at_line(enum record record, struct text line, bool free_form,
                         struct found *found)
{
    struct fields fields;

    split_fields(line, free_form, &fields);
    for (unsigned k = 0; k < fields.count; k++) {
        struct place *place = place_of(record, k);
        if (place == NULL || fields.at[k].length == 0)
            continue;
        struct written w = written_at(&fields, k, place, free_form);
        if (w.past)
            found->place[place - places][free_form] = true;
        find_edges(&w, found);
    }
}

/* ---- Lines of refused decks ------------------------------------------- */

enum fault {
    TEN_DIGITS,
    WHOLE_DUE,
    LEFT_BEHIND_ZERO,
    LEFT_BEFORE_ZERO,
    ABOVE,
    ZERO_BELOW,
    NEGATIVE,
    FAULTS
};

static struct tally faults[FAULTS] = {
    [TEN_DIGITS] = { "6: ten digits or more, nine or fewer without the zeros",
                     LEAST_DECKS, 0 },
    [WHOLE_DUE] = { "6: a place left where a whole number is due, as 60.5", 1, 0 },
    [LEFT_BEHIND_ZERO] = { "6: a place too many behind a zero, as 1.001 on BA",
                           1, 0 },
    [LEFT_BEFORE_ZERO] = { "6: a place too many before zeros, as 1.0010 on BA",
                           1, 0 },
    [ABOVE] = { "7: above the limit, and zeros past the places, as 20.00010 on PI",
                1, 0 },
    [ZERO_BELOW] = { "7: zero below the limit, and zeros past the places, as 0.000 on BA",
                     1, 0 },
    [NEGATIVE] = { "7: negative, and zeros past the places, as -1.000 on UI",
                   1, 0 }
};

/* A number alone is why its line is refused with 6. */
static void count_malformed(const struct written *w)
{
    const struct spelling *s = &w->spelling;
    unsigned allowed = w->place->rule->places;
    unsigned left = s->places - s->zeros;

    if (!s->number)
        return;
    if (s->digits > DIGIT_LIMIT) {
        faults[TEN_DIGITS].count += left <= allowed
            && s->digits - s->zeros <= DIGIT_LIMIT;
        return;
    }
    w->place->decks[PLACES_LEFT]++;
    faults[WHOLE_DUE].count += allowed == 0;
    faults[LEFT_BEHIND_ZERO].count += allowed > 0 && left == allowed + 1
        && s->digit[s->digits - s->zeros - 2] == 0;
    faults[LEFT_BEFORE_ZERO].count += s->zeros > 0;
}

/* Finds the one number for which a line is refused with 6.  False where there
 * are several, or where it is refused for something else. */
static bool find_malformed(enum record record, const struct fields *fields,
                           bool free_form, struct written *found)
{
    unsigned count = 0;
    int64_t value;

    for (unsigned k = 0; k < fields->count; k++) {
        struct place *place = place_of(record, k);
        if (place == NULL && !is_no_number(record, k)
            && fields->at[k].length > 0)
            return false;
        if (place != NULL && !read_right_number(fields->at[k],
                                                place->rule->places, &value)) {
            *found = written_at(fields, k, place, free_form);
            count++;
        }
    }
    return count == 1;
}

/* Numbers outside their limits, on a line that is refused with 7; it counts
 * once for each place and for each fault. */
static void count_outside(enum record record, const struct fields *fields,
                          bool free_form)
{
    bool here[PLACES] = { false };
    bool above = false, zero = false, negative = false;

    for (unsigned k = 0; k < fields->count; k++) {
        struct place *place = place_of(record, k);
        if (place == NULL)
            continue;
        struct written w = written_at(fields, k, place, free_form);
        if (!w.past || within(w.value, place->rule))
            continue;
        here[place - places] = true;
        above = above || w.value > place->rule->high;
        zero = zero || w.value == 0;
        negative = negative || w.value < 0;
    }
    for (unsigned k = 0; k < PLACES; k++)
        places[k].decks[OUTSIDE] += here[k];
    faults[ABOVE].count += above;
    faults[ZERO_BELOW].count += zero;
    faults[NEGATIVE].count += negative;
}

static void look_at_refused_line(enum refusal refusal, struct text line,
                                 bool free_form)
{
    enum record record = identify(line);
    struct fields fields;
    struct written w = { 0 };

    if (!split_fields(line, free_form, &fields))
        return;
    if (refusal == OUT_OF_LIMITS)
        count_outside(record, &fields, free_form);
    else if (find_malformed(record, &fields, free_form, &w))
        count_malformed(&w);
}

/* ---- The bundle ------------------------------------------------------- */

/* Looks at the lines of a deck up to ZZ, or at the one that it is refused at. */
static void look_at_lines(const uint8_t *deck, size_t length,
                          const struct answer *answer)
{
    struct reader reader = { deck, deck + length, 0 };
    struct found found = { 0 };
    struct text line;
    bool free_form = false;

    while (next_line(&reader, &line) == LINE_READ) {
        enum record record = line.length > 0 ? identify(line) : REC_UNKNOWN;
        if (answer->refusal != ACCEPTED && reader.line == answer->line) {
            look_at_refused_line((enum refusal)answer->refusal, line,
                                 free_form);
            return;
        }
        if (record == REC_ZZ)
            break;
        if (record == REC_FREE || record == REC_FIX)
            free_form = record == REC_FREE;
        else if (answer->refusal == ACCEPTED)
            look_at_line(record, line, free_form, &found);
    }
    for (unsigned k = 0; k < PLACES; k++) {
        places[k].decks[FIXED_FORM] += found.place[k][false];
        places[k].decks[FREE_FORM] += found.place[k][true];
    }
    for (unsigned k = 0; k < EDGES; k++)
        edges[k].count += found.edge[k];
}

static bool same_answer(const struct answer *a, const struct answer *b)
{
    return a->refusal == b->refusal && a->line == b->line && a->nq == b->nq
        && a->blocks == b->blocks && a->ratios.count == b->ratios.count;
}

static struct answer run_by(const struct zero_rule *other, const uint8_t *deck,
                            size_t length, const struct room *room)
{
    struct answer answer;

    rule = other;
    answer = run_deck(deck, length, (struct named){ 0, 0 }, room);
    rule = &right_rule;
    return answer;
}

/* The deck's answers by the right rule and by each wrong one.  Only so many
 * bytes of the records as a deck fills are compared: all others are zero. */
static struct answer try_rules(const uint8_t *deck, size_t length,
                               const struct room *room)
{
    static uint8_t records[BLOCK_LIMIT * RATIO_LIMIT * RECORD_BYTES];
    struct answer right = run_by(&right_rule, deck, length, room);
    size_t filled = (size_t)right.blocks * right.ratios.count * RECORD_BYTES;

    memcpy(records, room->records, filled);
    for (unsigned k = 0; k < WRONG_RULES; k++) {
        struct answer wrong = run_by(&wrong_rules[k].rule, deck, length, room);
        wrong_rules[k].decks.count += !same_answer(&right, &wrong)
            || memcmp(records, room->records, filled) != 0;
    }
    return right;
}

static unsigned long all_decks, accepted_decks;

static void look_at_deck(const uint8_t *deck, size_t length,
                         const struct room *room)
{
    struct answer answer = try_rules(deck, length, room);

    accepted_decks += answer.refusal == ACCEPTED;
    if (answer.refusal == ACCEPTED || answer.refusal == MALFORMED
        || answer.refusal == OUT_OF_LIMITS)
        look_at_lines(deck, length, &answer);
}

/* ---- Pairs ------------------------------------------------------------ */

enum pair { BOTH_ACCEPTED, IN_NEITHER, IN_ONE, IN_BOTH, PAIRS };

static struct tally pairs[PAIRS] = {
    [BOTH_ACCEPTED] = { "both accepted", 1, 0 },
    [IN_NEITHER] = { "zeros past the places in neither", 1, 0 },
    [IN_ONE] = { "in one of the two, as 1.500 where the other has 1.5", 1, 0 },
    [IN_BOTH] = { "in both", 1, 0 }
};

static bool accepts(const struct zero_rule *by, const uint8_t *deck,
                    size_t length, const struct room *room)
{
    return run_by(by, deck, length, room).refusal == ACCEPTED;
}

/* A deck by itself: whether it is accepted, and whether it was formerly.  Where
 * zeros stand past the places, the former rule refuses what the right one
 * accepts. */
struct half {
    bool accepted;
    bool formerly;
};

static void count_pair(struct half a, struct half b)
{
    unsigned refused = !a.formerly + !b.formerly;

    if (!a.accepted || !b.accepted)
        return;
    pairs[BOTH_ACCEPTED].count++;
    pairs[refused == 0 ? IN_NEITHER : refused == 1 ? IN_ONE : IN_BOTH].count++;
}

static void look_at_half(const uint8_t *deck, size_t length,
                         const struct room *room)
{
    static struct half first;
    struct half this = {
        accepts(&right_rule, deck, length, room),
        accepts(&former_rule, deck, length, room)
    };

    if (all_decks % 2 == 1)
        first = this;
    else
        count_pair(first, this);
}

/* ---- What is printed -------------------------------------------------- */

/* Prints a count and returns whether it is too small. */
static unsigned print_count(const struct tally *tally)
{
    bool missing = tally->count < tally->least;

    printf("%8lu  %s%s\n", tally->count, tally->what,
           missing ? ": MISSING" : "");
    return missing;
}

static unsigned print_counts(const struct tally *tallies, unsigned count)
{
    unsigned missing = 0;

    for (unsigned k = 0; k < count; k++)
        missing += print_count(&tallies[k]);
    return missing;
}

static unsigned print_place(const struct place *place)
{
    bool missing = false;

    for (unsigned k = 0; k < COLUMNS; k++) {
        missing = missing || place->decks[k] == 0;
        printf("%8lu ", place->decks[k]);
    }
    printf(" %s%s\n", place->what, missing ? ": MISSING" : "");
    return missing;
}

static unsigned print_all(void)
{
    unsigned missing = 0;

    puts("   decks");
    printf("%8lu  all\n%8lu  accepted\n", all_decks, accepted_decks);
    puts("   decks  with zeros past the places, accepted in fixed and in free form; with a\n"
         "          place left, refused with 6; with zeros past the places, refused with 7");
    for (unsigned k = 0; k < PLACES; k++)
        missing += print_place(&places[k]);
    puts("   decks  accepted, with such a number");
    missing += print_counts(edges, EDGES);
    puts("   decks  refused for such a number");
    missing += print_counts(faults, FAULTS);
    puts("   decks  that a wrong rule would answer otherwise");
    for (unsigned k = 0; k < WRONG_RULES; k++)
        missing += print_count(&wrong_rules[k].decks);
    printf("%8lu  numbers read otherwise than by the right rule\n", misread);
    return missing;
}

static unsigned print_pairs(void)
{
    puts("   pairs");
    printf("%8lu  all\n", all_decks / 2);
    return print_counts(pairs, PAIRS);
}

int main(int argc, char **argv)
{
    static uint8_t deck[DECK_LIMIT];
    static uint64_t work[WORK_WORDS];
    static uint64_t ordinates[ORDINATE_LIMIT];
    static uint8_t records[BLOCK_LIMIT * RATIO_LIMIT * RECORD_BYTES];
    const struct room room = {
        work, WORK_WORDS, ordinates, ORDINATE_LIMIT, records, sizeof records
    };
    bool by_pairs = argc == 2 && strcmp(argv[1], "--pairs") == 0;
    size_t length;

    if (argc > 1 && !by_pairs) {
        fputs("zeros: --pairs is the only word\n", stderr);
        return 2;
    }
    while (next_deck("zeros", deck, &length)) {
        all_decks++;
        if (by_pairs)
            look_at_half(deck, length, &room);
        else if (length <= DECK_LIMIT)
            look_at_deck(deck, length, &room);
    }
    return (by_pairs ? print_pairs() : print_all()) > 0 || misread > 0;
}
