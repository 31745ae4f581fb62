/* Counts what cases of the reasons hold: how they are answered, which fields of
 * which records they are of, which edges they have, and which wrong rules they
 * tell from the right one.
 *
 *   reasons < CASES          counts
 *   reasons --text < CASES   the text of each case by the right rule, and '--'
 *
 * The cases are what hec1 --reason reads.  Each line of the counts is a number
 * of cases, or four of them, and what was counted.  Exit status 0; 1 when one of
 * the counts is 0, which the line then says; 2 when the input is cut short.
 *
 * Only the rows of records and their limits are those of the program.  Lines are
 * cut, numbers read and texts put together here by themselves, so that this and
 * reason.c can be held against each other. */
#include "bundle.h"
#include "records.h"

#include <inttypes.h>
#include <stdio.h>
#include <string.h>

/* ---- Rules ------------------------------------------------------------ */

enum which_limits {
    OWN_LIMITS,
    LIMITS_BEFORE,          /* those of the field before */
    LIMITS_BEHIND
};

/* A rule is the right one but for what is set here. */
struct reason_rule {
    bool last_field;
    bool from_0;
    bool left_as_written;       /* places told as they are written */
    bool refused_as_written;    /* and held against the limit so */
    bool trailing_blanks;       /* on JR, those that commas make */
    bool ratio_0;
    enum which_limits limits;
    bool both_numbers;
    bool malformed_is_0;
    bool missing_passed;        /* fields that the line does not have */
    bool rs_word_6;
    bool jr_word_7;
    bool eleventh;              /* for any field past the tenth */
    bool past_passed;
    bool any_digits;
    bool it_looked_at;          /* its fields 2 and 3 */
    bool name_cut;
    bool name_if_bad;
    bool behind;                /* foreign bytes behind the line count */
    bool only_7;                /* other numbers than 6 and 7 say nothing */
    bool only_1;                /* other forms than 1 are fixed */
    bool fixed_alone;
    bool blanks_kept;           /* around a field of the fixed form */
};

static const struct reason_rule right_rule;

/* Its count is of the cases to which a rule gives another text. */
static struct wrong_rule {
    struct reason_rule rule;
    const char *what;
    unsigned long cases;
} wrong_rules[] = {
    { { .last_field = true }, "(a) the last refused field for the first", 0 },
    { { .from_0 = true }, "(b) fields counted from 0", 0 },
    { { .left_as_written = true }, "(c) places told as they are written", 0 },
    { { .refused_as_written = true },
      "(d) places held against the limit as they are written", 0 },
    { { .trailing_blanks = true },
      "(e) blank fields at the end of JR looked at", 0 },
    { { .ratio_0 = true }, "(f) a ratio's lowest value 0", 0 },
    { { .limits = LIMITS_BEFORE }, "(g) the limits of the field before", 0 },
    { { .limits = LIMITS_BEHIND }, "(h) the limits of the field behind", 0 },
    { { .both_numbers = true }, "(i) what either number refuses", 0 },
    { { .malformed_is_0 = true }, "(j) a malformed field as 0 with 7", 0 },
    { { .missing_passed = true },
      "(k) fields that the line does not have passed over", 0 },
    { { .rs_word_6 = true }, "(l) another word on RS told with 6", 0 },
    { { .jr_word_7 = true }, "(m) another word on JR told with 7", 0 },
    { { .eleventh = true }, "(n) any field past the tenth as the eleventh", 0 },
    { { .past_passed = true }, "(o) fields past the tenth passed over", 0 },
    { { .any_digits = true }, "(p) any count of digits", 0 },
    { { .it_looked_at = true }, "(q) fields 2 and 3 of IT looked at", 0 },
    { { .name_cut = true }, "(r) a name cut behind six characters", 0 },
    { { .name_if_bad = true }, "(s) no text for a sound name", 0 },
    { { .behind = true }, "(t) a foreign byte behind the line counts", 0 },
    { { .only_7 = true }, "(u) nothing for other numbers than 6 and 7", 0 },
    { { .only_1 = true }, "(v) other forms than 0 and 1 as fixed", 0 },
    { { .fixed_alone = true }, "(w) the fixed form, whichever is named", 0 },
    { { .blanks_kept = true }, "(x) blanks around a fixed field kept", 0 }
};

enum { WRONG_RULES = sizeof wrong_rules / sizeof *wrong_rules };

/* ---- Lines ------------------------------------------------------------ */

enum {
    MOST_FIELDS = LINE_LIMIT,
    TEXT_ROOM = 300,
    NUMBER_6 = 6,
    NUMBER_7 = 7
};

/* A line cut into all its fields.  count is that without the blank ones at the
 * end, raw that with those which commas make. */
struct cut {
    unsigned count;
    unsigned raw;
    struct text at[MOST_FIELDS + 1];
};

enum state { NO_LINE, FOREIGN_BYTE, LONG_LINE, BLANK_LINE, A_LINE };

/* The first line: its bytes without its ending and trailing blanks. */
static enum state first_line(const uint8_t *bytes, size_t length,
                             struct text *line, size_t *behind)
{
    size_t n = 0, used;

    while (n < length && bytes[n] != '\n')
        n++;
    *behind = n;
    used = n;
    if (n < length && n > 0 && bytes[n - 1] == '\r')
        used--;
    *line = (struct text){ bytes, (unsigned)used };
    if (length == 0)
        return NO_LINE;
    for (size_t k = 0; k < used; k++)
        if (bytes[k] < ' ' || bytes[k] > '~')
            return FOREIGN_BYTE;
    if (used > LINE_LIMIT)
        return LONG_LINE;
    while (line->length > 0 && bytes[line->length - 1] == ' ')
        line->length--;
    return line->length == 0 ? BLANK_LINE : A_LINE;
}

static void trim(struct text *text)
{
    while (text->length > 0 && text->at[0] == ' ') {
        text->at++;
        text->length--;
    }
    while (text->length > 0 && text->at[text->length - 1] == ' ')
        text->length--;
}

static bool all_blank(struct text text)
{
    trim(&text);
    return text.length == 0;
}

static void cut_fixed(struct text line, bool keep, struct cut *cut)
{
    for (unsigned first = 2, k = 0; first < line.length; k++) {
        unsigned end = 8 * (k + 1);

        if (end > line.length)
            end = line.length;
        cut->at[k] = (struct text){ line.at + first, end - first };
        if (!keep || all_blank(cut->at[k]))
            trim(&cut->at[k]);
        if (cut->at[k].length > 0)
            cut->count = k + 1;
        first = end;
    }
    cut->raw = cut->count;
}

static void cut_free(struct text line, struct cut *cut)
{
    unsigned at = 2;
    bool open = false;          /* a field has to follow */

    while (at < line.length && line.at[at] == ' ')
        at++;
    while (at < line.length || open) {
        unsigned first = at;

        while (at < line.length && line.at[at] != ' ' && line.at[at] != ',')
            at++;
        cut->at[cut->raw++] = (struct text){ line.at + first, at - first };
        if (at > first)
            cut->count = cut->raw;
        while (at < line.length && line.at[at] == ' ')
            at++;
        open = at < line.length && line.at[at] == ',';
        at += open;
        while (at < line.length && line.at[at] == ' ')
            at++;
    }
}

/* ---- Numbers ---------------------------------------------------------- */

struct number {
    bool is_one;
    bool ten_digits;            /* or more: nothing else is wrong with it */
    unsigned written;           /* places */
    unsigned left;
    bool below;
    int64_t digits;             /* all of them as one number, up to 18 */
};

static struct number number_in(struct text field)
{
    struct number number = { 0 };
    unsigned digits = 0, zeros = 0, at = 0;
    bool point = false;

    if (field.length == 0)
        return (struct number){ .is_one = true };
    if (field.at[0] == '-' || field.at[0] == '+') {
        number.below = field.at[0] == '-';
        at++;
    }
    for (; at < field.length; at++) {
        uint8_t byte = field.at[at];

        if (byte == '.' && !point) {
            point = true;
        } else if (byte >= '0' && byte <= '9') {
            digits++;
            if (digits <= 18)
                number.digits = 10 * number.digits + (byte - '0');
            number.written += point;
            zeros = byte == '0' && point ? zeros + 1 : 0;
        } else {
            return number;
        }
    }
    number.left = number.written - zeros;
    number.ten_digits = digits > 9;
    number.is_one = digits > 0 && digits <= 9;
    return number;
}

/* In units of the last place allowed; what is left fits them. */
static int64_t value_of(const struct number *number, unsigned places)
{
    int64_t value = number->digits;

    for (unsigned k = number->written; k < places; k++)
        value *= 10;
    for (unsigned k = places; k < number->written; k++)
        value /= 10;
    return number->below ? -value : value;
}

/* ---- The text by a rule ----------------------------------------------- */

enum why {
    SOUND,
    BLANK,
    NUMBER,
    PLACES,
    LIMITS,
    WORD,
    WHYS
};

static const char *const why_word[WHYS] = {
    "", "BLANK", "NUMBER", "PLACES", "LIMITS", "WORD"
};

/* What a case comes to by a rule. */
struct found {
    enum state state;
    enum record record;
    bool free_form;
    struct text line;
    size_t behind;
    struct cut cut;
    unsigned number;            /* 6 or 7 */
    unsigned field;             /* from 0, of the text; or none */
    enum why why;
    bool other_number;          /* a field is refused by the other */
    size_t length;
    char text[TEXT_ROOM];
};

struct told {
    enum why why;
    unsigned refusal;
    unsigned left;
    struct rule rule;
};

static const struct rule unread_as_number = { A_NUMBER, 0, 0, 0 };

static const struct rule *own_rule(const struct reason_rule *by,
                                   const struct form *form, unsigned k)
{
    const struct rule *rule = rule_of(form, k), *other = NULL;

    if (by->limits == LIMITS_BEFORE && k > 0)
        other = rule_of(form, k - 1);
    if (by->limits == LIMITS_BEHIND)
        other = rule_of(form, k + 1);
    if (rule != NULL && rule->holds == A_NUMBER && other != NULL
        && other->holds == A_NUMBER)
        return other;
    if (by->it_looked_at && rule != NULL && rule->holds == ANYTHING)
        return &unread_as_number;
    return rule;
}

static void tell_number(const struct reason_rule *by, struct text field,
                        struct told *told)
{
    struct number number = number_in(field);
    unsigned counted = by->refused_as_written ? number.written : number.left;

    if (!number.is_one && !(by->any_digits && number.ten_digits)) {
        told->why = NUMBER;
    } else if (counted > told->rule.places) {
        told->why = PLACES;
        told->left = by->left_as_written || by->refused_as_written
                   ? number.written : number.left;
    } else if (!within(value_of(&number, told->rule.places), &told->rule)) {
        told->why = LIMITS;
    }
    told->refusal = told->why == LIMITS ? NUMBER_7
                  : told->why == SOUND ? 0 : NUMBER_6;
}

static void tell_word(const struct reason_rule *by, struct text field,
                      struct told *told)
{
    bool on_rs = told->rule.holds == A_LIMITED_WORD;
    const char *word = on_rs ? "STOR" : "PREC";

    if (field.length == 4 && memcmp(field.at, word, 4) == 0)
        return;
    told->why = WORD;
    if (on_rs)
        told->refusal = by->rs_word_6 ? NUMBER_6 : NUMBER_7;
    else
        told->refusal = by->jr_word_7 ? NUMBER_7 : NUMBER_6;
}

static struct told tell(const struct reason_rule *by, const struct form *form,
                        unsigned k, struct text field)
{
    const struct rule *rule = own_rule(by, form, k);
    struct told told = { 0 };

    if (rule == NULL) {
        if (field.length > 0 && !(by->past_passed && k >= FIELD_LIMIT)) {
            told.why = BLANK;
            told.refusal = NUMBER_6;
        }
        return told;
    }
    told.rule = *rule;
    if (by->ratio_0 && form == &JR_FORM && k > 0)
        told.rule.low = 0;
    if (rule->holds == A_NUMBER)
        tell_number(by, field, &told);
    else if (rule->holds != ANYTHING)
        tell_word(by, field, &told);
    return told;
}

static void put_field(const struct reason_rule *by, struct found *found,
                      unsigned k, struct text field, const struct told *told)
{
    char *at = found->text;
    unsigned number = by->eleventh && k >= FIELD_LIMIT ? FIELD_LIMIT : k;

    at += sprintf(at, "FIELD %u %s ", number + !by->from_0,
                  why_word[told->why]);
    if (told->why != BLANK)
        at += sprintf(at, "%u %" PRId64 " %" PRId64 " ", told->rule.places,
                      told->rule.low, told->rule.high);
    if (told->why == PLACES)
        at += sprintf(at, "%u ", told->left);
    memcpy(at, field.at, field.length);
    at += field.length;
    *at++ = '\n';
    found->length = (size_t)(at - found->text);
    found->field = k;
    found->why = told->why;
}

static void find_field(const struct reason_rule *by, const struct form *form,
                       struct found *found)
{
    struct cut *cut = &found->cut;
    unsigned count = cut->count;

    if (by->trailing_blanks && form == &JR_FORM && cut->raw > count)
        count = cut->raw < FIELD_LIMIT ? cut->raw : FIELD_LIMIT;
    for (unsigned k = 0; k < count || (k < form->least && !by->missing_passed);
         k++) {
        struct text field = { found->line.at, 0 };

        if (k < cut->count)
            field = cut->at[k];

        struct told told = tell(by, form, k, field);
        if (by->malformed_is_0 && found->number == NUMBER_7
            && (told.why == NUMBER || told.why == PLACES)) {
            told.why = within(0, &told.rule) ? SOUND : LIMITS;
            told.refusal = told.why == SOUND ? 0 : NUMBER_7;
        }
        if (told.refusal != 0 && told.refusal != found->number)
            found->other_number = true;
        if (told.refusal == found->number
            || (by->both_numbers && told.refusal != 0)) {
            put_field(by, found, k, field, &told);
            if (!by->last_field)
                return;
        }
    }
}

/* In the fixed form all of field 1, in the free form up to a blank or comma. */
static void find_name(const struct reason_rule *by, struct found *found)
{
    struct text name = found->line;
    bool sound = true;

    name.at += 2;
    name.length -= 2;
    if (!found->free_form && name.length > 6)
        name.length = 6;
    trim(&name);
    for (unsigned k = 0; k < name.length; k++) {
        if (found->free_form && (name.at[k] == ' ' || name.at[k] == ','))
            name.length = k;
        else if (name.at[k] == ' ')
            sound = false;
    }
    if (by->name_cut && name.length > NAME_LIMIT)
        name.length = NAME_LIMIT;
    if (by->name_if_bad && sound && name.length >= 1
        && name.length <= NAME_LIMIT)
        return;
    found->length = (size_t)sprintf(found->text, "NAME %.*s\n",
                                    (int)name.length, (const char *)name.at);
}

static void find(const struct reason_rule *by, const struct named_case *one,
                 struct found *found)
{
    size_t kept = one->length < DECK_LIMIT ? one->length : DECK_LIMIT;
    uint64_t form = one->named.ratio;
    const struct form *fields;

    *found = (struct found){ .number = NUMBER_7, .field = MOST_FIELDS };
    if (one->named.block == NUMBER_6)
        found->number = NUMBER_6;
    found->free_form = by->only_1 ? form == 1 : form != 0;
    if (by->fixed_alone)
        found->free_form = false;
    found->state = first_line(one->deck, kept, &found->line, &found->behind);
    if (found->state != A_LINE)
        return;
    for (size_t k = found->behind; by->behind && k < kept; k++)
        if (one->deck[k] > '~' || (one->deck[k] < ' ' && one->deck[k] != '\n'
                                   && one->deck[k] != '\r'))
            return;
    if (by->only_7 && one->named.block != NUMBER_6
        && one->named.block != NUMBER_7)
        return;
    found->record = identify(found->line);
    fields = form_of(found->record);
    if (found->record == REC_KK)
        find_name(by, found);
    if (fields == NULL)
        return;
    if (found->free_form)
        cut_free(found->line, &found->cut);
    else
        cut_fixed(found->line, by->blanks_kept, &found->cut);
    find_field(by, fields, found);
}

/* ---- Places ----------------------------------------------------------- */

/* A field, or the fields of a list, and the cases whose text is of it: by 6 in
 * fixed and free form, by 7 in both. */
enum { COLUMNS = 4 };

static struct place {
    const char *what;
    enum record record;
    unsigned first, last;
    const char *columns;        /* the ones that there can be */
    unsigned long cases[COLUMNS];
} places[] = {
    { "IT, field 1", REC_IT, 0, 0, "6677", { 0 } },
    { "IT, field 4", REC_IT, 3, 3, "6677", { 0 } },
    { "IT, behind", REC_IT, 4, 99, "66--", { 0 } },
    { "JR, the word", REC_JR, 0, 0, "66--", { 0 } },
    { "JR, first ratio", REC_JR, 1, 1, "6677", { 0 } },
    { "JR, another ratio", REC_JR, 2, 9, "6677", { 0 } },
    { "JR, behind", REC_JR, 10, 99, "-6--", { 0 } },
    { "BA", REC_BA, 0, 0, "6677", { 0 } },
    { "BA, behind", REC_BA, 1, 99, "66--", { 0 } },
    { "PB", REC_PB, 0, 0, "6677", { 0 } },
    { "PB, behind", REC_PB, 1, 99, "66--", { 0 } },
    { "LU, field 1", REC_LU, 0, 0, "6677", { 0 } },
    { "LU, field 2", REC_LU, 1, 1, "6677", { 0 } },
    { "LU, field 3", REC_LU, 2, 2, "6677", { 0 } },
    { "LU, behind", REC_LU, 3, 99, "66--", { 0 } },
    { "HC", REC_HC, 0, 0, "6677", { 0 } },
    { "HC, behind", REC_HC, 1, 99, "66--", { 0 } },
    { "RM, field 1", REC_RM, 0, 0, "6677", { 0 } },
    { "RM, field 2", REC_RM, 1, 1, "6677", { 0 } },
    { "RM, field 3", REC_RM, 2, 2, "6677", { 0 } },
    { "RM, behind", REC_RM, 3, 99, "66--", { 0 } },
    { "RS, field 1", REC_RS, 0, 0, "6677", { 0 } },
    { "RS, the word", REC_RS, 1, 1, "--77", { 0 } },
    { "RS, field 3", REC_RS, 2, 2, "6677", { 0 } },
    { "RS, behind", REC_RS, 3, 99, "66--", { 0 } },
    { "PI", REC_PI, 0, 9, "6677", { 0 } },
    { "UI", REC_UI, 0, 9, "6677", { 0 } },
    { "QI", REC_QI, 0, 9, "6677", { 0 } },
    { "SV", REC_SV, 0, 9, "6677", { 0 } },
    { "SQ", REC_SQ, 0, 9, "6677", { 0 } }
};

enum { PLACES_COUNTED = sizeof places / sizeof *places };

static void count_place(const struct found *found)
{
    unsigned column = 2 * (found->number == NUMBER_7) + found->free_form;

    for (unsigned k = 0; k < PLACES_COUNTED; k++)
        if (places[k].record == found->record && found->field >= places[k].first
            && found->field <= places[k].last)
            places[k].cases[column]++;
}

/* ---- Edges ------------------------------------------------------------ */

enum edge {
    NOTHING_NO_LINE,
    NOTHING_FOREIGN,
    NOTHING_81,
    NOTHING_BLANK,
    NOTHING_UNKNOWN,
    NOTHING_TEXT,
    NOTHING_CONTROL,
    NOTHING_SOUND,
    NOTHING_OTHER,
    NAME_FIXED,
    NAME_FREE,
    NAME_BLANK,
    NAME_INSIDE,
    NAME_LONG,
    WHY_BLANK,
    WHY_PAST,
    WHY_FAR,
    WHY_NUMBER,
    WHY_TEN_DIGITS,
    WHY_PLACES,
    WHY_ZEROS,
    WHY_NINE,
    WHY_ONE_BELOW,
    WHY_ONE_ABOVE,
    WHY_BELOW_0,
    WHY_BLANK_INSIDE,
    WHY_MISSING,
    WHY_WORD,
    WHY_NO_WORD,
    WHY_SHORT_WORD,
    WHY_LONG_WORD,
    TRAILING_BLANKS,
    MALFORMED_BEFORE,
    LINE_OF_80,
    NO_LF,
    WITH_CR,
    BYTES_BEHIND,
    FOREIGN_BEHIND,
    LONG_CASE,
    OTHER_NUMBER,
    OTHER_FORM,
    EDGES
};

static struct tally {
    const char *what;
    unsigned long cases;
} edges[EDGES] = {
    [NOTHING_NO_LINE].what = "nothing: no bytes",
    [NOTHING_FOREIGN].what = "nothing: a foreign byte",
    [NOTHING_81].what = "nothing: 81 bytes",
    [NOTHING_BLANK].what = "nothing: a blank line",
    [NOTHING_UNKNOWN].what = "nothing: an unknown identifier",
    [NOTHING_TEXT].what = "nothing: ID, KM or ZZ",
    [NOTHING_CONTROL].what = "nothing: a control",
    [NOTHING_SOUND].what = "nothing: no field is refused",
    [NOTHING_OTHER].what = "nothing: fields refused by the other number",
    [NAME_FIXED].what = "a name in fixed form",
    [NAME_FREE].what = "a name in free form",
    [NAME_BLANK].what = "a blank name",
    [NAME_INSIDE].what = "a name with a blank inside",
    [NAME_LONG].what = "a name of more than six characters",
    [WHY_BLANK].what = "BLANK, among ten fields",
    [WHY_PAST].what = "BLANK, the eleventh field",
    [WHY_FAR].what = "BLANK, a later one",
    [WHY_NUMBER].what = "NUMBER",
    [WHY_TEN_DIGITS].what = "NUMBER, ten digits or more",
    [WHY_PLACES].what = "PLACES, one too many",
    [WHY_ZEROS].what = "PLACES, and zeros at the end",
    [WHY_NINE].what = "PLACES, nine of them",
    [WHY_ONE_BELOW].what = "LIMITS, one unit too low",
    [WHY_ONE_ABOVE].what = "LIMITS, one unit too high",
    [WHY_BELOW_0].what = "LIMITS, below 0",
    [WHY_BLANK_INSIDE].what = "LIMITS, a blank field before others",
    [WHY_MISSING].what = "LIMITS, a field that the line does not have",
    [WHY_WORD].what = "WORD, one of four characters",
    [WHY_NO_WORD].what = "WORD, blank",
    [WHY_SHORT_WORD].what = "WORD, a shorter one",
    [WHY_LONG_WORD].what = "WORD, a longer one",
    [TRAILING_BLANKS].what = "a text, and blank fields at the end",
    [MALFORMED_BEFORE].what = "7, behind a field that is malformed",
    [LINE_OF_80].what = "a text, a line of 80 bytes",
    [NO_LF].what = "a text, no LF",
    [WITH_CR].what = "a text, CR LF",
    [BYTES_BEHIND].what = "a text, and bytes behind the line",
    [FOREIGN_BEHIND].what = "a text, and a foreign byte behind the line",
    [LONG_CASE].what = "more than 60,000 bytes",
    [OTHER_NUMBER].what = "a text, a number other than 6 and 7",
    [OTHER_FORM].what = "a text, a form other than 0 and 1"
};

static void count_if(bool holds, enum edge edge)
{
    edges[edge].cases += holds;
}

static void count_nothing(const struct found *found)
{
    bool text = found->record == REC_ID || found->record == REC_KM
             || found->record == REC_ZZ;
    bool control = found->record == REC_FREE || found->record == REC_FIX;
    bool line = found->state == A_LINE;

    count_if(found->state == NO_LINE, NOTHING_NO_LINE);
    count_if(found->state == FOREIGN_BYTE, NOTHING_FOREIGN);
    count_if(found->state == LONG_LINE && found->line.length == 81, NOTHING_81);
    count_if(found->state == BLANK_LINE, NOTHING_BLANK);
    count_if(line && found->record == REC_UNKNOWN, NOTHING_UNKNOWN);
    count_if(line && text, NOTHING_TEXT);
    count_if(line && control, NOTHING_CONTROL);
    if (line && form_of(found->record) != NULL)
        count_if(true, found->other_number ? NOTHING_OTHER : NOTHING_SOUND);
}

static void count_name(const struct found *found)
{
    struct text name = { (const uint8_t *)found->text + 5,
                         (unsigned)found->length - 6 };

    count_if(!found->free_form, NAME_FIXED);
    count_if(found->free_form, NAME_FREE);
    count_if(name.length == 0, NAME_BLANK);
    count_if(name.length > 0 && memchr(name.at, ' ', name.length) != NULL,
             NAME_INSIDE);
    count_if(name.length > NAME_LIMIT, NAME_LONG);
}

static void count_limits(const struct found *found, struct text field,
                         const struct rule *rule)
{
    struct number number = number_in(field);
    int64_t value = value_of(&number, rule->places);

    count_if(field.length > 0 && value == rule->low - 1, WHY_ONE_BELOW);
    count_if(value == rule->high + 1, WHY_ONE_ABOVE);
    count_if(value < 0, WHY_BELOW_0);
    count_if(field.length == 0 && found->field < found->cut.count,
             WHY_BLANK_INSIDE);
    count_if(found->field >= found->cut.count, WHY_MISSING);
}

static void count_field(const struct found *found)
{
    const struct cut *cut = &found->cut;
    unsigned k = found->field;
    struct text field = { found->line.at, 0 };
    const struct rule *rule = rule_of(form_of(found->record), k);

    if (k < cut->count)
        field = cut->at[k];

    struct number number = number_in(field);

    count_if(found->why == BLANK && k < FIELD_LIMIT, WHY_BLANK);
    count_if(found->why == BLANK && k == FIELD_LIMIT, WHY_PAST);
    count_if(found->why == BLANK && k > FIELD_LIMIT, WHY_FAR);
    count_if(found->why == NUMBER && !number.ten_digits, WHY_NUMBER);
    count_if(found->why == NUMBER && number.ten_digits, WHY_TEN_DIGITS);
    if (found->why == PLACES) {
        count_if(number.left == rule->places + 1, WHY_PLACES);
        count_if(number.written > number.left, WHY_ZEROS);
        count_if(number.left == 9, WHY_NINE);
    }
    if (found->why == LIMITS)
        count_limits(found, field, rule);
    if (found->why == WORD) {
        count_if(field.length == 4, WHY_WORD);
        count_if(field.length == 0, WHY_NO_WORD);
        count_if(field.length > 0 && field.length < 4, WHY_SHORT_WORD);
        count_if(field.length > 4, WHY_LONG_WORD);
    }
    count_if(cut->raw > cut->count, TRAILING_BLANKS);
    count_if(found->number == NUMBER_7 && found->other_number,
             MALFORMED_BEFORE);
}

static bool foreign_behind(const struct named_case *one, size_t behind)
{
    size_t kept = one->length < DECK_LIMIT ? one->length : DECK_LIMIT;

    for (size_t k = behind + 1; k < kept; k++)
        if (one->deck[k] > '~' || (one->deck[k] < ' ' && one->deck[k] != '\n'))
            return true;
    return false;
}

static void count_case(const struct named_case *one, const struct found *found)
{
    size_t behind = found->behind;
    bool ends = behind < one->length;

    count_if(one->length > DECK_LIMIT, LONG_CASE);
    if (found->length == 0) {
        count_nothing(found);
        return;
    }
    if (found->record == REC_KK) {
        count_name(found);
    } else {
        count_place(found);
        count_field(found);
    }
    count_if(behind == LINE_LIMIT, LINE_OF_80);
    count_if(!ends, NO_LF);
    count_if(ends && one->deck[behind - 1] == '\r', WITH_CR);
    count_if(ends && one->length > behind + 1, BYTES_BEHIND);
    count_if(foreign_behind(one, behind), FOREIGN_BEHIND);
    count_if(one->named.block != NUMBER_6 && one->named.block != NUMBER_7,
             OTHER_NUMBER);
    count_if(one->named.ratio > 1, OTHER_FORM);
}

/* ---- The cases -------------------------------------------------------- */

static unsigned long all_cases, names, whys[WHYS];

static bool tells_apart(const struct reason_rule *by,
                        const struct named_case *one,
                        const struct found *right)
{
    static struct found wrong;

    find(by, one, &wrong);
    return wrong.length != right->length
        || memcmp(wrong.text, right->text, right->length) != 0;
}

static void look_at(const struct named_case *one, bool text_alone)
{
    static struct found right;

    find(&right_rule, one, &right);
    if (text_alone) {
        fwrite(right.text, 1, right.length, stdout);
        puts("--");
        return;
    }
    all_cases++;
    if (right.length > 0 && right.record == REC_KK)
        names++;
    else
        whys[right.why]++;
    count_case(one, &right);
    for (unsigned k = 0; k < WRONG_RULES; k++)
        wrong_rules[k].cases += tells_apart(&wrong_rules[k].rule, one, &right);
}

/* Prints a count and returns whether it is missing. */
static bool print_count(unsigned long cases, const char *what)
{
    printf("%8lu  %s%s\n", cases, what, cases == 0 ? ": MISSING" : "");
    return cases == 0;
}

static bool print_place(const struct place *place)
{
    bool missing = false;

    for (unsigned k = 0; k < COLUMNS; k++) {
        if (place->columns[k] == '-')
            printf("       -");
        else
            printf("%8lu", place->cases[k]);
        missing |= place->columns[k] != '-' && place->cases[k] == 0;
    }
    printf("  %s%s\n", place->what, missing ? ": MISSING" : "");
    return missing;
}

static unsigned print_all(void)
{
    unsigned missing = 0;

    puts("   cases  of the reasons");
    missing += print_count(all_cases, "all");
    missing += print_count(whys[SOUND], "nothing");
    missing += print_count(names, "NAME");
    for (unsigned k = BLANK; k < WHYS; k++)
        missing += print_count(whys[k], why_word[k]);
    puts(" 6 fixed  6 free 7 fixed  7 free  texts of");
    for (unsigned k = 0; k < PLACES_COUNTED; k++)
        missing += print_place(&places[k]);
    puts("   cases  with");
    for (unsigned k = 0; k < EDGES; k++)
        missing += print_count(edges[k].cases, edges[k].what);
    puts("   cases  to which a wrong rule gives another text");
    for (unsigned k = 0; k < WRONG_RULES; k++)
        missing += print_count(wrong_rules[k].cases, wrong_rules[k].what);
    return missing;
}

int main(int argc, char **argv)
{
    static struct named_case one;
    bool text_alone = argc == 2 && strcmp(argv[1], "--text") == 0;

    if (argc > 1 && !text_alone) {
        fputs("reasons: unknown option\n", stderr);
        return 2;
    }
    while (next_named("reasons", &one))
        look_at(&one, text_alone);
    return text_alone ? 0 : print_all() > 0;
}
