/* Why a line is refused by 6 or by 7; see reason.h. */
#include "reason.h"

#include "cards.h"
#include "records.h"

#include <inttypes.h>
#include <stdio.h>

enum { MALFORMED = 6, OUT_OF_LIMITS = 7 };

enum why {
    SOUND,
    NOT_BLANK,
    NO_NUMBER,
    MANY_PLACES,
    OUTSIDE,
    OTHER_WORD
};

static const char *const why_word[] = {
    [NO_NUMBER] = "NUMBER",
    [MANY_PLACES] = "PLACES",
    [OUTSIDE] = "LIMITS",
    [OTHER_WORD] = "WORD"
};

/* A field, its number from 1, and its rule where it has one. */
struct place {
    unsigned number;
    struct text field;
    const struct rule *rule;
};

/* The places of a number that are left without the zeros at the end of its
 * fraction: the fewest with which it can be read.  0: it cannot be. */
static unsigned places_left(struct text field, unsigned from)
{
    int64_t value;

    for (unsigned places = from; places <= DIGIT_LIMIT; places++)
        if (read_number(field, places, &value))
            return places;
    return 0;
}

static enum why why_of(const struct place *place, unsigned *left)
{
    const struct rule *rule = place->rule;
    int64_t value;

    if (rule == NULL)
        return place->field.length > 0 ? NOT_BLANK : SOUND;
    if (rule->holds == ANYTHING)
        return SOUND;
    if (rule->holds != A_NUMBER)
        return is_word(place->field, rule) ? SOUND : OTHER_WORD;
    if (read_number(place->field, rule->places, &value))
        return within(value, rule) ? SOUND : OUTSIDE;
    *left = places_left(place->field, rule->places + 1);
    return *left > 0 ? MANY_PLACES : NO_NUMBER;
}

/* The refusal that a field meets; 0 if none. */
static unsigned refusal_of(enum why why, const struct rule *rule)
{
    if (why == SOUND)
        return 0;
    if (why == OUTSIDE)
        return OUT_OF_LIMITS;
    if (why == OTHER_WORD && rule->holds == A_LIMITED_WORD)
        return OUT_OF_LIMITS;
    return MALFORMED;
}

static size_t put_field(const struct place *place, enum why why, unsigned left,
                        char *text)
{
    const struct rule *rule = place->rule;
    char *at = text + sprintf(text, "FIELD %u ", place->number);

    if (why == NOT_BLANK)
        at += sprintf(at, "BLANK");
    else
        at += sprintf(at, "%s %u %" PRId64 " %" PRId64, why_word[why],
                      rule->places, rule->low, rule->high);
    if (why == MANY_PLACES)
        at += sprintf(at, " %u", left);
    at += sprintf(at, " %.*s\n", (int)place->field.length,
                  (const char *)place->field.at);
    return (size_t)(at - text);
}

/* Returns 0 where the field is not refused by that number. */
static size_t look_at(const struct place *place, unsigned number, char *text)
{
    unsigned left = 0;
    enum why why = why_of(place, &left);

    return refusal_of(why, place->rule) == number
         ? put_field(place, why, left, text) : 0;
}

/* The first field that is refused by that number.  Behind those of the line come
 * blank ones, as many as the record has to have, and behind ten what no record
 * names. */
static size_t write_field(const struct form *form, struct text line,
                          bool free_form, unsigned number, char *text)
{
    struct fields fields;
    bool within_ten = split_fields(line, free_form, &fields);
    size_t used = 0;

    while (fields.count < form->least)
        fields.at[fields.count++] = (struct text){ line.at + line.length, 0 };
    for (unsigned k = 0; used == 0 && k < fields.count; k++) {
        struct place place = { k + 1, fields.at[k], rule_of(form, k) };
        used = look_at(&place, number, text);
    }
    if (used == 0 && !within_ten) {
        struct place place = { fields.past, fields.beyond, NULL };
        used = look_at(&place, number, text);
    }
    return used;
}

static size_t write_name(struct text line, bool free_form, char *text)
{
    struct text name;

    read_name(line, free_form, &name);
    return (size_t)sprintf(text, "NAME %.*s\n", (int)name.length,
                           (const char *)name.at);
}

size_t write_reason(uint32_t number, bool free_form, const uint8_t *bytes,
                    size_t length, char *text)
{
    struct reader reader = { bytes, bytes + length, 0 };
    struct text line;
    enum record record;
    const struct form *form;

    if (next_line(&reader, &line) != LINE_READ || line.length == 0)
        return 0;
    record = identify(line);
    if (record == REC_KK)
        return write_name(line, free_form, text);
    form = form_of(record);
    if (form == NULL)
        return 0;
    return write_field(form, line, free_form,
                       number == MALFORMED ? MALFORMED : OUT_OF_LIMITS, text);
}
