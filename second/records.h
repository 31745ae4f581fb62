/* The records and what may stand in their fields (document 01, 'Records read'
 * and the table of limits; document 02, CR 1, CR 3 and CR 6). */
#ifndef RECORDS_H
#define RECORDS_H

#include "cards.h"

#include <stdbool.h>
#include <stdint.h>

enum record {
    REC_UNKNOWN,
    REC_FREE,
    REC_FIX,
    REC_ID,
    REC_IT,
    REC_JR,
    REC_KK,
    REC_KM,
    REC_ZZ,
    REC_BA,
    REC_PB,
    REC_PI,
    REC_LU,
    REC_UI,
    REC_QI,
    REC_HC,
    REC_RM,
    REC_RS,
    REC_SV,
    REC_SQ
};

/* The record of a line that is not blank. */
enum record identify(struct text line);

enum holds {
    A_NUMBER,
    A_WORD,         /* another one is malformed */
    A_LIMITED_WORD, /* another one is outside the limits */
    ANYTHING        /* nobody reads it */
};

/* What a field may hold.  The limits of a number are counted in units of its
 * last place, as read_number counts.  A word has at most so many characters as
 * there are places, and its limits are what its bytes come to as digits of one
 * number, in base 256. */
struct rule {
    enum holds holds;
    unsigned places;
    int64_t low;
    int64_t high;
};

bool within(int64_t value, const struct rule *rule);
bool is_word(struct text field, const struct rule *rule);
bool is_text(struct text text, const char *word, unsigned length);

enum { NAMED_FIELD_LIMIT = 4 };

/* The fields of a record.  Some have a rule each.  Behind them the rest of the
 * line is a list with one rule more, or is to be blank. */
struct form {
    unsigned fields;        /* with a rule each */
    bool list;
    unsigned least;         /* that have to hold something allowed, as blank
                             * ones where the line does not have them */
    struct rule rule[NAMED_FIELD_LIMIT];
};

extern const struct form IT_FORM, JR_FORM, BA_FORM, PB_FORM, LU_FORM, HC_FORM,
    RM_FORM, RS_FORM, PI_FORM, UI_FORM, QI_FORM, SV_FORM, SQ_FORM;

/* NULL: the record has no such fields. */
const struct form *form_of(enum record record);

/* The rule of a field, from 0.  NULL: it has none and is to be blank. */
const struct rule *rule_of(const struct form *form, unsigned field);

#endif
