/* The records and what may stand in their fields; see records.h. */
#include "records.h"

#include "engine.h"

#include <string.h>

#define IDENTIFIER(first, second) ((first) << 8 | (second))
#define WORD_OF(a, b, c, d) \
    (((int64_t)(a) << 8 | (b)) << 16 | (c) << 8 | (d))

const struct form IT_FORM = {
    4, false, 4,
    { { A_NUMBER, 0, 1, 1440 }, { ANYTHING, 0, 0, 0 }, { ANYTHING, 0, 0, 0 },
      { A_NUMBER, 0, 1, ORDINATE_LIMIT } }
};
const struct form JR_FORM = {
    1, true, 2,
    { { A_WORD, 4, WORD_OF('P', 'R', 'E', 'C'), WORD_OF('P', 'R', 'E', 'C') },
      { A_NUMBER, 2, 1, 999 } }
};
const struct form BA_FORM = { 1, false, 1, { { A_NUMBER, 2, 1, 999999 } } };
const struct form PB_FORM = { 1, false, 1, { { A_NUMBER, 4, 0, 1000000 } } };
const struct form LU_FORM = {
    3, false, 3,
    { { A_NUMBER, 4, 0, 200000 }, { A_NUMBER, 4, 0, 200000 },
      { A_NUMBER, 2, 0, 0 } }
};
const struct form HC_FORM = { 1, false, 1, { { A_NUMBER, 0, 2, 5 } } };
const struct form RM_FORM = {
    3, false, 3,
    { { A_NUMBER, 0, 1, 50 }, { A_NUMBER, 2, 1, 2400 },
      { A_NUMBER, 2, 0, 50 } }
};
const struct form RS_FORM = {
    3, false, 3,
    { { A_NUMBER, 0, 1, 1 },
      { A_LIMITED_WORD, 4, WORD_OF('S', 'T', 'O', 'R'),
        WORD_OF('S', 'T', 'O', 'R') },
      { A_NUMBER, 0, 0, 0 } }
};
const struct form PI_FORM = { 0, true, 0, { { A_NUMBER, 4, 0, 200000 } } };
const struct form UI_FORM = { 0, true, 0, { { A_NUMBER, 2, 0, 9999999 } } };
const struct form QI_FORM = { 0, true, 0, { { A_NUMBER, 2, 0, 10000000 } } };
const struct form SV_FORM = { 0, true, 0, { { A_NUMBER, 2, 0, 9999999 } } };
const struct form SQ_FORM = { 0, true, 0, { { A_NUMBER, 2, 0, 10000000 } } };

bool is_text(struct text text, const char *word, unsigned length)
{
    return text.length == length && memcmp(text.at, word, length) == 0;
}

/* A line of one byte has a blank second column, which no identifier has. */
enum record identify(struct text line)
{
    switch (IDENTIFIER(line.at[0], line.length > 1 ? line.at[1] : ' ')) {
    case IDENTIFIER('I', 'D'): return REC_ID;
    case IDENTIFIER('I', 'T'): return REC_IT;
    case IDENTIFIER('J', 'R'): return REC_JR;
    case IDENTIFIER('K', 'K'): return REC_KK;
    case IDENTIFIER('K', 'M'): return REC_KM;
    case IDENTIFIER('Z', 'Z'): return REC_ZZ;
    case IDENTIFIER('B', 'A'): return REC_BA;
    case IDENTIFIER('P', 'B'): return REC_PB;
    case IDENTIFIER('P', 'I'): return REC_PI;
    case IDENTIFIER('L', 'U'): return REC_LU;
    case IDENTIFIER('U', 'I'): return REC_UI;
    case IDENTIFIER('Q', 'I'): return REC_QI;
    case IDENTIFIER('H', 'C'): return REC_HC;
    case IDENTIFIER('R', 'M'): return REC_RM;
    case IDENTIFIER('R', 'S'): return REC_RS;
    case IDENTIFIER('S', 'V'): return REC_SV;
    case IDENTIFIER('S', 'Q'): return REC_SQ;
    case IDENTIFIER('*', 'F'):
        if (is_text(line, "*FREE", 5))
            return REC_FREE;
        if (is_text(line, "*FIX", 4))
            return REC_FIX;
        return REC_UNKNOWN;
    default:
        return REC_UNKNOWN;
    }
}

const struct form *form_of(enum record record)
{
    switch (record) {
    case REC_IT: return &IT_FORM;
    case REC_JR: return &JR_FORM;
    case REC_BA: return &BA_FORM;
    case REC_PB: return &PB_FORM;
    case REC_PI: return &PI_FORM;
    case REC_LU: return &LU_FORM;
    case REC_UI: return &UI_FORM;
    case REC_QI: return &QI_FORM;
    case REC_HC: return &HC_FORM;
    case REC_RM: return &RM_FORM;
    case REC_RS: return &RS_FORM;
    case REC_SV: return &SV_FORM;
    case REC_SQ: return &SQ_FORM;
    default: return NULL;
    }
}

const struct rule *rule_of(const struct form *form, unsigned field)
{
    if (field < form->fields)
        return &form->rule[field];
    return form->list && field < FIELD_LIMIT ? &form->rule[form->fields] : NULL;
}

bool within(int64_t value, const struct rule *rule)
{
    return value >= rule->low && value <= rule->high;
}

/* No byte of a field is 0, so a shorter word comes to another number. */
bool is_word(struct text field, const struct rule *rule)
{
    int64_t number = 0;

    if (field.length > rule->places)
        return false;
    for (unsigned k = 0; k < field.length; k++)
        number = number << 8 | field.at[k];
    return within(number, rule);
}
