/* From bytes to fields; see cards.h, document 01, 'From bytes to fields', and
 * document 02, CR 7, for zeros at the end of a fraction. */
#include "cards.h"

enum {
    FIRST_PRINTABLE = 0x20,
    LAST_PRINTABLE = 0x7E,
    IDENTIFIER_WIDTH = 2,
    FIELD_WIDTH = 8
};

/* Length of the line ending that stands here; 0 if none does.  A CR counts
 * only together with the LF behind it. */
static unsigned line_ending(const uint8_t *at, const uint8_t *end)
{
    if (*at == '\n')
        return 1;
    if (*at == '\r' && end - at > 1 && at[1] == '\n')
        return 2;
    return 0;
}

enum line_state next_line(struct reader *reader, struct text *line)
{
    const uint8_t *at = reader->at;
    const uint8_t *end = reader->end;
    const uint8_t *used = at;

    if (at == end)
        return LINE_NONE;
    reader->line++;
    line->at = at;
    while (at < end && *at >= FIRST_PRINTABLE && *at <= LAST_PRINTABLE) {
        if (at - line->at == LINE_LIMIT)
            return LINE_BAD;
        if (*at++ != ' ')
            used = at;
    }
    if (at < end) {
        unsigned ending = line_ending(at, end);
        if (ending == 0)
            return LINE_BAD;
        at += ending;
    }
    reader->at = at;
    line->length = (unsigned)(used - line->at);
    return LINE_READ;
}

static const uint8_t *skip_blanks(const uint8_t *at, const uint8_t *end)
{
    while (at < end && *at == ' ')
        at++;
    return at;
}

static const uint8_t *skip_value(const uint8_t *at, const uint8_t *end)
{
    while (at < end && *at != ' ' && *at != ',')
        at++;
    return at;
}

/* Drops the blanks around the bytes from at to end. */
static struct text trimmed(const uint8_t *at, const uint8_t *end)
{
    at = skip_blanks(at, end);
    while (end > at && end[-1] == ' ')
        end--;
    return (struct text){ at, (unsigned)(end - at) };
}

/* Field number (from 0) of a line in fixed form.  The first one is narrower,
 * because the identifier takes two of its columns. */
static struct text fixed_field(struct text line, unsigned number)
{
    unsigned first = number == 0 ? IDENTIFIER_WIDTH : number * FIELD_WIDTH;
    unsigned behind = (number + 1) * FIELD_WIDTH;

    if (behind > line.length)
        behind = line.length;
    if (first > behind)
        first = behind;
    return trimmed(line.at + first, line.at + behind);
}

static void split_fixed(struct text line, struct fields *fields)
{
    fields->count = 0;
    for (unsigned k = 0; k < FIELD_LIMIT && k * FIELD_WIDTH < line.length; k++) {
        fields->at[k] = fixed_field(line, k);
        if (fields->at[k].length > 0)
            fields->count = k + 1;
    }
}

static bool split_free(struct text line, struct fields *fields)
{
    const uint8_t *end = line.at + line.length;
    const uint8_t *at = skip_blanks(line.at + IDENTIFIER_WIDTH, end);

    fields->count = 0;
    for (unsigned k = 0; at < end; k++) {
        const uint8_t *first = at;
        at = skip_value(at, end);
        unsigned length = (unsigned)(at - first);
        if (k < FIELD_LIMIT)
            fields->at[k] = (struct text){ first, length };
        if (length > 0) {
            /* Only a value makes the fields before it count: any number of
             * blank fields may trail. */
            if (k >= FIELD_LIMIT) {
                fields->count = FIELD_LIMIT;
                fields->past = k + 1;
                fields->beyond = (struct text){ first, length };
                return false;
            }
            fields->count = k + 1;
        }
        at = skip_blanks(at, end);
        if (at < end && *at == ',')
            at = skip_blanks(at + 1, end);
    }
    return true;
}

bool split_fields(struct text line, bool free_form, struct fields *fields)
{
    if (free_form)
        return split_free(line, fields);
    split_fixed(line, fields);
    return true;
}

bool read_name(struct text line, bool free_form, struct text *name)
{
    if (free_form) {
        const uint8_t *end = line.at + line.length;
        const uint8_t *at = skip_blanks(line.at + IDENTIFIER_WIDTH, end);
        *name = (struct text){ at, (unsigned)(skip_value(at, end) - at) };
    } else {
        *name = fixed_field(line, 0);
        for (unsigned k = 0; k < name->length; k++)
            if (name->at[k] == ' ')
                return false;
    }
    return name->length >= 1 && name->length <= NAME_LIMIT;
}

static bool is_digit(uint8_t byte)
{
    return byte >= '0' && byte <= '9';
}

/* Puts the digits that stand here behind those of the number, and returns
 * where they end.  A field may hold more of them than a number can have: what
 * such a number comes to does not matter, because it is refused. */
static const uint8_t *take_digits(const uint8_t *at, const uint8_t *end,
                                  uint64_t *number)
{
    uint64_t taken = *number;

    for (; at < end && is_digit(*at); at++)
        taken = taken * 10 + (uint64_t)(*at - '0');
    *number = taken;
    return at;
}

static const uint8_t *skip_zeros(const uint8_t *at, const uint8_t *end)
{
    while (at < end && *at == '0')
        at++;
    return at;
}

/* Takes as many places of a fraction as are allowed, counted in left, and
 * returns where the fraction ends.  Behind them nothing but zeros can stand:
 * any other digit makes one more place that is left when the zeros at the end
 * are taken off.  Zeros among the places taken need not come off, since the
 * value is counted in units of the last place allowed. */
static const uint8_t *take_fraction(const uint8_t *at, const uint8_t *end,
                                    unsigned *left, uint64_t *number)
{
    const uint8_t *first = at;
    const uint8_t *last = end;

    if (end - at > *left)
        last = at + *left;
    at = take_digits(at, last, number);
    *left -= (unsigned)(at - first);
    return skip_zeros(at, end);
}

bool read_number(struct text field, unsigned places, int64_t *value)
{
    const uint8_t *at = field.at;
    const uint8_t *end = at + field.length;
    bool negative = false;
    uint64_t number = 0;

    *value = 0;
    if (at == end)
        return true;
    if (*at == '+' || *at == '-')
        negative = *at++ == '-';

    const uint8_t *first = at;
    at = take_digits(at, end, &number);
    unsigned digits = (unsigned)(at - first);
    if (at < end && *at == '.') {
        first = ++at;
        at = take_fraction(at, end, &places, &number);
        digits += (unsigned)(at - first);
    }
    /* The limit of digits counts the zeros that say nothing, too. */
    if (at < end || digits == 0 || digits > DIGIT_LIMIT)
        return false;
    for (; places > 0; places--)
        number *= 10;
    *value = negative ? -(int64_t)number : (int64_t)number;
    return true;
}
