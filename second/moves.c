/* Counts what cases of the mover hold (document 02, CR 4): how they are
 * answered, which files and rooms there are, which faults stand beside one
 * another, and which wrong rules they tell from the right one.
 *
 *   moves < CASES
 *
 * The cases are what hec1 --mover reads.  Each line printed is a count of
 * cases to the new form, one of cases to the old form, and what was counted.
 * Exit status 0; 1 when one of the counts is 0, which the line then says, or
 * when the mover answers otherwise than the rule that is stated here; 2 when
 * the input is cut short. */
#include "bundle.h"
#include "engine.h"
#include "mover.h"

#include <stdio.h>
#include <stdlib.h>
#include <string.h>

/* A thing that is counted: [0] to the new form, [1] to the old. */
struct tally {
    const char *what;
    bool to_old_only;
    unsigned long cases[2];
};

static void count_if(bool holds, struct tally *tally,
                     const struct move_case *move)
{
    tally->cases[move->to_old] += holds;
}

static size_t size_in(const struct move_case *move)
{
    return move->to_old ? RECORD_BYTES : OLD_RECORD_BYTES;
}

static size_t size_out(const struct move_case *move)
{
    return move->to_old ? OLD_RECORD_BYTES : RECORD_BYTES;
}

/* Whole ones: what is less at the end is left out. */
static size_t records_of(const struct move_case *move)
{
    return move->length / size_in(move);
}

/* ---- Rules ------------------------------------------------------------ */

enum {
    PADDING_BYTES = 7,
    OLD_PADDING_BYTES = 3,
    REFUSALS = 4
};

/* Where the padding is, the old form's first. */
static const unsigned padding_byte[PADDING_BYTES] = {
    7, 22, 23, 36, 37, 38, 39
};

/* In which records padding is looked at. */
enum looked_at {
    ALL_RECORDS,
    FIRST_RECORD,
    LAST_RECORD
};

/* A rule is the right one but for what is set here. */
struct rule {
    enum looked_at looked_at;
    unsigned unseen;            /* a bit for each padding byte passed over */
    bool second_place;          /* place 2 is as good as place 1 */
    bool low_byte_of_ratio;
    bool low_byte_of_place;
    bool own_size;              /* the room is to hold the file as it is */
    enum move_refusal order[REFUSALS];      /* of the looks; 0: as they count */
};

static bool padding_at(const struct rule *rule, const struct move_case *move,
                       size_t record)
{
    const uint8_t *at = move->file + record * size_in(move);
    unsigned bytes = move->to_old ? PADDING_BYTES : OLD_PADDING_BYTES;

    for (unsigned k = 0; k < bytes; k++)
        if (!(rule->unseen >> k & 1) && at[padding_byte[k]] != 0)
            return true;
    return false;
}

static unsigned two_bytes(const uint8_t *at, bool low_alone)
{
    return at[0] + (low_alone ? 0 : 256u * at[1]);
}

static bool pair_at(const struct rule *rule, const struct move_case *move,
                    size_t record)
{
    const uint8_t *at = move->file + record * size_in(move);
    unsigned ratio, place;

    if (!move->to_old)
        return false;
    ratio = two_bytes(at + 32, rule->low_byte_of_ratio);
    place = two_bytes(at + 34, rule->low_byte_of_place);
    if (rule->second_place && place == 2)
        place = 1;
    return ratio != 100 || place != 1;
}

/* The first record with such a fault, or the count of records. */
static size_t first_padding(const struct rule *rule,
                            const struct move_case *move)
{
    size_t records = records_of(move), k = 0;

    if (rule->looked_at == LAST_RECORD && records > 0)
        k = records - 1;
    while (k < records && !padding_at(rule, move, k))
        k = rule->looked_at == FIRST_RECORD ? records : k + 1;
    return k;
}

static size_t first_pair(const struct rule *rule, const struct move_case *move)
{
    size_t k = 0;

    while (k < records_of(move) && !pair_at(rule, move, k))
        k++;
    return k;
}

static bool is_met(const struct rule *rule, const struct move_case *move,
                   enum move_refusal refusal)
{
    switch (refusal) {
    case BROKEN_LENGTH:
        return move->length % size_in(move) != 0;
    case BROKEN_PADDING:
        return first_padding(rule, move) < records_of(move);
    case NO_OLD_FORM:
        return first_pair(rule, move) < records_of(move);
    case SHORT_ROOM:
        return move->room < records_of(move) * (rule->own_size ? size_in(move)
                                                : size_out(move));
    default:
        return false;
    }
}

static enum move_refusal answer_by(const struct rule *rule,
                                   const struct move_case *move)
{
    static const enum move_refusal counted[REFUSALS] = {
        BROKEN_LENGTH, BROKEN_PADDING, NO_OLD_FORM, SHORT_ROOM
    };
    const enum move_refusal *order =
        rule->order[0] == NOT_REFUSED ? counted : rule->order;

    for (unsigned k = 0; k < REFUSALS; k++)
        if (is_met(rule, move, order[k]))
            return order[k];
    return NOT_REFUSED;
}

static const struct rule right_rule;

enum { OLD_PADDING_ALONE = 1 << 3 | 1 << 4 | 1 << 5 | 1 << 6 };

/* Its tally is of the cases that a rule answers otherwise. */
static struct wrong_rule {
    struct rule rule;
    struct tally told_apart;
} wrong_rules[] = {
    { { .looked_at = FIRST_RECORD },
      { .what = "(a) padding looked at in the first record alone" } },
    { { .looked_at = LAST_RECORD },
      { .what = "(b) padding looked at in the last record alone" } },
    { { .unseen = OLD_PADDING_ALONE },
      { .what = "(c) the old padding alone looked at in the new form",
        .to_old_only = true } },
    { { .unseen = 1 << 0 }, { .what = "(d) byte 7 not looked at" } },
    { { .unseen = 1 << 1 }, { .what = "    byte 22" } },
    { { .unseen = 1 << 2 }, { .what = "    byte 23" } },
    { { .unseen = 1 << 3 }, { .what = "    byte 36", .to_old_only = true } },
    { { .unseen = 1 << 4 }, { .what = "    byte 37", .to_old_only = true } },
    { { .unseen = 1 << 5 }, { .what = "    byte 38", .to_old_only = true } },
    { { .unseen = 1 << 6 }, { .what = "    byte 39", .to_old_only = true } },
    { { .order = { BROKEN_LENGTH, NO_OLD_FORM, BROKEN_PADDING, SHORT_ROOM } },
      { .what = "(e) 3 before 2", .to_old_only = true } },
    { { .second_place = true },
      { .what = "(f) ratio 100 with place 2 moved back",
        .to_old_only = true } },
    { { .low_byte_of_ratio = true },
      { .what = "(g) the ratio looked at in its low byte alone",
        .to_old_only = true } },
    { { .low_byte_of_place = true },
      { .what = "(h) the place looked at in its low byte alone",
        .to_old_only = true } },
    { { .order = { SHORT_ROOM, BROKEN_LENGTH, BROKEN_PADDING, NO_OLD_FORM } },
      { .what = "(i) room looked at first" } },
    { { .order = { BROKEN_LENGTH, BROKEN_PADDING, SHORT_ROOM, NO_OLD_FORM } },
      { .what = "(j) room looked at before 3", .to_old_only = true } },
    { { .own_size = true },
      { .what = "(k) room counted in the file's own record size" } }
};

enum { WRONG_RULES = sizeof wrong_rules / sizeof *wrong_rules };

/* ---- What is left in the room ----------------------------------------- */

enum remnant {
    LEFT_OF_2,
    LEFT_OF_3,
    LEFT_OF_4,
    LEFT_BEHIND,
    SUM_CUT,
    REMNANTS
};

static struct tally remnants[REMNANTS] = {
    [LEFT_OF_2] = { .what = "(l) output left in the room, refused by 2" },
    [LEFT_OF_3] = { .what = "    refused by 3", .to_old_only = true },
    [LEFT_OF_4] = { .what = "    refused by 4" },
    [LEFT_BEHIND] = { .what = "(m) what stood behind the moved bytes left" },
    [SUM_CUT] = { .what = "(n) the last byte of a sum lost" }
};

static bool last_byte_of_sum(const struct move_case *move)
{
    for (size_t k = 0; k < records_of(move); k++)
        if (move->file[k * size_in(move) + 31] != 0)
            return true;
    return false;
}

/* A file that is refused by 2 to 4 has records, so it has something to leave
 * wherever there is room. */
static void count_remnants(const struct move_case *move,
                           enum move_refusal refusal)
{
    size_t moved = records_of(move) * size_out(move);

    if (refusal == NOT_REFUSED) {
        count_if(move->room > moved, &remnants[LEFT_BEHIND], move);
        count_if(last_byte_of_sum(move), &remnants[SUM_CUT], move);
    } else if (refusal != BROKEN_LENGTH) {
        count_if(move->room > 0,
                 &remnants[LEFT_OF_2 + (refusal - BROKEN_PADDING)], move);
    }
}

/* ---- Answers, files and rooms ----------------------------------------- */

static struct tally answers[REFUSALS + 1] = {
    { .what = "moved" },
    { .what = "refused by 1" },
    { .what = "refused by 2" },
    { .what = "refused by 3", .to_old_only = true },
    { .what = "refused by 4" }
};

enum sort {
    ALL_CASES,
    EMPTY_NO_ROOM,
    EMPTY_AND_ROOM,
    ONE_RECORD,
    ONE_MOVED,
    THOUSANDS,
    THOUSANDS_MOVED,
    ROOM_OF_FILE,
    ROOM_EXACT,
    ROOM_BYTE_LESS,
    ROOM_BYTE_MORE,
    LAST_LACKS_ROOM,
    NO_ROOM,
    SORTS
};

static struct tally sorts[SORTS] = {
    [ALL_CASES].what = "all",
    [EMPTY_NO_ROOM].what = "an empty file and no room",
    [EMPTY_AND_ROOM].what = "an empty file and room",
    [ONE_RECORD].what = "one record",
    [ONE_MOVED].what = "one record, moved",
    [THOUSANDS].what = "1,000 records or more",
    [THOUSANDS_MOVED].what = "1,000 records or more, moved",
    [ROOM_OF_FILE].what = "a room as long as the file, which is not empty",
    [ROOM_EXACT].what = "room for the records, to the byte",
    [ROOM_BYTE_LESS].what = "a byte less",
    [ROOM_BYTE_MORE].what = "a byte more",
    [LAST_LACKS_ROOM].what = "room for all of several records but the last",
    [NO_ROOM].what = "records and no room at all"
};

static void count_sorts(const struct move_case *move,
                        enum move_refusal refusal)
{
    size_t records = records_of(move), need = records * size_out(move);
    bool whole = move->length % size_in(move) == 0;
    bool moved = refusal == NOT_REFUSED;

    count_if(true, &sorts[ALL_CASES], move);
    count_if(move->length == 0 && move->room == 0, &sorts[EMPTY_NO_ROOM],
             move);
    count_if(move->length == 0 && move->room > 0, &sorts[EMPTY_AND_ROOM],
             move);
    count_if(whole && records == 1, &sorts[ONE_RECORD], move);
    count_if(moved && records == 1, &sorts[ONE_MOVED], move);
    count_if(whole && records >= 1000, &sorts[THOUSANDS], move);
    count_if(moved && records >= 1000, &sorts[THOUSANDS_MOVED], move);
    count_if(move->length > 0 && move->room == move->length,
             &sorts[ROOM_OF_FILE], move);
    if (records == 0 || !whole)
        return;
    count_if(move->room == need, &sorts[ROOM_EXACT], move);
    count_if(move->room + 1 == need, &sorts[ROOM_BYTE_LESS], move);
    count_if(move->room == need + 1, &sorts[ROOM_BYTE_MORE], move);
    count_if(records > 1 && move->room + size_out(move) == need,
             &sorts[LAST_LACKS_ROOM], move);
    count_if(move->room == 0, &sorts[NO_ROOM], move);
}

/* ---- Faults beside one another ---------------------------------------- */

enum meeting {
    LENGTH_AND_PADDING,
    LENGTH_AND_PAIR,
    LENGTH_AND_ROOM,
    PADDING_LATER,
    PAIR_LATER,
    PADDING_AND_ROOM,
    PAIR_AND_ROOM,
    ALL_FAULTS,
    MEETINGS
};

static struct tally meetings[MEETINGS] = {
    [LENGTH_AND_PADDING] = { .what = "1 and 2" },
    [LENGTH_AND_PAIR] = { .what = "1 and 3", .to_old_only = true },
    [LENGTH_AND_ROOM] = { .what = "1 and 4" },
    [PADDING_LATER] = { .what = "2, and 3 in an earlier record, not 1",
                        .to_old_only = true },
    [PAIR_LATER] = { .what = "2, and 3 in a later record, not 1",
                     .to_old_only = true },
    [PADDING_AND_ROOM] = { .what = "2 and 4, not 1" },
    [PAIR_AND_ROOM] = { .what = "3 and 4, neither 1 nor 2",
                        .to_old_only = true },
    [ALL_FAULTS] = { .what = "all that there are" }
};

static void count_meetings(const struct move_case *move)
{
    size_t padding = first_padding(&right_rule, move);
    size_t pair = first_pair(&right_rule, move);
    bool met[REFUSALS + 1];

    for (unsigned k = 1; k <= REFUSALS; k++)
        met[k] = is_met(&right_rule, move, k);
    count_if(met[1] && met[2], &meetings[LENGTH_AND_PADDING], move);
    count_if(met[1] && met[3], &meetings[LENGTH_AND_PAIR], move);
    count_if(met[1] && met[4], &meetings[LENGTH_AND_ROOM], move);
    count_if(!met[1] && met[2] && met[3] && pair < padding,
             &meetings[PADDING_LATER], move);
    count_if(!met[1] && met[2] && met[3] && padding < pair,
             &meetings[PAIR_LATER], move);
    count_if(!met[1] && met[2] && met[4], &meetings[PADDING_AND_ROOM], move);
    count_if(!met[1] && !met[2] && met[3] && met[4], &meetings[PAIR_AND_ROOM],
             move);
    count_if(met[1] && met[2] && (met[3] || !move->to_old) && met[4],
             &meetings[ALL_FAULTS], move);
}

/* ---- The mover itself ------------------------------------------------- */

static unsigned long wrong_answers;

/* What a byte of the room is to be when the file was moved. */
static uint8_t byte_moved(const struct move_case *move, size_t at)
{
    static const uint8_t behind[8] = { 100, 0, 1 };
    size_t record = at / size_out(move), place = at % size_out(move);

    if (record >= records_of(move))
        return 0;
    return place < 32 ? move->file[record * size_in(move) + place]
         : behind[place - 32];
}

/* File and room end where they are said to, so that a step behind them would
 * show where memory is watched.  The byte in front keeps both from lying at an
 * even place, which the mover may not count on. */
static void check_mover(const struct move_case *move,
                        enum move_refusal refusal)
{
    uint8_t *file = malloc(move->length + 1), *room = malloc(move->room + 1);
    struct moved moved;
    size_t bytes = refusal == NOT_REFUSED ? records_of(move) * size_out(move)
                                          : 0;
    bool right;

    if (file == NULL || room == NULL)
        exit(2);
    memcpy(file + 1, move->file, move->length);
    memset(room + 1, 1, move->room);
    moved = (move->to_old ? move_to_old : move_to_new)(
        file + 1, move->length, room + 1, move->room);
    right = moved.refusal == refusal && moved.bytes == bytes;
    for (size_t k = 0; k < move->room; k++)
        right = right && room[k + 1] == (refusal == NOT_REFUSED
                                         ? byte_moved(move, k) : 0);
    wrong_answers += !right;
    free(file);
    free(room);
}

/* ---- The cases -------------------------------------------------------- */

static void look_at(const struct move_case *move)
{
    enum move_refusal refusal = answer_by(&right_rule, move);

    check_mover(move, refusal);
    count_if(true, &answers[refusal], move);
    count_sorts(move, refusal);
    count_meetings(move);
    count_remnants(move, refusal);
    for (unsigned k = 0; k < WRONG_RULES; k++)
        count_if(answer_by(&wrong_rules[k].rule, move) != refusal,
                 &wrong_rules[k].told_apart, move);
}

/* Prints two counts and returns whether one of them is missing. */
static bool print_tally(const struct tally *tally)
{
    const unsigned long *cases = tally->cases;
    bool missing = cases[1] == 0 || (cases[0] == 0 && !tally->to_old_only);

    printf("%8lu %8lu  %s%s\n", cases[0], cases[1], tally->what,
           missing ? ": MISSING" : "");
    return missing;
}

static unsigned print_tallies(const struct tally *tallies, unsigned count)
{
    unsigned missing = 0;

    for (unsigned k = 0; k < count; k++)
        missing += print_tally(&tallies[k]);
    return missing;
}

static unsigned print_all(void)
{
    unsigned missing;

    puts("  to new   to old  cases of the mover");
    missing = print_tallies(answers, REFUSALS + 1);
    puts("  to new   to old  files and rooms");
    missing += print_tallies(sorts, SORTS);
    puts("  to new   to old  faults beside one another");
    missing += print_tallies(meetings, MEETINGS);
    puts("  to new   to old  cases that a wrong rule answers otherwise");
    for (unsigned k = 0; k < WRONG_RULES; k++)
        missing += print_tally(&wrong_rules[k].told_apart);
    missing += print_tallies(remnants, REMNANTS);
    printf("%8lu           answers of the mover that are not right\n",
           wrong_answers);
    return missing;
}

int main(void)
{
    static struct move_case move;

    while (next_move("moves", &move))
        look_at(&move);
    return print_all() > 0 || wrong_answers > 0;
}
