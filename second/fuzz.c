/* Fuzz driver of the self-test: runs thousands of mutated decks under the
 * sanitizers, from a fixed seed.  No outcome is known beforehand; what is
 * tested is what must hold for any deck (document 01, 'What comes back', and
 * document 02, CR 3 to CR 7):
 * outcomes do not depend on what the lent room held or on room to spare,
 * refusals leave zeros, too little room is refused only where nothing else
 * is, records agree with ordinates and say their ratio, they move to the old
 * form and back just where no other ratio than 1.00 is among them, the sheet of
 * a runoff block adds up to its ordinates, a hydrograph in print reads as the
 * ordinates again, a pond starts without outflow and never lets out more than
 * has come in, a line has a reason for 6 or 7 just where it is refused by that,
 * and some changes to a deck change nothing or only the line.
 * Prints two lines and ends with status 0, or says what broke, shows the deck
 * and ends with status 1. */
#include "engine.h"
#include "hydrograph.h"
#include "mover.h"
#include "reason.h"
#include "sheet.h"

#include <inttypes.h>
#include <stdbool.h>
#include <stdio.h>
#include <stdlib.h>
#include <string.h>

enum {
    ROUNDS = 6000,
    DECK_ROOM = 70000,
    MOST_NAMED = 5,     /* blocks of a deck that are asked for by name */
    RECORD_ROOM = BLOCK_LIMIT * RATIO_LIMIT * RECORD_BYTES,
    POND_KIND = 5,
    LAST_REFUSAL = 20
};

static const char *const seeds[] = {
    "ID POND\n*FREE\nIT 60,,,4\nKK UP\nBA 1.50\nPI 0.50,0.30,0.10\n"
    "LU 0.50,0.10\nUI 10,4\nKK RIV\nRM 1,1.00,0.20\nKK SIDE\nQI 1,2,2,1\n"
    "KK OUT\nHC 2\nZZ\n",

    "IT    60                       6\nKK A    TEXT\nQI     1       2       3\n"
    "KM NOTE\nKKB\nBA  2.50\nUI 100.0   50.00   25.00\n"
    "PI   0.1             0.5    0.25\nLU   0.2    0.05\nKK C\nHC     2\n"
    "*FREE\nKK D\nRM 2,2,0.3\nZZ\n",

    "*FREE\nIT 1440 , 1JAN , 1200 , 10\r\nKK A\r\nQI 90000,99000.99\r\n"
    "QI ,,50000\r\n\r\nKK B\r\nRM 2,24,0\r\nKK C\r\nQI 0.01 0.02\r\nBA 9999.99"
    "\r\nKK D\r\nQI 5\r\nKK E\r\nHC 3\r\nZZ\r\n",

    "*FREE\nIT 1,,,3\nKK A\nBA .01\nPI 20,20,20\nLU 20,20,0\nUI 5000.00\n"
    "UI 0,1\nKK R\nRM 1,.01,.16\nKK R2\nRM 50,24,0\nZZ",

    "*FREE\nIT 60,,,2\nKK 1\nQI 1\nKK 2\nQI 2\nKK 3\nQI 3\nKK 4\nQI 4\nKK 5\n"
    "QI 5\nKK S\nHC 5\nKK 6\nQI 6,7\nKK T\nHC 2\nKK R\nRM 1,1,0.5\nZZ\n",

    "*FREE\nIT 30,,,8\nKK A\nBA 2\nPB 4.3701\nPI 1,3,,7\nPI 0.5\nLU 0.2,0.1\n"
    "UI 40,20,10\nKK B\nBA 1\nPI 0,0\nPB 0\nLU\nUI 5\nKK C\nHC 2\nZZ\n",

    "IT    15                       5\nKK A\nPB   100\nUI  1000\nLU\nBA     1\n"
    "PI     0      20\nKK R\nRM     1    0.25    0.20\nZZ\n",

    "*FREE\nIT 60,,,5\nJR PREC,.5,1.,9.99\nKK A\nBA 2\nPI .0101,.2307,,1.3\n"
    "LU 0.2,0.1\nUI 40,20,10\nKK B\nBA 1\nPB 3.3333\nPI 1,3\nLU .1\nUI 7\n"
    "KK C\nQI 1,2,3\nKK D\nHC 3\nZZ\n",

    "IT    60                       3\nKM\nJR  PREC    0.01    2.50    2.50    2.51\n"
    "KK A\nBA     1\nPI    20\nLU\nUI  2000\nKK B\nBA     1\nPI    10    0.07\n"
    "LU\nUI     1\nKK C\nHC     2\nZZ\n",

    "*FREE\nIT 60,,,9\nJR PREC,1,2\nKK A\nBA 2\nPI .5,.3,.1\nLU ,.1\nUI 40,90,20\n"
    "KK P\nRS 1,STOR\nSV 0,1,9,50\nSQ ,10,20,90.5\nKK B\nQI 5,9,9,2\nKK C\nHC 2\n"
    "KK L\nSQ 0,0\nRS 1,STOR,0\nSV 0,10\nSQ 99\nSV 60\nZZ\n",

    "IT  1440                       4\nKK A\nQI   100   99999   90000\n"
    "KK B\nSV         1000099999.99\nRS     1    STOR       0\n"
    "SQ     0    8000  100000\nKK C\nRS     1    STOR\n"
    "SV     0   5000099999.99\nSQ           50000  100000\nZZ\n"
};

static const char *const scraps[] = {
    "\n", "\r\n", "\r", ",", ",,", " ", "   ", "0", "1", "9", "-0", "-1", "+", ".",
    "20.0001", "100000.01", "999999999", "9999999999", "\t", "\x7f",
    ".0", "00", ".000", "-0.0", "60.0", "60.5", "1.500", "1.500000000",
    "KK X\n", "KK LONGNAME\n", "KM\n", "*FREE\n", "*FIX\n", "*FREE X\n", "ID\n",
    "IT 60,,,4\n", "BA 1\n", "PI 1,2\n", "LU 0,0\n", "UI 1\n", "QI 1\n", "HC 2\n",
    "RM 1,1,.2\n", "ZZ\n", "KK X\nQI 1\n", "KK X\nHC 2\n", "KK X\nRM 1,1,.2\n",
    "KK X\nQI 1\nKK Y\nHC 2\n", "PB 3.1\n", "PB 0\n", "PB\n", "PI 0\n", "PI\n",
    "PB 100.0001\n", "KK X\nBA 1\nPB 1\nPI 0\nLU\nUI 1\n", "PREC", "JR",
    "JR PREC,1.00\n", "JR PREC 1.5 .01 9.99\n", "JR PREC\n", "JR prec,1\n",
    "JR PREC,,2\n", "JR PREC,10\n", "IT 60,,,4\nJR PREC,2,1,.33\n",
    "KK X\nBA 1\nPI 20,20\nLU\nUI 500\n", "RS 1,STOR,0\n", "RS 1,STOR\n", "SV 0,1\n",
    "SQ 0,1\n", "SV 9\n", "SQ 9\n", "SV\n", "STOR", "KK X\nRS 1,STOR\nSV 0,9\nSQ 0,1\n",
    "KK X\nQI 9\nKK Y\nRS 1,STOR\nSV ,.01\nSQ 0,0\n"
};

enum { SEEDS = sizeof seeds / sizeof *seeds,
       SCRAPS = sizeof scraps / sizeof *scraps };

static uint64_t state = 20240229;

/* xorshift64: the same numbers everywhere. */
static unsigned chance(unsigned below)
{
    state ^= state << 13;
    state ^= state >> 7;
    state ^= state << 17;
    return (unsigned)(state >> 33) % below;
}

/* ---- Decks ------------------------------------------------------------ */

static char deck[DECK_ROOM];
static size_t deck_length;

static void replace(size_t at, size_t gone, const char *text, size_t length)
{
    if (deck_length - gone + length > DECK_ROOM / 2)
        return;
    memmove(deck + at + length, deck + at + gone, deck_length - at - gone);
    memcpy(deck + at, text, length);
    deck_length = deck_length - gone + length;
}

static size_t line_start(void)
{
    size_t at = chance((unsigned)deck_length + 1);

    while (at > 0 && deck[at - 1] != '\n')
        at--;
    return at;
}

static size_t line_length(size_t at)
{
    size_t end = at;

    while (end < deck_length && deck[end] != '\n')
        end++;
    return end < deck_length ? end + 1 - at : end - at;
}

/* The first KK or ZZ at or behind some line. */
static size_t block_start(void)
{
    size_t at = line_start();

    while (at + 1 < deck_length && memcmp(deck + at, "KK", 2) != 0
           && memcmp(deck + at, "ZZ", 2) != 0)
        at += line_length(at);
    return at;
}

static void mutate(void)
{
    static const char bytes[] = "0123456789.,-+ ABKZQIHCRMPULTD*\n\r";
    const char *scrap = scraps[chance(SCRAPS)];
    size_t at = deck_length > 0 ? chance((unsigned)deck_length) : 0;
    char line[DECK_ROOM / 2];
    size_t from, length;

    switch (chance(8)) {
    case 0:     /* another byte */
        if (deck_length > 0)
            deck[at] = bytes[chance(sizeof bytes - 1)];
        break;
    case 1:     /* any byte at all */
        if (deck_length > 0 && chance(4) == 0)
            deck[at] = (char)chance(256);
        break;
    case 2:     /* a byte less */
        if (deck_length > 0)
            replace(at, 1, "", 0);
        break;
    case 3:     /* a scrap anywhere */
        replace(at, 0, scrap, strlen(scrap));
        break;
    case 4:     /* a scrap at the start of a line */
        replace(line_start(), 0, scrap, strlen(scrap));
        break;
    case 5:     /* a line less */
        at = line_start();
        replace(at, line_length(at), "", 0);
        break;
    case 6:     /* a line again, elsewhere */
        from = line_start();
        length = line_length(from);
        memcpy(line, deck + from, length);
        replace(line_start(), 0, line, length);
        break;
    case 7:     /* cut off, the same part many times, or a block more */
        if (chance(8) == 0)
            deck_length = at;
        else if (chance(4) == 0)
            for (unsigned k = 0; k < 25; k++)
                replace(line_start(), 0, scrap, strlen(scrap));
        else
            replace(block_start(), 0, "KK X\nQI 1\n", 10);
        break;
    }
}

static void append(const char *text, unsigned times)
{
    while (times-- > 0)
        replace(deck_length, 0, text, strlen(text));
}

/* Two decks that stand at the limits of held hydrographs and of blocks. */
static void make_crowd(void)
{
    append("*FREE\nIT 60,,,2\n", 1);
    append("KK A\nQI 1\n", 20);
    append("KK S\nHC 5\n", 4);
    append("KK T\nHC 4\nZZ\n", 1);
}

static void make_chain(void)
{
    append("*FREE\nIT 60,,,2\nKK A\nQI 1\n", 1);
    append("KK R\nRM 1,1,.2\n", 199);
    append("ZZ\n", 1);
}

static void make_deck(void)
{
    unsigned choice = chance(SEEDS * 2 + 2);

    deck_length = 0;
    if (choice == 0)
        make_crowd();
    else if (choice == 1)
        make_chain();
    else
        append(seeds[choice % SEEDS], 1);
    for (unsigned k = chance(5); k > 0; k--)
        mutate();
}

/* ---- Runs ------------------------------------------------------------- */

struct outcome {
    struct answer answer;
    struct room room;
};

static void broken(const char *word)
{
    fprintf(stderr, "fuzz: %s\n---- deck\n", word);
    fwrite(deck, 1, deck_length, stderr);
    fprintf(stderr, "\n----\n");
    exit(1);
}

static void *take(size_t bytes, int fill)
{
    void *at = malloc(bytes > 0 ? bytes : 1);

    if (at == NULL)
        exit(1);
    memset(at, fill, bytes);
    return at;
}

/* Lends memory of just the sizes asked for, so that a step outside shows. */
static struct outcome run(const char *text, size_t length, struct named named,
                          size_t work, size_t ordinates, size_t records,
                          int fill)
{
    struct outcome o;
    uint8_t *copy = take(length, 0);

    memcpy(copy, text, length);
    o.room = (struct room){
        take(work * sizeof(uint64_t), fill), work,
        take(ordinates * sizeof(uint64_t), fill), ordinates,
        take(records, fill), records
    };
    o.answer = run_deck(copy, length, named, &o.room);
    free(copy);
    return o;
}

static void drop(struct outcome *o)
{
    free(o->room.work);
    free(o->room.ordinates);
    free(o->room.records);
}

static bool all_zero(const void *at, size_t from, size_t bytes)
{
    const uint8_t *p = at;

    for (size_t k = from; k < bytes; k++)
        if (p[k] != 0)
            return false;
    return true;
}

static bool same_answer(struct answer a, struct answer b)
{
    return a.refusal == b.refusal && a.line == b.line && a.nq == b.nq
        && a.blocks == b.blocks && a.ratios.given == b.ratios.given
        && a.ratios.count == b.ratios.count
        && memcmp(a.ratios.value, b.ratios.value,
                  a.ratios.count * sizeof *a.ratios.value) == 0;
}

/* Bytes of the records that an answer tells of. */
static size_t record_bytes(const struct answer *answer)
{
    return (size_t)answer->blocks * answer->ratios.count * RECORD_BYTES;
}

/* Zeros where there must be zeros. */
static void check_zeros(const struct outcome *o)
{
    const struct room *room = &o->room;
    bool refused = o->answer.refusal != 0;
    size_t words = refused ? 0 : o->answer.nq;
    size_t bytes = refused ? 0 : record_bytes(&o->answer);

    if (!all_zero(room->work, 0, room->work_words * sizeof(uint64_t)))
        broken("work is not zero");
    if (!all_zero(room->ordinates, words * sizeof(uint64_t),
                  room->ordinate_words * sizeof(uint64_t)))
        broken("ordinates are not zero");
    if (!all_zero(room->records, bytes, room->record_bytes))
        broken("records are not zero");
}

/* Two runs that must have said and left the same. */
static void check_same(const struct outcome *a, const struct outcome *b)
{
    if (!same_answer(a->answer, b->answer))
        broken("answers differ");
    if (memcmp(a->room.ordinates, b->room.ordinates,
               a->answer.nq * sizeof(uint64_t)) != 0)
        broken("ordinates differ");
    if (memcmp(a->room.records, b->room.records,
               record_bytes(&a->answer)) != 0)
        broken("records differ");
}

static uint64_t number(const uint8_t *at, unsigned bytes)
{
    uint64_t n = 0;

    while (bytes > 0)
        n = n << 8 | at[--bytes];
    return n;
}

/* A block's record under a ratio against its ordinates. */
static void check_record(const struct outcome *o, unsigned block,
                         unsigned ratio)
{
    const uint8_t *record = o->room.records
        + ((size_t)(ratio - 1) * o->answer.blocks + block - 1) * RECORD_BYTES;
    const uint64_t *flow = o->room.ordinates;
    uint64_t peak = flow[0], sum = 0;
    unsigned interval = 1;

    for (unsigned i = 0; i < o->answer.nq; i++) {
        sum += flow[i];
        if (flow[i] > peak) {
            peak = flow[i];
            interval = i + 1;
        }
    }
    if (number(record + RECORD_PEAK, 8) != peak
        || number(record + RECORD_INTERVAL, 2) != interval
        || number(record + RECORD_SUM, 8) != sum)
        broken("a record does not fit its ordinates");
    if (peak > 6000000000000)
        broken("a flow is over the limit");
    if (record[RECORD_KIND] < 1 || record[RECORD_KIND] > 5
        || record[RECORD_KIND + 1] != 0
        || number(record + RECORD_INTERVAL + 2, 2) != 0
        || number(record + RECORD_PLACE + 2, 4) != 0)
        broken("a record is malformed");
    if (number(record + RECORD_RATIO, 2) != o->answer.ratios.value[ratio - 1]
        || number(record + RECORD_PLACE, 2) != ratio)
        broken("a record does not say its ratio");
}

/* Expects an answer with no blocks from a run with little room. */
static void expect(struct named named, size_t work, size_t ordinates,
                   size_t records, unsigned refusal, unsigned line)
{
    struct outcome o = run(deck, deck_length, named, work, ordinates, records,
                           0x5A);

    if (o.answer.refusal != refusal || o.answer.line != line)
        broken("too little room is answered wrongly");
    check_zeros(&o);
    drop(&o);
}

/* The last block and the last ratio. */
static const struct named last = { 0, 0 };

static unsigned long sheets;

/* The sheet of a runoff block, which must add up.  It reads the deck by itself,
 * here one that ends where it is said to. */
static void check_sheet(const struct outcome *o, unsigned block,
                        unsigned ratio)
{
    static struct sheet sheet;
    static char text[SHEET_ROOM];
    uint8_t *copy;
    size_t length;

    copy = take(deck_length, 0);
    memcpy(copy, deck, deck_length);
    make_sheet(copy, deck_length, block, o->answer.ratios.value[ratio - 1],
               &sheet);
    free(copy);
    if (sheet.nq != o->answer.nq || !sums_are(&sheet, o->room.ordinates))
        broken("a sheet does not add up to the ordinates");
    for (unsigned k = 0; k < sheet.nq; k++)
        if (sheet.rain[k] != sheet.loss[k] + sheet.excess[k])
            broken("rain is not loss and excess");
    length = write_sheet(&sheet, text);
    if (length > SHEET_ROOM || text[length - 1] != '\n')
        broken("a sheet has no end");
    sheets++;
}

static unsigned long hydrographs;

/* A line of the hydrograph, which must say the ordinate; returns the line
 * behind it.  Six places are off by half a millionth at most, 30 units. */
static const char *check_flow(const char *at, unsigned interval,
                              uint32_t minutes, uint64_t flow)
{
    uint64_t whole, millionths, units;
    uint32_t end;
    unsigned first;
    int bytes = 0;

    if (sscanf(at, "%u,%" SCNu32 ",%" SCNu64 ".%6" SCNu64 ",%" SCNu64 "%n",
               &first, &end, &whole, &millionths, &units, &bytes) != 5
        || at[bytes] != '\n')
        broken("a hydrograph has a line of another form");
    if (first != interval || end != interval * minutes || units != flow)
        broken("a hydrograph has another line");
    millionths += 1000000 * whole;
    if (60 * millionths > units + 30 || 60 * millionths + 29 < units)
        broken("a flow is not rounded half up");
    return at + bytes + 1;
}

/* The minutes are read from a deck that ends where it is said to. */
static void check_hydrograph(const struct outcome *o)
{
    static const char head[] = "interval,minutes,cfs,units\n";
    static char text[HYDROGRAPH_ROOM + 1];
    uint8_t *copy = take(deck_length, 0);
    const char *at = text + sizeof head - 1;
    uint32_t minutes;
    size_t length;

    memcpy(copy, deck, deck_length);
    minutes = minutes_of(copy, deck_length);
    free(copy);
    length = write_hydrograph(o->room.ordinates, o->answer.nq, minutes, text);
    text[length] = '\0';
    if (minutes < 1 || minutes > 1440)
        broken("the minutes of a hydrograph are outside their limits");
    if (strncmp(text, head, sizeof head - 1) != 0)
        broken("a hydrograph has another head");
    for (unsigned k = 1; k <= o->answer.nq; k++)
        at = check_flow(at, k, minutes, o->room.ordinates[k - 1]);
    if (at != text + length)
        broken("a hydrograph goes on");
    hydrographs++;
}

static unsigned kind_at(const struct outcome *o, unsigned block,
                        unsigned ratio)
{
    size_t record = (size_t)(ratio - 1) * o->answer.blocks + block - 1;

    return o->room.records[record * RECORD_BYTES + RECORD_KIND];
}

static unsigned long ponds;

/* A pond takes the hydrograph of the block before it.  What is in it counts at
 * both ends of the intervals so far, and so does what has left. */
static void check_pond(const struct outcome *o, const uint64_t *inflow)
{
    const uint64_t *flow = o->room.ordinates;
    uint64_t in = 0, out = 0;

    if (flow[0] != 0)
        broken("a pond starts with outflow");
    for (unsigned i = 1; i < o->answer.nq; i++) {
        in += inflow[i - 1] + inflow[i];
        out += flow[i - 1] + flow[i];
        if (out > in)
            broken("a pond lets out more than has come in");
    }
    ponds++;
}

/* Blocks by name, under each ratio. */
static void check_named(const struct outcome *base, unsigned ratio)
{
    unsigned nq = base->answer.nq;
    unsigned blocks = base->answer.blocks;
    size_t bytes = record_bytes(&base->answer);
    uint64_t before[ORDINATE_LIMIT];    /* of the block before */

    for (unsigned k = 0; k <= blocks && k <= MOST_NAMED; k++) {
        struct named named = { k, ratio };
        struct outcome o = run(deck, deck_length, named, WORK_WORDS, nq, bytes,
                               7);
        unsigned block = k == 0 ? blocks : k;
        unsigned place = ratio == 0 ? base->answer.ratios.count : ratio;
        if (!same_answer(o.answer, base->answer))
            broken("the named block changes the answer");
        check_zeros(&o);
        check_record(&o, block, place);
        if (memcmp(o.room.records, base->room.records, bytes) != 0)
            broken("the named block changes records");
        if (kind_at(&o, block, place) == SHEET_KIND)
            check_sheet(&o, block, place);
        check_hydrograph(&o);
        if (kind_at(&o, block, place) == POND_KIND && k > 1)
            check_pond(&o, before);
        memcpy(before, o.room.ordinates, nq * sizeof *before);
        drop(&o);
    }
}

static void check_accepted(const struct outcome *base)
{
    unsigned nq = base->answer.nq;
    unsigned blocks = base->answer.blocks;
    unsigned ratios = base->answer.ratios.count;
    size_t bytes = record_bytes(&base->answer);

    for (unsigned r = 0; r <= ratios; r++)
        check_named(base, r);
    expect((struct named){ blocks + 1, 0 }, WORK_WORDS, nq, bytes, 17, 0);
    expect((struct named){ 0, ratios + 1 }, WORK_WORDS, nq, bytes, 17, 0);
    expect(last, WORK_WORDS, nq - 1, bytes, 17, 0);
    expect(last, WORK_WORDS, nq, bytes - 1, 17, 0);
    expect(last, WORK_WORDS - 1, nq, bytes, 1, 0);
}

static bool has_old_form(const struct ratios *ratios)
{
    return ratios->count == 1 && ratios->value[0] == WHOLE_RATIO;
}

/* The records, moved to the old form and back. */
static void check_moved(const struct outcome *base)
{
    size_t bytes = record_bytes(&base->answer);
    size_t old_bytes = bytes / RECORD_BYTES * OLD_RECORD_BYTES;
    uint8_t *old = take(old_bytes, 0x5A), *again = take(bytes, 0x5A);
    struct moved moved = move_to_old(base->room.records, bytes, old,
                                     old_bytes);

    if (has_old_form(&base->answer.ratios)) {
        if (moved.refusal != NOT_REFUSED || moved.bytes != old_bytes)
            broken("records without another ratio do not move back");
        moved = move_to_new(old, old_bytes, again, bytes);
        if (moved.refusal != NOT_REFUSED || moved.bytes != bytes
            || memcmp(again, base->room.records, bytes) != 0)
            broken("records are not the same there and back");
    } else if (moved.refusal != NO_OLD_FORM || !all_zero(old, 0, old_bytes)) {
        broken("records with another ratio move back");
    }
    free(old);
    free(again);
}

static unsigned long reasons;

/* A reason's text stands on the line, as the last that is said. */
static void check_text(const char *text, size_t length, const uint8_t *line,
                       size_t bytes)
{
    size_t used = 1;

    if (text[length - 1] != '\n' || length > REASON_ROOM)
        broken("a reason has no end");
    while (used < length && text[length - 1 - used] != ' ')
        used++;
    for (size_t k = 0; k + used - 1 <= bytes; k++)
        if (memcmp(line + k, text + length - used, used - 1) == 0)
            return;
    broken("a reason tells what does not stand on the line");
}

/* A line of the deck and what it is refused with, 0 if nothing.  KK has a text
 * in any case. */
static void check_reason(const char *at, size_t bytes, bool free_form,
                         unsigned refusal)
{
    uint8_t *line = take(bytes, 0);
    char text[REASON_ROOM];

    memcpy(line, at, bytes);
    for (unsigned number = 6; number <= 7; number++) {
        size_t length = write_reason(number, free_form, line, bytes, text);
        bool named = length > 4 && memcmp(text, "NAME", 4) == 0;

        if (length > 0)
            check_text(text, length, line, bytes);
        if (number == refusal && length == 0)
            broken("a refused line has no reason");
        /* behind a malformed field there may be one outside its limits */
        if (number != refusal && length > 0 && !named
            && !(number == 7 && refusal == 6))
            broken("a line has a reason and is not refused by it");
        reasons += number == refusal;
    }
    free(line);
}

/* The lines up to the refused one or ZZ.  A refusal that stands behind 8 on a
 * line finds its fields sound. */
static void check_reasons(const struct answer *answer)
{
    const char *at = deck, *end = deck + deck_length;
    bool free_form = false;

    for (unsigned number = 1; at < end && answer->refusal != 2; number++) {
        const char *behind = memchr(at, '\n', (size_t)(end - at));
        size_t bytes = (size_t)((behind == NULL ? end : behind + 1) - at);

        /* what is out of place is not looked into */
        if (number != answer->line || answer->refusal != 5)
            check_reason(at, bytes, free_form,
                         number == answer->line ? answer->refusal : 0);
        if (number == answer->line || (bytes >= 2 && memcmp(at, "ZZ", 2) == 0))
            return;
        if (bytes >= 4 && memcmp(at, "*F", 2) == 0)
            free_form = at[2] == 'R';
        at += bytes;
    }
}

/* Bytes behind ZZ are not read. */
static void check_behind_end(const struct outcome *base)
{
    static char longer[DECK_ROOM];
    static const char rest[] = "\n\xff\tXX\nKK\n";
    struct outcome o;

    memcpy(longer, deck, deck_length);
    memcpy(longer + deck_length, rest, sizeof rest - 1);
    o = run(longer, deck_length + sizeof rest - 1, last, WORK_WORDS,
            ORDINATE_LIMIT, RECORD_ROOM, 3);
    check_same(base, &o);
    drop(&o);
}

/* A comment in front moves lines, nothing else. */
static void check_line_in_front(const struct outcome *base)
{
    static char longer[DECK_ROOM];
    struct outcome o;

    memcpy(longer, "KM,\r\n", 5);
    memcpy(longer + 5, deck, deck_length);
    o = run(longer, deck_length + 5, last, WORK_WORDS, ORDINATE_LIMIT,
            RECORD_ROOM, 3);
    if (base->answer.line > 0)
        o.answer.line--;
    check_same(base, &o);
    drop(&o);
}

static void check_deck(unsigned *count)
{
    struct outcome base = run(deck, deck_length, last, WORK_WORDS,
                              ORDINATE_LIMIT, RECORD_ROOM, 0xFF);
    struct outcome wide = run(deck, deck_length, last, WORK_WORDS + 37,
                              ORDINATE_LIMIT + 5, RECORD_ROOM + 3, 1);

    check_zeros(&base);
    check_zeros(&wide);
    check_same(&base, &wide);
    count[base.answer.refusal]++;
    check_reasons(&base.answer);
    if (base.answer.refusal == 0) {
        check_accepted(&base);
        check_moved(&base);
        check_behind_end(&base);
    } else {
        expect((struct named){ 9, 9 }, WORK_WORDS, 0, 0, base.answer.refusal,
               base.answer.line);
        expect(last, 0, 0, 0, 1, 0);
    }
    check_line_in_front(&base);
    drop(&base);
    drop(&wide);
}

int main(void)
{
    unsigned count[LAST_REFUSAL + 1] = { 0 };

    for (unsigned k = 0; k < ROUNDS; k++) {
        make_deck();
        check_deck(count);
    }
    printf("fuzz: %d decks, %u accepted; refused as", ROUNDS, count[0]);
    for (unsigned k = 1; k <= LAST_REFUSAL; k++)
        if (count[k] > 0)
            printf(" %u:%u", k, count[k]);
    printf("\nfuzz: %lu sheets, all of which add up, %lu hydrographs, %lu"
           " ponds and %lu reasons\n", sheets, hydrographs, ponds, reasons);
    return 0;
}
