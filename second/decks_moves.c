/* Cases of the mover (document 02, CR 4): files of records in the old form and
   in the new, their faults, and rooms about as large as what comes out. */
#include <string.h>
#include "decks.h"

enum { OLD_RECORD = 32, NEW_RECORD = 40 };

/* what a case is to meet, by the number of the refusal */
enum { LENGTH = 1 << 1, PADDING = 1 << 2, PAIR = 1 << 3, ROOM = 1 << 4 };

static int least(int a, int b)
{
    return a < b ? a : b;
}

static void put(unsigned char *at, uint64_t v, int bytes)
{
    for (; bytes > 0; bytes--, v >>= 8)
        *at++ = (unsigned char)(v & 255);
}

/* ---- records ---- */

static void fill_random(unsigned char *at, int n)
{
    while (n-- > 0)
        *at++ = (unsigned char)rnd(256);
}

static void clear_padding(unsigned char *at, int size)
{
    at[7] = at[22] = at[23] = 0;
    if (size == NEW_RECORD)
        memset(at + 36, 0, 4);
}

static void put_pair(unsigned char *at, int ratio, int place)
{
    put(at + 32, (uint64_t)ratio, 2);
    put(at + 34, (uint64_t)place, 2);
}

/* as the engine writes them; full: no byte of peak and sum is zero */
static void engine_record(unsigned char *at, int full)
{
    static const char marks[] = "ABCDEFGHIJKLMNOPQRSTUVWXYZ0123456789-.,*";
    int i, n = between(1, 6);
    memset(at, ' ', 6);
    for (i = 0; i < n; i++)
        at[i] = (unsigned char)marks[rnd((int)sizeof marks - 1)];
    at[6] = (unsigned char)between(1, 4);
    put(at + 8, pct(20) ? 0 : pct(50) ? (uint64_t)between(1, LIMIT_BA) : (uint64_t)between(1, LIMIT_BLOCKS * LIMIT_BA), 4);
    uint64_t top = (uint64_t)LIMIT_FLOW, peak = pct(10) ? 0 : pct(10) ? top : rng_next() % (top + 1);
    put(at + 12, peak, 8);
    put(at + 20, (uint64_t)between(1, LIMIT_NQ), 2);
    put(at + 24, peak == 0 ? 0 : peak + rng_next() % (top * (LIMIT_NQ - 1)), 8);
    for (i = 0; full && i < 8; i++) {
        at[12 + i] = (unsigned char)between(1, 255);
        at[24 + i] = (unsigned char)between(1, 255);
    }
}

enum { AS_ENGINE, FULL_NUMBERS, ANY_BYTES, ONE_BYTE, SORTS };

/* One record that has an old form and, as far as padding goes, is sound. */
static void record(unsigned char *at, int size, int sort, int byte)
{
    if (sort == AS_ENGINE || sort == FULL_NUMBERS)
        engine_record(at, sort == FULL_NUMBERS);
    else if (sort == ANY_BYTES)
        fill_random(at, size);
    else
        memset(at, byte, (size_t)size);
    clear_padding(at, size);
    if (size == NEW_RECORD)
        put_pair(at, 100, 1);
}

static void records(unsigned char *file, int count, int size)
{
    static const int sorts[] = { AS_ENGINE, AS_ENGINE, AS_ENGINE, AS_ENGINE, FULL_NUMBERS, FULL_NUMBERS, ANY_BYTES,
                                 ANY_BYTES, ONE_BYTE };
    static const int byte_values[] = { 0, 255, 1, 128, 32 };
    int i, sort = sorts[rnd(9)], byte = byte_values[rnd(5)], mixed = pct(15);
    for (i = 0; i < count; i++) {
        if (mixed)
            sort = rnd(SORTS);
        record(file + (size_t)i * (size_t)size, size, sort, byte);
    }
}

/* as from a deck with a JR: all blocks under one ratio, then under the next */
static void under_ratios(unsigned char *file, int count)
{
    int i, n = between(1, LIMIT_RATIOS), ratio[LIMIT_RATIOS], blocks;
    for (i = 0; i < n; i++)
        ratio[i] = pct(40) ? 100 : between(1, LIMIT_RATIO);
    if (pct(25)) {                                 /* 1.00 alone has an old form */
        n = 1;
        ratio[0] = 100;
    }
    blocks = (count + n - 1) / n;
    for (i = 0; i < count; i++)
        put_pair(file + (size_t)i * NEW_RECORD, ratio[i / blocks], i / blocks + 1);
}

/* ---- faults ---- */

/* the first record, a middle one, the last or any */
static int which_record(int count)
{
    switch (rnd(4)) {
    case 0: return 0;
    case 1: return count / 2;
    case 2: return count - 1;
    default: return rnd(count);
    }
}

static void spoil_padding(unsigned char *file, int count, int size)
{
    static const int places[] = { 7, 22, 23, 36, 37, 38, 39 };
    static const int values[] = { 1, 128, 255 };
    int times = pct(80) ? 1 : between(2, 4);
    while (times-- > 0) {
        unsigned char *at = file + (size_t)which_record(count) * (size_t)size;
        int place = places[rnd(size == NEW_RECORD ? 7 : 3)];
        at[place] = (unsigned char)(pct(85) ? values[rnd(3)] : between(1, 255));
    }
}

/* pairs without an old form, some of them 100 and 1 in one byte or the other */
static void spoil_pairs(unsigned char *file, int count)
{
    static const int pairs[][2] = {
        { 100, 2 }, { 100, 2 }, { 99, 1 }, { 101, 1 }, { 100, 0 }, { 356, 1 }, { 356, 1 }, { 100, 257 }, { 0, 0 },
        { 150, 3 }, { 0, 1 }, { 1, 1 }, { 999, 9 }, { 100, 9 }, { 25600, 1 }, { 100, 256 }, { 1, 100 },
        { 65535, 65535 }
    };
    int i, k = rnd((int)(sizeof pairs / sizeof pairs[0]));
    if (pct(12)) {
        for (i = 0; i < count; i++)
            put_pair(file + (size_t)i * NEW_RECORD, pairs[k][0], pairs[k][1]);
        return;
    }
    put_pair(file + (size_t)which_record(count) * NEW_RECORD, pairs[k][0], pairs[k][1]);
    if (pct(15)) {
        k = rnd((int)(sizeof pairs / sizeof pairs[0]));
        put_pair(file + (size_t)which_record(count) * NEW_RECORD, pairs[k][0], pairs[k][1]);
    }
}

/* A length that is no whole number of records, by little or as of the other form. */
static int broken_length(int count, int size)
{
    int length;
    do {
        length = count * size;
        switch (rnd(7)) {
        case 0: length += 1; break;
        case 1: length -= 1; break;
        case 2: length += 8; break;
        case 3: length -= 8; break;
        case 4: length = count * (OLD_RECORD + NEW_RECORD - size); break;
        case 5: length += between(1, size - 1); break;
        default: length -= between(1, size - 1); break;
        }
    } while (length < 0 || length > LIMIT_MOVER || length % size == 0);
    return length;
}

/* ---- rooms ---- */

/* enough for what comes out, as far as a room can be */
static int fair_room(int need, int length, int out)
{
    int r = rnd(100), room = need;
    if (r >= 45) room = need + 1;
    if (r >= 54) room = need + out - 1;
    if (r >= 58) room = need + out;
    if (r >= 62) room = length > need ? length : need;
    if (r >= 76) room = need + between(1, 200);
    if (r >= 90) room = need + between(200, 2000);
    if (r >= 98) room = pct(25) ? LIMIT_MOVER : between(least(need, LIMIT_MOVER), LIMIT_MOVER);
    return least(room, LIMIT_MOVER);
}

/* too little, where anything comes out at all */
static int short_room(int need, int length, int out)
{
    int r = rnd(100), room = need - 1;
    if (r >= 35) room = 0;
    if (r >= 45) room = need - out;
    if (r >= 60 && length < need) room = length;
    if (r >= 80) room = rnd(need);
    return need == 0 ? 0 : least(room, LIMIT_MOVER);
}

/* ---- cases ---- */

static int pick_faults(void)
{
    static const struct { int chance, faults; } table[] = {
        { 34, 0 }, { 7, LENGTH }, { 12, PADDING }, { 12, PAIR }, { 9, ROOM },
        { 3, LENGTH | PADDING }, { 3, LENGTH | PAIR }, { 3, LENGTH | ROOM },
        { 6, PADDING | PAIR }, { 3, PADDING | ROOM }, { 3, PAIR | ROOM },
        { 1, LENGTH | PADDING | PAIR }, { 1, LENGTH | PADDING | ROOM }, { 1, LENGTH | PAIR | ROOM },
        { 1, PADDING | PAIR | ROOM }, { 1, LENGTH | PADDING | PAIR | ROOM }
    };
    int i = 0, r = rnd(100);
    while (r >= table[i].chance)
        r -= table[i++].chance;
    return table[i].faults;
}

/* How many records: few, none, one, some hundred, or as many as there is room
   for.  2,500 old ones fill a file and cannot come out, 2,000 fill a room. */
static int pick_count(int to_old)
{
    int r = rnd(1000);
    if (r < 60) return 0;
    if (r < 160) return 1;
    if (r < 940) return between(2, 40);
    if (r < 978) return between(41, 200);
    if (r < 985) return between(1000, 2000);
    if (r < 995) return 2000;
    return to_old ? 1999 : pct(50) ? 2001 : 2500;
}

void move_case(Move *m, unsigned char *file)
{
    int r = rnd(100), faults = pick_faults();
    m->to_old = pct(55);
    int size = m->to_old ? NEW_RECORD : OLD_RECORD, out = OLD_RECORD + NEW_RECORD - size;
    int count = pick_count(m->to_old), written = size;
    if (count >= 1000 && pct(40))
        faults = 0;
    if (r < 4)                                     /* in the other form, as it stands */
        written = out;
    if (count * written > LIMIT_MOVER)
        count = LIMIT_MOVER / written;
    m->length = count * written;
    /* behind the records there are bytes for a file that is longer */
    fill_random(file + m->length, least(LIMIT_MOVER - m->length, count * 8 + NEW_RECORD));
    if (r < 7 && r >= 4)                           /* no records at all */
        fill_random(file, m->length);
    else
        records(file, count, written);
    if (written == NEW_RECORD && r >= 95)
        under_ratios(file, count);
    if (written == size && count > 0 && faults & PADDING)
        spoil_padding(file, count, size);
    if (written == size && count > 0 && faults & PAIR && m->to_old)
        spoil_pairs(file, count);
    if (faults & LENGTH)
        m->length = broken_length(count, size);
    int need = m->length / size * out;
    m->room = faults & ROOM ? short_room(need, m->length, out) : fair_room(need, m->length, out);
}
