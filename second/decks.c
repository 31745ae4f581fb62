/* The deck writer: seeded test decks for the engine of document 01, with the
   storm totals, losses, ratios, ponds and trailing zeros of document 02, CR 1 to
   CR 3, CR 6 and CR 7, files of records for the mover of CR 4, decks for the
   sheet of CR 5 and for the hydrograph, the table and the network in print, and
   lines for the reasons. */
#include <stdio.h>
#include <stdlib.h>
#include <string.h>
#include "decks.h"

static Line lines[MAX_LINES];
static unsigned char padding[MAX_BYTES], tailing[MAX_BYTES], bytes[2 * MAX_BYTES];
static Net net;
static Deck deck = { lines, 0, 0, 0, 0, 0, 0, padding, tailing };
static Style style;
static int fill_to;                                /* 0, or the length a deck is to have */
enum { JR_CHANCE = 33 };                           /* decks with a JR, in a hundred */
static int jr_chance = JR_CHANCE;

static const char help[] =
    "decks bundle SEED COUNT          COUNT decks, each behind its length (4 bytes, little-endian)\n"
    "decks cases SEED COUNT           COUNT cases: six 4-byte little-endian numbers (named block, named\n"
    "                                 ratio, work words, ordinate words, record bytes, deck length) and the\n"
    "                                 deck\n"
    "decks moves SEED COUNT           COUNT cases of the mover: three 4-byte little-endian numbers (direction,\n"
    "                                 0 to the new form and 1 to the old; room; length) and the file\n"
    "decks sheets SEED COUNT          COUNT cases of the sheet: three 4-byte little-endian numbers (named block,\n"
    "                                 named ratio, deck length) and the deck\n"
    "decks hydrographs SEED COUNT     COUNT cases of the hydrograph, with the same numbers\n"
    "decks reasons SEED COUNT         COUNT cases of the reasons: three 4-byte little-endian numbers (refusal,\n"
    "                                 form, length) and bytes that begin with a line\n"
    "decks tables SEED COUNT FOLDER   COUNT lawful decks for the table and the network, as files 0001.hc1 and so\n"
    "                                 on in that folder\n"
    "decks pairs SEED COUNT           COUNT pairs of decks, as in a bundle; each pair draws one network\n"
    "                                 in two orders and two manners of writing\n"
    "decks sound SEED COUNT           COUNT lawful decks, as in a bundle\n"
    "decks damaged SEED COUNT NUMBER  COUNT decks, each with one damage aimed at that refusal (2 to 16, 18 to 20)\n"
    "decks one SEED INDEX             deck INDEX (from 0) of the bundle of that seed, bare\n"
    "decks big SEED lists [BYTES]                       one long deck of PI, UI and QI lines, bare\n"
    "decks big SEED zeros [BYTES]                       the same with zeros past the places of each value, bare\n"
    "decks big SEED blocks [BLOCKS [NQ [UNITS [RAIN]]]] one deck of runoff blocks and confluences, bare\n"
    "decks big SEED storms [BLOCKS [NQ [UNITS [RAIN]]]] the same with a total (PB) in each runoff block, bare;\n"
    "                                 fewer blocks where 60,000 bytes would be passed\n"
    "decks big SEED ratios [RATIOS [BLOCKS [NQ [UNITS [RAIN]]]]] the deck of blocks with 1 to 9 ratios (JR), bare;\n"
    "                                 fewer blocks where 60,000 bytes would be passed\n"
    "decks big SEED routing [BLOCKS [NQ [STEPS]]]       one deck of routings, bare\n"
    "decks big SEED ponds [BLOCKS [NQ [ROWS]]]          one deck of ponds, bare; fewer blocks where 60,000 bytes\n"
    "                                 would be passed\n"
    "decks --help                     this text\n"
    "\n"
    "The same seed gives the same bytes on every machine.  Deck number I of a bundle depends on the\n"
    "seed and I alone, not on COUNT.\n";

static void number4(uint32_t v)
{
    putchar((int)(v & 255));
    putchar((int)(v >> 8 & 255));
    putchar((int)(v >> 16 & 255));
    putchar((int)(v >> 24 & 255));
}

static void out_deck(int n)
{
    number4((uint32_t)n);
    fwrite(bytes, 1, (size_t)n, stdout);
}

/* ---- sound decks ---- */

static void it_values(int top)
{
    net.m = pick_minutes();
    net.nq = pick_nq(top);
    pick_ratios(&net, jr_chance);
}

/* A lawful deck in `deck`, its network in `net`.  small: for the cases. */
static void sound_once(int small)
{
    int r = rnd(1000), size;
    style_random(&style);
    if (small) {
        it_values(20);
        net_random(&net, between(1, 12), 0, 12, FLOW_SHARE, 25);
        if (pct(3)) {
            it_values(300);
            net_random(&net, between(100, LIMIT_BLOCKS), 0, 3, FLOW_SMALL, 25);
        }
    } else if (r < 430) {
        it_values(12);
        size = between(1, 5);
        net_random(&net, size, 0, 12, pct(60) ? FLOW_SHARE : FLOW_SMALL, 30);
    } else if (r < 760) {
        it_values(30);
        size = between(2, 16);
        net_random(&net, size, 0, 16, pct(50) ? FLOW_SHARE : FLOW_SMALL, 25);
    } else if (r < 840) {
        it_values(100);
        net_random(&net, between(10, 60), 0, 10, FLOW_SHARE, 25);
    } else if (r < 855) {                          /* large trees */
        it_values(60);
        size = pct(50) ? LIMIT_BLOCKS : between(100, LIMIT_BLOCKS);
        net_random(&net, size, 0, 4, FLOW_SHARE, between(5, 60));
    } else if (r < 885) {                          /* twenty held */
        it_values(12);
        net_random(&net, between(25, 45), LIMIT_HELD, 4, FLOW_SHARE, 12);
    } else if (r < 945) {                          /* at and below the flow limit */
        it_values(10);
        size = between(1, 10);
        if (net.njr > 0 && pct(60))
            net_ratio_limit(&net, 0);
        else
            net_limit(&net, size, pct(60) ? 0 : -1);
    } else if (r < 965) {                          /* full lists */
        it_values(300);
        if (pct(60)) net.nq = LIMIT_NQ;
        net_random(&net, between(1, 6), 0, 300, FLOW_SHARE, 30);
    } else if (r < 990) {                          /* long routings of high flows */
        net.m = pct(50) ? 1440 : between(1, 60);
        net.nq = pick_nq(40);
        pick_ratios(&net, jr_chance);
        net_random(&net, between(4, 20), 0, 40, FLOW_SHARE, 70);
    } else {
        it_values(300);
        net_random(&net, between(1, 60), 0, 40, FLOW_SHARE, 25);
    }
    deck_write(&deck, &net, &style);
    fill_to = 0;
    if (r >= 970 && r < 977 && !small)             /* near and at the longest deck */
        fill_to = pct(60) ? LIMIT_BYTES : between(LIMIT_BYTES - 200, LIMIT_BYTES);
}

static void sound(int small)
{
    do {
        sound_once(small);
    } while (deck_bytes(&deck, bytes) > LIMIT_BYTES);
}

/* The bytes of `deck`, filled out where it is to be long. */
static int finish(void)
{
    int n = deck_bytes(&deck, bytes);
    if (fill_to > n && fill_to > 0) {
        deck_fill(&deck, fill_to, rnd(4));
        n = deck_bytes(&deck, bytes);
    }
    return n;
}

/* ---- the bundle ---- */

static int pick_refusal(void)
{
    /* 2 and 14 make long decks, so they come less often */
    static const int usual[] = {
        3, 3, 4, 4, 5, 5, 5, 6, 6, 6, 6, 6, 7, 7, 7, 7, 7, 8, 8, 9, 9, 9, 10, 10, 11, 11, 12, 12, 13, 13, 13, 15, 15, 16,
        18, 18, 18, 19, 19, 19, 20, 20, 20
    };
    int r = rnd(1000);
    if (r < 8) return 2;
    if (r < 30) return 14;
    return usual[rnd((int)(sizeof usual / sizeof usual[0]))];
}

static int has_pond(void)
{
    int i;
    for (i = 0; i < net.nb; i++)
        if (net.b[i].kind == 5) return 1;
    return 0;
}

static void base_for(int number)
{
    int of_flows = number == 13 || number == 20;   /* flows alone depend on the ratio */
    int ponds = number >= 19 ? pct(85) : number >= 5 && number <= 9 && pct(35), tries = 0;
    fill_to = 0;
    jr_chance = of_flows ? 65 : JR_CHANCE;
    if (number == 14 || (of_flows && pct(8)) || (number >= 18 && pct(4))) {   /* a 201st block needs many before it */
        style_random(&style);
        style.pkm /= 4;
        style.pblank /= 4;
        it_values(12);
        net_random(&net, between(LIMIT_BLOCKS - 5, LIMIT_BLOCKS - (number >= 19 ? 4 : number == 13)), 0, 3, FLOW_SHARE, 40);
        deck_write(&deck, &net, &style);
    } else if (number == 11 && pct(40)) {
        style_random(&style);
        it_values(8);
        net_random(&net, between(25, 45), LIMIT_HELD, 3, FLOW_SHARE, 5);
        deck_write(&deck, &net, &style);
    } else {
        do {
            sound(0);
        } while ((net.nb > 60 && !pct(25)) || (ponds && !has_pond() && ++tries < 30));
    }
    jr_chance = JR_CHANCE;
}

static int bundle_deck(uint64_t seed, int index)
{
    int r, n;
    rng_seed(seed, (uint64_t)index);
    fill_to = 0;
    r = rnd(1000);
    if (r < 450) {
        sound(0);
        return finish();
    }
    if (r < 745) {                                 /* one damage */
        int number = pick_refusal();
        base_for(number);
        damage(&deck, &net, &style, number);
        n = finish();
        return n;
    }
    if (r < 830) {                                 /* two damages */
        int a = pick_refusal(), b;
        b = pick_refusal();
        base_for(a == 14 || b == 14 ? 14 : a);
        damage(&deck, &net, &style, a);
        if (pct(50) || !damage_more(&deck, &style))
            damage(&deck, &net, &style, b);
        return finish();
    }
    if (r < 860) {                                 /* flows without a rein */
        int size = between(2, 10);
        style_random(&style);
        it_values(12);
        if (pct(50))                               /* at and about the limit by a ratio's rounding */
            pick_ratios(&net, 100);
        if (net.njr > 0 && pct(30))
            net_ratio_limit(&net, pct(75));
        else if (net.njr > 0 && pct(50))
            net_drip(&net);
        else if (pct(40))
            net_limit(&net, size, pct(50) ? 1 : 1000);
        else
            net_random(&net, between(2, 16), 0, 12, FLOW_WILD, 25);
        deck_write(&deck, &net, &style);
        return finish();
    }
    if (r < 980) {                                 /* blind mutations */
        int times = pct(70) ? 1 : between(2, 4);
        sound(0);
        int by_line = pct(40);
        while (by_line && times-- > 0)
            deck_mutate_lines(&deck);
        n = finish();
        while (!by_line && times-- > 0)
            n = bytes_mutate(bytes, n);
        return n;
    }
    n = degenerate(bytes);
    if (pct(15))
        n = bytes_mutate(bytes, n);
    return n;
}

static void bundle(uint64_t seed, int count)
{
    int i;
    for (i = 0; i < count; i++)
        out_deck(bundle_deck(seed, i));
}

/* ---- one sort of deck only ---- */

static void only_sound(uint64_t seed, int count)
{
    int i;
    for (i = 0; i < count; i++) {
        rng_seed(seed, ((uint64_t)4 << 40) + (uint64_t)i);
        sound(0);
        out_deck(finish());
    }
}

static void only_damaged(uint64_t seed, int count, int number)
{
    int i;
    for (i = 0; i < count; i++) {
        rng_seed(seed, ((uint64_t)5 << 40) + (uint64_t)i);
        base_for(number);
        damage(&deck, &net, &style, number);
        out_deck(finish());
    }
}

/* ---- cases ---- */

static void cases(uint64_t seed, int count)
{
    static const uint32_t far[] = { 0xFFFFFFFFu, 0x80000000u, 0x7FFFFFFFu, 65536u, 256u, 201u, 1000u };
    int i, n;
    for (i = 0; i < count; i++) {
        rng_seed(seed, ((uint64_t)1 << 40) + (uint64_t)i);
        sound(1);
        int r = rnd(100);
        if (r < 10)
            damage(&deck, &net, &style, pick_refusal());
        if (r >= 10 && r < 13)
            deck_mutate_lines(&deck);
        n = deck_bytes(&deck, bytes);
        if (r == 13)
            n = degenerate(bytes);
        int ratios = net.njr > 0 ? net.njr : 1, exact = 40 * net.nb * ratios;
        uint32_t named, ratio, work, ord, rec;
        r = rnd(100);
        named = r < 35 ? 0u : r < 80 ? (uint32_t)between(1, net.nb) : r < 88 ? (uint32_t)net.nb
              : r < 95 ? (uint32_t)net.nb + 1 : far[rnd(7)];
        r = rnd(100);
        ratio = r < 35 ? 0u : r < 55 ? 1u : r < 80 ? (uint32_t)between(1, ratios) : r < 90 ? (uint32_t)ratios
              : r < 95 ? (uint32_t)ratios + 1 : r < 97 ? 10u : far[rnd(7)];
        r = rnd(100);
        work = r < 60 ? 6000u : r < 70 ? 6001u : r < 88 ? (uint32_t)between(6000, 12000) : r < 94 ? 5999u
             : r < 96 ? 0u : (uint32_t)rnd(6000);
        r = rnd(100);
        ord = r < 50 ? (uint32_t)net.nq : r < 65 ? (uint32_t)net.nq + 1 : r < 88 ? (uint32_t)between(net.nq, 600)
            : r < 95 ? (uint32_t)net.nq - 1 : r < 97 ? 0u : (uint32_t)rnd(net.nq);
        r = rnd(100);
        rec = r < 50 ? (uint32_t)exact : r < 62 ? (uint32_t)exact + 1
            : r < 84 ? (uint32_t)between(exact, pct(80) ? exact + 2000 : LIMIT_RECORDS)
            : r < 89 ? (uint32_t)exact - 1 : r < 92 ? (uint32_t)(40 * net.nb)   /* enough for one ratio */
            : r < 95 ? (uint32_t)(32 * net.nb * ratios)                         /* enough for the old form */
            : r < 96 ? 0u : (uint32_t)rnd(exact);
        if (rec > LIMIT_RECORDS)
            rec = LIMIT_RECORDS;
        number4(named);
        number4(ratio);
        number4(work);
        number4(ord);
        number4(rec);
        out_deck(n);
    }
}

/* ---- cases of the mover ---- */

static void moves(uint64_t seed, int count)
{
    int i;
    Move m;
    for (i = 0; i < count; i++) {
        rng_seed(seed, ((uint64_t)6 << 40) + (uint64_t)i);
        move_case(&m, bytes);
        number4((uint32_t)m.to_old);
        number4((uint32_t)m.room);
        out_deck(m.length);
    }
}

/* ---- cases of the sheet and of the hydrograph ---- */

/* each refusal that a deck can meet, as often as any other */
static int any_refusal(void)
{
    int number = between(2, 19);
    return number >= 17 ? number + 1 : number;
}

/* Behind ZZ nothing is read, whatever cards stand there: more of the last block,
   and others of the run. */
static const char block_cards[] = "PI 1,1\nUI 9\nLU 0,0\n*FREE\nPI 1,1\nUI 9\nLU 0,0\nPB 5\n";
static const char run_cards[] = "IT    17                       2\n*FREE\nIT 17,,,2\nJR PREC,2\nKK X\nQI 9\nZZ\n";

static void cards_behind(const char *cards)
{
    deck.ntail = (int)strlen(cards);
    memcpy(deck.tail, cards, strlen(cards));
}

/* A deck from a network with a block to be named, whose place is returned. */
static int aimed_deck(int (*network)(Net *), const char *behind)
{
    int aimed;
    do {
        aimed = network(&net);
        style_random(&style);
        deck_write(&deck, &net, &style);
        if (pct(8))
            cards_behind(behind);
    } while (deck_bytes(&deck, bytes) > LIMIT_BYTES);
    fill_to = rnd(100) == 0 ? LIMIT_BYTES : 0;
    return aimed;
}

/* The deck of a case; the block that is to be named, or 0 where it is any. */
static int case_deck(int (*network)(Net *), const char *behind)
{
    int r = rnd(100), aimed = 0, number;
    if (r < 15) {
        sound(1);
    } else if (r < 32) {
        number = any_refusal();
        base_for(number);
        damage(&deck, &net, &style, number);
    } else {
        aimed = aimed_deck(network, behind);
        if (r < 35)
            deck_mutate_lines(&deck);
    }
    return aimed;
}

/* One in a thousand is the longest there can be, and always names that block. */
static void sheets(uint64_t seed, int count)
{
    int i;
    uint32_t block, ratio;
    for (i = 0; i < count; i++) {
        rng_seed(seed, ((uint64_t)7 << 40) + (uint64_t)i);
        fill_to = 0;
        if (i % 1000 == 500) {
            block = (uint32_t)aimed_deck(sheet_big_net, block_cards);
            ratio = (uint32_t)rnd(net.njr + 1);
        } else {
            sheet_named(&net, case_deck(sheet_net, block_cards), &block, &ratio);
        }
        number4(block);
        number4(ratio);
        out_deck(finish());
    }
}

static void hydrographs(uint64_t seed, int count)
{
    int i;
    uint32_t block, ratio;
    for (i = 0; i < count; i++) {
        rng_seed(seed, ((uint64_t)8 << 40) + (uint64_t)i);
        fill_to = 0;
        hydrograph_named(&net, case_deck(hydrograph_net, run_cards), &block, &ratio);
        number4(block);
        number4(ratio);
        out_deck(finish());
    }
}

/* ---- cases of the reasons ---- */

static void reasons(uint64_t seed, int count)
{
    int i, n;
    uint32_t number, form;
    for (i = 0; i < count; i++) {
        rng_seed(seed, ((uint64_t)9 << 40) + (uint64_t)i);
        n = reason_case(i, &number, &form, bytes);
        number4(number);
        number4(form);
        out_deck(n);
    }
}

/* ---- decks for the table and the network, as files ---- */

static void write_file(const char *folder, int number, int n)
{
    char path[4096];
    FILE *f = NULL;
    if (snprintf(path, sizeof path, "%s/%04d.hc1", folder, number) < (int)sizeof path)
        f = fopen(path, "wb");
    if (f == NULL || fwrite(bytes, 1, (size_t)n, f) < (size_t)n || fclose(f) != 0) {
        fprintf(stderr, "decks: cannot write to %s\n", folder);
        exit(1);
    }
}

/* Of a hundred decks one has the most blocks, and one its first line far down. */
static void tables(uint64_t seed, int count, const char *folder)
{
    int i;
    for (i = 0; i < count; i++) {
        rng_seed(seed, ((uint64_t)10 << 40) + (uint64_t)i);
        do {
            table_net(&net, i % 100 == 50);
            style_random(&style);
            deck_write(&deck, &net, &style);
            table_texts(&deck);
        } while (deck_bytes(&deck, bytes) > LIMIT_BYTES);
        if (i % 100 == 25) {
            deck_fill(&deck, LIMIT_BYTES, 3);
            deck.padat = 0;
        }
        write_file(folder, i + 1, deck_bytes(&deck, bytes));
    }
}

/* ---- pairs ---- */

static void pair_deck(void)
{
    do {
        style_random(&style);
        deck_write(&deck, &net, &style);
    } while (deck_bytes(&deck, bytes) > LIMIT_BYTES);
    out_deck(deck_bytes(&deck, bytes));
}

static int spoil(int number)                       /* makes one block of the network unlawful */
{
    int i, tries;
    for (tries = 0; tries < 50; tries++) {
        i = rnd(net.nb);
        Block *b = &net.b[i];
        if (number == 12 && b->kind == 4
            && rm_pick(net.m, pct(50) ? RM_UNDER : RM_OVER, &b->rn, &b->rk, &b->rx))
            return 1;
        if (number == 13 && b->kind == 1) {
            b->npi = b->nui = 1;
            b->pi[0] = LIMIT_PI;
            b->ui[0] = 500001;
            b->lu1 = b->lu2 = 0;
            if (b->has_pb) {
                b->pb = LIMIT_PB;
                b->ui[0] = 100001;
            }
            return 1;
        }
        if (number == 18 && b->kind == 1) {
            int k;
            for (k = 0; k < b->npi; k++)
                b->pi[k] = 0;
            b->has_pb = 1;
            b->pb = pct(50) ? 1 : between(1, LIMIT_PB);
            return 1;
        }
        if (number == 19 && b->kind == 5) {
            pond_break(net.m, b, rnd(BREAKS));
            return 1;
        }
        if (number == 20 && b->kind == 5) {        /* hardly any room */
            b->nsv = b->nsq = 2;
            b->sv[1] = between(1, 50);
            b->sq[1] = 0;
            return 1;
        }
    }
    return 0;
}

static void pairs(uint64_t seed, int count)
{
    int i;
    for (i = 0; i < count; i++) {
        rng_seed(seed, ((uint64_t)2 << 40) + (uint64_t)i);
        int r = rnd(100), distinct = pct(75), tries, size;
        it_values(20);
        if (r < 12) {                              /* one order too deep */
            net_caterpillar(&net, between(18, 40), 4);
            net_names(&net, distinct);
            if (pct(50)) {
                net_deepest_first(&net);
                pair_deck();
                net_deepest_last(&net);
            } else {
                net_deepest_last(&net);
                pair_deck();
                net_shuffle(&net);
            }
            pair_deck();
            continue;
        }
        if (r < 20) {                              /* at, below and over the flow limit */
            size = between(2, 12);
            net_limit(&net, size, pct(40) ? 0 : pct(40) ? -1 : pct(50) ? 1 : 1000);
        } else if (r < 24) {
            net_random(&net, between(100, LIMIT_BLOCKS), 0, 3, FLOW_SHARE, 20);
        } else if (r < 34) {                       /* many held */
            net_random(&net, between(25, 50), LIMIT_HELD, 4, FLOW_SHARE, 8);
        } else {
            size = between(3, 24);
            net_random(&net, size, 0, 14, pct(90) ? FLOW_SHARE : FLOW_WILD, 20);
        }
        net_names(&net, distinct);
        if (pct(12)) {
            static const int refusals[] = { 12, 13, 18, 19, 20 };
            spoil(refusals[rnd(5)]);
        }
        for (tries = 0; tries < 20; tries++) {
            net_shuffle(&net);
            if (net_held(&net) <= LIMIT_HELD)
                break;
        }
        pair_deck();
        for (tries = 0; tries < 20; tries++) {
            if (pct(5)) net_deepest_last(&net);
            else if (pct(5)) net_deepest_first(&net);
            else net_shuffle(&net);
            if (net_held(&net) <= LIMIT_HELD || r % 7 == 0)
                break;
        }
        pair_deck();
    }
}

/* ---- long decks for timing ---- */

static int used;
static unsigned char *big = bytes;

static void say(const char *t)
{
    int n = (int)strlen(t);
    memcpy(big + used, t, (size_t)n);
    used += n;
}

/* v counted in the last place, and so many zeros past its places */
static void say_value(int v, int places, int past)
{
    char t[16];
    number_write(t, v, places, 15, 0);
    if (past > 0)
        number_past(t, places, past);
    say(t);
}

static void say_number(int v, int places)
{
    say_value(v, places, 0);
}

/* one list line of c values of up to `top`, counted in the last place */
static void say_list(const char *ident, int c, int least, int top, int places, int past)
{
    int i;
    say(ident);
    for (i = 0; i < c; i++) {
        if (i) say(",");
        say_value(between(least, top), places, past);
    }
    say("\n");
}

static int name_number;

static void say_block(void)
{
    static const char letters[] = "ABCDEFGHIJKLMNOPQRSTUVWXYZ";
    char t[8] = { 'K', 'K', 0 };
    t[2] = letters[name_number % 26];
    t[3] = letters[name_number / 26 % 26];
    t[4] = '\n';
    t[5] = 0;
    name_number++;
    say(t);
}

/* zeros: two of them past the places of each value, and no more than eight
   values a line, since ten would pass 80 bytes */
static void big_lists(int size, int zeros)
{
    int k = 0, blocks = 0, line = zeros ? 8 : 10, past = zeros ? 2 : 0;
    say("ID LISTS\n*FREE\nIT 60,,,300\n");
    /* runoff, inflow and their confluence by turns, until the bytes are used up */
    while (used < size - 150 && blocks < LIMIT_BLOCKS - 4) {
        int v;
        say_block();
        if (k % 2 == 0) {
            say("BA 1.5\nLU 0.5,0.1\n");
            for (v = 0; v + line <= LIMIT_NQ && used < size - 120; v += line)
                say_list("PI", line, 1, 9999, 4, past);
            if (v == 0) say("PI\n");
            int units = 0;
            for (v = 0; v + line <= LIMIT_UNITS && used < size - 120; v += line, units++)
                say_list("UI", line, 1, 999, 2, past);
            if (units == 0) say("UI\n");
        } else {
            int lines_done = 0;
            for (v = 0; v + line <= LIMIT_NQ && used < size - 120; v += line, lines_done++)
                say_list("QI", line, 1, 99999, 2, past);
            if (lines_done == 0) say("QI\n");
        }
        blocks++;
        if (k > 0) {
            say_block();
            say("HC 2\n");
            blocks++;
        }
        k++;
    }
    say("ZZ\n");
}

/* Ratios that leave each interval with rain its excess; 1.00 is not among
   them, since it may well be cheaper than others. */
static void say_ratios(int count)
{
    static const int ratio[LIMIT_RATIOS] = { 99, 98, 97, 96, 101, 102, 103, 104, 105 };
    int i;
    say("JRPREC");
    for (i = 0; i < count; i++) {
        char t[16];
        snprintf(t, sizeof t, ",%d.%02d", ratio[i] / 100, ratio[i] % 100);
        say(t);
    }
    say("\n");
}

/* storms: each runoff block has a total too; ratios: so many on a JR */
static void big_blocks(int count, int nq, int units, int rain, int storms, int ratios)
{
    int held = 0, left = count, v;
    char t[64];
    snprintf(t, sizeof t, "*FREE\nIT60,,,%d\n", nq);
    say(t);
    if (ratios > 0)
        say_ratios(ratios);
    /* excess is 0.05 or 1.05 inch, unit ordinates 1 to 3: far below the limit;
       with a total of 7 to 9 inches it is what each share leaves above 0.01, so
       that no interval with rain stays without excess there either */
    while (left > 0) {
        if (left <= (held - 1 + 3) / 4 || held == LIMIT_HELD) {
            int n = held < 5 ? held : 5;
            say_block();
            if (held == 1) {
                say("RM1,1\n");
            } else {
                snprintf(t, sizeof t, "HC%d\n", n);
                say(t);
                held -= n - 1;
            }
        } else if (held > 0 && left == (held + 3) / 4) {
            say_block();                           /* one block too few for another leaf */
            say("RM1,1\n");
        } else {
            say_block();
            if (storms) {
                static const char *const totals[] = { "PB7\n", "PB8\n", "PB9\n" };
                say("BA1\nLU,.01\n");
                say(rain == 0 ? "PB0\n" : totals[name_number % 3]);
            } else {
                say("BA1\nLU,.95\n");
            }
            for (v = 0; v < rain; v += 10)
                say_list("PI", rain - v < 10 ? rain - v : 10, 1, 2, 0, 0);
            if (rain == 0) say("PI\n");
            for (v = 0; v < units; v += 10)
                say_list("UI", units - v < 10 ? units - v : 10, 1, 3, 0, 0);
            if (units == 0) say("UI\n");
            held++;
        }
        left--;
    }
    say("ZZ\n");
}

/* The values of the deck of blocks, and fewer blocks where more would be too long. */
static void big_fitting(uint64_t seed, int count, int nq, int units, int rain, int storms, int ratios)
{
    do {
        used = 0;
        name_number = 0;
        rng_seed(seed, (uint64_t)3 << 40);
        big_blocks(count, nq, units, rain, storms, ratios);
    } while (used > LIMIT_BYTES && --count > 0);
}

static void big_routing(int count, int nq, int steps)
{
    int v, i, m = steps > 0 ? 500 / steps : 1, rk, rx;
    char t[64];
    if (m < 1) m = 1;
    if (m > 60) m = 60;
    snprintf(t, sizeof t, "ID ROUTING\n*FREE\nIT %d,,,%d\n", m, nq);
    say(t);
    say_block();
    for (v = 0; v < nq; v += 10)
        say_list("QI", nq - v < 10 ? nq - v : 10, 1, 99999, 0, 0);
    for (i = 1; i < count; i++) {
        int a = 250 * steps * m;
        rx = between(0, 40);
        int lo = (a + 3 * (100 - rx) - 1) / (3 * (100 - rx)), hi = rx > 0 ? a / (3 * rx) : 2400;
        if (hi > 2400) hi = 2400;
        rk = between(lo, hi);
        say_block();
        snprintf(t, sizeof t, "RM %d,", steps);
        say(t);
        say_number(rk, 2);
        say(",");
        say_number(rx, 2);
        say("\n");
    }
    say("ZZ\n");
}

/* SV and SQ of a pond, ten values a line.  An acre-foot more makes 20 to 22 cfs
   more, and 22 is the most that the rule of 66 minutes allows: so no outflow
   passes the greatest inflow so far, and 3,040 cfs are in every table. */
static void say_table(int rows)
{
    int storage[LIMIT_ROWS] = { 0 }, outflow[LIMIT_ROWS] = { 0 }, i, list;
    for (i = 1; i < rows; i++) {
        int more = between(152 / (rows - 1), 190 / (rows - 1));
        storage[i] = storage[i - 1] + more;
        outflow[i] = outflow[i - 1] + more * between(20, 22);
    }
    for (list = 0; list < 2; list++)
        for (i = 0; i < rows; i++) {
            if (i % 10 == 0) say(list == 0 ? "SV" : "SQ");
            else say(",");
            say_number(100 * (list == 0 ? storage[i] : outflow[i]), 2);
            if (i % 10 == 9 || i + 1 == rows) say("\n");
        }
}

/* One inflow that rises and falls within 3,000 cfs, every sixty intervals, and
   ponds in a chain.  Each delays the wave by half an interval and a little. */
static void big_ponds(int count, int nq, int rows)
{
    int v, i;
    char t[64];
    snprintf(t, sizeof t, "ID PONDS\n*FREE\nIT 66,,,%d\n", nq);
    say(t);
    say_block();
    for (v = 0; v < nq; v++) {
        int turn = v % 60 < 30 ? v % 60 : 60 - v % 60;
        say(v % 10 == 0 ? "QI" : ",");
        say_number(100 * (90 * turn + between(1, 300)), 2);
        if (v % 10 == 9 || v + 1 == nq) say("\n");
    }
    for (i = 1; i < count; i++) {
        say_block();
        say("RS1,STOR\n");
        say_table(rows);
    }
    say("ZZ\n");
}

/* ---- command line ---- */

static int whole(const char *t, int least, int top, const char *what)
{
    char *end;
    long v = strtol(t, &end, 10);
    if (*t == 0 || *end != 0 || v < least || v > top) {
        fprintf(stderr, "decks: %s must be a number from %d to %d\n", what, least, top);
        exit(2);
    }
    return (int)v;
}

static int usage(void)
{
    fputs(help, stderr);
    return 2;
}

int main(int argc, char **argv)
{
    if (argc == 2 && (!strcmp(argv[1], "--help") || !strcmp(argv[1], "-h"))) {
        fputs(help, stdout);
        return 0;
    }
    if (argc < 4)
        return usage();
    char *end;
    uint64_t seed = strtoull(argv[2], &end, 10);
    if (*argv[2] == 0 || *end != 0)
        return usage();
    const char *what = argv[1];
    if (!strcmp(what, "big")) {
        int a[4], i, given = argc - 4, ratios = 0;
        const char *kind = argv[3];
        rng_seed(seed, (uint64_t)3 << 40);
        if (!strcmp(kind, "ratios")) {             /* the first word is the ratios', the rest are those of blocks */
            ratios = given > 0 ? whole(argv[4], 1, LIMIT_RATIOS, "RATIOS") : LIMIT_RATIOS;
            if (given > 0) {
                argv++;
                given--;
            }
        }
        if (given > 4)
            return usage();
        for (i = 0; i < given; i++)
            a[i] = whole(argv[4 + i], 0, LIMIT_BYTES, "a size");
        if (!strcmp(kind, "lists") || !strcmp(kind, "zeros"))
            big_lists(given > 0 ? a[0] : LIMIT_BYTES, !strcmp(kind, "zeros"));
        else if (!strcmp(kind, "blocks") || !strcmp(kind, "storms") || ratios > 0) {
            int count = given > 0 ? a[0] : LIMIT_BLOCKS, nq = given > 1 ? a[1] : LIMIT_NQ;
            int units = given > 2 ? a[2] : LIMIT_UNITS, rain = given > 3 ? a[3] : nq < 10 ? nq : 10;
            if (!strcmp(kind, "blocks"))
                big_blocks(count, nq, units, rain, 0, 0);
            else
                big_fitting(seed, count, nq, units, rain, ratios == 0, ratios);
        } else if (!strcmp(kind, "routing"))
            big_routing(given > 0 ? a[0] : LIMIT_BLOCKS, given > 1 ? a[1] : LIMIT_NQ, given > 2 ? a[2] : 50);
        else if (!strcmp(kind, "ponds")) {
            int count = given > 0 ? a[0] : LIMIT_BLOCKS, nq = given > 1 ? a[1] : LIMIT_NQ;
            int rows = given > 2 ? whole(argv[6], 2, LIMIT_ROWS, "ROWS") : LIMIT_ROWS;
            do {
                used = name_number = 0;
                rng_seed(seed, (uint64_t)3 << 40);
                big_ponds(count, nq, rows);
            } while (used > LIMIT_BYTES && --count > 0);
        }
        else
            return usage();
        fwrite(big, 1, (size_t)used, stdout);
    } else {
        int count = whole(argv[3], 0, 100000000, "COUNT");
        int aimed = !strcmp(what, "damaged"), number = 0;
        int in_files = !strcmp(what, "tables");
        if (argc != 4 + (aimed || in_files))
            return usage();
        if (aimed)
            number = whole(argv[4], 2, 20, "NUMBER");
        if (number == 17)                          /* no damage of a deck leads there */
            return usage();
        if (!strcmp(what, "bundle")) {
            bundle(seed, count);
        } else if (aimed) {
            only_damaged(seed, count, number);
        } else if (!strcmp(what, "sound")) {
            only_sound(seed, count);
        } else if (!strcmp(what, "cases")) {
            cases(seed, count);
        } else if (!strcmp(what, "moves")) {
            moves(seed, count);
        } else if (!strcmp(what, "sheets")) {
            sheets(seed, count);
        } else if (!strcmp(what, "hydrographs")) {
            hydrographs(seed, count);
        } else if (!strcmp(what, "reasons")) {
            reasons(seed, count);
        } else if (in_files) {
            tables(seed, count, argv[4]);
        } else if (!strcmp(what, "pairs")) {
            pairs(seed, count);
        } else if (!strcmp(what, "one")) {
            int n = bundle_deck(seed, count);
            fwrite(bytes, 1, (size_t)n, stdout);
        } else {
            return usage();
        }
    }
    if (fflush(stdout) != 0 || ferror(stdout)) {
        fputs("decks: cannot write\n", stderr);
        return 1;
    }
    return 0;
}
