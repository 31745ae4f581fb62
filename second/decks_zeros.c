/* Zeros at the end of a number's fraction (document 02, CR 7): put behind the
   numbers of any deck, and damages by ten digits and by values outside their
   limits that are written with them. */
#include <string.h>
#include "decks_damage.h"

enum { MOST_DIGITS = 9 };

static int digits_of(const char *text)
{
    int n = 0;
    for (; *text != 0; text++)
        n += *text >= '0' && *text <= '9';
    return n;
}

static void add(char *text, int byte)
{
    int n = (int)strlen(text);
    text[n] = (char)byte;
    text[n + 1] = 0;
}

/* Where one zero stands before the point, alone but for a sign: `0.5`, `-0.`. */
static char *lone_zero(char *text)
{
    if (*text == '+' || *text == '-') text++;
    return text[0] == '0' && text[1] == '.' ? text : NULL;
}

static void drop_byte(char *at)
{
    memmove(at, at + 1, strlen(at));
}

/* Zeros behind a number, and a point before them where it has none; as many as
   nine digits and the width allow, or fewer.  Some numbers get no more than the
   point; where there is no room for that, they stay as they are. */
void number_zeros(char *text, int width)
{
    int room, count;
    if (strchr(text, '.') == NULL) {
        if ((int)strlen(text) >= width) return;
        add(text, '.');
    }
    char *zero = lone_zero(text);
    if (zero != NULL && pct(40))                   /* `.50`, or with nothing but zeros `.0` */
        drop_byte(zero);
    room = width - (int)strlen(text);
    if (room > MOST_DIGITS - digits_of(text)) room = MOST_DIGITS - digits_of(text);
    if (room <= 0) return;
    count = pct(35) ? 1 : pct(45) ? room : between(1, room);
    if (digits_of(text) > 0 && pct(6)) count = 0;
    while (count-- > 0)
        add(text, '0');
}

/* Zeros past the places of a number, so many of them, whatever its width. */
void number_past(char *text, int places, int more)
{
    char *point = strchr(text, '.');
    if (point == NULL) {
        add(text, '.');
        point = strchr(text, '.');
    }
    while ((int)strlen(point + 1) < places + more)
        add(text, '0');
}

/* ---- damages ---- */

/* Ten digits or more, of which nine or fewer are left without the zeros: too
   wide for any field of the fixed form. */
static const char *const too_long[] = {
    "1.500000000", "60.00000000", "2.000000000", "0.000000000", ".0000000000", "-0.000000000", "+1.000000000",
    "1.0000000000", ".5000000000", "000001.0000", "4.0000000000000"
};

int damage6_zeros(Deck *d, const Style *s)
{
    static const struct { int tag, field; } numbers[] = {
        { T_IT, 0 }, { T_IT, 3 }, { T_JR, -1 }, { T_BA, 0 }, { T_PB, 0 }, { T_PI, -1 }, { T_LU, 0 }, { T_LU, 1 }, { T_LU, 2 },
        { T_UI, -1 }, { T_QI, -1 }, { T_HC, 0 }, { T_RM, 0 }, { T_RM, 1 }, { T_RM, 2 }, { T_RS, 0 }, { T_RS, 2 }, { T_SV, -1 },
        { T_SQ, -1 }
    };
    int w = rnd(COUNT(numbers)), at = find_tag(d, numbers[w].tag), k = numbers[w].field;
    if (at < 0 || d->l[at].form != FREE)
        return 0;
    Line *l = &d->l[at];
    if (k < 0) k = l->nf > 0 ? rnd(l->nf) : 0;
    if (k == 0 && l->tag == T_JR) k = 1;
    return set_field(l, s, k, too_long[rnd(COUNT(too_long))]);
}

/* Outside the limits, and with zeros past the places of its field. */
int damage7_zeros(Deck *d, const Style *s)
{
    static const struct { int tag, field; const char *text; } outside[] = {
        { T_IT, 0, "1441.0" }, { T_IT, 0, "0.0" }, { T_IT, 0, "-60.00" }, { T_IT, 3, "301.0" }, { T_IT, 3, ".000" }, { T_IT, 3, "301.000" },
        { T_JR, -1, "10.000" }, { T_JR, -1, "0.000" }, { T_JR, -1, "-.0100" }, { T_JR, -1, "10.00000" },
        { T_BA, 0, "0.0000" }, { T_BA, 0, "-.0100" }, { T_BA, 0, "10000.000" }, { T_BA, 0, ".00000" },
        { T_PB, 0, "100.00010" }, { T_PB, 0, "101.00000" }, { T_PB, 0, "-.00010" }, { T_PB, 0, "-1.00000" }, { T_PB, 0, "100.000100" },
        { T_PI, -1, "20.00010" }, { T_PI, -1, "20.000100" }, { T_PI, -1, "21.00000" }, { T_PI, -1, "-.000100" },
        { T_LU, 0, "20.00010" }, { T_LU, 0, "21.000000" }, { T_LU, 0, "-1.00000" }, { T_LU, 1, "20.00010" }, { T_LU, 1, "-1.00000" },
        { T_LU, 2, "1.000" }, { T_LU, 2, ".0100" }, { T_LU, 2, "-.01000" },
        { T_UI, -1, "100000.000" }, { T_UI, -1, "-1.0000" }, { T_UI, -1, "-.0100" }, { T_UI, -1, "999999.000" },
        { T_QI, -1, "100000.010" }, { T_QI, -1, "100001.000" }, { T_QI, -1, "-.0100" }, { T_QI, -1, "-1.000" },
        { T_HC, 0, "6.0" }, { T_HC, 0, "1.000" }, { T_HC, 0, "0.0" }, { T_HC, 0, "-2.0" },
        { T_RM, 0, "51.0" }, { T_RM, 0, "0.0" }, { T_RM, 0, "-1.00" }, { T_RM, 1, "24.010" }, { T_RM, 1, "0.000" }, { T_RM, 1, "25.00000" },
        { T_RM, 2, ".5100" }, { T_RM, 2, "0.510" }, { T_RM, 2, "1.000" }, { T_RM, 2, "-.010" },
        { T_RS, 0, "2.0" }, { T_RS, 0, "0.0" }, { T_RS, 0, "-1.0" }, { T_RS, 0, "10.0" }, { T_RS, 2, "1.0" }, { T_RS, 2, "-1.00" }, { T_RS, 2, "10.000" },
        { T_SV, -1, "100000.000" }, { T_SV, -1, "-.0100" }, { T_SV, -1, "-1.0000" }, { T_SQ, -1, "100000.010" }, { T_SQ, -1, "-.0100" },
        { T_SQ, -1, "-5.00000" }
    };
    int w = rnd(COUNT(outside)), at = find_tag(d, outside[w].tag), k = outside[w].field;
    if (at < 0)
        return 0;
    Line *l = &d->l[at];
    if (k < 0) k = l->nf > 0 ? rnd(l->nf) : 0;
    if (k == 0 && l->tag == T_JR) k = 1;
    return set_field(l, s, k, outside[w].text);
}
