/* Checks the listings of a bundle of pairs (standard input: each listing
   followed by a line of two hyphens).  Both decks of a pair draw one network
   under the same ratios: when one is accepted, the other is accepted with the
   same last line and, ratio by ratio, the same lines in some order, or it is
   refused with number 11. */
#include <stdio.h>
#include <stdlib.h>
#include <string.h>

typedef struct {
    char *text;
    size_t n, room;
    char **line;
    size_t lines, slots;
    size_t blocks;                                 /* of an accepted deck */
    int ratios;                                    /* whether it has lines of ratios */
    int ponds;                                     /* whether it has a block of kind 5 */
} Listing;

static void fail(const char *why)
{
    fprintf(stderr, "check-pairs: %s\n", why);
    exit(2);
}

static void *grown(void *p, size_t n)
{
    void *q = realloc(p, n);
    if (q == NULL)
        fail("out of memory");
    return q;
}

/* 1 when a listing was read, 0 at the end of input */
static int read_listing(Listing *l)
{
    int c;
    size_t start = 0, i;
    l->n = 0;
    l->lines = 0;
    while ((c = getchar()) != EOF) {
        if (l->n + 2 > l->room) {
            l->room = l->room * 2 + 4096;
            l->text = grown(l->text, l->room);
        }
        l->text[l->n++] = (char)c;
        if (c != '\n')
            continue;
        if (l->n - start == 3 && l->text[start] == '-' && l->text[start + 1] == '-')
            break;
        start = l->n;
    }
    if (c == EOF) {
        if (l->n != 0)
            fail("input ends inside a listing");
        return 0;
    }
    l->n = start;
    for (i = 0, start = 0; i < l->n; i++) {
        if (l->text[i] == 0)
            fail("a zero byte in a listing");
        if (l->text[i] != '\n')
            continue;
        l->text[i] = 0;
        if (l->lines == l->slots) {
            l->slots = l->slots * 2 + 64;
            l->line = grown(l->line, l->slots * sizeof *l->line);
        }
        l->line[l->lines++] = l->text + start;
        start = i + 1;
    }
    return 1;
}

/* Whether a line names a ratio: a block of that name has more behind it. */
static int names_ratio(const char *line)
{
    unsigned whole, part;
    int used = 0;
    return sscanf(line, "RATIO %1u.%2u%n", &whole, &part, &used) == 2 && line[used] == 0 && used == 10;
}

/* The lines of each ratio stand behind one that names it, or there are no such
   lines at all. */
static int well_formed(Listing *l)
{
    size_t k, group = l->blocks + 1;
    l->ratios = l->lines != group;
    if (!l->ratios)
        return 1;
    for (k = 0; k + 1 < l->lines; k += group)
        if (!names_ratio(l->line[k]))
            return 0;
    return k + 1 == l->lines;
}

static int has_pond(const Listing *l)
{
    size_t k;
    int kind;
    for (k = 0; k + 1 < l->lines; k++)
        if (!names_ratio(l->line[k]) && sscanf(l->line[k], "%*s %d", &kind) == 1 && kind == 5)
            return 1;
    return 0;
}

/* 0 accepted, else the number of the refusal */
static int refusal(Listing *l)
{
    int number, line, used = 0;
    unsigned blocks = 0;
    if (l->lines == 1 && sscanf(l->line[0], "REFUSED %d %d%n", &number, &line, &used) == 2
        && l->line[0][used] == 0)
        return number;
    if (l->lines < 2 || sscanf(l->line[l->lines - 1], "END %u%n", &blocks, &used) != 1
        || l->line[l->lines - 1][used] != 0)
        fail("a listing that is neither a refusal nor closed by its block count");
    l->blocks = blocks;
    if (!well_formed(l))
        fail("a listing that does not have each block once under each ratio");
    l->ponds = has_pond(l);
    return 0;
}

static int by_text(const void *a, const void *b)
{
    return strcmp(*(char *const *)a, *(char *const *)b);
}

/* Puts the lines of each ratio in order; those that name one stay. */
static void sort_blocks(Listing *l)
{
    size_t k = l->ratios;
    for (; k + 1 < l->lines; k += l->blocks + 1)
        qsort(l->line + k, l->blocks, sizeof *l->line, by_text);
}

static int same(Listing *a, Listing *b)
{
    size_t i;
    if (a->lines != b->lines || strcmp(a->line[a->lines - 1], b->line[b->lines - 1]) != 0)
        return 0;
    sort_blocks(a);
    sort_blocks(b);
    for (i = 0; i + 1 < a->lines; i++)
        if (strcmp(a->line[i], b->line[i]) != 0)
            return 0;
    return 1;
}

int main(void)
{
    static Listing a, b;
    unsigned long pairs = 0, both = 0, ratios = 0, ponds = 0, deep = 0, neither = 0, moved = 0, bad = 0;
    while (read_listing(&a)) {
        if (!read_listing(&b))
            fail("an odd number of listings");
        int ra = refusal(&a), rb = refusal(&b);
        pairs++;
        if (ra == 0 && rb == 0) {
            size_t i;
            int differs = a.lines != b.lines;
            for (i = 0; !differs && i < a.lines; i++)
                differs = strcmp(a.line[i], b.line[i]) != 0;
            moved += differs != 0;
            if (same(&a, &b)) {
                both++;
                ratios += a.ratios != 0;
                ponds += a.ponds != 0;
            } else {
                bad++;
                printf("pair %lu: both accepted, listings differ\n", pairs);
            }
        } else if (ra == 0 || rb == 0) {
            if (ra + rb == 11) {
                deep++;
            } else {
                bad++;
                printf("pair %lu: one accepted, the other refused with %d\n", pairs, ra + rb);
            }
        } else {
            neither++;
        }
    }
    printf("pairs %lu: both accepted %lu (in another order of lines %lu, under ratios %lu, with ponds %lu), "
           "one refused with 11 %lu, neither accepted %lu, violations %lu\n", pairs, both, moved, ratios, ponds, deep, neither, bad);
    return bad != 0 || pairs == 0;
}
