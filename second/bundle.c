/* How the counters read their input; see bundle.h. */
#include "bundle.h"

#include <stdio.h>
#include <stdlib.h>

static void stop(const char *program, const char *word)
{
    fprintf(stderr, "%s: %s\n", program, word);
    exit(2);
}

static void read_bytes(const char *program, uint8_t *at, size_t count)
{
    if (fread(at, 1, count, stdin) < count)
        stop(program, "input is cut short");
}

static size_t read_number(const char *program)
{
    uint8_t bytes[4];

    read_bytes(program, bytes, sizeof bytes);
    return bytes[0] | (size_t)bytes[1] << 8 | (size_t)bytes[2] << 16
         | (size_t)bytes[3] << 24;
}

static bool at_end(void)
{
    int first = getchar();

    if (first != EOF)
        ungetc(first, stdin);
    return first == EOF;
}

/* A deck behind its length. */
static void read_deck(const char *program, uint8_t *deck, size_t *length)
{
    static uint8_t rest[DECK_LIMIT];

    *length = read_number(program);
    for (size_t left = *length; left > 0; deck = rest) {
        size_t part = left <= DECK_LIMIT ? left : DECK_LIMIT;
        read_bytes(program, deck, part);
        left -= part;
    }
}

bool next_deck(const char *program, uint8_t *deck, size_t *length)
{
    if (at_end())
        return false;
    read_deck(program, deck, length);
    return true;
}

bool next_named(const char *program, struct named_case *one)
{
    if (at_end())
        return false;
    one->named.block = read_number(program);
    one->named.ratio = read_number(program);
    read_deck(program, one->deck, &one->length);
    return true;
}

bool next_move(const char *program, struct move_case *move)
{
    if (at_end())
        return false;

    size_t direction = read_number(program);

    move->to_old = direction == 1;
    move->room = read_number(program);
    move->length = read_number(program);
    if (direction > 1 || move->room > FILE_LIMIT || move->length > FILE_LIMIT)
        stop(program, "no such case");
    read_bytes(program, move->file, move->length);
    return true;
}
