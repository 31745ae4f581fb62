/* The stream network in print; see network.h. */
#include "network.h"

#include "cards.h"

#include <stdio.h>
#include <string.h>

enum {
    FIRST_STEM = 13,        /* its column, from 1 */
    STEM_GAP = 10,
    KIND_CONFLUENCE = 3,
    KIND_REACH = 4
};

struct drawn {
    uint8_t name[NAME_LIMIT];
    unsigned name_length;
    unsigned kind;
    unsigned line;
    unsigned taken;
    unsigned place;
};

struct drawing {
    unsigned blocks;
    struct drawn block[BLOCK_LIMIT];
};

/* The blocks are the same under every ratio: those of the first are enough. */
static void keep_block(void *keeper, const struct worked *worked)
{
    struct drawing *drawing = keeper;

    if (drawing->blocks == BLOCK_LIMIT)
        return;

    struct drawn *block = &drawing->block[drawing->blocks++];

    memcpy(block->name, worked->name, worked->name_length);
    block->name_length = worked->name_length;
    block->kind = worked->kind;
    block->line = worked->line;
    block->taken = worked->taken;
    block->place = worked->place;
}

static unsigned stem_column(unsigned place)
{
    return FIRST_STEM + STEM_GAP * place;
}

/* Fills the line with a byte until the next one falls into the column. */
static void fill_to(struct page *page, char byte, unsigned column)
{
    put_many(page, byte, column - 1 - (page->length - page->line));
}

static void put_stem(struct page *page, char byte, unsigned place)
{
    fill_to(page, ' ', stem_column(place));
    put_many(page, byte, 1);
}

/* What is held before a block: those below its place, and those it takes. */
static void put_stems(struct page *page, const struct drawn *block)
{
    unsigned held = block->place + block->taken;

    for (unsigned place = 0; place < held; place++) {
        bool routed = block->kind >= KIND_REACH && place == block->place;

        put_stem(page, routed ? 'V' : '.', place);
    }
    end_line(page);
}

static void put_block(struct page *page, const struct drawn *block)
{
    char number[16];
    unsigned before = (block->name_length - 1) / 2;

    sprintf(number, "%6u", block->line);
    put_text(page, number);
    for (unsigned place = 0; place < block->place; place++)
        put_stem(page, '.', place);
    fill_to(page, ' ', stem_column(block->place) - before);
    put_bytes(page, block->name, block->name_length);
    if (block->kind == KIND_CONFLUENCE)
        fill_to(page, '.', stem_column(block->place + block->taken - 1) + 1);
    end_line(page);
}

static void put_head(struct page *page, const char *path)
{
    put_text(page, "STREAM NETWORK: ");
    put_path(page, path);
    end_line(page);
    end_line(page);
    put_text(page, "  LINE  (V) ROUTED  (.) HELD OR JOINED");
    end_line(page);
    end_line(page);
}

void write_network(const char *path, const uint8_t *deck, size_t length,
                   const struct room *room, struct page *page)
{
    static struct drawing drawing;
    const struct viewer viewer = { keep_block, &drawing };

    drawing.blocks = 0;

    struct answer answer = view_deck(deck, length, &viewer, room);

    if (answer.refusal != 0) {
        put_refusal(page, answer.refusal, answer.line);
        end_line(page);
        return;
    }
    put_head(page, path);
    for (unsigned k = 0; k < answer.blocks; k++) {
        if (k > 0) {
            put_stems(page, &drawing.block[k]);
            put_stems(page, &drawing.block[k]);
        }
        put_block(page, &drawing.block[k]);
    }
}
