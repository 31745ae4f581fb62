/* The mover; see mover.h. */
#include "mover.h"

#include "engine.h"

#include <stdbool.h>
#include <string.h>

/* Where padding begins: one byte, two, and in the new form four more. */
enum {
    PADDING_OF_KIND = RECORD_KIND + 1,
    PADDING_OF_INTERVAL = RECORD_INTERVAL + 2,
    PADDING_OF_PLACE = RECORD_PLACE + 2
};

/* What a new record has behind the old one where there is no JR: the whole
 * ratio, the first place, and zeros. */
static const uint8_t addition[RECORD_BYTES - OLD_RECORD_BYTES] = {
    WHOLE_RATIO, 0, 1, 0
};

static bool old_padding_is_zero(const uint8_t *record)
{
    return record[PADDING_OF_KIND] == 0 && record[PADDING_OF_INTERVAL] == 0
        && record[PADDING_OF_INTERVAL + 1] == 0;
}

static bool new_padding_is_zero(const uint8_t *record)
{
    static const uint8_t zeros[RECORD_BYTES - PADDING_OF_PLACE];

    return old_padding_is_zero(record)
        && memcmp(record + PADDING_OF_PLACE, zeros, sizeof zeros) == 0;
}

static bool has_old_form(const uint8_t *record)
{
    return memcmp(record + RECORD_RATIO, addition,
                  PADDING_OF_PLACE - RECORD_RATIO) == 0;
}

/* memset with no bytes still wants a valid pointer; a lender of nothing may
 * have none. */
static void clear_behind(uint8_t *room, size_t from, size_t room_bytes)
{
    if (room_bytes > from)
        memset(room + from, 0, room_bytes - from);
}

static struct moved refuse(enum move_refusal refusal, uint8_t *room,
                           size_t room_bytes)
{
    clear_behind(room, 0, room_bytes);
    return (struct moved){ refusal, 0 };
}

struct moved move_to_new(const uint8_t *file, size_t length, uint8_t *room,
                         size_t room_bytes)
{
    size_t records = length / OLD_RECORD_BYTES;

    if (length % OLD_RECORD_BYTES != 0)
        return refuse(BROKEN_LENGTH, room, room_bytes);
    for (size_t k = 0; k < records; k++)
        if (!old_padding_is_zero(file + k * OLD_RECORD_BYTES))
            return refuse(BROKEN_PADDING, room, room_bytes);
    if (room_bytes / RECORD_BYTES < records)
        return refuse(SHORT_ROOM, room, room_bytes);

    for (size_t k = 0; k < records; k++) {
        uint8_t *record = room + k * RECORD_BYTES;

        memcpy(record, file + k * OLD_RECORD_BYTES, OLD_RECORD_BYTES);
        memcpy(record + OLD_RECORD_BYTES, addition, sizeof addition);
    }
    clear_behind(room, records * RECORD_BYTES, room_bytes);
    return (struct moved){ NOT_REFUSED, records * RECORD_BYTES };
}

struct moved move_to_old(const uint8_t *file, size_t length, uint8_t *room,
                         size_t room_bytes)
{
    size_t records = length / RECORD_BYTES;

    if (length % RECORD_BYTES != 0)
        return refuse(BROKEN_LENGTH, room, room_bytes);
    for (size_t k = 0; k < records; k++)
        if (!new_padding_is_zero(file + k * RECORD_BYTES))
            return refuse(BROKEN_PADDING, room, room_bytes);
    for (size_t k = 0; k < records; k++)
        if (!has_old_form(file + k * RECORD_BYTES))
            return refuse(NO_OLD_FORM, room, room_bytes);
    if (room_bytes / OLD_RECORD_BYTES < records)
        return refuse(SHORT_ROOM, room, room_bytes);

    for (size_t k = 0; k < records; k++)
        memcpy(room + k * OLD_RECORD_BYTES, file + k * RECORD_BYTES,
               OLD_RECORD_BYTES);
    clear_behind(room, records * OLD_RECORD_BYTES, room_bytes);
    return (struct moved){ NOT_REFUSED, records * OLD_RECORD_BYTES };
}
