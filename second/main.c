/* The program around the engine, the mover, the sheet, the hydrograph, the
 * reasons, the table and the network: reads one deck, a bundle of decks or a bundle of cases from standard
 * input and prints listings (document 01, 'A deck and its listing', and document
 * 02, CR 3) or, in the full form, all that the engine leaves in the room lent to
 * it.  Likewise for files of records and the mover (document 02, CR 4), for the
 * sheets of runoff blocks (CR 5), for the hydrographs of any blocks and for the
 * reasons why lines are refused.  Tables and networks are of decks in files.
 *
 *   hec1                                  one deck, its listing
 *   hec1 --bundle                         length and deck, again and again
 *   hec1 --full [--named K] [--ratio R] [--work W] [--ordinates N]
 *        [--records B]
 *   hec1 --cases                          K, R, W, N, B, length and deck, again
 *   hec1 --mover                          direction (0 to the new form, 1 to
 *                                         the old), room, length and file, again
 *   hec1 --store                          what is asked, then a deck (0) or a
 *                                         file to move (1 to the new form, 2 to
 *                                         the old); writes bare records
 *   hec1 --sheet                          K, R, length and deck, again: the
 *                                         sheet of block K under ratio R
 *   hec1 --hydrograph                     K, R, length and deck, again: the
 *                                         hydrograph of block K under ratio R
 *   hec1 --reason                         number (6, any other for 7), form (0
 *                                         fixed, any other free), length and
 *                                         bytes, again: why the line that they
 *                                         begin with is refused
 *   hec1 --table FILE...                  the runoff summary of one deck or of
 *                                         several; - is standard input
 *   hec1 --network FILE                   the stream network of a deck
 *
 * Numbers in bundles have 4 bytes, little-endian.  Exit status 0 whether decks
 * and files are refused or not; 2 when the input is cut short, asks for what
 * there is not or the call is wrong, when a file cannot be read, and when a
 * sheet does not add up to the engine's ordinates.  With --store the refusal goes to standard error, and so
 * does INPUT CUT where nothing that is known is asked. */
#include "engine.h"
#include "hydrograph.h"
#include "mover.h"
#include "network.h"
#include "reason.h"
#include "sheet.h"
#include "table.h"

#include <stdbool.h>
#include <stdio.h>
#include <stdlib.h>
#include <string.h>

enum {
    EXIT_TROUBLE = 2,
    FLOW_PER_HUNDREDTH_CFS = 600000,
    MOVER_LIMIT = 80000,    /* bytes of a case's file, and of its room */
    STORE_LIMIT = 1600000,  /* the same with --store */
    LISTING_LINE = 96   /* name 6, five numbers of at most 20, separators */
};

/* One byte more than a deck may have, so that a longer one shows. */
static uint8_t deck[DECK_LIMIT + 1];

static void stop(const char *word)
{
    fflush(stdout);
    fprintf(stderr, "hec1: %s\n", word);
    exit(EXIT_TROUBLE);
}

/* ---- Printing --------------------------------------------------------- */

/* Each add_ function puts its text at a place and returns the place behind. */

static char *add_number(char *at, uint64_t number)
{
    char digits[20];
    unsigned count = 0;

    do {
        digits[count++] = (char)('0' + number % 10);
        number /= 10;
    } while (number > 0);
    while (count > 0)
        *at++ = digits[--count];
    return at;
}

static char *add_hundredths(char *at, uint64_t hundredths)
{
    at = add_number(at, hundredths / 100);
    *at++ = '.';
    *at++ = (char)('0' + hundredths / 10 % 10);
    *at++ = (char)('0' + hundredths % 10);
    return at;
}

static char *add_name(char *at, const uint8_t *name)
{
    for (unsigned k = 0; k < RECORD_KIND && name[k] != ' '; k++)
        *at++ = (char)name[k];
    return at;
}

static uint64_t get_number(const uint8_t *at, unsigned bytes)
{
    uint64_t number = 0;

    while (bytes > 0)
        number = number << 8 | at[--bytes];
    return number;
}

static void print_record(const uint8_t *record)
{
    char line[LISTING_LINE];
    char *at = line;
    uint64_t peak = get_number(record + RECORD_PEAK, 8);

    at = add_name(at, record + RECORD_NAME);
    *at++ = ' ';
    at = add_number(at, record[RECORD_KIND]);
    *at++ = ' ';
    at = add_hundredths(at, get_number(record + RECORD_AREA, 4));
    *at++ = ' ';
    at = add_hundredths(at, (peak + FLOW_PER_HUNDREDTH_CFS / 2)
                            / FLOW_PER_HUNDREDTH_CFS);
    *at++ = ' ';
    at = add_number(at, get_number(record + RECORD_INTERVAL, 2));
    *at++ = ' ';
    at = add_number(at, get_number(record + RECORD_SUM, 8));
    *at++ = '\n';
    fwrite(line, 1, (size_t)(at - line), stdout);
}

static void print_ratio(uint32_t ratio)
{
    char line[LISTING_LINE] = "RATIO ";
    char *at = add_hundredths(line + 6, ratio);

    *at++ = '\n';
    fwrite(line, 1, (size_t)(at - line), stdout);
}

static void print_refusal(FILE *to, const struct answer *answer)
{
    fprintf(to, "REFUSED %u %u\n", answer->refusal, answer->line);
}

static void print_move_refusal(FILE *to, enum move_refusal refusal)
{
    fprintf(to, "REFUSED %u\n", (unsigned)refusal);
}

static void print_ordinates(const uint64_t *ordinates, size_t count)
{
    char text[21];

    for (size_t k = 0; k < count; k++) {
        char *at = text;
        if (k > 0)
            *at++ = ' ';
        at = add_number(at, ordinates[k]);
        fwrite(text, 1, (size_t)(at - text), stdout);
    }
    putchar('\n');
}

static void print_bytes(const uint8_t *bytes, size_t count)
{
    static const char hex[] = "0123456789abcdef";

    for (size_t k = 0; k < count; k++) {
        putchar(hex[bytes[k] >> 4]);
        putchar(hex[bytes[k] & 15]);
    }
    putchar('\n');
}

static size_t count_not_zero(const uint64_t *words, size_t count)
{
    size_t found = 0;

    for (size_t k = 0; k < count; k++)
        found += words[k] != 0;
    return found;
}

/* ---- Running ---------------------------------------------------------- */

enum { RECORD_ROOM = BLOCK_LIMIT * RATIO_LIMIT * RECORD_BYTES };

/* Room enough for every deck that can be accepted. */
static const struct room *enough_room(void)
{
    static uint64_t work[WORK_WORDS];
    static uint64_t ordinates[ORDINATE_LIMIT];
    static uint8_t records[RECORD_ROOM];
    static const struct room room = {
        work, WORK_WORDS, ordinates, ORDINATE_LIMIT, records, sizeof records
    };

    return &room;
}

static const struct named last_named = { 0, 0 };

static void print_listing(size_t length)
{
    const struct room *room = enough_room();
    struct answer answer = run_deck(deck, length, last_named, room);
    const uint8_t *record = room->records;

    if (answer.refusal != 0) {
        print_refusal(stdout, &answer);
        return;
    }
    for (unsigned r = 0; r < answer.ratios.count; r++) {
        if (answer.ratios.given)
            print_ratio(answer.ratios.value[r]);
        for (unsigned k = 0; k < answer.blocks; k++, record += RECORD_BYTES)
            print_record(record);
    }
    printf("END %u\n", answer.blocks);
}

/* What a case asks for and lends. */
struct wish {
    struct named named;
    size_t work;
    size_t ordinates;
    size_t records;
};

/* Memory that is kept from case to case and grows when one asks for more. */
struct store {
    void *at;
    size_t bytes;
};

static void *at_least(struct store *store, size_t count, size_t size)
{
    if (count > SIZE_MAX / size)
        stop("no such room");
    if (store->at == NULL || store->bytes < count * size) {
        free(store->at);
        store->bytes = count > 0 ? count * size : size;
        store->at = malloc(store->bytes);
        if (store->at == NULL)
            stop("no memory");
    }
    return store->at;
}

static void fill_words(uint64_t *words, size_t count)
{
    for (size_t k = 0; k < count; k++)
        words[k] = 1;
}

/* Everything lent is filled first, so that a zero at the end was written. */
static void print_full(size_t length, const struct wish *wish)
{
    static struct store work, ordinates, records;
    const struct room room = {
        at_least(&work, wish->work, sizeof(uint64_t)), wish->work,
        at_least(&ordinates, wish->ordinates, sizeof(uint64_t)),
        wish->ordinates,
        at_least(&records, wish->records, 1), wish->records
    };

    fill_words(room.work, room.work_words);
    fill_words(room.ordinates, room.ordinate_words);
    memset(room.records, 1, room.record_bytes);

    struct answer answer = run_deck(deck, length, wish->named, &room);

    if (answer.refusal != 0)
        print_refusal(stdout, &answer);
    else
        printf("%u %u %u\n", answer.nq, answer.blocks, answer.ratios.count);
    print_ordinates(room.ordinates, room.ordinate_words);
    print_bytes(room.records, room.record_bytes);
    printf("%zu\n", count_not_zero(room.work, room.work_words));
}

enum direction {
    TO_NEW = 0,
    TO_OLD = 1
};

static struct moved move(enum direction direction, const uint8_t *file,
                         size_t length, uint8_t *room, size_t room_bytes)
{
    if (direction == TO_NEW)
        return move_to_new(file, length, room, room_bytes);
    return move_to_old(file, length, room, room_bytes);
}

/* The room is filled first, as in print_full. */
static void print_move(enum direction direction, const uint8_t *file,
                       size_t length, size_t room_bytes)
{
    static uint8_t room[MOVER_LIMIT];

    memset(room, 1, room_bytes);

    struct moved moved = move(direction, file, length, room, room_bytes);

    if (moved.refusal != NOT_REFUSED)
        print_move_refusal(stdout, moved.refusal);
    else
        printf("MOVED %zu\n", moved.bytes);
    print_bytes(room, room_bytes);
}

/* ---- Stores ----------------------------------------------------------- */

static void store_deck(size_t length)
{
    const struct room *room = enough_room();
    struct answer answer = run_deck(deck, length, last_named, room);

    if (answer.refusal != 0)
        print_refusal(stderr, &answer);
    else
        fwrite(room->records, RECORD_BYTES,
               (size_t)answer.blocks * answer.ratios.count, stdout);
}

/* A file over the limit is none of the mover's refusals, so it is 0. */
static void store_file(enum direction direction, const uint8_t *file,
                       size_t length)
{
    static uint8_t room[STORE_LIMIT];

    if (length > STORE_LIMIT) {
        print_move_refusal(stderr, NOT_REFUSED);
        return;
    }

    struct moved moved = move(direction, file, length, room, sizeof room);

    if (moved.refusal != NOT_REFUSED)
        print_move_refusal(stderr, moved.refusal);
    else
        fwrite(room, 1, moved.bytes, stdout);
}

/* ---- Sheets ----------------------------------------------------------- */

/* What a number names, counted from 1; 0 is the last. */
static unsigned place_of(uint64_t number, unsigned count)
{
    return number == 0 ? count : (unsigned)number;
}

/* The engine's ordinates come from the same run that names kind and ratio. */
static void print_sheet(size_t length, struct named named)
{
    static struct sheet sheet;
    static char text[SHEET_ROOM];
    const struct room *room = enough_room();
    struct answer answer = run_deck(deck, length, named, room);

    if (answer.refusal != 0) {
        print_refusal(stdout, &answer);
        return;
    }

    unsigned block = place_of(named.block, answer.blocks);
    unsigned ratio = place_of(named.ratio, answer.ratios.count);
    unsigned before = (ratio - 1) * answer.blocks + block - 1;
    unsigned kind = room->records[before * RECORD_BYTES + RECORD_KIND];

    if (kind != SHEET_KIND) {
        printf("NO SHEET %u\n", kind);
        return;
    }
    make_sheet(deck, length, block, answer.ratios.value[ratio - 1], &sheet);
    if (!sums_are(&sheet, room->ordinates))
        stop("the sums of a sheet are not the ordinates of its block");
    fwrite(text, 1, write_sheet(&sheet, text), stdout);
}

/* ---- Hydrographs ------------------------------------------------------ */

static void print_hydrograph(size_t length, struct named named)
{
    static char text[HYDROGRAPH_ROOM];
    const struct room *room = enough_room();
    struct answer answer = run_deck(deck, length, named, room);

    if (answer.refusal != 0)
        print_refusal(stdout, &answer);
    else
        fwrite(text, 1,
               write_hydrograph(room->ordinates, answer.nq,
                                minutes_of(deck, length), text), stdout);
}

/* ---- Reasons ---------------------------------------------------------- */

/* The bytes may be more than a deck has: only the first line counts. */
static void print_reason(size_t length, uint32_t number, bool free_form)
{
    char text[REASON_ROOM];

    if (length > sizeof deck)
        length = sizeof deck;
    fwrite(text, 1, write_reason(number, free_form, deck, length, text),
           stdout);
}

/* ---- Reading ---------------------------------------------------------- */

/* Reads standard input to its end.  Where there are more bytes than room only
 * the first are kept; the rest is read so that its writer can finish. */
static size_t read_to_end(uint8_t *at, size_t room)
{
    size_t length = fread(at, 1, room, stdin);
    uint8_t rest[4096];

    if (length == room)
        while (fread(rest, 1, sizeof rest, stdin) == sizeof rest)
            ;
    if (ferror(stdin))
        stop("cannot read");
    return length;
}

static void stop_at(const char *path)
{
    fprintf(stderr, "hec1: cannot read %s\n", path);
    exit(EXIT_TROUBLE);
}

static size_t read_only_deck(void)
{
    return read_to_end(deck, sizeof deck);
}

/* Reads the deck of a path; - is standard input. */
static size_t read_path(const char *path)
{
    FILE *file;
    size_t length;

    if (strcmp(path, "-") == 0)
        return read_only_deck();
    file = fopen(path, "rb");
    if (file == NULL)
        stop_at(path);
    length = fread(deck, 1, sizeof deck, file);
    if (ferror(file))
        stop_at(path);
    fclose(file);
    return length;
}

enum {
    CASE_NUMBERS = 6,
    MOVE_NUMBERS = 3,
    NAMED_NUMBERS = 3,
    REASON_NUMBERS = 3
};

/* Reads numbers of 4 bytes.  False: the input ends where the first would
 * begin. */
static bool read_numbers(uint32_t *numbers, unsigned count)
{
    uint8_t bytes[CASE_NUMBERS * 4];
    size_t found = fread(bytes, 1, count * 4, stdin);

    if (found == 0 && !ferror(stdin))
        return false;
    if (found < count * 4)
        stop("input ends inside a number");
    for (unsigned k = 0; k < count; k++)
        numbers[k] = (uint32_t)get_number(bytes + 4 * k, 4);
    return true;
}

/* Reads a deck of a known length.  The engine does not look into one that is
 * too long, so no more than its first bytes are kept. */
static void read_deck(uint32_t length)
{
    static uint8_t rest[sizeof deck];
    uint8_t *at = deck;

    for (uint32_t left = length; left > 0; at = rest) {
        size_t part = left < sizeof deck ? left : sizeof deck;
        if (fread(at, 1, part, stdin) < part)
            stop("input ends inside a deck");
        left -= (uint32_t)part;
    }
}

static void run_bundle(void)
{
    uint32_t length;

    while (read_numbers(&length, 1)) {
        read_deck(length);
        print_listing(length);
        puts("--");
    }
}

static void run_cases(void)
{
    uint32_t number[CASE_NUMBERS];

    while (read_numbers(number, CASE_NUMBERS)) {
        struct wish wish = {
            { number[0], number[1] }, number[2], number[3], number[4]
        };
        read_deck(number[5]);
        print_full(number[5], &wish);
        puts("--");
    }
}

static void run_mover(void)
{
    static uint8_t file[MOVER_LIMIT];
    uint32_t number[MOVE_NUMBERS];

    while (read_numbers(number, MOVE_NUMBERS)) {
        uint32_t direction = number[0], room = number[1], length = number[2];

        if (direction > TO_OLD || room > MOVER_LIMIT || length > MOVER_LIMIT)
            stop("no such case");
        if (fread(file, 1, length, stdin) < length)
            stop("input ends inside a file");
        print_move(direction, file, length, room);
        puts("--");
    }
}

/* Cases that name a block and a ratio, and what is printed of each. */
static void run_named(void (*print)(size_t length, struct named named))
{
    uint32_t number[NAMED_NUMBERS];

    while (read_numbers(number, NAMED_NUMBERS)) {
        read_deck(number[2]);
        print(number[2], (struct named){ number[0], number[1] });
        puts("--");
    }
}

static void run_reasons(void)
{
    uint32_t number[REASON_NUMBERS];

    while (read_numbers(number, REASON_NUMBERS)) {
        read_deck(number[2]);
        print_reason(number[2], number[0], number[1] != 0);
        puts("--");
    }
}

/* Whoever starts this mode goes by what is said, not by a status: so an input
 * that is cut short is told like a refusal here, not as trouble. */
static void run_store(void)
{
    static uint8_t file[STORE_LIMIT + 1];   /* as with a deck */
    uint8_t bytes[4] = { 0 };
    size_t found = fread(bytes, 1, sizeof bytes, stdin);
    uint64_t asked = get_number(bytes, sizeof bytes);

    if (found == sizeof bytes && asked == 0) {
        store_deck(read_only_deck());
        return;
    }

    size_t length = read_to_end(file, sizeof file);

    if (found == sizeof bytes && asked <= 2)
        store_file(asked == 1 ? TO_NEW : TO_OLD, file, length);
    else
        fputs("INPUT CUT\n", stderr);
}

/* ---- Tables and networks ---------------------------------------------- */

static void print_page(struct page *page)
{
    fwrite(page->at, 1, page->length, stdout);
    free(page->at);
}

/* All files are read before anything is printed. */
static void run_table(char **paths, size_t count)
{
    struct table_deck *decks = get_room(count, sizeof *decks);
    struct page page = { 0 };

    for (size_t k = 0; k < count; k++) {
        size_t length = read_path(paths[k]);

        work_table(paths[k], deck, length, enough_room(), &decks[k]);
    }
    write_table(decks, count, &page);
    print_page(&page);
    for (size_t k = 0; k < count; k++)
        free_table(&decks[k]);
    free(decks);
}

static void run_network(const char *path)
{
    struct page page = { 0 };
    size_t length = read_path(path);

    write_network(path, deck, length, enough_room(), &page);
    print_page(&page);
}

/* ---- The call --------------------------------------------------------- */

static uint64_t option_value(const char *text)
{
    char *end;

    if (text == NULL || *text < '0' || *text > '9')
        stop("an option wants a number");
    uint64_t value = strtoull(text, &end, 10);
    if (*end != '\0')
        stop("an option wants a number");
    return value;
}

enum mode {
    LISTING,
    FULL,
    BUNDLE,
    CASES,
    MOVER,
    STORE,
    SHEET,
    HYDROGRAPH,
    REASON,
    MODES
};

static const char *const mode_word[MODES] = {
    "", "--full", "--bundle", "--cases", "--mover", "--store", "--sheet",
    "--hydrograph", "--reason"
};

/* The mode that a word asks for; LISTING has no word. */
static enum mode mode_of(const char *word)
{
    for (unsigned mode = FULL; mode < MODES; mode++)
        if (strcmp(word, mode_word[mode]) == 0)
            return mode;
    return LISTING;
}

static int finish(void)
{
    if (fflush(stdout) != 0 || ferror(stdout))
        stop("cannot write");
    return EXIT_SUCCESS;
}

/* The modes that have words of their own behind them, whatever those look
 * like. */
static bool run_on_files(int argc, char **argv)
{
    const char *word = argc > 1 ? argv[1] : "";

    if (strcmp(word, "--table") == 0) {
        if (argc < 3)
            stop("--table wants files");
        run_table(argv + 2, (size_t)argc - 2);
        return true;
    }
    if (strcmp(word, "--network") == 0) {
        if (argc != 3)
            stop("--network wants a file");
        run_network(argv[2]);
        return true;
    }
    return false;
}

int main(int argc, char **argv)
{
    struct wish wish = {
        { 0, 0 }, WORK_WORDS, ORDINATE_LIMIT, RECORD_ROOM
    };
    enum mode mode = LISTING;

    if (run_on_files(argc, argv))
        return finish();
    for (int k = 1; k < argc; k++) {
        enum mode asked = mode_of(argv[k]);

        if (asked != LISTING) {
            if (mode != LISTING && mode != asked)
                stop("one mode at a time");
            mode = asked;
        } else if (strcmp(argv[k], "--named") == 0)
            wish.named.block = option_value(argv[++k]);
        else if (strcmp(argv[k], "--ratio") == 0)
            wish.named.ratio = option_value(argv[++k]);
        else if (strcmp(argv[k], "--work") == 0)
            wish.work = option_value(argv[++k]);
        else if (strcmp(argv[k], "--ordinates") == 0)
            wish.ordinates = option_value(argv[++k]);
        else if (strcmp(argv[k], "--records") == 0)
            wish.records = option_value(argv[++k]);
        else
            stop("unknown option");
    }

    switch (mode) {
    case BUNDLE:
        run_bundle();
        break;
    case CASES:
        run_cases();
        break;
    case MOVER:
        run_mover();
        break;
    case STORE:
        run_store();
        break;
    case SHEET:
        run_named(print_sheet);
        break;
    case HYDROGRAPH:
        run_named(print_hydrograph);
        break;
    case REASON:
        run_reasons();
        break;
    case FULL:
        print_full(read_only_deck(), &wish);
        break;
    default:
        print_listing(read_only_deck());
        break;
    }

    return finish();
}
