/*
 * A program to start from: it goes through a capture item by item, keeps what is remembered, carries out the pixel commands on a surface of
 * 480 by 360, keeps macros, counts what it met, and writes some commands and a report.
 *
 *     gcc -std=c99 -Wall -Wextra -Iinclude examples/c/example.c target/staticlib/libardhrumesh.a -o target/example
 *     target/example                                    goes through the few bytes below
 *     target/example examples/first.tek                 goes through a file of any length; - is standard input
 *     target/example examples/first.tek surface.pgm     and writes the surface as a picture for an image viewer
 *
 * It stops at an answer that it relies on and does not get. A refused item of a capture is none of these: it is shown, and the next one follows.
 * It exits with 0 where it is done, with 1 where something could not be read, written or kept in memory, and with 2 where it was asked for
 * something wrong.
 */
#include <stdio.h>
#include <stdlib.h>
#include <string.h>

#include "ardhrumesh.h"

enum {
    WIDTH = 480,
    HEIGHT = 360,
    COLOURS = 64,               /* six bits a pixel are the most */
    REFUSALS = 18,              /* their numbers, and 0 */
    LONGEST_LIST = 256,         /* no string or array is longer, so reading is never refused for want of room */
    LONGEST_EXPANSION = 262144, /* 1,024 macros of 256 bytes: no expansion is longer */
    STORE = 65536,              /* as long as one likes */
    FIRST_ROOM = 65536,
    SMALL = 16                  /* a viewport that is no wider and no higher is shown */
};

/* What the bench keeps from item to item. */
struct bench {
    uint16_t remembered[3]; /* the last point and the DEL mode */
    size_t record[7];
    uint8_t surface[WIDTH * HEIGHT];
    uint8_t volatile_store[STORE];
    uint8_t saved_store[STORE];
    uint8_t expansion[LONGEST_EXPANSION];
    size_t texts;
    size_t dels;
    size_t commands;
    size_t refused_commands;
    size_t refusals[REFUSALS]; /* how often each number was given */
};

/* One item as ardh_next_item answers it. */
struct item {
    size_t parts[7];
    int32_t values[4];
    int32_t list[LONGEST_LIST];
};

struct capture {
    uint8_t *bytes;
    size_t length;
    size_t room;
};

static const uint8_t built_in[] = {
    65,                                           /* text */
    27, 82, 85, 49, 59, 51,                       /* RU 1 11 3: three bits a pixel */
    27, 82, 83, 102, 96, 64, 105, 97, 66,         /* RS (2,1) (9,6) */
    27, 82, 80, 52, 50, 42, 60,                   /* RP 4: colours 1 2 3 4 */
    27, 82, 76, 50, 65, 53, 66, 54,               /* RL: two pixels of colour 5, four of colour 6 */
    27, 82, 72, 108, 96, 65,                      /* RH (4,3) */
    27, 75, 68, 53, 51, 65, 59, 69, 50, 68, 60,   /* KD 5: the body ESC R L, which is a cut command */
    27, 75, 88, 53,                               /* KX 5: refused for that */
    27, 75, 68, 53, 54, 65, 59, 69, 50, 68, 60, 67, 49, 68, 49, 67, 63, /* KD 5: the body RL, three pixels of colour 7 */
    27, 75, 88, 53,                               /* KX 5: expanded, and carried out */
    27, 82, 80, 51, 51, 42, 96, 60,               /* RP 3: colours 1 2, an end of row, and 3 in the row below */
    27, 75, 73, 49,                               /* KI 1: from here on a plain 127 is filler */
    127,                                          /* an item of its own */
    27, 127, 82, 76, 127, 49, 65, 127, 127, 52,   /* RL with DELs in it: two pixels of colour 4 */
    27, 75, 73, 48,                               /* KI 0: a 127 is data and text again */
    127,                                          /* text */
    27, 82, 85, 49, 59, 54,                       /* RU 1 11 6: six bits a pixel */
    27, 82, 76, 50, 73, 48, 71, 63,               /* RL: two pixels of colour 16, one of colour 63 */
    27, 82, 80, 52, 49, 42,                       /* RP 4 with one character: refused */
    27, 75, 88, 54,                               /* KX 6: no such macro */
    27, 75, 90, 48,                               /* KZ: no such command */
    27, 76                                        /* the bytes end inside a command */
};

static const char *in_words(unsigned number)
{
    static const char *const words[REFUSALS] = {
        "done",
        "bytes end inside a command",
        "unknown command",
        "byte not allowed here",
        "third high byte, or integer out of range",
        "count negative or above 256",
        "a new ESC inside a command",
        "lent list or output too short for the whole result",
        "value out of range or record not valid",
        "pixel write before RU has set the bits",
        "raster characters wrong",
        "surface size wrong",
        "macro store malformed",
        "macro store too short for the result",
        "no such starting macro",
        "macro call inside a body at depth 8",
        "a 1,025th macro would be entered",
        "macro body holds a refused or cut command"
    };
    return number < REFUSALS ? words[number] : "a number that the unit never gives";
}

/* Ends the program: 1 where something could not be done, 2 where it was asked for something wrong. */
static void stop(int status, const char *what, const char *why)
{
    fprintf(stderr, "example: %s: %s\n", what, why);
    exit(status);
}

/* For answers that the program cannot go on without. */
static void must_be_done(uint8_t number, const char *what)
{
    if (number != ARDH_DONE)
        stop(1, what, in_words(number));
}

/* Keeps count of an answer. */
static void count(struct bench *bench, uint8_t number)
{
    if (number < REFUSALS)
        bench->refusals[number]++;
}

static void show_bytes(const uint8_t *bytes, size_t length)
{
    for (size_t i = 0; i < length; i++)
        printf(" %u", (unsigned)bytes[i]);
    printf("\n");
}

static void show_list(const int32_t *list, size_t entries)
{
    for (size_t i = 0; i < entries; i++)
        printf(" %ld", (long)list[i]);
    printf("\n");
}

static void show_outcome(struct bench *bench, uint8_t number)
{
    count(bench, number);
    if (number == ARDH_DONE)
        printf("        done\n");
    else
        printf("        refusal %u: %s\n", (unsigned)number, in_words(number));
}

static void go_through(struct bench *bench, const uint8_t *bytes, size_t length);

static void draw(struct bench *bench, const struct item *item, char second)
{
    size_t pixels;
    size_t entries = item->parts[6];
    uint8_t number;
    if (second == 'P')
        number = ardh_draw_raster(bench->surface, sizeof bench->surface, WIDTH, HEIGHT, bench->record, item->values[0], item->list, entries,
                                  &pixels);
    else
        number = ardh_draw_runs(bench->surface, sizeof bench->surface, WIDTH, HEIGHT, bench->record, item->list, entries, &pixels);
    show_outcome(bench, number);
    if (number == ARDH_DONE)
        printf("        pixels: %zu\n", pixels);
}

/*
 * KX. An expansion has no KX left in it, so going through it never comes back here. Expanding moves the point and the mode that it is handed,
 * as the bodies' commands do; going through the expansion starts from those of before, and comes to the same.
 */
static void expand(struct bench *bench, int32_t macro)
{
    size_t counts[2];
    uint16_t behind[3];
    memcpy(behind, bench->remembered, sizeof behind);
    uint8_t number =
        ardh_expand(bench->volatile_store, STORE, bench->saved_store, STORE, macro, behind, bench->expansion, LONGEST_EXPANSION, counts);
    show_outcome(bench, number);
    if (number != ARDH_DONE)
        return;
    printf("        macros entered: %zu; the expansion:", counts[1]);
    show_bytes(bench->expansion, counts[0]);
    printf("    its items:\n");
    go_through(bench, bench->expansion, counts[0]);
    if (memcmp(behind, bench->remembered, sizeof behind) != 0)
        stop(1, "expanding a macro", "its items leave another point or mode than was said");
    printf("    end of the expansion\n");
}

/* Carries out the commands that the unit can, and passes the others by. */
static void obey(struct bench *bench, const struct item *item)
{
    const int32_t *v = item->values;
    size_t entries = item->parts[6];
    char letters[3] = {(char)item->parts[3], (char)item->parts[4], 0};
    if (strcmp(letters, "RU") == 0)
        show_outcome(bench, ardh_set_bits(WIDTH, HEIGHT, bench->record, v[0], v[1], v[2]));
    else if (strcmp(letters, "RS") == 0)
        show_outcome(bench, ardh_set_viewport(WIDTH, HEIGHT, bench->record, v[0], v[1], v[2], v[3]));
    else if (strcmp(letters, "RH") == 0)
        show_outcome(bench, ardh_set_beam(WIDTH, HEIGHT, bench->record, v[0], v[1]));
    else if (strcmp(letters, "RP") == 0 || strcmp(letters, "RL") == 0)
        draw(bench, item, letters[1]);
    else if (strcmp(letters, "KD") == 0)
        show_outcome(bench, ardh_define(bench->volatile_store, STORE, v[0], item->list, entries));
    else if (strcmp(letters, "KO") == 0)
        show_outcome(bench, ardh_define(bench->saved_store, STORE, v[0], item->list, entries));
    else if (strcmp(letters, "KX") == 0)
        expand(bench, v[0]);
}

/* How many of values[] a kind of parameters has. */
static size_t numbers_of(size_t kind)
{
    static const size_t numbers[] = {0, 1, 2, 3, 2, 4, 2, 0, 0, 1, 1, 2};
    return kind < sizeof numbers / sizeof numbers[0] ? numbers[kind] : 0;
}

static void show_command(const struct item *item, size_t start)
{
    printf("%5zu  command %c%c:", start, (int)item->parts[3], (int)item->parts[4]);
    show_list(item->values, numbers_of(item->parts[5]));
    if (item->parts[6] > 0) {
        printf("        list:");
        show_list(item->list, item->parts[6]);
    }
}

/* One item that starts at `start`, whatever it is. */
static void take(struct bench *bench, const struct item *item, size_t start, uint8_t number)
{
    switch (item->parts[0]) {
    case ARDH_ITEM_TEXT:
        bench->texts++;
        printf("%5zu  text %zu\n", start, item->parts[3]);
        break;
    case ARDH_ITEM_DEL:
        bench->dels++;
        printf("%5zu  DEL\n", start);
        break;
    case ARDH_ITEM_COMMAND:
        bench->commands++;
        show_command(item, start);
        obey(bench, item);
        break;
    case ARDH_ITEM_REFUSED_COMMAND:
        bench->refused_commands++;
        count(bench, number);
        printf("%5zu  refusal %u at %zu: %s\n", start, (unsigned)number, item->parts[2], in_words(number));
        break;
    default:
        stop(1, "reading an item", in_words(number));
    }
}

/* An item is read where it stands, with all bytes behind it at hand: so a capture is in memory whole before it is gone through. */
static void go_through(struct bench *bench, const uint8_t *bytes, size_t length)
{
    struct item item;
    size_t start = 0;
    while (start < length) {
        uint8_t number = ardh_next_item(bytes, length, start, bench->remembered, item.list, LONGEST_LIST, item.parts, item.values);
        take(bench, &item, start, number);
        start = item.parts[1];
    }
}

static void show_counts(const struct bench *bench)
{
    printf("\nItems: %zu of text, %zu DELs, %zu commands, %zu refused commands\n", bench->texts, bench->dels, bench->commands,
           bench->refused_commands);
    for (unsigned number = 1; number < REFUSALS; number++)
        if (bench->refusals[number] > 0)
            printf("%8zu of refusal %u: %s\n", bench->refusals[number], number, in_words(number));
}

static void show_colours(const struct bench *bench)
{
    size_t places[COLOURS] = {0};
    for (size_t i = 0; i < sizeof bench->surface; i++)
        if (bench->surface[i] < COLOURS)
            places[bench->surface[i]]++;
    printf("\nThe places of the surface, %d by %d:\n", (int)WIDTH, (int)HEIGHT);
    for (unsigned colour = 0; colour < COLOURS; colour++)
        if (places[colour] > 0)
            printf("%8zu of colour %u\n", places[colour], colour);
}

/* The surface has its top row first, and y counts from the bottom. */
static uint8_t colour_at(const struct bench *bench, size_t x, size_t y)
{
    return bench->surface[(HEIGHT - 1 - y) * WIDTH + x];
}

static void show_viewport(const struct bench *bench)
{
    size_t left = bench->record[1], bottom = bench->record[2], right = bench->record[3], top = bench->record[4];
    printf("the viewport is from (%zu,%zu) to (%zu,%zu), the beam at (%zu,%zu)\n", left, bottom, right, top, bench->record[5], bench->record[6]);
    if (right - left >= SMALL || top - bottom >= SMALL)
        return;
    for (size_t y = top + 1; y > bottom; y--) {
        for (size_t x = left; x <= right; x++)
            printf("%4u", (unsigned)colour_at(bench, x, y - 1));
        printf("\n");
    }
}

/* LF to a point of the column 0, from what is remembered when fresh, but for the mode. */
static void write_move(int32_t y, uint16_t mode)
{
    const int32_t to[4] = {0, y, 0, 0};
    const int32_t no_entries[1] = {0};
    uint16_t remembered[3] = {0, 0, mode};
    uint8_t out[9]; /* no LF is longer */
    size_t end;
    must_be_done(ardh_write_command('L', 'F', to, no_entries, 0, remembered, out, sizeof out, &end), "writing LF");
    printf("LF (0,%ld) is written in mode %u:", (long)y, (unsigned)mode);
    show_bytes(out, end);
}

/* What the host would send, and what the terminal would report. */
static void write_some(void)
{
    uint8_t out[3];
    size_t end;
    printf("\n");
    write_move(100, 0);
    write_move(124, 0);
    write_move(124, 1);
    must_be_done(ardh_write_integer_report(600, out, sizeof out, 0, &end), "writing a report");
    printf("the report 600 is written");
    show_bytes(out, end);
    printf("a report of 70000: refusal %u\n", (unsigned)ardh_write_integer_report(70000, out, sizeof out, 0, &end));
}

/* A PGM: its bytes are the colours as they are, and the highest is white. */
static void write_picture(const struct bench *bench, const char *name)
{
    unsigned highest = 1;
    for (size_t i = 0; i < sizeof bench->surface; i++)
        if (bench->surface[i] > highest)
            highest = bench->surface[i];
    FILE *file = fopen(name, "wb");
    if (!file)
        stop(1, name, "cannot be written; name another file");
    int is_written = fprintf(file, "P5\n%d %d\n%u\n", (int)WIDTH, (int)HEIGHT, highest) > 0;
    is_written = fwrite(bench->surface, 1, sizeof bench->surface, file) == sizeof bench->surface && is_written;
    is_written = fclose(file) == 0 && is_written;
    if (!is_written)
        stop(1, name, "could not be written whole, and is no picture; make room, or name another file");
}

/* More than twice the room, or the program ends. */
static void enlarge(struct capture *capture)
{
    size_t room = 2 * capture->room + FIRST_ROOM;
    uint8_t *bytes = room > capture->room ? (uint8_t *)realloc(capture->bytes, room) : NULL;
    if (!bytes)
        stop(1, "the capture", "there is not enough memory for it");
    capture->bytes = bytes;
    capture->room = room;
}

/* All bytes of a file, in memory that the caller frees; or the program ends: half a capture is worse than none. */
static struct capture read_capture(const char *name)
{
    struct capture capture = {NULL, 0, 0};
    FILE *file = strcmp(name, "-") == 0 ? stdin : fopen(name, "rb");
    if (!file)
        stop(2, name, "cannot be read; give the path of a capture, such as examples/first.tek");
    while (!feof(file) && !ferror(file)) {
        if (capture.length == capture.room)
            enlarge(&capture);
        capture.length += fread(capture.bytes + capture.length, 1, capture.room - capture.length, file);
    }
    if (ferror(file))
        stop(1, name, "could not be read to its end, or is a folder");
    if (file != stdin)
        fclose(file);
    return capture;
}

static void go_through_file(struct bench *bench, const char *name)
{
    struct capture capture = read_capture(name);
    go_through(bench, capture.bytes, capture.length);
    free(capture.bytes);
}

int main(int arguments, char **argument)
{
    static struct bench bench; /* all noughts: a fresh point in mode 0, an empty surface, empty stores */
    if (arguments > 3)
        stop(2, "usage", "example [FILE [SURFACE.pgm]]");
    must_be_done(ardh_fresh(WIDTH, HEIGHT, bench.record), "making a fresh record");
    if (arguments > 1)
        go_through_file(&bench, argument[1]);
    else
        go_through(&bench, built_in, sizeof built_in);
    show_counts(&bench);
    show_colours(&bench);
    show_viewport(&bench);
    write_some();
    if (arguments > 2)
        write_picture(&bench, argument[2]);
    if (fflush(stdout) != 0 || ferror(stdout))
        stop(1, "standard output", "could not be written");
    return 0;
}
