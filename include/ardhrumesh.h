/*
 * The calls of the unit for programs in C and in any language that can call C.
 *
 * Link with libardhrumesh.a, which ./archive writes, for x86-64; of the C library it takes memcpy and memset. No call allocates, keeps anything between calls, prints, or fails to return.
 *
 * WHAT A CALL ANSWERS
 *   Every call returns the number of its refusal, 0 when it is done (ARDH_... below), and answers for all values of its arguments.
 *   Refused, a call leaves all that it was lent as it was. Its answer slots are no loans: each is written at every call, with 0 in what the
 *   answer does not have. They are item and values of ardh_next_item, value, count, place and next of the report calls, written, count of the
 *   pixel writes, place of ardh_look_up, counts of ardh_expand, and the record of ardh_fresh.
 *
 * WHO OWNS WHAT
 *   Everything is the caller's: a call borrows for as long as it runs, and keeps no pointer. A lent stretch is a pointer and its number of
 *   elements, in that order. A pointer is valid for as many elements as are said; where that is 0 it is not looked at, and may be any
 *   pointer but NULL. What a call may write to overlaps nothing else that it is handed. Two threads may call at the same time if nothing
 *   that one may write to is handed to the other.
 *
 * RECORDS
 *   Records are plain arrays, which the caller may keep, copy and compare:
 *     remembered[3]  what is remembered from command to command: x and y of the last point, and the DEL mode. Fresh it is {0, 0, 0}.
 *     record[7]      the beam record: bits, left, bottom, right, top, x, y. ardh_fresh makes one. (0,0) is the lower left.
 *
 * THE DEL MODE
 *   In mode 0 a 127 is data in a parameter and text outside commands. In mode 1 each plain 127 is filler: it is passed over in a command, and
 *   between commands it is an item of its own (ARDH_ITEM_DEL). The pair 27 63 is 127 in a parameter in either mode; in mode 1 the DELs between
 *   its two bytes are passed over too, and commands are written with it. KI 1 sets mode 1 behind itself and KI 0 mode 0; KI with another number,
 *   and a refused one, leave the mode. Another mode than 0 and 1 is refused as a point outside 0..4095 is, with 8. Reports know no mode.
 */
#ifndef ARDHRUMESH_H
#define ARDHRUMESH_H

#include <stddef.h>
#include <stdint.h>

#ifdef __cplusplus
extern "C" {
#endif

/* The numbers that the unit gives back. */
enum {
    ARDH_DONE = 0,
    ARDH_BYTES_END = 1,          /* bytes end inside a command; place is the length */
    ARDH_UNKNOWN_COMMAND = 2,    /* unknown command */
    ARDH_BYTE_NOT_ALLOWED = 3,   /* byte not allowed here */
    ARDH_INTEGER_OUTSIDE = 4,    /* third high byte, or integer out of range */
    ARDH_COUNT_OUTSIDE = 5,      /* count negative or above 256 */
    ARDH_NEW_ESCAPE = 6,         /* a new ESC inside a command */
    ARDH_TOO_SHORT = 7,          /* lent list or output too short for the whole result */
    ARDH_NOT_VALID = 8,          /* value out of range or record not valid */
    ARDH_BITS_NOT_SET = 9,       /* pixel write before RU has set the bits */
    ARDH_RASTER_CHARACTERS = 10, /* raster characters wrong */
    ARDH_SURFACE_SIZE = 11,      /* surface size wrong */
    ARDH_STORE_MALFORMED = 12,   /* macro store malformed */
    ARDH_STORE_TOO_SHORT = 13,   /* macro store too short for the result */
    ARDH_NO_SUCH_MACRO = 14,     /* no such starting macro */
    ARDH_TOO_DEEP = 15,          /* macro call inside a body at depth 8 */
    ARDH_TOO_MANY_MACROS = 16,   /* a 1,025th macro would be entered */
    ARDH_BODY_REFUSED = 17       /* macro body holds a refused or cut command */
};

/* ---- streams */

/* What stands in item[0]. */
enum {
    ARDH_ITEM_NONE = 0,            /* start is at the end: no item is left */
    ARDH_ITEM_TEXT = 1,            /* a byte outside commands */
    ARDH_ITEM_COMMAND = 2,         /* a whole command */
    ARDH_ITEM_REFUSED_COMMAND = 3, /* a refused command: the number returned says why */
    ARDH_ITEM_REFUSED_CALL = 4,    /* the call is refused, and there is no item: 7 or 8 is returned */
    ARDH_ITEM_DEL = 5              /* a 127 between commands in mode 1 */
};

/* The kinds of parameters: what stands in item[5] behind a command, and what values[] then holds. */
enum {
    ARDH_KIND_ONE_INTEGER = 1,         /* values[0] */
    ARDH_KIND_TWO_INTEGERS = 2,        /* values[0], values[1] */
    ARDH_KIND_THREE_INTEGERS = 3,      /* values[0] to values[2] */
    ARDH_KIND_ONE_POINT = 4,           /* x in values[0], y in values[1] */
    ARDH_KIND_TWO_POINTS = 5,          /* x, y in values[0], values[1], and x, y in values[2], values[3] */
    ARDH_KIND_REAL = 6,                /* mantissa in values[0], exponent in values[1] */
    ARDH_KIND_STRING = 7,              /* the list alone, an entry a character */
    ARDH_KIND_ARRAY = 8,               /* the list alone, an entry an integer */
    ARDH_KIND_INTEGER_THEN_ARRAY = 9,  /* values[0], and the list */
    ARDH_KIND_INTEGER_THEN_STRING = 10, /* values[0], and the list */
    ARDH_KIND_TWO_CHARACTERS = 11      /* values[0], values[1] */
};

/*
 * The item that starts at `start`, read from what is remembered, which is then that behind the item. Only a command changes it.
 *   item[0]  what it is (ARDH_ITEM_...)
 *   item[1]  where the next item starts: text, DEL, command, refused command
 *   item[2]  the place of the refusal: refused command, refused call
 *   item[3]  the byte: text; the first letter: command
 *   item[4]  the second letter: command
 *   item[5]  the kind of its parameters (ARDH_KIND_...): command
 *   item[6]  how many entries the front of the list now has: command
 *   values   its fixed parameters, by kind: command
 * Returns 1 to 6 with ARDH_ITEM_REFUSED_COMMAND; 7 (place: start) or 8 (place: 0) with ARDH_ITEM_REFUSED_CALL; else 0.
 */
uint8_t ardh_next_item(const uint8_t *bytes, size_t length, size_t start, uint16_t remembered[3], int32_t *list, size_t room, size_t item[7],
                       int32_t values[4]);

/*
 * The shortest spelling of a command from the front of `out` on, from what is remembered, which is then that behind the command. 792 bytes of
 * output in mode 0, and 1,043 in mode 1, are enough for any command.
 * values holds its fixed parameters by the kind of its letters, as ardh_next_item gives them; a coordinate outside 0..4095 is refused.
 * The whole list is the entries of a string or an array; for other commands it is not looked at.
 * *written is the number of bytes. Returns 8 for letters that are no command's, a value, remembered point or mode outside its range, or more
 * than 256 entries; then 7; else 0.
 */
uint8_t ardh_write_command(uint8_t first, uint8_t second, const int32_t values[4], const int32_t *list, size_t entries, uint16_t remembered[3],
                           uint8_t *out, size_t room, size_t *written);

/* ---- reports to the host */

/* *value is the integer of the report at `start`; *place is where reading goes on, or the place of the refusal. Returns 8, 1, 3, or 0. */
uint8_t ardh_read_integer_report(const uint8_t *bytes, size_t length, size_t start, int32_t *value, size_t *place);

/*
 * *count is how many entries the front of the list now has; *place is where reading goes on, or the place of the refusal.
 * Returns 8, 1, 3, 5, then 7 at the start; or 0.
 */
uint8_t ardh_read_string_report(const uint8_t *bytes, size_t length, size_t start, int32_t *list, size_t room, size_t *count, size_t *place);

/* *next is where the next byte goes in `out`. Returns 8 for a value outside -65535..65535, then 7; or 0. */
uint8_t ardh_write_integer_report(int32_t value, uint8_t *out, size_t room, size_t start, size_t *next);

/* Likewise. Returns 8 for more than 256 entries or one outside 32..127, then 7; or 0. */
uint8_t ardh_write_string_report(const int32_t *list, size_t entries, uint8_t *out, size_t room, size_t start, size_t *next);

/* ---- pixels */

/* w and h are those of the surface, each 1..512, or 11 is returned; then 8 for a record that is not valid, then 8 for the values. */

/* The whole surface as viewport, no bits, the beam at the upper left. Refused, all its fields are 0: here the record is an answer slot. */
uint8_t ardh_fresh(size_t w, size_t h, size_t record[7]);

/* RU: the bits from its third integer, 1, 2, 3 or 6. */
uint8_t ardh_set_bits(size_t w, size_t h, size_t record[7], int32_t first, int32_t second, int32_t third);

/* RS: the viewport by any two opposite corners, and the beam at its upper left. */
uint8_t ardh_set_viewport(size_t w, size_t h, size_t record[7], int32_t x, int32_t y, int32_t other_x, int32_t other_y);

/* RH: the beam, measured on the surface, within the viewport. */
uint8_t ardh_set_beam(size_t w, size_t h, size_t record[7], int32_t x, int32_t y);

/* The beam one place on: right, then to the left edge of the row below, and from the last place to the upper left. */
uint8_t ardh_step(size_t w, size_t h, size_t record[7]);

/*
 * RP: n pixels by raster characters on the surface, top row first, whose length must be w times h. *count is the number of pixels.
 * The character 96 ends a row: the beam goes to the left edge of the row below, from the last row to that of the top one, and from a left edge
 * too, so that a whole row is passed. The places passed keep their bytes, and n does not count them.
 * Returns 11, 8 for the record, 9, 8 for n outside 0..32767 or more than 256 characters (each 96 is one), 10 for a character outside 32..96 or
 * if those other than 96 are not just as many as n needs; or 0.
 */
uint8_t ardh_draw_raster(uint8_t *surface, size_t length, size_t w, size_t h, size_t record[7], int32_t n, const int32_t *characters,
                         size_t entries, size_t *count);

/*
 * RL: runs by codes, each length times 2^bits plus colour, on the surface, whose length must be w times h. *count is the number of pixels.
 * Returns 11, 8 for the record, 9, 8 for a code outside 0..32767 or more than 256 of them; or 0.
 */
uint8_t ardh_draw_runs(uint8_t *surface, size_t length, size_t w, size_t h, size_t record[7], const int32_t *codes, size_t entries,
                       size_t *count);

/* ---- macros */

/*
 * KD and KO: sets, replaces or, with no contents, deletes a macro in a store.
 * Returns 12 for a store that is not well formed, 8 for a number outside 0..32767, more than 256 contents or one outside 0..127, 13 if the result does
 * not fit the store; or 0.
 */
uint8_t ardh_define(uint8_t *store, size_t length, int32_t number, const int32_t *contents, size_t entries);

/* What stands in place[0] behind a look up. */
enum {
    ARDH_IN_NONE = 0,
    ARDH_IN_VOLATILE = 1,
    ARDH_IN_SAVED = 2
};

/*
 * Where a macro's body stands: place[0] says in which store, place[1] where its first byte is, place[2] its length.
 * Returns 12 for a store that is not well formed, 8 for a number outside 0..32767, 14 for a macro that neither store has; or 0.
 */
uint8_t ardh_look_up(const uint8_t *volatile_store, size_t volatile_length, const uint8_t *saved_store, size_t saved_length, int32_t number,
                     size_t place[3]);

/*
 * The expansion of a macro into `out`: counts[0] bytes, and counts[1] macros entered. It starts from what is remembered, which is then that
 * behind it: a KI or a point in a body holds from there on, into the macros that are called and out again. DELs are copied, but for those
 * inside a KX. A caller that then goes through `out` starts from what was remembered before this call, and comes to the same.
 * Returns 12 for a store that is not well formed, 8 for a number outside 0..32767 or a remembered point or mode outside its range, 14 for a
 * macro that neither store has; then the number of the first trouble in byte order: 17 for a refused or cut command, and at a KX 8 for a
 * negative number, 15 or 16; then 7 if the whole expansion does not fit `out`; or 0.
 */
uint8_t ardh_expand(const uint8_t *volatile_store, size_t volatile_length, const uint8_t *saved_store, size_t saved_length, int32_t number,
                    uint16_t remembered[3], uint8_t *out, size_t room, size_t counts[2]);

#ifdef __cplusplus
}
#endif

#endif
