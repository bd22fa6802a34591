/* The reader and the rewriter of the drawing counter, for hosts written in C. Link with libploverdell.a (`make host` builds it).
 *
 * A spool is one job as document 01 describes it, at most 61,440 bytes; a class is 1 to 5 or 11 to 15, and its wire part 0, 1 to 8 or
 * 11 to 18: any other class or wire part is refused with 1, before the spool is looked at.
 * A file's E_wire is 000, or its first digit is 0 to 4, its middle 0 or 1 and its last 1 to 8; any other is refused with 12. Wire part 0 skips
 * wires whole and leaves two records of each, marked unread; any other reads their lines and arcs, and of their attributes those that its
 * digits reach (docs/RECORDS.md).
 * docs/REFUSALS.md tells what each refusal number means. Every call answers, whatever the bytes are.
 *
 * The answer is one number: the refusal's number (0: accepted) + 100 * volume + 10,000 * line. PLOVERDELL_NUMBER, PLOVERDELL_VOLUME and
 * PLOVERDELL_LINE take it apart, as a number is below 100 and a volume is at most 12 (proved: docs/PROMISES.md).
 *
 * What the caller owes, as the proofs take it as given:
 * - No pointer is NULL, also where its length is 0; each is to as many bytes or numbers as its length says, and *count is one number.
 * - What is lent to be written (table, out, *count) overlaps nothing else that the same call is lent, the spool among it.
 * - A table, and *count, is aligned to 8 bytes, as C aligns an int64_t.
 * - Nobody else writes what is lent, and nobody reads the table, the output or *count, till the call returns.
 * - The stack has room: at most 27,021 bytes for ploverdell_check, 27,069 for ploverdell_read and 27,917 for ploverdell_rewrite, whatever
 *   the spool, by the compiled code, what the C library's memcpy and memset take not counted (bench/FIGURES.md). A thread of 40 KB holds each.
 * Calls share nothing and keep nothing, so any number of them may run at once, in as many threads. */
#ifndef PLOVERDELL_H
#define PLOVERDELL_H

#include <stddef.h>
#include <stdint.h>

#ifdef __cplusplus
extern "C" {
#endif

/* The version: the first number changes with a prototype or with the places of a record, the second where more is served, the third else. */
#define PLOVERDELL_VERSION_MAJOR 1
#define PLOVERDELL_VERSION_MINOR 2
#define PLOVERDELL_VERSION_PATCH 0
#define PLOVERDELL_VERSION "1.2.0"

/* An answer taken apart. */
#define PLOVERDELL_NUMBER(answer) ((answer) % 100)
#define PLOVERDELL_VOLUME(answer) ((answer) / 100 % 100)
#define PLOVERDELL_LINE(answer) ((answer) / 10000)

/* The class and the wire part that skip nothing. */
#define PLOVERDELL_FULL_CLASS 15
#define PLOVERDELL_FULL_WIRE 18

/* ── numbers by name, made by tools/make-header ── */
/* The bytes of a spool and its volumes are at most so many; a record has so many numbers; decimals are counted in such parts of one. */
#define PLOVERDELL_MOST_BYTES 61440
#define PLOVERDELL_MOST_VOLUMES 12
#define PLOVERDELL_RECORD 32
#define PLOVERDELL_DECIMAL 10000

/* What an answer's number means: docs/REFUSALS.md. */
enum ploverdell_refusal {
    PLOVERDELL_ACCEPTED = 0,
    PLOVERDELL_REFUSED_CLASS = 1,
    PLOVERDELL_REFUSED_SPOOL = 2,
    PLOVERDELL_REFUSED_ENDS = 3,
    PLOVERDELL_REFUSED_BYTE = 4,
    PLOVERDELL_REFUSED_FORM = 5,
    PLOVERDELL_REFUSED_KEY = 6,
    PLOVERDELL_REFUSED_TWICE = 7,
    PLOVERDELL_REFUSED_MISSING = 8,
    PLOVERDELL_REFUSED_ORDER = 9,
    PLOVERDELL_REFUSED_NUMBER = 10,
    PLOVERDELL_REFUSED_VALUE = 11,
    PLOVERDELL_REFUSED_RANGE = 12,
    PLOVERDELL_REFUSED_SYMBOL = 13,
    PLOVERDELL_REFUSED_LAYER = 14,
    PLOVERDELL_REFUSED_AGAIN = 15,
    PLOVERDELL_REFUSED_CHAIN = 16,
    PLOVERDELL_REFUSED_COUNT = 17,
    PLOVERDELL_REFUSED_NESTING = 18,
    PLOVERDELL_REFUSED_TABLE = 19,
    PLOVERDELL_REFUSED_OUTPUT = 20,
    PLOVERDELL_REFUSED_PARTNER = 21
};

/* Kinds of records, place 0: docs/RECORDS.md. */
enum ploverdell_kind {
    PLOVERDELL_KIND_HEADER = 1,
    PLOVERDELL_KIND_VOLUME = 2,
    PLOVERDELL_KIND_DRAWING = 3,
    PLOVERDELL_KIND_SYMBOL = 4,
    PLOVERDELL_KIND_LAYER = 5,
    PLOVERDELL_KIND_LINE = 10,
    PLOVERDELL_KIND_CIRCLE = 11,
    PLOVERDELL_KIND_ELLIPSE = 12,
    PLOVERDELL_KIND_POINT = 13,
    PLOVERDELL_KIND_SUCCESSIVE = 14,
    PLOVERDELL_KIND_TEXT = 15,
    PLOVERDELL_KIND_PLACED = 16,
    PLOVERDELL_KIND_SUCCESSIVE_POINT = 17,
    PLOVERDELL_KIND_WIRE = 18,
    PLOVERDELL_KIND_WIRE_MORE = 19,
    PLOVERDELL_KIND_WIRE_LINE = 20,
    PLOVERDELL_KIND_WIRE_ARC = 21,
    PLOVERDELL_KIND_SYMBOL_LINE = 30,
    PLOVERDELL_KIND_SYMBOL_CIRCLE = 31,
    PLOVERDELL_KIND_SYMBOL_ELLIPSE = 32,
    PLOVERDELL_KIND_SYMBOL_POINT = 33,
    PLOVERDELL_KIND_SYMBOL_SUCCESSIVE = 34,
    PLOVERDELL_KIND_SYMBOL_TEXT = 35,
    PLOVERDELL_KIND_SYMBOL_SUCCESSIVE_POINT = 37,
    PLOVERDELL_KIND_HIDE_POINT = 43
};

/* States of attributes, and the mark of a wire. */
enum ploverdell_state {
    PLOVERDELL_ABSENT = 0,
    PLOVERDELL_EMPTY = 1,
    PLOVERDELL_GIVEN = 2,
    PLOVERDELL_UNREAD = 3
};

/* How a wire's line or arc is joined to the one before it. */
enum ploverdell_join {
    PLOVERDELL_JOIN_NONE = 0,
    PLOVERDELL_JOIN_TESTED = 1,
    PLOVERDELL_JOIN_UNTESTED = 2
};

/* Which way an arc goes from start to end; none where a whole circle, in a symbol, was written without a turn. */
enum ploverdell_turn {
    PLOVERDELL_TURN_NONE = -1,
    PLOVERDELL_TURN_COUNTERCLOCKWISE = 0,
    PLOVERDELL_TURN_CLOCKWISE = 1
};

/* The places that every record has. */
enum ploverdell_place {
    PLOVERDELL_AT_KIND = 0,
    PLOVERDELL_AT_OWNER = 1,
    PLOVERDELL_AT_VOLUME = 2,
    PLOVERDELL_AT_LINE = 3,
    PLOVERDELL_AT_TYPE = 4
};

/* The places of each kind. A text has two: that of its first byte in the spool, and its length. A figure inside a symbol has the places of
 * the same figure in a layer. */
enum ploverdell_header_place {
    PLOVERDELL_HEADER_B_SYM = 5,
    PLOVERDELL_HEADER_ARC = 6,
    PLOVERDELL_HEADER_ELEC = 7,
    PLOVERDELL_HEADER_E_SYM = 8,
    PLOVERDELL_HEADER_SYM = 9,
    PLOVERDELL_HEADER_S_BASE = 10,
    PLOVERDELL_HEADER_S_ELEC = 11,
    PLOVERDELL_HEADER_ALL_LINE = 12,
    PLOVERDELL_HEADER_ALL_ELE = 13,
    PLOVERDELL_HEADER_DATE = 14,
    PLOVERDELL_HEADER_TIME = 15,
    PLOVERDELL_HEADER_CAD = 16,
    PLOVERDELL_HEADER_CAD_LENGTH = 17,
    PLOVERDELL_HEADER_OS = 18,
    PLOVERDELL_HEADER_OS_LENGTH = 19,
    PLOVERDELL_HEADER_HARD = 20,
    PLOVERDELL_HEADER_HARD_LENGTH = 21,
    PLOVERDELL_HEADER_VER = 22,
    PLOVERDELL_HEADER_VER_LENGTH = 23,
    PLOVERDELL_HEADER_CORP = 24,
    PLOVERDELL_HEADER_CORP_LENGTH = 25,
    PLOVERDELL_HEADER_MAKE = 26,
    PLOVERDELL_HEADER_MAKE_LENGTH = 27,
    PLOVERDELL_HEADER_TEL = 28,
    PLOVERDELL_HEADER_TEL_LENGTH = 29,
    PLOVERDELL_HEADER_NAME = 30,
    PLOVERDELL_HEADER_NAME_LENGTH = 31
};

enum ploverdell_volume_place {
    PLOVERDELL_VOLUME_THIS_LINE = 5,
    PLOVERDELL_VOLUME_THIS_ELE = 6
};

enum ploverdell_drawing_place {
    PLOVERDELL_DRAWING_SHEETS = 5,
    PLOVERDELL_DRAWING_A_NUMBER = 6,
    PLOVERDELL_DRAWING_SCALE_P = 7,
    PLOVERDELL_DRAWING_SCALE_Q = 8,
    PLOVERDELL_DRAWING_DATE = 9,
    PLOVERDELL_DRAWING_FLOOR_HEIGHT_STATE = 10,
    PLOVERDELL_DRAWING_FLOOR_HEIGHT = 11,
    PLOVERDELL_DRAWING_PROJECT = 12,
    PLOVERDELL_DRAWING_PROJECT_LENGTH = 13,
    PLOVERDELL_DRAWING_DRAWNAME = 14,
    PLOVERDELL_DRAWING_DRAWNAME_LENGTH = 15,
    PLOVERDELL_DRAWING_DRAWER = 16,
    PLOVERDELL_DRAWING_DRAWER_LENGTH = 17
};

enum ploverdell_symbol_place {
    PLOVERDELL_SYMBOL_NAME = 5,
    PLOVERDELL_SYMBOL_NAME_LENGTH = 6,
    PLOVERDELL_SYMBOL_WALL_STATE = 7,
    PLOVERDELL_SYMBOL_WALL_X = 8,
    PLOVERDELL_SYMBOL_WALL_Y = 9
};

enum ploverdell_layer_place {
    PLOVERDELL_LAYER_LETTER = 5,
    PLOVERDELL_LAYER_NUMBER = 6,
    PLOVERDELL_LAYER_NAME = 7,
    PLOVERDELL_LAYER_NAME_LENGTH = 8
};

enum ploverdell_line_place {
    PLOVERDELL_LINE_X = 5,
    PLOVERDELL_LINE_Y = 6,
    PLOVERDELL_LINE_X2 = 7,
    PLOVERDELL_LINE_Y2 = 8
};

enum ploverdell_circle_place {
    PLOVERDELL_CIRCLE_X = 5,
    PLOVERDELL_CIRCLE_Y = 6,
    PLOVERDELL_CIRCLE_RADIUS = 7,
    PLOVERDELL_CIRCLE_START = 8,
    PLOVERDELL_CIRCLE_END = 9,
    PLOVERDELL_CIRCLE_TURN = 10
};

enum ploverdell_ellipse_place {
    PLOVERDELL_ELLIPSE_X = 5,
    PLOVERDELL_ELLIPSE_Y = 6,
    PLOVERDELL_ELLIPSE_LONG = 7,
    PLOVERDELL_ELLIPSE_SHORT = 8,
    PLOVERDELL_ELLIPSE_START = 9,
    PLOVERDELL_ELLIPSE_END = 10,
    PLOVERDELL_ELLIPSE_TILT = 11,
    PLOVERDELL_ELLIPSE_TURN = 12
};

enum ploverdell_point_place {
    PLOVERDELL_POINT_X = 5,
    PLOVERDELL_POINT_Y = 6
};

enum ploverdell_successive_place {
    PLOVERDELL_SUCCESSIVE_POINTS = 5
};

enum ploverdell_text_place {
    PLOVERDELL_TEXT_X = 5,
    PLOVERDELL_TEXT_Y = 6,
    PLOVERDELL_TEXT_WIDTH = 7,
    PLOVERDELL_TEXT_HEIGHT = 8,
    PLOVERDELL_TEXT_GAP = 9,
    PLOVERDELL_TEXT_ANGLE = 10,
    PLOVERDELL_TEXT_UPRIGHT = 11,
    PLOVERDELL_TEXT_CHARACTERS = 12,
    PLOVERDELL_TEXT_CHARACTERS_LENGTH = 13
};

enum ploverdell_placed_place {
    PLOVERDELL_PLACED_SYMBOL = 5,
    PLOVERDELL_PLACED_X = 6,
    PLOVERDELL_PLACED_Y = 7,
    PLOVERDELL_PLACED_ANGLE = 8,
    PLOVERDELL_PLACED_FACTOR = 9,
    PLOVERDELL_PLACED_HIGHT = 10,
    PLOVERDELL_PLACED_POS = 11,
    PLOVERDELL_PLACED_CIRCUIT = 12,
    PLOVERDELL_PLACED_CIRCUIT_LENGTH = 13,
    PLOVERDELL_PLACED_SERIAL = 14,
    PLOVERDELL_PLACED_PARTNERS = 15,
    PLOVERDELL_PLACED_TEXT_TYPE = 16,
    PLOVERDELL_PLACED_TEXT_X = 17,
    PLOVERDELL_PLACED_TEXT_Y = 18,
    PLOVERDELL_PLACED_TEXT_WIDTH = 19,
    PLOVERDELL_PLACED_TEXT_HEIGHT = 20,
    PLOVERDELL_PLACED_TEXT_GAP = 21,
    PLOVERDELL_PLACED_TEXT_ANGLE = 22,
    PLOVERDELL_PLACED_TEXT_UPRIGHT = 23,
    PLOVERDELL_PLACED_TEXT_CHARACTERS = 24,
    PLOVERDELL_PLACED_TEXT_CHARACTERS_LENGTH = 25,
    PLOVERDELL_PLACED_TEXT_STATE = 26,
    PLOVERDELL_PLACED_HIGHT_STATE = 27,
    PLOVERDELL_PLACED_POS_STATE = 28,
    PLOVERDELL_PLACED_CIRCUIT_STATE = 29,
    PLOVERDELL_PLACED_SERIAL_STATE = 30
};

enum ploverdell_successive_point_place {
    PLOVERDELL_SUCCESSIVE_POINT_X = 5,
    PLOVERDELL_SUCCESSIVE_POINT_Y = 6
};

enum ploverdell_wire_place {
    PLOVERDELL_WIRE_ELEMENTS = 5,
    PLOVERDELL_WIRE_DIRECS = 6,
    PLOVERDELL_WIRE_DIREC_SIGN = 7,
    PLOVERDELL_WIRE_DIREC_X = 8,
    PLOVERDELL_WIRE_DIREC_Y = 9,
    PLOVERDELL_WIRE_DIREC_ANGLE = 10,
    PLOVERDELL_WIRE_DIREC2_SIGN = 11,
    PLOVERDELL_WIRE_DIREC2_X = 12,
    PLOVERDELL_WIRE_DIREC2_Y = 13,
    PLOVERDELL_WIRE_DIREC2_ANGLE = 14,
    PLOVERDELL_WIRE_PIENDS = 15,
    PLOVERDELL_WIRE_PIEND_X = 16,
    PLOVERDELL_WIRE_PIEND_Y = 17,
    PLOVERDELL_WIRE_PIEND_ANGLE = 18,
    PLOVERDELL_WIRE_NUMS = 19,
    PLOVERDELL_WIRE_NUM_EARTH = 20,
    PLOVERDELL_WIRE_NUM_WIRES = 21,
    PLOVERDELL_WIRE_NUM_X = 22,
    PLOVERDELL_WIRE_NUM_Y = 23,
    PLOVERDELL_WIRE_NUM_ANGLE = 24,
    PLOVERDELL_WIRE_LENGTH = 25,
    PLOVERDELL_WIRE_DIREC_STATE = 26,
    PLOVERDELL_WIRE_PIEND_STATE = 27,
    PLOVERDELL_WIRE_NUM_STATE = 28,
    PLOVERDELL_WIRE_LENGTH_STATE = 29,
    PLOVERDELL_WIRE_FIRST_DIGIT = 30,
    PLOVERDELL_WIRE_MARK = 31
};

enum ploverdell_wire_more_place {
    PLOVERDELL_WIRE_MORE_TEXTS = 5,
    PLOVERDELL_WIRE_MORE_TEXT_TYPE = 6,
    PLOVERDELL_WIRE_MORE_TEXT_X = 7,
    PLOVERDELL_WIRE_MORE_TEXT_Y = 8,
    PLOVERDELL_WIRE_MORE_TEXT_WIDTH = 9,
    PLOVERDELL_WIRE_MORE_TEXT_HEIGHT = 10,
    PLOVERDELL_WIRE_MORE_TEXT_GAP = 11,
    PLOVERDELL_WIRE_MORE_TEXT_ANGLE = 12,
    PLOVERDELL_WIRE_MORE_TEXT_UPRIGHT = 13,
    PLOVERDELL_WIRE_MORE_TEXT_CHARACTERS = 14,
    PLOVERDELL_WIRE_MORE_TEXT_CHARACTERS_LENGTH = 15,
    PLOVERDELL_WIRE_MORE_CIRCUIT = 16,
    PLOVERDELL_WIRE_MORE_CIRCUIT_LENGTH = 17,
    PLOVERDELL_WIRE_MORE_POWER_PHASE = 18,
    PLOVERDELL_WIRE_MORE_POWER_WIRES = 19,
    PLOVERDELL_WIRE_MORE_POWER_VOLTS = 20,
    PLOVERDELL_WIRE_MORE_SERIAL = 21,
    PLOVERDELL_WIRE_MORE_START_STATE = 22,
    PLOVERDELL_WIRE_MORE_START_PARTNER = 23,
    PLOVERDELL_WIRE_MORE_END_STATE = 24,
    PLOVERDELL_WIRE_MORE_END_PARTNER = 25,
    PLOVERDELL_WIRE_MORE_TEXT_STATE = 26,
    PLOVERDELL_WIRE_MORE_CIRCUIT_STATE = 27,
    PLOVERDELL_WIRE_MORE_POWER_STATE = 28,
    PLOVERDELL_WIRE_MORE_SERIAL_STATE = 29,
    PLOVERDELL_WIRE_MORE_MARK = 31
};

enum ploverdell_wire_line_place {
    PLOVERDELL_WIRE_LINE_X = 5,
    PLOVERDELL_WIRE_LINE_Y = 6,
    PLOVERDELL_WIRE_LINE_X2 = 7,
    PLOVERDELL_WIRE_LINE_Y2 = 8,
    PLOVERDELL_WIRE_LINE_JOIN = 11
};

enum ploverdell_wire_arc_place {
    PLOVERDELL_WIRE_ARC_X = 5,
    PLOVERDELL_WIRE_ARC_Y = 6,
    PLOVERDELL_WIRE_ARC_RADIUS = 7,
    PLOVERDELL_WIRE_ARC_START = 8,
    PLOVERDELL_WIRE_ARC_END = 9,
    PLOVERDELL_WIRE_ARC_TURN = 10,
    PLOVERDELL_WIRE_ARC_JOIN = 11
};

enum ploverdell_hide_point_place {
    PLOVERDELL_HIDE_POINT_X = 5,
    PLOVERDELL_HIDE_POINT_Y = 6
};

/* ── end of what is made ── */

/* Judges a spool as ploverdell_read does with a table of 256 records (19 where there are more). It is lent none and lays none out. */
uint64_t ploverdell_check(const uint8_t *spool, size_t spool_len, uint64_t cls, uint64_t wire);

/* Reads a spool into a table of table_len numbers, 32 to a record. Accepted: the records stand at its front, *count of them, and zeros
 * behind them. Refused: the table is all zeros and *count is 0. What the table held before does not matter. */
uint64_t ploverdell_read(const uint8_t *spool, size_t spool_len, uint64_t cls, uint64_t wire, int64_t *table, size_t table_len, uint64_t *count);

/* Writes a spool in the fixed form, read at class 15 with wire part 18, to an output of out_len bytes. Accepted: the fixed form stands at its
 * front, *count bytes, and zeros behind them. Refused: the output is all zeros and *count is 0; 20 where the fixed form is longer than the
 * output. It is never longer than the spool, so an output of spool_len bytes is enough. What the output held before does not matter. */
uint64_t ploverdell_rewrite(const uint8_t *spool, size_t spool_len, uint8_t *out, size_t out_len, uint64_t *count);

#ifdef __cplusplus
}
#endif

#endif
