/* The float index for C (C99 or later) and C++. Link with libcapi.a, which
 * `tools/built capi` writes to target/staticlib on x86-64 Linux.
 *
 * Units: positions are centimetres, speeds centimetres per second, times
 * seconds, all whole numbers. Ids are 1 to 65,535.
 *
 * Every call takes any numbers, and buffers of any length with any content. It
 * either does its whole work, or gives the number of a refusal and leaves store,
 * table and list as they were, to the last byte. The library keeps no memory of
 * its own between calls and allocates none.
 *
 * What a caller owes, whatever the numbers and lengths are:
 * - Each pointer is not null and aligned for its type, also where the length is
 *   0; for an empty buffer any such pointer will do. It points to as many
 *   numbers as the length says, each of them written once before.
 * - Lengths count numbers, not bytes.
 * - Store, table and list do not overlap, and nobody writes them during a call.
 *   Calls that only read a store and a table (float_index_ask,
 *   float_index_ask_window and float_index_is_sound) may share these between
 *   threads; each ask has its own list. Calls on other buffers may run at the
 *   same time.
 * - A call needs up to FLOAT_INDEX_STACK_BYTES of stack. */
#ifndef FLOAT_INDEX_H
#define FLOAT_INDEX_H

#include <stdbool.h>
#include <stddef.h>
#include <stdint.h>

#ifdef __cplusplus
extern "C" {
#endif

/* The lengths of the two lent buffers; any other is refused with 1. */
#define FLOAT_INDEX_STORE_WORDS 7175
#define FLOAT_INDEX_TABLE_NUMBERS 12288

/* The most floats held; a list of so many ids is never too short. */
#define FLOAT_INDEX_MOST_HELD 1024

/* Ranges: ids 1 to the last, times 0 to the last, positions of reports and of
 * corners 0 to the last, speeds from minus the top to the top. */
#define FLOAT_INDEX_LAST_ID 65535
#define FLOAT_INDEX_LAST_TIME 999999999
#define FLOAT_INDEX_LAST_POSITION 8388607
#define FLOAT_INDEX_TOP_SPEED 500

/* An ask's time is from now less the first to now plus the second, and so are
 * both times of a window ask. */
#define FLOAT_INDEX_ASK_BEFORE 3600
#define FLOAT_INDEX_ASK_AFTER 7200

/* A window's last time is at most so much after its first. */
#define FLOAT_INDEX_LONGEST_WINDOW 3600

/* A float is silent from so many seconds after its last report on. Every clock
 * step, also that of an add, a report or a drop, first retires the silent floats:
 * they are no longer held, and their ids may be added again. Whether an id is
 * held, whether the store is full and how many floats are held is judged after
 * that. A refused call retires none. Store and table may be lent with silent
 * floats; asks list these till the next accepted step. */
#define FLOAT_INDEX_SILENCE 2592000

/* Stack that a call may need. */
#define FLOAT_INDEX_STACK_BYTES 262144

/* How an ask chooses the cells that it reads. All four list the same ids. */
enum {
    FLOAT_INDEX_NAIVE = 0,
    FLOAT_INDEX_SEMI_NAIVE = 1,
    FLOAT_INDEX_ITERATIVE = 2,
    FLOAT_INDEX_OPTIMAL = 3
};

/* The numbers that a call gives back. Checks run in the order in which they
 * stand here; the first to fail is given. A window ask is an ask. */
enum {
    FLOAT_INDEX_ACCEPTED = 0,
    FLOAT_INDEX_WRONG_LENGTH = 1,  /* store or table has another length */
    FLOAT_INDEX_UNSOUND = 2,       /* store or table unsound (not for open) */
    FLOAT_INDEX_BAD_TIME = 3,      /* out of range, below now, or, for an ask, too far from now */
    FLOAT_INDEX_BAD_WINDOW = 10,   /* window ask: last time before the first, or over an hour after it */
    FLOAT_INDEX_BAD_NUMBER = 4,    /* id, position, speed, method or corner out of range; low above high */
    FLOAT_INDEX_ALREADY_HELD = 5,  /* add: the id is held, silent floats retired */
    FLOAT_INDEX_NOT_HELD = 6,      /* report, drop: the id is not held, or its float is silent */
    FLOAT_INDEX_FULL = 7,          /* add: 1,024 floats are held, silent floats retired */
    FLOAT_INDEX_LIST_TOO_SHORT = 8 /* ask: the list is shorter than the ids needed */
};

/* What a call gives back. The value is the floats held after an accepted clock,
 * add, report or drop, the ids listed by an accepted ask, the ids needed with
 * number 8, and else 0. Cells read, useful cells and rounds are summed over the
 * live phases, and are 0 but for an accepted ask. */
typedef struct float_index_reply {
    size_t number;
    size_t value;
    size_t cells;
    size_t useful;
    size_t rounds;
} float_index_reply;

/* Opens the index at time t, whatever the buffers held: no float, empty rows.
 * Buffers of a version that placed floats by the start of their hour are not
 * carried over: open them anew. */
float_index_reply float_index_open(int32_t *store, size_t store_words, int16_t *table,
                                   size_t table_numbers, int32_t t);

/* The clock goes to time t, and floats that are silent then retire. */
float_index_reply float_index_clock(int32_t *store, size_t store_words, int16_t *table,
                                    size_t table_numbers, int32_t t);

/* A float that is not held sends its first report: at time t it was at (x, y)
 * and drifted at (vx, vy). The clock goes to t first, so an id whose float is
 * silent then may be added again. */
float_index_reply float_index_add(int32_t *store, size_t store_words, int16_t *table,
                                  size_t table_numbers, int32_t id, int32_t t, int32_t x,
                                  int32_t y, int32_t vx, int32_t vy);

/* A held float sends a new report, which replaces the one before. The clock
 * goes to t first, and a float that is silent then is no longer held. */
float_index_reply float_index_report(int32_t *store, size_t store_words, int16_t *table,
                                     size_t table_numbers, int32_t id, int32_t t, int32_t x,
                                     int32_t y, int32_t vx, int32_t vy);

/* A held float is taken out. The clock goes to t first, and a float that is
 * silent then is no longer held. */
float_index_reply float_index_drop(int32_t *store, size_t store_words, int16_t *table,
                                   size_t table_numbers, int32_t id, int32_t t);

/* The held floats predicted inside a rectangle at the asked time, edges
 * included. A float whose report time is after the asked time is not among them.
 * Their ids are written in front of the list by rising number, and the rest of
 * it is kept. A list of any length will do where the ids needed fit; an empty
 * one where none is needed. Store and table are only read. */
float_index_reply float_index_ask(const int32_t *store, size_t store_words, const int16_t *table,
                                  size_t table_numbers, uint16_t *list, size_t list_ids,
                                  int32_t method, int32_t asked, int32_t low_x, int32_t low_y,
                                  int32_t high_x, int32_t high_y);

/* The held floats predicted inside a rectangle at some moment from the first time
 * to the last, on both axes at that same moment, edges and fractions of a second
 * included. For a float that reported after the first time only the moments from
 * its report on count. With first equal to last it is float_index_ask at that
 * time. All else is as there. */
float_index_reply float_index_ask_window(const int32_t *store, size_t store_words,
                                         const int16_t *table, size_t table_numbers,
                                         uint16_t *list, size_t list_ids, int32_t method,
                                         int32_t first, int32_t last, int32_t low_x, int32_t low_y,
                                         int32_t high_x, int32_t high_y);

/* Whether store and table have their lengths and are sound: no call refuses
 * them with 1 or 2. Both are only read. */
bool float_index_is_sound(const int32_t *store, size_t store_words, const int16_t *table,
                          size_t table_numbers);

#ifdef __cplusplus
}
#endif

#endif
