/*
 * The calls of libarchive.a: sheets of ground rules, their stable models,
 * and maps of what is forced.
 *
 * A sheet is a run of bytes. A map has one byte for each atom: 0 undecided,
 * 1 in, 2 out; all bytes 3 is a contradiction. Atoms and rules are numbered
 * from 1.
 *
 * Every call may be made with any bytes and any numbers. Each slice is a
 * pointer to its first byte and a length; the pointer is never null, also
 * where the length is 0, and the sheet and the map do not overlap. No call
 * keeps a pointer or changes the sheet.
 *
 * Every call returns top * 2^40 + value:
 *
 *   top       value
 *   1 to 16   a place       refused, by the number of the refusal
 *   32        n * 2^16 + r  accepted, with n atoms and r rules
 *   33        a count       closed, with so many undecided atoms
 *   34        0             contradiction
 *   35        0             a model
 *   36        0             no model
 *   37        0             yes
 *   38        0             no
 *   39        m + 2^32      the margin m
 *   40        a number      the part of the rule
 *   41        0             nothing there
 *
 * A refusal leaves every byte of the map as it was. No call reads or writes
 * the map's bytes past the sheet's atom count. The refusals:
 *
 *   1   the sheet ends inside or before a number      at the sheet's length
 *   2   a number is not in its shortest form
 *   3   the edition is not 1
 *   4   a count or a weight is outside its limits
 *   5   the kind of a rule is not 1, 2, 3 or 5
 *   6   an atom on the sheet is 0 or above n
 *   7   a list is not strictly increasing             at the later atom
 *   8   bytes after the compute-out list              at the first of them
 *   9   the sheet is longer than 65,536 bytes         at 65,536
 *   10  the map is shorter than n                     at 0
 *   11  the pinned atom is 0 or above n, or the side is not 1 or 2   at 0
 *   12  a byte of the map is not allowed              at its index
 *   13  the rule number is 0 or above the rule count  at 0
 *   14  the margin is asked on a contradiction        at 0
 *   15  a number is longer than four bytes (the fourth has its top bit set,
 *       whatever follows)
 *   16  the bound of a constraint or weight rule is above the sum of the
 *       rule's own weights (a constraint's are 1 each)
 *
 * Refusals 2 to 6, 15 and 16 are at the first byte of the number. The sheet's
 * own are 1 to 9, 15 and 16: every call can give them. Refusal 9 is tested
 * first, then the sheet in reading order, where 16 comes after anything else
 * in its rule and before anything in the next; then 10, 11, 13, 12, 14, as far
 * as the call has such an input.
 */
#ifndef ARCHIVE_H
#define ARCHIVE_H

#include <stddef.h>
#include <stdint.h>

#ifdef __cplusplus
extern "C" {
#endif

enum {
    DESK_ACCEPTED = 32,
    DESK_CLOSED = 33,
    DESK_CONTRADICTION = 34,
    DESK_MODEL = 35,
    DESK_NONE = 36,
    DESK_YES = 37,
    DESK_NO = 38,
    DESK_MARGIN = 39,
    DESK_PART = 40,
    DESK_NOTHING_THERE = 41
};

/* The most atoms a sheet may have: a map of so many bytes fits every sheet. */
enum { DESK_MOST_ATOMS = 512 };

/* The top of an answer: one of the above, or the number of a refusal. */
static inline unsigned desk_top(uint64_t answer) { return (unsigned)(answer >> 40); }

/* The value of an answer. */
static inline uint64_t desk_value(uint64_t answer) { return answer & ((UINT64_C(1) << 40) - 1); }

/* The margin that an answer with the top DESK_MARGIN holds. */
static inline int64_t desk_margin_of(uint64_t answer) {
    return (int64_t)desk_value(answer) - (INT64_C(1) << 32);
}

/* Checks a sheet: accepted, or refused by one of the sheet's own. */
uint64_t desk_check(const uint8_t *sheet, size_t sheet_length);

/*
 * Writes the smallest closed map that holds the compute lists: closed with
 * the number of undecided atoms, or contradiction and n bytes of 3. The old
 * map is not read. Refused by the sheet's own and 10.
 */
uint64_t desk_open(const uint8_t *sheet, size_t sheet_length, uint8_t *map, size_t map_length);

/*
 * Makes the map the smallest closed map that holds the old map and the atom
 * on the side, 1 in or 2 out. Answers as desk_open does; on a contradiction
 * it answers contradiction again. Refused by the sheet's own and 10 to 12.
 */
uint64_t desk_pin(const uint8_t *sheet, size_t sheet_length, uint8_t *map, size_t map_length, uint64_t atom,
                  uint64_t side);

/*
 * Writes the first stable model that agrees with the compute lists as a map
 * of 1s and 2s: model; or none and n bytes of 3. Of two models the one comes
 * first that has the lowest atom where they differ. The old map is not read.
 * Refused by the sheet's own and 10.
 */
uint64_t desk_solve(const uint8_t *sheet, size_t sheet_length, uint8_t *map, size_t map_length);

/*
 * Yes exactly when the in-atoms of a map of 1s and 2s form a stable model
 * that agrees with the compute lists, else no. Refused by the sheet's own and
 * 10, and by 12 at the first byte that is not 1 or 2.
 */
uint64_t desk_test(const uint8_t *sheet, size_t sheet_length, const uint8_t *map, size_t map_length);

/*
 * Reach less need of the rule on the map. A margin below 0 is an answer: the
 * body can no longer hold. Refused by the sheet's own, 10 and 12 to 14.
 */
uint64_t desk_margin(const uint8_t *sheet, size_t sheet_length, const uint8_t *map, size_t map_length, uint64_t rule);

/*
 * A part of the rule:
 *
 *   0 kind: 1 basic, 2 constraint, 3 choice, 5 weight
 *   1 need: the bound, or for basic and choice the length of the body
 *   2 head count       3 head at the index
 *   4 positive count   5 positive atom at the index   6 its weight
 *   7 negative count   8 negative atom at the index   9 its weight
 *
 * The index counts from 0 and is looked at only by the parts 3, 5, 6, 8 and
 * 9. An index past the end of its list, or any other part: nothing there.
 * Refused by the sheet's own and 13.
 */
uint64_t desk_rule(const uint8_t *sheet, size_t sheet_length, uint64_t rule, uint64_t part, uint64_t index);

#ifdef __cplusplus
}
#endif

#endif
