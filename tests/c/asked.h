/* What the C tests share: the valve question and its faults, a question on kind 7, buffers of their exact size, and
 * what comes back against the header's numbers and document 01's. They are C and C++ alike.
 */
#ifndef ASKED_H
#define ASKED_H

#include <inttypes.h>
#include <stdio.h>
#include <stdlib.h>
#include <string.h>

#include "noolukask.h"

/* ---- What came back ---- */

/* The names of document 01's table, by its numbers. */
enum { NUMBERS = 13 };
static const int names[NUMBERS + 1] = {
    0, NOOLUKASK_SIZES, NOOLUKASK_PACK, NOOLUKASK_RECORD, NOOLUKASK_MARKS, NOOLUKASK_GOAL, NOOLUKASK_TOO_LONG,
    NOOLUKASK_NOT_FOLLOWS, NOOLUKASK_NO_ROOM, NOOLUKASK_LENGTH, NOOLUKASK_STEP, NOOLUKASK_ROW, NOOLUKASK_BROKEN,
    NOOLUKASK_NOT_SHOWN
};

static int came_back[NUMBERS + 1];
static int wrong;

static inline void hold(const char *what, int good)
{
    if (!good) {
        printf("%s\n", what);
        wrong++;
    }
}

/* A number, 0 where nothing is refused, and the place or value above it: 16 times for a sheet check, 256 times
 * for another call. */
static inline void expect(const char *what, uint64_t back, int number, uint64_t times, uint64_t place)
{
    if (back != (uint64_t)number + times * place) {
        printf("%s gave %" PRIu64 ", not number %d with %" PRIu64 "\n", what, back, number, place);
        wrong++;
    }
    if (number <= NUMBERS)
        came_back[number]++;
}

/* Every name has document 01's number, and exactly these numbers came back. The program's status. */
static inline int ended(const int *expected, int count)
{
    for (int number = 1; number <= NUMBERS; number++) {
        int listed = 0;
        for (int i = 0; i < count; i++)
            listed |= expected[i] == number;
        if (names[number] != number || (came_back[number] > 0) != listed) {
            printf("number %d: its name is %d; it came back %d times\n", number, names[number], came_back[number]);
            wrong++;
        }
    }
    printf("%d wrong\n", wrong);
    return wrong != 0;
}

/* ---- What is asked ---- */

struct question {
    uint64_t n, m;
    const uint8_t *pack;
    size_t pack_len;
    const uint8_t *marks;
    size_t marks_len;
    uint64_t a, b;
};

enum { PACK_LEN = 48, MARKS_LEN = 128 };

static const uint8_t valve_pack[PACK_LEN] = {
    3, 0, 0, 2, 0, 0, 0, 0, /* valve repair under some site valve */
    3, 2, 1, 3, 0, 0, 0, 0, /* valve under some part-of heart */
    6, 0, 1, 0, 0, 0, 0, 0, /* site then part-of under site */
    4, 0, 3, 1, 0, 0, 0, 0, /* some site heart under heart procedure */
    1, 0, 4, 0, 0, 0, 0, 0, /* valve repair under open chest repair */
    1, 4, 1, 0, 0, 0, 0, 0, /* open chest repair under heart procedure */
};
static const uint8_t all_marked[MARKS_LEN] = { 0x3F };

static inline struct question valve(uint64_t a, uint64_t b)
{
    struct question q = { 5, 2, valve_pack, PACK_LEN, all_marked, MARKS_LEN, a, b };
    return q;
}

/* The valve question with a fault, for numbers 1 to 5. */
static inline struct question faulty(int number)
{
    struct question q = valve(0, 1);
    switch (number) {
    case NOOLUKASK_SIZES: q.n = 65; break;
    case NOOLUKASK_PACK: q.pack_len = PACK_LEN - 1; break;
    case NOOLUKASK_RECORD: q.m = 1; break;
    case NOOLUKASK_MARKS: q.marks_len = MARKS_LEN - 1; break;
    default: q.a = 5; break;
    }
    return q;
}

/* The place with such a number: of the records, the one at 1 is the first that names role 1. */
static inline uint64_t faulty_place(int number)
{
    return number == NOOLUKASK_RECORD;
}

/* A record of kind 7 and one of kind 4, n 2 and m 1, with the first byte of the marks: 3 for both. Goal (0,1) follows
 * in three steps when both are marked. */
enum { KIND_7_LEN = 16 };
static const uint8_t kind_7_pack[KIND_7_LEN] = {
    7, 0, 0, 0, 0, 0, 0, 0, /* everything r itself */
    4, 0, 0, 1, 0, 0, 0, 0, /* some r 0 under 1 */
};
static const uint8_t both_marked[MARKS_LEN] = { 0x03 }, second_marked[MARKS_LEN] = { 0x02 };
static const uint8_t kind_7_steps[24] = {
    0, 0, 0, 0, 0, 0, 0, 0, 0, 0, 1, 0, 0, 0, 0, 0, 1, 0, 0, 0, 0, 0, 0, 0,
};
/* Our no sheet without record 0: thing 0 in 0, thing 1 in 1, no link. */
static const uint8_t kind_7_rows[32] = { 1, 0, 0, 0, 0, 0, 0, 0, 2 };

static inline struct question kind_7(const uint8_t *marks)
{
    struct question q = { 2, 1, kind_7_pack, KIND_7_LEN, marks, MARKS_LEN, 0, 1 };
    return q;
}

/* It with a field of record 0 that is not good: a role that is not there, b or c. */
static inline struct question bad_kind_7(int field)
{
    static const uint8_t packs[3][KIND_7_LEN] = {
        { 7, 1, 0, 0, 0, 0, 0, 0, 4, 0, 0, 1 },
        { 7, 0, 1, 0, 0, 0, 0, 0, 4, 0, 0, 1 },
        { 7, 0, 0, 1, 0, 0, 0, 0, 4, 0, 0, 1 },
    };
    struct question q = kind_7(second_marked);
    q.pack = packs[field];
    return q;
}

/* ---- Buffers of their exact size: valgrind sees whoever goes past either end ---- */

/* Not initialised: valgrind sees whoever takes notice of what it held. */
static inline uint8_t *buffer(size_t len)
{
    uint8_t *bytes = (uint8_t *)malloc(len);
    if (bytes == NULL) {
        perror("buffer");
        exit(1);
    }
    return bytes;
}

static inline uint8_t *copied(const uint8_t *bytes, size_t len)
{
    uint8_t *copy = buffer(len);
    memcpy(copy, bytes, len);
    return copy;
}

/* The question in buffers of its own. */
static inline struct question lent(const struct question *q)
{
    struct question copy = *q;
    copy.pack = copied(q->pack, q->pack_len);
    copy.marks = copied(q->marks, q->marks_len);
    return copy;
}

/* Frees a copy in which no byte may have changed. */
static inline void back_again(const uint8_t *copy, const uint8_t *bytes, size_t len)
{
    hold("a call changed its input", memcmp(copy, bytes, len) == 0);
    free((void *)copy);
}

static inline void given_back(const struct question *copy, const struct question *q)
{
    back_again(copy->pack, q->pack, q->pack_len);
    back_again(copy->marks, q->marks, q->marks_len);
}

#endif
