/* An editor's round on the valve pack: the verdict with its sheet and the check of the sheet, the module,
 * the reason; a record of the reason is struck, and all is asked again, until the goal is gone.
 *
 * gcc -Iinclude examples/desk.c build/lib/libsheets.a build/lib/libdesk.a
 */
#include "guarded.h"

#include <stdbool.h>
#include <stdio.h>
#include <stdlib.h>
#include <string.h>

#include "noolukask.h"

/* Five concepts, two roles; the goal: is valve repair, 0, a heart procedure, 1? */
enum { N = 5, M = 2, A = 0, B = 1, RECORDS = 6, MARKS = 128 };

static const struct {
    uint8_t bytes[8];
    const char *words;
} records[RECORDS] = {
    { { 3, 0, 0, 2 }, "valve repair under some site valve" },
    { { 3, 2, 1, 3 }, "valve under some part-of heart" },
    { { 6, 0, 1, 0 }, "site then part-of under site" },
    { { 4, 0, 3, 1 }, "some site heart under heart procedure" },
    { { 1, 0, 4, 0 }, "valve repair under open chest repair" },
    { { 1, 4, 1, 0 }, "open chest repair under heart procedure" },
};

static uint8_t *pack, *marks, *found;

/* What the calls are asked about. */
#define MARKED N, M, pack, 8 * RECORDS, marks, MARKS
#define QUESTION MARKED, A, B

/* The value that a call of library desk returned above the low byte; a refusal ends the program. */
static int value(uint64_t back)
{
    if (back % 256 != 0) {
        printf("refused, number %d\n", (int)(back % 256));
        exit(1);
    }
    return (int)(back / 256);
}

static bool is_found(int place)
{
    return found[place / 8] >> place % 8 & 1;
}

static void say_found(const char *what, int count)
{
    printf("  %s: %d records\n", what, count);
    for (int place = 0; place < RECORDS; place++)
        if (is_found(place))
            printf("    %d  %s\n", place, records[place].words);
}

/* The check of a sheet returns 0, or a number plus 16 times the step, row or place. */
static void check(const char *what, bool follows, const uint8_t *sheet, size_t len)
{
    uint64_t back = follows ? noolukask_check_yes(QUESTION, sheet, len)
                            : noolukask_check_no(QUESTION, sheet, len);
    if (back == 0)
        printf("  %s: accepted\n", what);
    else
        printf("  %s: rejected, number %d at %d\n", what, (int)(back % 16), (int)(back / 16));
}

/* The verdict, and our sheet for it in a buffer of just its size, checked; and checked again when a byte of
 * its last step or row has changed. */
static bool ask(void)
{
    bool follows = value(noolukask_verdict(QUESTION)) == 1;
    uint64_t room = noolukask_write_sheet(QUESTION, NULL, 0); /* NO ROOM, unless the sheet is empty */
    size_t len = room % 256 == NOOLUKASK_NO_ROOM ? room / 256 : 0;
    uint8_t *sheet = guarded(len);
    int parts = value(noolukask_write_sheet(QUESTION, sheet, len)) / 2;
    printf("%s, by a sheet of %d %s\n", follows ? "FOLLOWS" : "NOT", parts, follows ? "steps" : "rows");
    check("the sheet", follows, sheet, len);
    if (len > 0) {
        sheet[len - 6] ^= 1;
        check("the sheet, damaged", follows, sheet, len);
    }
    unguard(sheet, len);
    say_found("the module of valve repair", value(noolukask_module(MARKED, A, found, MARKS)));
    return follows;
}

int main(void)
{
    pack = guarded(8 * RECORDS), marks = guarded(MARKS), found = guarded(MARKS);
    for (int place = 0; place < RECORDS; place++) {
        memcpy(pack + 8 * place, records[place].bytes, 8);
        marks[place / 8] |= 1 << place % 8;
    }
    while (ask()) {
        say_found("the reason", value(noolukask_printed_set(QUESTION, found, MARKS)));
        int place = 0;
        while (!is_found(place))
            place++;
        marks[place / 8] &= ~(1 << place % 8);
        printf("  struck: %d\n", place);
    }
    puts("the goal is gone");
    unguard(found, MARKS), unguard(marks, MARKS), unguard(pack, 8 * RECORDS);
    return 0;
}
