/* The two sheet checks from C, with every number that they can give. It needs libsheets.a alone. */
#include "asked.h"

typedef uint64_t check(uint64_t n, uint64_t m, const uint8_t *pack, size_t pack_len, const uint8_t *marks,
                       size_t marks_len, uint64_t a, uint64_t b, const uint8_t *sheet, size_t sheet_len);

/* One sheet, everything in buffers of its exact size. */
static uint64_t checked(check *call, struct question q, const uint8_t *sheet, size_t len)
{
    struct question copy = lent(&q);
    uint8_t *sheet_copy = copied(sheet, len);
    uint64_t back = call(q.n, q.m, copy.pack, copy.pack_len, copy.marks, copy.marks_len, q.a, q.b, sheet_copy, len);
    back_again(sheet_copy, sheet, len);
    given_back(&copy, &q);
    return back;
}

static void faults(const char *what, check *call, const uint8_t *sheet, size_t len)
{
    for (int number = NOOLUKASK_SIZES; number <= NOOLUKASK_GOAL; number++)
        expect(what, checked(call, faulty(number), sheet, len), number, 16, faulty_place(number));
}

/* Case C3: four steps for goal (0,1). */
static void yes(void)
{
    static const uint8_t sheet[32] = {
        0, 0, 0, 0, 0, 0, 0, 0, 1, 0, 2, 0, 0, 0, 0, 0, 2, 0, 0, 2, 3, 0, 0, 0, 3, 0, 0, 3, 0, 0, 0, 0,
    };
    const char *what = "noolukask_check_yes";
    check *call = noolukask_check_yes;
    faults(what, call, sheet, 32);
    expect(what, checked(call, valve(0, 1), sheet, 32), 0, 16, 0);
    expect(what, checked(call, valve(3, 3), sheet, 0), 0, 16, 0);
    expect(what, checked(call, valve(0, 1), sheet, 31), NOOLUKASK_LENGTH, 16, 0);
    expect(what, checked(call, valve(0, 1), sheet + 8, 24), NOOLUKASK_STEP, 16, 1);
    expect(what, checked(call, valve(2, 1), sheet, 32), NOOLUKASK_NOT_SHOWN, 16, 0);
}

/* Case C6: a world of five things for goal (2,1). */
static void no(void)
{
    static const uint8_t first_bytes[15] = { 0x13, 2, 4, 8, 0x12, 0x0C, 0, 0, 0, 0, 0, 0, 8, 0, 0 };
    uint8_t sheet[120] = { 0 };
    for (int row = 0; row < 15; row++)
        sheet[8 * row] = first_bytes[row];
    const char *what = "noolukask_check_no";
    check *call = noolukask_check_no;
    faults(what, call, sheet, 120);
    expect(what, checked(call, valve(2, 1), sheet, 120), 0, 16, 0);
    expect(what, checked(call, valve(2, 1), sheet, 119), NOOLUKASK_LENGTH, 16, 0);
    expect(what, checked(call, valve(0, 1), sheet, 120), NOOLUKASK_NOT_SHOWN, 16, 0);
    /* Without the link from valve to heart record 1 is broken; a link to thing 5 is one to nothing. */
    sheet[8 * 12] = 0;
    expect(what, checked(call, valve(2, 1), sheet, 120), NOOLUKASK_BROKEN, 16, 1);
    sheet[8 * 12] = 0x28;
    expect(what, checked(call, valve(2, 1), sheet, 120), NOOLUKASK_ROW, 16, 12);
}

/* Kind 7: steps that use X alone, and a world that lacks a self-link. */
static void itself(void)
{
    uint8_t sheet[24], world[32];
    memcpy(sheet, kind_7_steps, 24);
    const char *what = "noolukask_check_yes";
    check *call = noolukask_check_yes;
    expect(what, checked(call, kind_7(both_marked), sheet, 24), 0, 16, 0);
    expect(what, checked(call, kind_7(second_marked), sheet, 24), NOOLUKASK_STEP, 16, 0);
    expect(what, checked(call, kind_7(both_marked), sheet + 8, 16), NOOLUKASK_STEP, 16, 1);
    for (int number = 3; number <= 4; number++) {
        sheet[8 + number] = 1;
        expect(what, checked(call, kind_7(both_marked), sheet, 24), NOOLUKASK_STEP, 16, 1);
        sheet[8 + number] = 0;
    }
    for (int field = 0; field < 3; field++)
        expect(what, checked(call, bad_kind_7(field), sheet, 24), NOOLUKASK_RECORD, 16, 0);
    memcpy(world, kind_7_rows, 32);
    what = "noolukask_check_no";
    call = noolukask_check_no;
    expect(what, checked(call, kind_7(second_marked), world, 32), 0, 16, 0);
    expect(what, checked(call, kind_7(both_marked), world, 32), NOOLUKASK_BROKEN, 16, 0);
    /* Thing 0 linked to itself breaks record 1; thing 1 is not linked to itself. */
    world[16] = 1;
    expect(what, checked(call, kind_7(both_marked), world, 32), NOOLUKASK_BROKEN, 16, 0);
    world[24] = 2;
    expect(what, checked(call, kind_7(both_marked), world, 32), NOOLUKASK_BROKEN, 16, 1);
    /* With thing 0 in 1 as well nothing is broken and nothing refuted. */
    world[0] = 3;
    expect(what, checked(call, kind_7(both_marked), world, 32), NOOLUKASK_NOT_SHOWN, 16, 0);
    for (int field = 0; field < 3; field++)
        expect(what, checked(call, bad_kind_7(field), world, 32), NOOLUKASK_RECORD, 16, 0);
}

int main(void)
{
    static const int expected[] = { 1, 2, 3, 4, 5, 9, 10, 11, 12, 13 };
    yes();
    no();
    itself();
    return ended(expected, sizeof expected / sizeof expected[0]);
}
