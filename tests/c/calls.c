/* The six calls of library desk from C, with every number that they can give, and a sheet of ours through the
 * checks of library sheets.
 */
#include "asked.h"

/* What a call gives for a question that is lent in buffers of its own. */
typedef uint64_t asking(const struct question *q);

static uint64_t pack_check(const struct question *q)
{
    return noolukask_check_pack(q->n, q->m, q->pack, q->pack_len);
}

#define MARKED q->n, q->m, q->pack, q->pack_len, q->marks, q->marks_len
#define QUESTION MARKED, q->a, q->b

static uint64_t question_check(const struct question *q)
{
    return noolukask_check_question(QUESTION);
}

static uint64_t verdict(const struct question *q)
{
    return noolukask_verdict(QUESTION);
}

/* What is written to, and its length. */
static uint8_t *out;
static size_t out_len;

static uint64_t sheet(const struct question *q)
{
    return noolukask_write_sheet(QUESTION, out, out_len);
}

static uint64_t module(const struct question *q)
{
    return noolukask_module(MARKED, q->a, out, out_len);
}

static uint64_t printed_set(const struct question *q)
{
    return noolukask_printed_set(QUESTION, out, out_len);
}

static const struct {
    const char *what;
    asking *call;
    int last_fault; /* the highest number from 1 to 5 that it gives */
} calls[] = {
    { "noolukask_check_pack", pack_check, NOOLUKASK_RECORD },
    { "noolukask_check_question", question_check, NOOLUKASK_GOAL },
    { "noolukask_verdict", verdict, NOOLUKASK_GOAL },
    { "noolukask_write_sheet", sheet, NOOLUKASK_GOAL },
    { "noolukask_module", module, NOOLUKASK_GOAL },
    { "noolukask_printed_set", printed_set, NOOLUKASK_GOAL },
};

static uint64_t ask(asking *call, struct question q)
{
    struct question copy = lent(&q);
    uint64_t back = call(&copy);
    given_back(&copy, &q);
    return back;
}

/* A refusal, with a buffer of so many bytes that keeps them all. */
static void refused(const char *what, asking *call, struct question q, size_t len, int number, uint64_t place)
{
    out = buffer(len);
    out_len = len;
    memset(out, 7, len);
    expect(what, ask(call, q), number, 256, place);
    for (size_t i = 0; i < len; i++)
        hold("a refusal changed a byte", out[i] == 7);
    free(out);
}

/* A value, and the bytes that a call fills a new buffer with. */
static void given(const char *what, asking *call, struct question q, uint64_t value, const uint8_t *bytes, size_t len)
{
    out = buffer(len);
    out_len = len;
    expect(what, ask(call, q), 0, 256, value);
    hold(what, len == 0 || memcmp(out, bytes, len) == 0);
    free(out);
}

static void faults(void)
{
    for (size_t i = 0; i < sizeof calls / sizeof calls[0]; i++)
        for (int number = NOOLUKASK_SIZES; number <= calls[i].last_fault; number++)
            refused(calls[i].what, calls[i].call, faulty(number), MARKS_LEN, number, faulty_place(number));
    refused("noolukask_module", module, valve(0, 1), MARKS_LEN - 1, NOOLUKASK_MARKS, 0);
    refused("noolukask_printed_set", printed_set, valve(0, 1), MARKS_LEN - 1, NOOLUKASK_MARKS, 0);
    refused("noolukask_printed_set", printed_set, valve(2, 1), MARKS_LEN, NOOLUKASK_NOT_FOLLOWS, 0);
    refused("noolukask_write_sheet", sheet, valve(0, 1), 31, NOOLUKASK_NO_ROOM, 32);
    refused("noolukask_write_sheet", sheet, valve(2, 1), 0, NOOLUKASK_NO_ROOM, 120);
    for (size_t i = 0; i < sizeof calls / sizeof calls[0]; i++)
        for (int field = 0; field < 3; field++)
            refused(calls[i].what, calls[i].call, bad_kind_7(field), MARKS_LEN, NOOLUKASK_RECORD, 0);
    refused("noolukask_printed_set", printed_set, kind_7(second_marked), MARKS_LEN, NOOLUKASK_NOT_FOLLOWS, 0);
    refused("noolukask_write_sheet", sheet, kind_7(both_marked), 23, NOOLUKASK_NO_ROOM, 24);
}

static void answers(void)
{
    static const uint8_t last_two[MARKS_LEN] = { 0x30 }, record_1[MARKS_LEN] = { 0x02 };
    given("noolukask_check_pack", pack_check, valve(0, 1), 6, NULL, 0);
    given("noolukask_check_question", question_check, valve(0, 1), 6, NULL, 0);
    given("noolukask_verdict", verdict, valve(0, 1), 1, NULL, 0);
    given("noolukask_verdict", verdict, valve(2, 1), 0, NULL, 0);
    given("noolukask_write_sheet", sheet, valve(2, 2), 1, NULL, 0);
    given("noolukask_module", module, valve(0, 1), 6, all_marked, MARKS_LEN);
    given("noolukask_module", module, valve(2, 1), 1, record_1, MARKS_LEN);
    given("noolukask_printed_set", printed_set, valve(0, 1), 2, last_two, MARKS_LEN);
}

/* The question on kind 7, byte for byte, and with its record 0 not marked. */
static void answers_on_kind_7(void)
{
    static const uint8_t none[MARKS_LEN] = { 0 };
    given("noolukask_check_pack", pack_check, kind_7(both_marked), 2, NULL, 0);
    given("noolukask_check_question", question_check, kind_7(both_marked), 2, NULL, 0);
    given("noolukask_verdict", verdict, kind_7(both_marked), 1, NULL, 0);
    given("noolukask_write_sheet", sheet, kind_7(both_marked), 2 * 3 + 1, kind_7_steps, 24);
    given("noolukask_module", module, kind_7(both_marked), 2, both_marked, MARKS_LEN);
    given("noolukask_printed_set", printed_set, kind_7(both_marked), 2, both_marked, MARKS_LEN);
    given("noolukask_verdict", verdict, kind_7(second_marked), 0, NULL, 0);
    given("noolukask_write_sheet", sheet, kind_7(second_marked), 2 * 4, kind_7_rows, 32);
    given("noolukask_module", module, kind_7(second_marked), 0, none, MARKS_LEN);
}

/* Our sheet in a buffer of its size, with the value of the writer, is accepted by its check. */
static void written(struct question q, size_t len, uint64_t value)
{
    out = buffer(len);
    out_len = len;
    expect("noolukask_write_sheet", ask(sheet, q), 0, 256, value);
    uint64_t back = value % 2 == 1
        ? noolukask_check_yes(q.n, q.m, q.pack, q.pack_len, q.marks, q.marks_len, q.a, q.b, out, len)
        : noolukask_check_no(q.n, q.m, q.pack, q.pack_len, q.marks, q.marks_len, q.a, q.b, out, len);
    expect("a check of our sheet", back, 0, 16, 0);
    free(out);
}

int main(void)
{
    static const int expected[] = { 1, 2, 3, 4, 5, 7, 8 };
    faults();
    answers();
    answers_on_kind_7();
    written(valve(0, 1), 32, 2 * 4 + 1);
    written(valve(2, 1), 120, 2 * 15);
    written(kind_7(both_marked), 24, 2 * 3 + 1);
    written(kind_7(second_marked), 32, 2 * 4);
    return ended(expected, sizeof expected / sizeof expected[0]);
}
