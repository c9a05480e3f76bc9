/* Noolukask: does "A under B" follow from the marked records of a pack?
 * And why? The calls below give verdicts, reasons and sheets, and check sheets.
 *
 * What is handed over
 *   n       how many concept numbers there are, 1 to 64: concepts are 0 to n-1
 *   m       how many roles there are, 0 to 8: roles are 0 to m-1
 *   pack    records of 8 bytes, 0 to 1,024 of them, no header: the kind in byte 0, what
 *           this table says in bytes 1 to 3, and in bytes 4 to 7 a little-endian
 *           statement number of any value
 *             kind   meaning              bytes 1, 2, 3
 *             1      A under B            A,  B,  0
 *             2      A1 and A2 under B    A1, A2, B
 *             3      A under some r B     A,  r,  B
 *             4      some r A under B     r,  A,  B
 *             5      r under s            r,  s,  0
 *             6      r then s under t     r,  s,  t
 *             7      everything r itself  r,  0,  0
 *   marks   128 bytes: 16 little-endian words of 64 bits; record i counts when
 *           bit i mod 64 of word i div 64 is set, that is bit i mod 8 of byte
 *           i div 8; no bit at or above the record count may be set
 *   a, b    the two concepts of the goal, whatever A and B a record has: is a under b?
 *           They may be equal
 *   sheet   to a check what somebody offers as the answer, to the writer the buffer
 *           for ours; see below
 *   out     128 bytes of marks that a call writes, whatever they held before
 *
 * Numbers and lengths may be of any value: what is out of range is refused.
 * Nothing that is handed over is kept or freed, and nothing is changed but the sheet that
 * noolukask_write_sheet is lent and the out marks of noolukask_module and
 * noolukask_printed_set; these may share no byte with pack or marks. A pointer may be
 * NULL where its length is 0. Calls may run side by side.
 *
 * The calls stand in two archives, libsheets.a and libdesk.a, both for x86-64.
 */
#ifndef NOOLUKASK_H
#define NOOLUKASK_H

#include <stddef.h>
#include <stdint.h>

#ifdef __cplusplus
extern "C" {
#endif

/* The table's numbers. Where several apply, the lowest is given. */
enum noolukask_number {
    NOOLUKASK_SIZES = 1,      /* n or m out of range                                       */
    NOOLUKASK_PACK = 2,       /* pack length no multiple of 8, or over 8,192 bytes         */
    NOOLUKASK_RECORD = 3,     /* a record breaks its rules, marked or not: lowest place    */
    NOOLUKASK_MARKS = 4,      /* marks, out not 128 bytes, or a bit of marks past the pack  */
    NOOLUKASK_GOAL = 5,       /* a goal concept not below n                                */
    NOOLUKASK_TOO_LONG = 6,   /* the passes would add over 36,800 facts: proved never given */
    NOOLUKASK_NOT_FOLLOWS = 7, /* a set is asked for and the goal does not follow          */
    NOOLUKASK_NO_ROOM = 8,    /* our sheet is longer than the buffer: bytes needed         */
    NOOLUKASK_LENGTH = 9,     /* a sheet of an impossible length                           */
    NOOLUKASK_STEP = 10,      /* a step of a yes sheet is not good: lowest step            */
    NOOLUKASK_ROW = 11,       /* a forbidden bit in a no sheet: lowest row                 */
    NOOLUKASK_BROKEN = 12,    /* the world breaks a marked record: lowest place            */
    NOOLUKASK_NOT_SHOWN = 13  /* the rest is good, but the goal is not shown or refuted    */
};

/* ---- Library desk: packs, questions, verdicts, our sheets, modules and sets -----
 * The calls return the table's number in the low byte (0: nothing is refused) and a
 * value above it (back >> 8): with RECORD the lowest bad place, with NO ROOM the bytes
 * needed, with the other numbers 0, and where nothing is refused what the call says.
 * Places count from 0.
 */

/* Tests numbers 1 to 3; where nothing is refused the value is the number of records. */
uint64_t noolukask_check_pack(uint64_t n, uint64_t m,
                              const uint8_t *pack, size_t pack_len);

/* Tests numbers 1 to 5; the value as above. */
uint64_t noolukask_check_question(uint64_t n, uint64_t m,
                                  const uint8_t *pack, size_t pack_len,
                                  const uint8_t *marks, size_t marks_len,
                                  uint64_t a, uint64_t b);

/* Does "a under b" follow from the marked records? Numbers 1 to 5; where nothing is
 * refused the value is 1 for FOLLOWS and 0 for NOT: 256 and 0 come back. */
uint64_t noolukask_verdict(uint64_t n, uint64_t m,
                           const uint8_t *pack, size_t pack_len,
                           const uint8_t *marks, size_t marks_len,
                           uint64_t a, uint64_t b);

/* Writes the sheet that shows the verdict, a yes sheet or a no sheet as below, to the
 * start of the buffer, and leaves the rest of it as it was. Numbers 1 to 5, and 8 with
 * the bytes needed (a buffer of length 0 asks for the room; an empty sheet, for a equal
 * to b, needs none and is written at once); else the value is
 * 2 * steps + 1 for a yes sheet and 2 * rows for a no sheet, of 8 bytes a step or row.
 * Where a number of the table comes back, no byte of the buffer was changed. */
uint64_t noolukask_write_sheet(uint64_t n, uint64_t m,
                               const uint8_t *pack, size_t pack_len,
                               const uint8_t *marks, size_t marks_len,
                               uint64_t a, uint64_t b,
                               uint8_t *sheet, size_t sheet_len);

/* The module for concept a, by names; concepts and roles are names, and those before
 * "under" are a record's left-side names; kind 7 has none. Take the smallest set of names
 * that holds a and, with all left-side names of a marked record, its right-side names:
 * the module is the marked records whose left-side names all lie in it, every marked
 * record of kind 7 among them. It holds every set of marked records from which
 * "a under .." follows and that can lose no record, and may hold more.
 * Numbers 1 to 5, MARKS also for out that is not 128 bytes; else all 128 bytes of out
 * are set to the marks of the module, as marks has them, and the value is the number of
 * records that they mark. What out held before is not judged. Where a number of the
 * table comes back, no byte of out was changed. */
uint64_t noolukask_module(uint64_t n, uint64_t m,
                          const uint8_t *pack, size_t pack_len,
                          const uint8_t *marks, size_t marks_len,
                          uint64_t a,
                          uint8_t *out, size_t out_len);

/* The printed set of a goal that follows: of all sets of marked records from which it
 * follows, the one that, at the lowest place where it differs from any other, lacks that
 * record. With any one of its records taken out the goal no longer follows. Numbers 1 to
 * 5, MARKS and out as above, and 7; else the value is the number of records in out. */
uint64_t noolukask_printed_set(uint64_t n, uint64_t m,
                               const uint8_t *pack, size_t pack_len,
                               const uint8_t *marks, size_t marks_len,
                               uint64_t a, uint64_t b,
                               uint8_t *out, size_t out_len);

/* ---- Library sheets: the two checks of a sheet ----------------------------------
 * Both return 0 when the sheet is accepted, else the table's number plus 16 times the
 * place, step or row: number = back % 16, place = back / 16 (0 where there is none).
 *
 * An accepted yes sheet means that the goal follows from the marked records; an
 * accepted no sheet means that it does not. A rejected sheet means nothing: a
 * rejected yes sheet is no proof of no, nor the other way round.
 */

/* A yes sheet is 0 to 65,536 steps of 8 bytes: a record's place (two bytes,
 * little-endian), X, Y, Z, three zeros. Steps count from 0. Kinds 1 to 3 and 7 use X,
 * kinds 4 and 5 X and Y, kind 6 all three; a used one is below n, an unused one is 0.
 * Each step draws one conclusion with a marked record; "X in X" is free, and every other
 * premise must be the conclusion of an earlier step:
 *   1  X in A gives X in B              4  X r Y and Y in A give X in B
 *   2  X in A1 and A2 gives X in B      5  X r Y gives X s Y
 *   3  X in A gives X r B               6  X r Y and Y s Z give X t Z
 *                                       7  X r X, from nothing
 * Accepted when every step is good and the goal is free or concluded.
 * Gives numbers 1 to 5, 9, 10 and 13. */
uint64_t noolukask_check_yes(uint64_t n, uint64_t m,
                             const uint8_t *pack, size_t pack_len,
                             const uint8_t *marks, size_t marks_len,
                             uint64_t a, uint64_t b,
                             const uint8_t *sheet, size_t sheet_len);

/* A no sheet is a world of k things, k from 1 to 64, in 8 * k * (1 + m) bytes: rows of
 * 64 bits, little-endian. First k rows, one a thing, bit j for concept j; then for each
 * role, ascending, k rows, one a thing, bit y for a link to thing y. Bits at n and
 * above in the first k rows and at k and above in the others are 0. Rows count from 0
 * through the whole sheet. Accepted when the world obeys every marked record and
 * some thing is in a and not in b.
 * Gives numbers 1 to 5, 9, 11, 12 and 13. */
uint64_t noolukask_check_no(uint64_t n, uint64_t m,
                            const uint8_t *pack, size_t pack_len,
                            const uint8_t *marks, size_t marks_len,
                            uint64_t a, uint64_t b,
                            const uint8_t *sheet, size_t sheet_len);

#ifdef __cplusplus
}
#endif

#endif
