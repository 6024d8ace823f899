/* The bench from C and C++: what the archive `libbench.a` exports (`rt lib` in crates/bench makes it, as x86-64 Linux code).
 *
 * A slice is two arguments, the address of its first entry and how many entries it has. Every length and every entry is allowed: a table
 * shorter than its count says is code 1, as is a sheet of less than 320 entries, and a list too short for what is to be written is code 13.
 * No address is null, also of an empty slice, and each is aligned for its entries. A slice that is written to overlaps no other. Nothing is
 * allocated or kept; a function uses the slices and its own stack, so calls from several threads do not meet. A stack of 1 MB is enough
 * (some 250 KB were used by a module of depth 32). What each function answers and writes is proved for every input: the contracts are in
 * crates/bench/src/lib.rt.
 *
 * An answer is three entries, code, id and detail, 0 0 0 for accepted; what does not fit in a shorter slice is left out.
 *
 * Tables, a row of so many cells each, and the most rows:
 *   t  16 cells, 1,024 rows   form, kind, pointer attribute, padded, sparse axis, rank, two free, eight dims
 *   v   4 cells, 4,096 rows   type, 1 where it claims a result (else 0), the operation, the result's index
 *   o  16 cells, 2,048 rows   opcode; start and length of result types, of operands, of regions, of attributes (rows of a); seven free
 *   a   8 cells, 4,096 rows   name, form, start and length of its numbers, which of them are absent (bit k for number k); three free
 *   b   4 cells,   512 rows   start and length of arguments, of operations
 *   r   2 cells,   512 rows   start and length of blocks
 *   f   1 cell,     64 rows   operation
 *   l   1 cell,  8,192 rows   the entries of every list, where the starts point; a negative number as its 64 bits
 * counts has seven entries: how many rows of t, v, o, a, b, r and f count.
 * sheet has 320 entries: two for each opcode from 0 (1 where its result count is fixed, and the count); from 256 the mask of kinds of each
 * atomic mode; from 272 the mask of source kinds that each kind contains; from 288 each kind's width in bytes; at 304 whether a tile is
 * seen through a pointer attribute. */
#ifndef LAVRINDES_H
#define LAVRINDES_H

#include <stddef.h>
#include <stdint.h>

#ifdef __cplusplus
extern "C" {
#endif

/* Entries of a slice that holds any table, and of the other slices at their longest. */
#define LAVRINDES_T 16384
#define LAVRINDES_V 16384
#define LAVRINDES_O 32768
#define LAVRINDES_A 32768
#define LAVRINDES_B 2048
#define LAVRINDES_R 1024
#define LAVRINDES_F 64
#define LAVRINDES_L 8192
#define LAVRINDES_COUNTS 7
#define LAVRINDES_SHEET 320
#define LAVRINDES_NUMBERS 8192
#define LAVRINDES_LENGTHS 64
#define LAVRINDES_PLACES 24576
#define LAVRINDES_ANSWER 3

#define LAVRINDES_TABLES                                                                                                          \
    const uint64_t *t, size_t t_len, const uint64_t *v, size_t v_len, const uint32_t *o, size_t o_len, const uint32_t *a,         \
        size_t a_len, const uint32_t *b, size_t b_len, const uint32_t *r, size_t r_len, const uint32_t *f, size_t f_len,          \
        const uint64_t *l, size_t l_len, const uint64_t *counts, size_t counts_len

#define LAVRINDES_TABLES_WRITTEN                                                                                                  \
    uint64_t *t, size_t t_len, uint64_t *v, size_t v_len, uint32_t *o, size_t o_len, uint32_t *a, size_t a_len, uint32_t *b,      \
        size_t b_len, uint32_t *r, size_t r_len, uint32_t *f, size_t f_len, uint64_t *l, size_t l_len

/* The whole check over two texts: the sheet's is read (13, 1 and 15, its fields told by 100 more), then the module's (13, 1 and 15), then
 * lavrindes_check_all is asked with the target of the module's header.
 *   t to l, sheet   at their full sizes, or 13. The sheet holds what was read, all zero where its text is refused: then the tables are
 *                   untouched. The tables hold what was read, whatever the check says, and are all zero where the module's text is refused.
 *   numbers         on acceptance the operand numbers in walk order, function after function; entries past them keep what they held
 *   lengths         on acceptance how many numbers each function has; entries past the functions keep what they held. No length is over
 *                   8,192: who fills this list with UINT64_MAX before the call sees from it how many functions there are.
 *   answer          always written; 0 0 0 on acceptance. A refusal leaves numbers and lengths as they were. */
void lavrindes_check_texts(const uint8_t *sheet_text, size_t sheet_text_len, const uint8_t *text, size_t text_len,
    LAVRINDES_TABLES_WRITTEN, uint64_t *sheet, size_t sheet_len, uint64_t *numbers, size_t numbers_len, uint64_t *lengths,
    size_t lengths_len, uint64_t *answer, size_t answer_len);

/* The whole check over tables: 16, 1, 2, 3, 4, then dominance (5), numbering (6, 7, 8), requirements (9, 10), operation rules (11, 12) and
 * 13 last. version is the minor version, 4 for 13.4; sm the chip's number. numbers, lengths and answer as above; a refusal leaves numbers
 * and lengths as they were. */
void lavrindes_check_all(uint64_t version, uint64_t sm, LAVRINDES_TABLES, const uint64_t *sheet, size_t sheet_len, uint64_t *numbers,
    size_t numbers_len, uint64_t *lengths, size_t lengths_len, uint64_t *answer, size_t answer_len);

/* The table checks alone: 1, 2, 3, 4. Only the answer is written. */
void lavrindes_check_tables(LAVRINDES_TABLES, uint64_t *answer, size_t answer_len);

/* Dominance alone: 1 to 4, then 5. Only the answer is written. */
void lavrindes_check_dominance(LAVRINDES_TABLES, uint64_t *answer, size_t answer_len);

/* Numbering alone: 1 to 4 with the sheet as table 8, then 8, 6, 7, and 13 last. numbers, lengths and answer as in lavrindes_check_all. */
void lavrindes_check_numbering(LAVRINDES_TABLES, const uint64_t *sheet, size_t sheet_len, uint64_t *numbers, size_t numbers_len,
    uint64_t *lengths, size_t lengths_len, uint64_t *answer, size_t answer_len);

/* Version and architecture alone: 16, 1 to 4, then 9 and 10. Only the answer is written. */
void lavrindes_check_requirements(uint64_t version, uint64_t sm, LAVRINDES_TABLES, uint64_t *answer, size_t answer_len);

/* The operation rules alone: 16, 1 to 4 with the sheet as table 8, then 11 and 12. Only the answer is written. */
void lavrindes_check_rules(uint64_t version, uint64_t sm, LAVRINDES_TABLES, const uint64_t *sheet, size_t sheet_len, uint64_t *answer,
    size_t answer_len);

/* Reads a number list back to defining places, by nesting and counts alone: 1 (of o, b, r and f), 2, 3, then 14, and 13 last.
 *   numbers   the whole list, function after function, and nothing after it
 *   places    on acceptance three entries for each number: 0 and a block's id and an argument's position, or 1 and an operation's id and a
 *             result's index; entries past them keep what they held. A refusal leaves it as it was. */
void lavrindes_read_back(const uint32_t *o, size_t o_len, const uint32_t *b, size_t b_len, const uint32_t *r, size_t r_len,
    const uint32_t *f, size_t f_len, const uint64_t *l, size_t l_len, const uint64_t *counts, size_t counts_len, const uint64_t *numbers,
    size_t numbers_len, uint64_t *places, size_t places_len, uint64_t *answer, size_t answer_len);

/* Reads a module's text into tables: 13, then 1 and 15.
 *   t to l    at their full sizes, or 13. A refusal leaves them all zero.
 *   header    two entries, the minor version and the sm number as 64 bits; 0 0 on refusal
 *   counts    seven entries, how many rows of each table were read; zeros on refusal */
void lavrindes_read_module(const uint8_t *text, size_t text_len, LAVRINDES_TABLES_WRITTEN, uint64_t *header, size_t header_len,
    uint64_t *counts, size_t counts_len, uint64_t *answer, size_t answer_len);

/* Reads a rule sheet's text into 320 entries: 13, then 1 and 15, its fields from 0 with nothing added. A refusal leaves the sheet all zero. */
void lavrindes_read_sheet(const uint8_t *text, size_t text_len, uint64_t *sheet, size_t sheet_len, uint64_t *answer, size_t answer_len);

#undef LAVRINDES_TABLES
#undef LAVRINDES_TABLES_WRITTEN

#ifdef __cplusplus
}
#endif

#endif
