// The bench under libFuzzer. One target a build, -DTARGET=read_module_bytes and so on; with -DSEEDS a program that turns module texts into
// inputs of the targets over tables. Beside crashes and hangs a run ends where an answer breaks what the paper says of every input.
#include <stddef.h>
#include <stdint.h>
#include <stdio.h>
#include <stdlib.h>
#include <string.h>

typedef uint64_t u64;
typedef uint32_t u32;
typedef uint8_t u8;

#define IN(type) const type *, size_t
#define OUT(type) type *, size_t
#define TABLES IN(u64), IN(u64), IN(u32), IN(u32), IN(u32), IN(u32), IN(u32), IN(u64)
void lavrindes_check_tables(TABLES, IN(u64), OUT(u64));
void lavrindes_check_dominance(TABLES, IN(u64), OUT(u64));
void lavrindes_check_requirements(u64, u64, TABLES, IN(u64), OUT(u64));
void lavrindes_check_rules(u64, u64, TABLES, IN(u64), IN(u64), OUT(u64));
void lavrindes_check_numbering(TABLES, IN(u64), IN(u64), OUT(u64), OUT(u64), OUT(u64));
void lavrindes_read_back(IN(u32), IN(u32), IN(u32), IN(u32), IN(u64), IN(u64), IN(u64), OUT(u64), OUT(u64));
void lavrindes_read_sheet(IN(u8), OUT(u64), OUT(u64));
void lavrindes_read_module(IN(u8), OUT(u64), OUT(u64), OUT(u32), OUT(u32), OUT(u32), OUT(u32), OUT(u32), OUT(u64), OUT(u64), OUT(u64), OUT(u64));
// The check that runs all, over tables and over texts; an archive without them is asked for its parts alone.
__attribute__((weak)) void lavrindes_check_all(u64, u64, TABLES, IN(u64), IN(u64), OUT(u64), OUT(u64), OUT(u64));
__attribute__((weak)) void lavrindes_check_texts(IN(u8), IN(u8), OUT(u64), OUT(u64), OUT(u32), OUT(u32), OUT(u32), OUT(u32), OUT(u32), OUT(u64),
    OUT(u64), OUT(u64), OUT(u64), OUT(u64));

// ---- what is lent: each slice a piece of memory of its own, so that the address sanitizer sees a read or write past it

enum { T, V, O, A, B, R, F, L, KINDS_OF_TABLE };
static const size_t size[] = {1024, 4096, 2048, 4096, 512, 512, 64, 8192}, width[] = {16, 4, 16, 8, 4, 2, 1, 1};
static const size_t bytes[] = {8, 8, 4, 4, 4, 4, 4, 8};
enum { SHEET = 320, MOST_NUMBERS = 8192 };

typedef struct {
    void *cells[KINDS_OF_TABLE];
    size_t length[KINDS_OF_TABLE];
    u64 counts[7], version, sm;
} Tables;
typedef struct {
    u64 *at;
    size_t length;
} List;

static void must(int holds, const char *what) {
    if (!holds) {
        fprintf(stderr, "broken: %s\n", what);
        abort();
    }
}
static void *cleared(size_t count, size_t each) {
    void *p = calloc(count ? count : 1, each);
    must(p != NULL, "there is memory");
    // Of nothing the address alone is lent.
    return count ? p : (free(p), malloc(0));
}
static List list_of(size_t length, u64 held) {
    List x = {cleared(length, 8), length};
    for (size_t i = 0; i < length; i++) x.at[i] = held;
    return x;
}
// What a list holds before it is lent.
enum { HELD = 77 };
static int all(List x, u64 held) {
    for (size_t i = 0; i < x.length; i++)
        if (x.at[i] != held) return 0;
    return 1;
}
static void drop(Tables *x) {
    for (int k = 0; k < KINDS_OF_TABLE; k++) free(x->cells[k]);
}

#define CELLS(x, k, type) (const type *)(x)->cells[k], (x)->length[k]
#define LENT(x) CELLS(x, T, u64), CELLS(x, V, u64), CELLS(x, O, u32), CELLS(x, A, u32), CELLS(x, B, u32), CELLS(x, R, u32), CELLS(x, F, u32), \
    CELLS(x, L, u64)

// ---- the parts over tables

typedef struct {
    u64 code, id, detail;
} Answer;
static const Answer unsaid = {99, 99, 99};
static int same(Answer x, Answer y) { return x.code == y.code && x.id == y.id && x.detail == y.detail; }

static Answer tables_of(const Tables *x) {
    Answer said = unsaid;
    lavrindes_check_tables(LENT(x), x->counts, 7, &said.code, 3);
    must(said.code <= 4, "the table checks give 1 to 4");
    return said;
}

// A part alone asks 1 to 4 first, 16 before where it is lent the target.
static Answer dominance_of(const Tables *x, Answer tables) {
    Answer said = unsaid;
    lavrindes_check_dominance(LENT(x), x->counts, 7, &said.code, 3);
    must(tables.code ? same(said, tables) : said.code == 0 || said.code == 5, "dominance asks 1 to 4, then 5");
    return said;
}
static Answer requirements_of(const Tables *x, Answer tables) {
    Answer said = unsaid;
    lavrindes_check_requirements(x->version, x->sm, LENT(x), x->counts, 7, &said.code, 3);
    must(said.code == 16 || (tables.code ? same(said, tables) : said.code == 0 || said.code == 9 || said.code == 10),
        "requirements ask 16, 1 to 4, then 9 and 10");
    must(said.code == 16 || (x->version >= 2 && x->version <= 4), "a version outside 13.2 to 13.4 is 16");
    return said;
}
static Answer rules_of(const Tables *x, List sheet, Answer tables) {
    Answer said = unsaid;
    lavrindes_check_rules(x->version, x->sm, LENT(x), x->counts, 7, sheet.at, sheet.length, &said.code, 3);
    must(said.code == 16 || (said.code == 1 && said.id == 8 && tables.code != 1) ||
            (tables.code ? same(said, tables) : said.code == 0 || said.code == 11 || said.code == 12),
        "the rules ask 16, 1 to 4 with the sheet, then 11 and 12");
    return said;
}
static Answer places_of(const Tables *x, List numbers, List places) {
    Answer said = unsaid;
    lavrindes_read_back(CELLS(x, O, u32), CELLS(x, B, u32), CELLS(x, R, u32), CELLS(x, F, u32), CELLS(x, L, u64), x->counts, 7, numbers.at,
        numbers.length, places.at, places.length, &said.code, 3);
    must(said.code <= 3 || said.code == 13 || said.code == 14, "reading back gives 1 to 3, 13 and 14");
    must(said.code == 0 || all(places, HELD), "a refusal writes no place");
    must(said.code != 0 || places.length >= 3 * numbers.length, "13 where the places have no room");
    return said;
}

// The two lists that numbering fills, and that the check of all fills with the same.
typedef struct {
    List numbers, lengths;
} Lists;
static Lists lists_of(size_t room) { return (Lists){list_of(room, HELD), list_of(64, HELD)}; }
static void drop_lists(Lists y) {
    free(y.numbers.at);
    free(y.lengths.at);
}
static size_t count_of(const Tables *x, Lists y) {
    size_t count = 0;
    for (u64 f = 0; f < x->counts[F]; f++) count += y.lengths.at[f];
    must(count <= y.numbers.length, "the numbers have room");
    return count;
}
static Answer numbering_of(const Tables *x, List sheet, Lists y, Answer tables) {
    Answer said = unsaid;
    lavrindes_check_numbering(LENT(x), x->counts, 7, sheet.at, sheet.length, y.numbers.at, y.numbers.length, y.lengths.at, y.lengths.length,
        &said.code, 3);
    must(said.code == 0 || (all(y.numbers, HELD) && all(y.lengths, HELD)), "a refusal writes no number");
    must(tables.code != 1 || same(said, tables), "numbering asks 1 first");
    if (said.code == 0) {
        List written = {y.numbers.at, count_of(x, y)}, places = list_of(3 * written.length, HELD);
        must(places_of(x, written, places).code == 0, "written numbers read back");
        free(places.at);
    }
    return said;
}

// Every part over the tables; the answer is the one that the check of all owes: 16, 1 to 4, dominance, numbering, requirements, rules, 13.
static Answer parts_of(const Tables *x, List sheet, Lists y) {
    Answer tables = tables_of(x), dominance = dominance_of(x, tables), numbering = numbering_of(x, sheet, y, tables);
    Answer requirements = requirements_of(x, tables), rules = rules_of(x, sheet, tables);
    if (requirements.code == 16) return requirements;
    if (numbering.code == 1) return numbering;
    if (tables.code) return tables;
    if (dominance.code) return dominance;
    if (numbering.code && numbering.code != 13) return numbering;
    if (requirements.code) return requirements;
    return rules.code ? rules : numbering;
}
// The check of all said the same, and left the same lists where it accepts.
static void agrees(Answer said, Answer due, Lists left, Lists y) {
    must(same(said, due), "the check of all is its parts in turn");
    if (said.code) must(all(left.numbers, HELD) && all(left.lengths, HELD), "a refusal by the check of all writes no number");
    else
        must(!memcmp(left.numbers.at, y.numbers.at, 8 * y.numbers.length) && !memcmp(left.lengths.at, y.lengths.at, 8 * y.lengths.length),
            "the check of all writes the numbers");
}
static Answer check_all(const Tables *x, List sheet, size_t room) {
    Lists y = lists_of(room), left = lists_of(room);
    Answer due = parts_of(x, sheet, y), said = unsaid;
    if (lavrindes_check_all) {
        lavrindes_check_all(x->version, x->sm, LENT(x), x->counts, 7, sheet.at, sheet.length, left.numbers.at, left.numbers.length,
            left.lengths.at, left.lengths.length, &said.code, 3);
        agrees(said, due, left, y);
    }
    drop_lists(y);
    drop_lists(left);
    return due;
}

// ---- bytes to tables: a cell is a byte, or an edge, or 2, 4 or 8 bytes after a mark

typedef struct {
    const u8 *at, *end;
} Bytes;
static const u64 edges[] = {0xffffffff, 0x80000000, 0x7fffffff, 1ull << 63, (1ull << 63) - 1, ~0ull, ~0ull << 31, 256, 1024, 2048, 4096, 8192, 8193};
enum { FIRST_EDGE = 0xf0, TWO = 0xfd, FOUR, EIGHT };

static u64 cell(Bytes *in) {
    if (in->at == in->end) return 0;
    u8 mark = *in->at++;
    if (mark < FIRST_EDGE) return mark;
    if (mark < TWO) return edges[mark - FIRST_EDGE];
    u64 value = 0;
    for (int k = 0; k < 2 << (mark - TWO) && in->at < in->end; k++) value |= (u64)*in->at++ << (8 * k);
    return value;
}
static size_t length_up_to(Bytes *in, size_t most) {
    u64 n = cell(in);
    return n < most ? n : most;
}
static void fill(Bytes *in, void *cells, size_t length, size_t each) {
    for (size_t i = 0; i < length && in->at < in->end; i++) {
        u64 value = cell(in);
        if (each == 8) ((u64 *)cells)[i] = value;
        else ((u32 *)cells)[i] = (u32)value;
    }
}
static Tables tables_in(Bytes *in) {
    Tables x;
    x.version = cell(in);
    x.sm = cell(in);
    for (int k = 0; k < 7; k++) x.counts[k] = cell(in);
    for (int k = 0; k < KINDS_OF_TABLE; k++) {
        x.length[k] = length_up_to(in, size[k] * width[k] + 20);
        x.cells[k] = cleared(x.length[k], bytes[k]);
        fill(in, x.cells[k], x.length[k], bytes[k]);
    }
    return x;
}
// Some cells of a sheet, mostly of a whole one.
static List sheet_in(Bytes *in) {
    List sheet = list_of(SHEET + 2 - length_up_to(in, SHEET + 2), 0);
    for (size_t left = length_up_to(in, 400); left > 0; left--) {
        u64 at = cell(in), value = cell(in);
        if (at < sheet.length) sheet.at[at] = value;
    }
    return sheet;
}

// ---- the targets

// With -DLIE=1 a sheet is said to be longer than it is: a run that does not find this finds nothing.
#ifndef LIE
#define LIE 0
#endif

static void check_tables_bytes(Bytes in) {
    Tables x = tables_in(&in);
    List sheet = sheet_in(&in);
    check_all(&x, sheet, MOST_NUMBERS - length_up_to(&in, MOST_NUMBERS));
    free(sheet.at);
    drop(&x);
}

static void read_back_lists(Bytes in) {
    Tables x = tables_in(&in);
    List sheet = sheet_in(&in);
    size_t short_by = length_up_to(&in, MOST_NUMBERS);
    List numbers = list_of(length_up_to(&in, MOST_NUMBERS + 1), 0);
    List places = list_of(3 * numbers.length > short_by ? 3 * numbers.length - short_by : 0, HELD);
    fill(&in, numbers.at, numbers.length, 8);
    places_of(&x, numbers, places);
    free(places.at);
    free(numbers.at);
    free(sheet.at);
    drop(&x);
}

static Tables full_tables(void) {
    Tables x = {0};
    for (int k = 0; k < KINDS_OF_TABLE; k++) {
        x.length[k] = size[k] * width[k];
        x.cells[k] = cleared(x.length[k], bytes[k]);
    }
    return x;
}
// Tables that are lent again and again; all zero before and after.
static Tables *desk(void) {
    static Tables x;
    if (!x.cells[T]) x = full_tables();
    return &x;
}
static void cleared_after(Answer said) {
    for (int k = 0; k < KINDS_OF_TABLE; k++) {
        size_t all = desk()->length[k] * bytes[k];
        u8 *at = desk()->cells[k];
        if (said.code == 0) memset(at, 0, all);
        else must(at[0] == 0 && memcmp(at, at + 1, all - 1) == 0, "a refused reading leaves zeros");
    }
}
#define MADE(x, k, type) (type *)(x)->cells[k], (x)->length[k]
static Answer read_text(Bytes in, Tables *x) {
    u64 header[2] = {7, 7};
    Answer said = unsaid;
    lavrindes_read_module(in.at, in.end - in.at, MADE(x, T, u64), MADE(x, V, u64), MADE(x, O, u32), MADE(x, A, u32), MADE(x, B, u32),
        MADE(x, R, u32), MADE(x, F, u32), MADE(x, L, u64), header, 2, x->counts, 7, &said.code, 3);
    must(said.code == 0 || said.code == 1 || said.code == 15, "a text is refused with 1 or 15");
    x->version = header[0], x->sm = header[1];
    for (int k = 0; k < 7; k++) must(x->counts[k] <= size[k], "a text that reads keeps to the sizes");
    return said;
}
static Answer read_sheet_text(Bytes in, List sheet) {
    Answer said = unsaid;
    lavrindes_read_sheet(in.at, in.end - in.at, sheet.at, sheet.length + LIE, &said.code, 3);
    must(said.code == 0 || said.code == 1 || said.code == 15, "a sheet is refused with 1 or 15");
    must(said.code == 0 || all(sheet, 0), "a refused sheet is all zero");
    return said;
}

static void read_module_bytes(Bytes in) {
    cleared_after(read_text(in, desk()));
}
static void read_sheet_bytes(Bytes in) {
    List sheet = list_of(SHEET, 5);
    read_sheet_text(in, sheet);
    free(sheet.at);
}

// What the check over texts owes: the sheet's refusal, the module's, or what its tables owe. The tables hold the module.
static Answer texts_due(Bytes sheet_text, Bytes text, List sheet) {
    Answer due = read_sheet_text(sheet_text, sheet);
    if (due.code == 15) due.detail += 100;
    if (due.code == 0) due = read_text(text, desk());
    if (due.code == 0) {
        due = check_all(desk(), sheet, MOST_NUMBERS);
        must(due.code != 1 || due.id <= 8, "of a text that reads, code 1 is an id or the sheet");
        cleared_after((Answer){0, 0, 0});
    }
    return due;
}
// A sheet's text, a byte 0, a module's text: read, then every part over what was read; then all of it in one call.
static void texts_bytes(Bytes in) {
    const u8 *cut = memchr(in.at, 0, in.end - in.at);
    if (!cut) return;
    Bytes sheet_text = {in.at, cut}, text = {cut + 1, in.end};
    List sheet = list_of(SHEET, 5);
    Answer due = texts_due(sheet_text, text, sheet), said = unsaid;
    if (lavrindes_check_texts) {
        Tables *x = desk();
        Lists left = lists_of(MOST_NUMBERS);
        lavrindes_check_texts(sheet_text.at, sheet_text.end - sheet_text.at, text.at, text.end - text.at, MADE(x, T, u64), MADE(x, V, u64),
            MADE(x, O, u32), MADE(x, A, u32), MADE(x, B, u32), MADE(x, R, u32), MADE(x, F, u32), MADE(x, L, u64), sheet.at, sheet.length,
            left.numbers.at, left.numbers.length, left.lengths.at, left.lengths.length, &said.code, 3);
        must(same(said, due), "the check over texts is the sheet, the module, and its parts");
        must(said.code == 0 || (all(left.numbers, HELD) && all(left.lengths, HELD)), "a refusal by the check over texts writes no number");
        drop_lists(left);
    }
    cleared_after((Answer){0, 0, 0});
    free(sheet.at);
}

#ifdef SEEDS
// Module text on standard input, an input of the targets over tables on standard output.
static void put(u64 value) {
    int many = value < FIRST_EDGE ? 0 : value <= 0xffff ? 2 : value <= 0xffffffff ? 4 : 8;
    if (many) putchar(many == 2 ? TWO : many == 4 ? FOUR : EIGHT);
    for (int k = 0; k < (many ? many : 1); k++) putchar((int)(value >> (8 * k) & 0xff));
}
static void put_tables(const Tables *x) {
    put(x->version);
    put(x->sm);
    for (int k = 0; k < 7; k++) put(x->counts[k]);
    for (int k = 0; k < KINDS_OF_TABLE; k++) {
        size_t length = k < L ? x->counts[k] * width[k] : size[L];
        while (k == L && length && !((u64 *)x->cells[L])[length - 1]) length--;
        put(length);
        for (size_t i = 0; i < length; i++) put(bytes[k] == 8 ? ((u64 *)x->cells[k])[i] : ((u32 *)x->cells[k])[i]);
    }
}
int main(void) {
    static u8 text[1 << 17];
    Tables x = full_tables();
    if (read_text((Bytes){text, text + fread(text, 1, sizeof text, stdin)}, &x).code) return 1;
    put_tables(&x);
    // The sheet: two cells less than the most, and the widths of its kinds.
    put(2);
    put(17);
    for (int k = 0; k < 16; k++) put(288 + k), put(1 + k % 8);
    put(304), put(1);
    // The lists: nothing short, and a few numbers.
    put(0);
    put(6);
    for (int k = 0; k < 6; k++) put(k % 3);
    return 0;
}
#else
int LLVMFuzzerTestOneInput(const u8 *data, size_t length) {
    TARGET((Bytes){data, data + length});
    return 0;
}
#endif
