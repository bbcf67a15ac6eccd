/* Calls the core through its C header. Every expected value is document 01's, most of them from its table of cases.
 * Prints a line for each failure and then 'N passed, M failed'; the status is 0 exactly if M is 0. tests/boundary.sh compiles and runs it. */
#include <inttypes.h>
#include <stdio.h>
#include <string.h>

#include "jarvulpe.h"

/* Places and bytes on either side of a lent buffer, where nothing may be written. */
enum { GUARD = 4, MOST_PLACES = 8, MOST_WITNESS = JARVULPE_MOST_ATOMS + 8, MOST_STORED = 2 };

#define WORD(x) (x) % 256, (x) / 256 % 256, (x) / 65536 % 256, (x) / 16777216
#define WORDS(a, b, c, d) WORD(a), WORD(b), WORD(c), WORD(d)
#define HEADER(n, m, k, l) WORDS(n, m, k, l), WORDS(32, 32 + 4 * (m), 32 + 4 * (m) + (l), 32 + 4 * (m) + (l) + (k))
#define NOT(atom) (256 - (atom))

static const uint8_t A[] = {HEADER(3, 2, 3, 4), WORD(2), WORD(4), NOT(1), NOT(2), NOT(2), NOT(3), 1, 2, 3};
static const uint8_t B[] = {WORDS(2, 1, 2, 1), WORDS(32, 36, 37, 39), 0x01, 0x00, 0x00, 0x00, 0xFF, 0x01, 0x02};
static const uint8_t C[] = {HEADER(2, 0, 1, 0), 1};
static const uint8_t D[] = {HEADER(1, 0, 0, 0)};
static const uint8_t E[] = {HEADER(3, 1, 2, 1), WORD(1), NOT(1), 1, 2};
static const uint8_t F[] = {HEADER(1, 1, 0, 0), WORD(0)};
static const uint8_t both_signs[] = {HEADER(2, 1, 2, 1), WORD(1), NOT(1), 1, NOT(1)};

/* Sheets with one fault each. Those of B's shape differ from it in the word or byte that the name says. */
#define WITH_WORDS(d, e, f, g) {WORDS(2, 1, 2, 1), WORDS(d, e, f, g), WORD(1), NOT(1), 1, 2}
#define WITH_BYTES(clause, first, second) {HEADER(2, 1, 2, 1), WORD(1), clause, first, second}
#define WITH_ENDS(first, last) {HEADER(3, 2, 3, 4), WORD(first), WORD(last), NOT(1), NOT(2), NOT(2), NOT(3), 1, 2, 3}
static const uint8_t no_atom[] = {HEADER(0, 0, 0, 0)};
static const uint8_t atoms_65[] = {HEADER(65, 0, 0, 0)};
static const uint8_t word_4_off[] = WITH_WORDS(33, 36, 37, 39);
static const uint8_t word_5_off[] = WITH_WORDS(32, 35, 37, 39);
static const uint8_t word_6_off[] = WITH_WORDS(32, 36, 38, 39);
static const uint8_t word_7_off[] = WITH_WORDS(32, 36, 37, 40);
static const uint8_t one_byte_more[] = {HEADER(2, 1, 2, 1), WORD(1), NOT(1), 1, 2, 0};
static const uint8_t ends_fall[] = WITH_ENDS(5, 4);
static const uint8_t last_end_low[] = WITH_ENDS(2, 3);
static const uint8_t last_end_high[] = WITH_ENDS(2, 5);
static const uint8_t literal_without_clause[] = {HEADER(1, 0, 0, 1), 1};
static const uint8_t clause_0[] = WITH_BYTES(0, 1, 2);
static const uint8_t clause_128[] = WITH_BYTES(128, 1, 2);
static const uint8_t clause_3_of_2[] = WITH_BYTES(3, 1, 2);
static const uint8_t clause_not_3_of_2[] = WITH_BYTES(NOT(3), 1, 2);
static const uint8_t objective_0[] = WITH_BYTES(NOT(1), 0, 2);
static const uint8_t objective_128[] = WITH_BYTES(NOT(1), 128, 2);
static const uint8_t objective_3_of_2[] = WITH_BYTES(NOT(1), 1, 3);
static const uint8_t objective_not_3_of_2[] = WITH_BYTES(NOT(1), 1, NOT(3));
static const uint8_t objective_twice[] = WITH_BYTES(NOT(1), 2, 2);

/* Sheets with two faults: the first check that applies answers. */
static const uint8_t range_before_layout[] = {WORDS(65, 1, 2, 1), WORDS(33, 36, 37, 39), WORD(1), NOT(1), 1, 2};
static const uint8_t layout_before_ends[] = {WORDS(2, 1, 2, 1), WORDS(33, 36, 37, 39), WORD(2), NOT(1), 1, 2};
static const uint8_t ends_before_clauses[] = {HEADER(2, 1, 2, 1), WORD(2), 0, 1, 2};
static const uint8_t clauses_before_objectives[] = WITH_BYTES(0, 2, 2);

/* Too large to be written out: main makes them. */
static uint8_t longest[JARVULPE_LONGEST_SHEET];
static uint8_t longest_and_one[JARVULPE_LONGEST_SHEET + 1];
static uint8_t clauses_1025[32 + 4 * 1025];
static uint8_t objectives_65[32 + 65];
static uint8_t literals_8193[32 + 4 + 8193];

#define SHEET(s) s, sizeof s

struct check {
    const char *name;
    const uint8_t *sheet;
    size_t length;
    uint8_t code;
    uint32_t sizes[3]; /* where the sheet is accepted */
};

static const struct check checks[] = {
    {"A", SHEET(A), JARVULPE_ACCEPTED, {3, 2, 3}},
    {"B", SHEET(B), JARVULPE_ACCEPTED, {2, 1, 2}},
    {"C", SHEET(C), JARVULPE_ACCEPTED, {2, 0, 1}},
    {"D", SHEET(D), JARVULPE_ACCEPTED, {1, 0, 0}},
    {"E", SHEET(E), JARVULPE_ACCEPTED, {3, 1, 2}},
    {"F", SHEET(F), JARVULPE_ACCEPTED, {1, 1, 0}},
    {"objectives 1 and -1", SHEET(both_signs), JARVULPE_ACCEPTED, {2, 1, 2}},
    {"the longest sheet", SHEET(longest), JARVULPE_ACCEPTED, {64, 1024, 64}},
    {"empty sheet", B, 0, 10, {0}},
    {"1 byte", B, 1, 10, {0}},
    {"31 bytes", D, 31, 10, {0}},
    {"no atom", SHEET(no_atom), 11, {0}},
    {"65 atoms", SHEET(atoms_65), 11, {0}},
    {"1,025 clauses", SHEET(clauses_1025), 11, {0}},
    {"65 objectives", SHEET(objectives_65), 11, {0}},
    {"8,193 literals", SHEET(literals_8193), 11, {0}},
    {"word 4 off", SHEET(word_4_off), 12, {0}},
    {"word 5 off", SHEET(word_5_off), 12, {0}},
    {"word 6 off", SHEET(word_6_off), 12, {0}},
    {"word 7 off", SHEET(word_7_off), 12, {0}},
    {"a byte missing", B, sizeof B - 1, 12, {0}},
    {"a byte more", SHEET(one_byte_more), 12, {0}},
    {"the longest sheet and a byte", SHEET(longest_and_one), 12, {0}},
    {"ends fall", SHEET(ends_fall), 13, {0}},
    {"last end below L", SHEET(last_end_low), 13, {0}},
    {"last end above L", SHEET(last_end_high), 13, {0}},
    {"a literal and no clause", SHEET(literal_without_clause), 13, {0}},
    {"clause byte 0", SHEET(clause_0), 14, {0}},
    {"clause byte 128", SHEET(clause_128), 14, {0}},
    {"clause byte 3 of 2 atoms", SHEET(clause_3_of_2), 14, {0}},
    {"clause byte -3 of 2 atoms", SHEET(clause_not_3_of_2), 14, {0}},
    {"objective byte 0", SHEET(objective_0), 15, {0}},
    {"objective byte 128", SHEET(objective_128), 15, {0}},
    {"objective byte 3 of 2 atoms", SHEET(objective_3_of_2), 15, {0}},
    {"objective byte -3 of 2 atoms", SHEET(objective_not_3_of_2), 15, {0}},
    {"an objective twice", SHEET(objective_twice), 15, {0}},
    {"faults 11 and 12", SHEET(range_before_layout), 11, {0}},
    {"faults 12 and 13", SHEET(layout_before_ends), 12, {0}},
    {"faults 13 and 14", SHEET(ends_before_clauses), 13, {0}},
    {"faults 14 and 15", SHEET(clauses_before_objectives), 14, {0}},
};

struct query {
    const char *name;
    const uint8_t *sheet;
    size_t length;
    uint8_t question;
    uint64_t allowance;
    size_t places, witness_length;
    uint8_t code;
    const char *witness; /* a digit for each atom on a yes, else empty: untouched */
    uint64_t counts[3];
    uint64_t store[MOST_STORED]; /* the first counts[2] of these; the other places are untouched */
};

static const struct query queries[] = {
    {"case 1", SHEET(A), NOT(1), 100, 4, 3, 1, "010", {11, 1, 0}, {0}},
    {"case 2", SHEET(A), NOT(2), 100, 4, 3, 1, "101", {10, 1, 0}, {0}},
    {"case 3", SHEET(A), NOT(3), 100, 4, 3, 1, "010", {24, 2, 1}, {5}},
    {"case 4", SHEET(A), 2, 100, 4, 3, 1, "010", {15, 1, 0}, {0}},
    {"case 5", SHEET(B), NOT(2), 9, 1, 2, 2, "", {9, 1, 1}, {2}},
    {"case 6", SHEET(B), NOT(2), 8, 1, 2, 18, "", {8, 1, 0}, {0}},
    {"case 7", SHEET(B), NOT(2), 9, 0, 2, 19, "", {9, 1, 0}, {0}},
    {"case 8", SHEET(C), NOT(2), 100, 1, 2, 1, "10", {9, 1, 0}, {0}},
    {"case 9", SHEET(D), NOT(1), 100, 0, 1, 1, "0", {6, 1, 0}, {0}},
    {"case 10", SHEET(E), NOT(2), 100, 1, 3, 2, "", {12, 1, 1}, {2}},
    {"case 11", SHEET(F), 1, 1, 0, 1, 2, "", {1, 0, 0}, {0}},
    {"case 12", SHEET(B), 3, 100, 1, 2, 16, "", {0, 0, 0}, {0}},
    {"case 3, more of everything", SHEET(A), NOT(3), UINT64_MAX, 8, 72, 1, "010", {24, 2, 1}, {5}},
    {"case 5, more of everything", SHEET(B), NOT(2), UINT64_MAX, 8, 72, 2, "", {9, 1, 1}, {2}},
    {"case 6, a longer witness", SHEET(B), NOT(2), 8, 8, 72, 18, "", {8, 1, 0}, {0}},
    {"case 7, a longer witness", SHEET(B), NOT(2), 100, 0, 72, 19, "", {9, 1, 0}, {0}},
    {"no step allowed", SHEET(B), NOT(2), 0, 8, 2, 18, "", {0, 0, 0}, {0}},
    {"no step allowed, no model", SHEET(F), 1, 0, 8, 1, 18, "", {0, 0, 0}, {0}},
    {"question 0", SHEET(B), 0, 100, 8, 2, 16, "", {0, 0, 0}, {0}},
    {"question 128", SHEET(B), 128, 100, 8, 2, 16, "", {0, 0, 0}, {0}},
    {"question -3 of 2 atoms", SHEET(B), NOT(3), 100, 8, 2, 16, "", {0, 0, 0}, {0}},
    {"witness a byte short", SHEET(B), NOT(2), 100, 8, 1, 17, "", {0, 0, 0}, {0}},
    {"witness of no byte", SHEET(D), NOT(1), 100, 8, 0, 17, "", {0, 0, 0}, {0}},
    {"witness short, answer no", SHEET(F), 1, 100, 8, 0, 17, "", {0, 0, 0}, {0}},
    {"faults 15 and 16", SHEET(objective_twice), 0, 100, 8, 2, 15, "", {0, 0, 0}, {0}},
    {"faults 16 and 17", SHEET(B), 3, 100, 8, 1, 16, "", {0, 0, 0}, {0}},
    {"17 before the allowance", SHEET(B), NOT(2), 0, 0, 1, 17, "", {0, 0, 0}, {0}},
    {"the longest sheet, 64", SHEET(longest), 64, 1, 0, 64, 2, "", {1, 0, 0}, {0}},
    {"the longest sheet, -64", SHEET(longest), NOT(64), 100, 8, 72, 2, "", {1, 0, 0}, {0}},
};

static int passed, failed;

/* Holds got to wanted, entry by entry; the guards are entries too. */
static void expect(const char *name, const char *what, const uint64_t *got, const uint64_t *wanted, size_t entries) {
    size_t i = 0;
    while (i < entries && got[i] == wanted[i]) i++;
    if (i == entries) {
        passed++;
        return;
    }
    failed++;
    printf("FAILED %s: %s", name, what);
    if (entries > 1) printf(", entry %d of %d with guards", (int)i, (int)entries);
    printf(" is %" PRIu64 ", expected %" PRIu64 "\n", got[i], wanted[i]);
}

static void expect_code(const char *name, uint8_t got, uint8_t wanted) {
    uint64_t code = got, expected = wanted;
    expect(name, "code", &code, &expected, 1);
}

/* What stands in a buffer before a call: no two neighbours alike, no value that a call would write. */
static uint64_t before(size_t entry) { return 0xA0 + entry % 64; }

static void fill(uint64_t *entries, size_t number) {
    for (size_t i = 0; i < number; i++) entries[i] = before(i);
}

static void run_check(const struct check *c) {
    enum { ENTRIES = 3 + 2 * GUARD };
    uint32_t sizes[ENTRIES];
    uint64_t got[ENTRIES], wanted[ENTRIES];
    fill(wanted, ENTRIES);
    for (int i = 0; i < ENTRIES; i++) sizes[i] = (uint32_t)before(i);
    expect_code(c->name, jarvulpe_check(c->sheet, c->length, sizes + GUARD), c->code);
    for (int i = 0; i < ENTRIES; i++) got[i] = sizes[i];
    for (int i = 0; i < 3 && c->code == JARVULPE_ACCEPTED; i++) wanted[GUARD + i] = c->sizes[i];
    expect(c->name, "sizes", got, wanted, ENTRIES);
}

static void run_query(const struct query *q) {
    enum { COUNTS = 3 + 2 * GUARD, PLACES = MOST_PLACES + 2 * GUARD, BYTES = MOST_WITNESS + 2 * GUARD };
    uint8_t witness[BYTES];
    uint64_t counts[COUNTS], store[PLACES], values[BYTES], wanted[BYTES];
    fill(counts, COUNTS);
    fill(store, PLACES);
    for (int i = 0; i < BYTES; i++) witness[i] = (uint8_t)before(i);
    expect_code(q->name,
                jarvulpe_query(q->sheet, q->length, q->question, q->allowance, store + GUARD, q->places, witness + GUARD, q->witness_length,
                               counts + GUARD),
                q->code);
    fill(wanted, COUNTS);
    for (int i = 0; i < 3; i++) wanted[GUARD + i] = q->counts[i];
    expect(q->name, "counts", counts, wanted, COUNTS);
    fill(wanted, PLACES);
    for (uint64_t i = 0; i < q->counts[2]; i++) wanted[GUARD + i] = q->store[i];
    expect(q->name, "store", store, wanted, PLACES);
    fill(wanted, BYTES);
    for (int i = 0; q->witness[i]; i++) wanted[GUARD + i] = q->witness[i] - '0';
    for (int i = 0; i < BYTES; i++) values[i] = witness[i];
    expect(q->name, "witness", values, wanted, BYTES);
}

/* A query about a sheet that the check refuses gives the same code, whatever else it is lent. */
static void run_refused_query(const struct check *c) {
    const struct query lent = {c->name, c->sheet, c->length, 1, 100, MOST_PLACES, MOST_WITNESS, c->code, "", {0, 0, 0}, {0}};
    const struct query nothing_lent = {c->name, c->sheet, c->length, 0, 0, 0, 0, c->code, "", {0, 0, 0}, {0}};
    run_query(&lent);
    run_query(&nothing_lent);
}

static uint8_t *put_word(uint8_t *at, uint32_t word) {
    for (int i = 0; i < 4; i++) *at++ = (uint8_t)(word >> 8 * i);
    return at;
}

/* A sheet of 64 atoms: all clauses are empty but the last, which has every literal; the objectives are 1 to 64 and then -1. */
static void put_sheet(uint8_t *at, uint32_t clauses, uint32_t objectives, uint32_t literals) {
    const uint32_t words[8] = {64, clauses, objectives, literals, 32, 32 + 4 * clauses, 32 + 4 * clauses + literals,
                               32 + 4 * clauses + literals + objectives};
    for (int i = 0; i < 8; i++) at = put_word(at, words[i]);
    for (uint32_t i = 1; i <= clauses; i++) at = put_word(at, i == clauses ? literals : 0);
    for (uint32_t i = 0; i < literals; i++) *at++ = (uint8_t)(1 + i % 64);
    for (uint32_t i = 1; i <= objectives; i++) *at++ = (uint8_t)(i <= 64 ? i : NOT(1));
}

static void make_large_sheets(void) {
    put_sheet(longest, 1024, 64, 8192);
    memcpy(longest_and_one, longest, sizeof longest);
    put_sheet(clauses_1025, 1025, 0, 0);
    put_sheet(objectives_65, 0, 65, 0);
    put_sheet(literals_8193, 1, 0, 8193);
}

int main(void) {
    make_large_sheets();
    for (size_t i = 0; i < sizeof checks / sizeof checks[0]; i++) {
        run_check(&checks[i]);
        if (checks[i].code != JARVULPE_ACCEPTED) run_refused_query(&checks[i]);
    }
    for (size_t i = 0; i < sizeof queries / sizeof queries[0]; i++) run_query(&queries[i]);
    printf("%d passed, %d failed\n", passed, failed);
    return failed != 0;
}
