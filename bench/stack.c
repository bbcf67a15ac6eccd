/* How many bytes of stack the two calls need: each runs on a stack that was filled with a pattern beforehand. Fails if the header promises
 * less.
 *
 *     (cd crates/jarvulpe && rt lib)
 *     gcc -O2 -Iinclude bench/stack.c crates/jarvulpe/out/libjarvulpe.a -o target/stack && target/stack
 */
#include <stdio.h>
#include <string.h>
#include <ucontext.h>

#include "jarvulpe.h"

enum { STACK = 1 << 20, PATTERN = 0xA5, ATOMS = JARVULPE_MOST_ATOMS, OBJECTIVES = ATOMS - 1 };

static uint8_t deepest[JARVULPE_HEADER_BYTES + OBJECTIVES];
static uint8_t longest[JARVULPE_LONGEST_SHEET];
static uint8_t witness[ATOMS];
static uint64_t store[1], counts[3];
static uint32_t sizes[3];
static uint8_t query_code, check_code;

static uint8_t *put_word(uint8_t *at, uint32_t value) {
    for (int i = 0; i < 4; i++) *at++ = value >> (8 * i);
    return at;
}

/* A sheet of n = 64: clauses of equal length, and the objectives 1 to k. */
static void put_sheet(uint8_t *at, uint32_t clauses, uint32_t objectives, uint32_t literals) {
    uint32_t words[8] = {ATOMS, clauses, objectives, literals, JARVULPE_HEADER_BYTES};
    words[5] = words[4] + 4 * clauses;
    words[6] = words[5] + literals;
    words[7] = words[6] + objectives;
    for (int i = 0; i < 8; i++) at = put_word(at, words[i]);
    for (uint32_t i = 1; i <= clauses; i++) at = put_word(at, literals / clauses * i);
    for (uint32_t i = 0; i < literals; i++) *at++ = 1 + i % ATOMS;
    for (uint32_t i = 0; i < objectives; i++) *at++ = 1 + i;
}

static void nothing(void) {}

static void check(void) { check_code = jarvulpe_check(longest, sizeof longest, sizes); }

/* No clause, 63 objectives, and the question about the atom that is tried last: the first candidate is a full node, and in its test the
 * only open path is as deep. */
static void query(void) {
    query_code = jarvulpe_query(deepest, sizeof deepest, ATOMS, UINT64_MAX, store, 1, witness, sizeof witness, counts);
}

/* the bytes of its stack that f wrote to */
static size_t used_by(void (*f)(void)) {
    static uint8_t stack[STACK];
    ucontext_t here, there;
    size_t untouched = 0;
    memset(stack, PATTERN, STACK);
    getcontext(&there);
    there.uc_stack.ss_sp = stack;
    there.uc_stack.ss_size = STACK;
    there.uc_link = &here;
    makecontext(&there, f, 0);
    swapcontext(&here, &there);
    while (untouched < STACK && stack[untouched] == PATTERN) untouched++;
    return STACK - untouched;
}

int main(void) {
    put_sheet(deepest, 0, OBJECTIVES, 0);
    put_sheet(longest, JARVULPE_MOST_CLAUSES, JARVULPE_MOST_OBJECTIVES, JARVULPE_MOST_LITERALS);
    size_t idle = used_by(nothing), checking = used_by(check) - idle, querying = used_by(query) - idle;
    printf("check: code %d, %zu bytes of stack, %d promised\n", check_code, checking, JARVULPE_CHECK_STACK);
    printf("query: code %d, %llu steps, %llu tests, %zu bytes of stack, %d promised\n", query_code, (unsigned long long)counts[0],
           (unsigned long long)counts[1], querying, JARVULPE_QUERY_STACK);
    return check_code != JARVULPE_ACCEPTED || query_code != JARVULPE_YES || checking > JARVULPE_CHECK_STACK ||
           querying > JARVULPE_QUERY_STACK;
}
