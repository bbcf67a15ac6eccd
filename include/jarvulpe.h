/* Which observations of a survey network are suspect: the proved core, for C and C++.
 *
 * A check sheet holds the clauses of a network, one for each loop, and the objectives, the literals that one would like to hold. The core
 * says whether a literal can hold in some optimal explanation: a model of the clauses such that no other model meets the same objectives
 * and more. If the complement of an objective can, that observation is suspect.
 *
 * This whole program asks about sheet B: two observations, one loop that says that observation 1 is bad, both wanted.
 *
 *     #include <stdio.h>
 *     #include "jarvulpe.h"
 *
 *     int main(void) {
 *         static const uint8_t sheet[39] = {
 *             2, 0, 0, 0, 1, 0, 0, 0, 2, 0, 0, 0, 1, 0, 0, 0,         // 2 atoms, 1 clause, 2 objectives, 1 literal
 *             32, 0, 0, 0, 36, 0, 0, 0, 37, 0, 0, 0, 39, 0, 0, 0,     // where clause ends, literals and objectives begin; 39 bytes
 *             1, 0, 0, 0,                                             // the clause ends after 1 literal
 *             255,                                                    // the clause: -1
 *             1, 2                                                    // the objectives: 1 and 2
 *         };
 *         uint32_t sizes[3];
 *         uint64_t store[16], counts[3];
 *         uint8_t witness[JARVULPE_MOST_ATOMS];
 *         uint8_t code = jarvulpe_check(sheet, sizeof sheet, sizes);
 *         if (code != JARVULPE_ACCEPTED) {
 *             printf("refused %d\n", code);
 *             return 1;
 *         }
 *         printf("%u atoms, %u clauses, %u objectives\n", (unsigned)sizes[0], (unsigned)sizes[1], (unsigned)sizes[2]);
 *         for (int atom = 1; atom <= 2; atom++) {
 *             code = jarvulpe_query(sheet, sizeof sheet, (uint8_t)-atom, 1000, store, 16, witness, sizeof witness, counts);
 *             printf("can -%d hold? code %d after %d steps", atom, code, (int)counts[0]);
 *             if (code == JARVULPE_YES) printf(", as in %d %d", witness[0], witness[1]);
 *             printf("\n");
 *         }
 *         return 0;
 *     }
 *
 * From the root of the project, with the program above as example.c:
 *
 *     (cd crates/jarvulpe && rt lib)
 *     gcc -std=c99 -Iinclude example.c crates/jarvulpe/out/libjarvulpe.a -o example && ./example
 *
 * It prints that observation 1 is suspect and observation 2 is not:
 *
 *     2 atoms, 1 clauses, 2 objectives
 *     can -1 hold? code 1 after 7 steps, as in 0 1
 *     can -2 hold? code 2 after 9 steps
 *
 * What holds of both calls:
 *
 * - Every byte string may be the sheet, every byte the question, every number the allowance, and every length that of a buffer. Bad input is
 *   refused with a code. Both calls always return, and a query visits no more nodes than its allowance.
 * - A length belongs to the pointer before it. No pointer may be null, not even with a length of 0: pass the address of any object. With a
 *   length of 0 nothing is read or written there.
 * - Buffers lent in one call may not overlap: the sheet, the store, the witness, and the words for sizes or counts. Each is lent to the call
 *   alone until it returns. What stood in them before changes no answer, so they need not be cleared.
 * - Nothing outside the lent buffers is written, no memory is allocated and no state is kept. Several threads may call at once, each with
 *   buffers of its own to write; they may share a sheet that none of them changes.
 * - The archive is for x86-64 and needs one function of the C library, memset.
 *
 * Layout of a sheet: sheets/README.md, byte by byte. What is proved, and what is trusted: docs/CONTRACTS.md. */
#ifndef JARVULPE_H
#define JARVULPE_H

#include <stddef.h>
#include <stdint.h>

#ifdef __cplusplus
extern "C" {
#endif

/* The most that an accepted sheet has of each, and its length in bytes. */
#define JARVULPE_MOST_ATOMS 64
#define JARVULPE_MOST_CLAUSES 1024
#define JARVULPE_MOST_OBJECTIVES 64
#define JARVULPE_MOST_LITERALS 8192
#define JARVULPE_HEADER_BYTES 32
#define JARVULPE_LONGEST_SHEET 12384

/* Bytes of stack that are enough for a call, arguments included. Measured on x86-64 by bench/stack.c: 56 bytes for the check of the longest
 * sheet, and 50,176 for the deepest query, 64 atoms with both walks at the bottom, of which 16,512 are the clauses and the branch order. */
#define JARVULPE_CHECK_STACK 1024
#define JARVULPE_QUERY_STACK 74752

/* The answers of a query, and the refusals of both calls. The checks go in this order and the first that applies answers. The sentences
 * are those of docs/codes.txt. */
enum jarvulpe_code {
    /* Yes: the literal asked about holds in some optimal explanation. If it is the complement of an objective, that observation is
     * suspect: check it. */
    JARVULPE_YES = 1,
    /* No: the literal asked about holds in no optimal explanation. If it is the complement of an objective, the objective holds in all of
     * them, or the sheet has no explanation at all. */
    JARVULPE_NO = 2,
    /* The sheet has fewer than the 32 bytes of its header. The file was cut off or is no check sheet: write it again. */
    JARVULPE_SHORT_SHEET = 10,
    /* A count in the header is out of range. There may be 1 to 64 atoms, 0 to 1,024 clauses, 0 to 64 objectives and 0 to 8,192 literals:
     * use a smaller network, or correct words 0 to 3. */
    JARVULPE_COUNT_OUT_OF_RANGE = 11,
    /* The offsets or the length in the header are not those that its counts give, or the sheet is shorter or longer than the header says.
     * Correct words 4 to 7, or write the file again if bytes were lost or added. */
    JARVULPE_WRONG_LAYOUT = 12,
    /* The clause ends are wrong: one is below the one before it, or the last is not the number of literals in the header, or there is no
     * clause and that number is not 0. Correct the clause ends or word 3. */
    JARVULPE_WRONG_CLAUSE_ENDS = 13,
    /* A byte of a clause is no literal. With n atoms, the literals are the bytes 1 to n and 256 minus n to 255: correct the clause. */
    JARVULPE_BAD_CLAUSE_BYTE = 14,
    /* A byte of the objectives is no literal, or the same literal stands twice among them. Correct the byte, or take the second one out. */
    JARVULPE_BAD_OBJECTIVE = 15,
    /* The question is no literal. With n atoms, the literals are the bytes 1 to n and 256 minus n to 255: ask about an atom of the sheet or
     * its negation. */
    JARVULPE_BAD_QUESTION = 16,
    /* The witness buffer has fewer bytes than the sheet has atoms. Lend one byte for each atom; 64 are always enough. */
    JARVULPE_SHORT_WITNESS = 17,
    /* Undecided: the allowed steps were used up before the answer was known. Allow more steps, or use a smaller network. */
    JARVULPE_ALLOWANCE_SPENT = 18,
    /* Undecided: a part had to be stored and no place was free. Lend more places, or use a smaller network. */
    JARVULPE_STORE_FULL = 19
};

/* What the check of an accepted sheet returns. A query never does. */
#define JARVULPE_ACCEPTED 0

/* Checks a sheet.
 *
 * Returns JARVULPE_ACCEPTED, or 10 to 15 where the sheet is refused.
 * Writes the numbers of atoms, clauses and objectives to sizes[0], sizes[1] and sizes[2] if the sheet is accepted.
 * Leaves all three as they were on a refusal. The sheet is only read.
 * Needs JARVULPE_CHECK_STACK bytes of stack. */
uint8_t jarvulpe_check(const uint8_t *sheet, size_t sheet_length, uint32_t sizes[3]);

/* Asks whether a literal holds in some optimal explanation. The sheet is checked first: no call of jarvulpe_check is needed before.
 *
 * The question is a byte like those of the sheet: 2 for atom 2, (uint8_t)-2, which is 254, for its negation. The allowance is the most
 * nodes that the walk may visit.
 *
 * Returns a code of enum jarvulpe_code, any of them.
 * Writes counts on every code: the steps taken to counts[0], the tests begun to counts[1], the parts stored to counts[2]. On 10 to 17 they
 * are 0, 0, 0; on 18 and 19 they are those of the walk so far.
 * Writes the values of atoms 1 to n to the first n bytes of witness on JARVULPE_YES, 1 for true and 0 for false: the first optimal
 * explanation in reading order that satisfies the question.
 * Writes the parts that the tests found to the first counts[2] places of store on 1, 2, 18 and 19, in the order found: bit i stands for the
 * objective at position i, counted from 0.
 * Leaves the rest of both buffers as it was: witness after byte n, and all of it on every code but 1; store after place counts[2], and all
 * of it on 10 to 17. The sheet is only read.
 * Needs JARVULPE_QUERY_STACK bytes of stack, whatever the lengths. */
uint8_t jarvulpe_query(const uint8_t *sheet, size_t sheet_length, uint8_t question, uint64_t allowance, uint64_t *store, size_t places,
                       uint8_t *witness, size_t witness_length, uint64_t counts[3]);

#ifdef __cplusplus
}
#endif

#endif
