/* The proved common-subexpression pass: its main call, and its check of a forest alone, which says where subtrees end.
 * Link libcse.a, which tools/build_programs.sh builds. */
#ifndef CSE_H
#define CSE_H

#include <stddef.h>
#include <stdint.h>

#ifdef __cplusplus
extern "C" {
#endif

/* Reads a forest and writes its tree to the start of `out`. The five numbers receive: 0 or the number of the refusal;
 * its place; how many bytes were written; how many symbols were made; how many records were read. A refusal changes no
 * byte of `out` and gives zero for the last three. Fewer than 16,384 work words are refused with 1, and left as they
 * are; after any other answer the first 16,384 are 0 and later ones as they were.
 * The three memories must not overlap one another or the numbers; a length of 0 still wants a pointer that is not null
 * and is aligned. Lengths count bytes, bytes and 32-bit words. The pointers to the five numbers are distinct, aligned and
 * not null. The call keeps no pointer.
 * It takes under 1 MiB of stack. That is measured on the compiled library and not proved
 * (docs/ARCHITECTURE.md, "The stack"). Of the accepted forests that were tried a few take up to 3 ms, the others
 * under a millisecond; that is measured too, and not proved (docs/PERFORMANCE.md, "How time grows"). */
void cse_call(
    const uint8_t *forest, size_t forest_length,
    uint8_t *out, size_t out_length,
    uint32_t *work, size_t work_length,
    uint32_t *number, uint32_t *place, uint32_t *written_length,
    uint32_t *symbols, uint32_t *readings);

/* Checks a forest as the main call does before it reads it, and says where its subtrees end. Records are numbered from 0
 * over all trees, in file order: entry i of `ends` receives the number of the first record after the subtree of record i,
 * which for the last record is the record count, up to 256. So below record i stand the records i + 1 to ends[i] - 1. Entries
 * past the last record are 0. After a refusal all are 0, after 1 too: every call writes all 256.
 * `number` and `place` receive 0, or the number of the refusal, 1 to 10 or 16, and its place, as cse_call gives them. 11 to 14
 * are no matter of the check: a forest that cse_call refuses with one of these is accepted here.
 * Fewer than 16,384 work words are refused with 1, and left as they are; after any other answer the first 16,384 are 0 and
 * later ones as they were.
 * The three memories must not overlap one another or the two numbers; a length of 0 still wants a pointer that is not null
 * and is aligned. Lengths count bytes and 32-bit words; `ends` has 256 entries, is aligned and not null. The pointers to
 * the two numbers are distinct, aligned and not null. The call keeps no pointer.
 * It takes under 16 KB of stack, which is measured and not proved. */
void cse_check(
    const uint8_t *forest, size_t forest_length,
    uint32_t *work, size_t work_length,
    uint16_t *ends,
    uint32_t *number, uint32_t *place);

#ifdef __cplusplus
}
#endif

#endif
