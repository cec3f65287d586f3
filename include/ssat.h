/* SSAT: stochastic Boolean satisfiability, on rule files and derivation files. What the files hold, what their numbers
 * mean and where each refusal's border lies is in docs/FORMATS.md.
 *
 * Each of the ten functions returns 0 for an answer, else the number of the refusal. The answer depends on the
 * arguments alone; several threads may call at once, and a call takes under 1 MiB of a thread's stack. The whole is
 * the product of the totals of all variables: the value of the formula, out of the whole, is the maximum probability
 * that every clause holds.
 *
 * Buffers
 *   rule, derivation   lent for reading only: no byte of them changes. `rule` holds `len` bytes and `derivation` holds
 *                      `dlen` bytes, of any content and any alignment; no byte past them is read. The pointers are not
 *                      null, even where the length is 0.
 *   buffer             `capacity` bytes, lent for writing, of any content and any alignment; no byte past them is
 *                      touched. Not null, even where the capacity is 0, and no part of the other buffers.
 *     answer           the derivation or the repaired file stands at its start, and the bytes past its end keep their
 *                      content.
 *     refusal          `buffer` is unchanged.
 *   out                four numbers, lent for writing; not null, aligned, and no part of the other buffers.
 *     answer           the numbers named below stand in `out` from index 0; the rest is set to 0.
 *     refusal          `out` is unchanged, except that a refusal which names a place puts it into out[0], in every
 *                      function: the number of a clause, of a variable or of a line, counted from 0, as the list below
 *                      says.
 *   point              three doubles, lent for writing; not null, aligned, and no part of the other buffers.
 *     answer           low mark, high mark and open share. The caller leaves the rounding of doubles at C's default,
 *                      to nearest.
 *     refusal          `point` is unchanged.
 *   tally              five counts, lent for reading and writing; not null, aligned, and no part of the other buffers.
 *
 * The reader's refusals, of the rule file, by every function; ssat_read_small has 4,096 bytes in 1 and 16 variables in
 * 3, and ssat_repair has none of 7, 23 and 26:
 *    1  length not a multiple of 4, under 16 or over 65,536 bytes
 *    2  the last word is not the word count
 *    3  more than 32 variables or more than 1,024 clauses
 *    4  the prefix does not end where the trailer begins
 *    5  a clause reaches past the prefix start or has more literals than there are variables, or the clauses do not end
 *       at the prefix start; out[0] is the first such clause, or the number of clauses where only the end is wrong
 *    6  a literal out of range; out[0] is the first such clause
 *    7  a variable twice in one clause; out[0] is the first such clause
 *   23  variables that do not rise from literal to literal of a clause; out[0] is the first such clause
 *   26  a clause with the literals of an earlier one; out[0] is the first such clause
 *    8  a weight over 65,535, or one weight 0 and the other not; out[0] is the first such variable
 *    9  the whole is over 2^60
 * Refusals of the limits and the level:
 *   10  lo over hi
 *   11  hi over the whole
 *   12  the level is over the number of variables
 * Refusal of a point, after 12:
 *   27  the whole is over 2^53
 * Refusals of the derivation; for 15 to 20 out[0] is the first line at fault:
 *   13  length not a multiple of 4, under 12 or over 65,536 bytes
 *   14  the last word is not the word count, or more than 1,024 lines
 *   15  a line of neither kind, with more literals than there are variables or past the trailer's start, or lines that
 *       do not end there (then the line is the line count)
 *   16  in a line, a literal out of range, a variable twice or variables that do not rise
 *   17  a kind 1 line such that some clause has no opposite of a literal of it
 *   18  a kind 2 line whose variable or parent does not exist, or whose parent is not earlier
 *   19  a kind 2 line whose literals are not the rising list of its parents' other literals
 *   20  a line with a wrong value
 *   21  the closing reference names nothing, or a clause or line with literals
 * Refusal of the derivation that is to be written, after those of the rule file:
 *   22  it exceeds the buffer, 65,536 bytes or 1,024 lines
 * Refusal of a repair, after those of the rule file:
 *   25  the buffer is shorter than the rule file
 * The first that applies is returned, in this order; 17 to 20 line by line.
 */

#ifndef SSAT_H
#define SSAT_H

#include <stddef.h>
#include <stdint.h>

#ifdef __cplusplus
extern "C" {
#endif

/* Reads a rule file.
 * out: number of variables, number of clauses, word where the prefix begins, whole.
 * Refusals: the reader's. */
uint32_t ssat_read(const uint8_t *rule, size_t len, uint64_t out[4]);

/* Reads a rule file of at most 4,096 bytes and 16 variables, and answers as ssat_read does; one beyond these limits
 * that ssat_read accepts is refused by 1 or 3. Uses under 1,024 bytes of stack.
 * out: number of variables, number of clauses, word where the prefix begins, whole.
 * Refusals: the reader's. */
uint32_t ssat_read_small(const uint8_t *rule, size_t len, uint64_t out[4]);

/* The value of the formula, out of the whole.
 * out: value, whole, 0, 0.
 * Refusals: the reader's. */
uint32_t ssat_figure(const uint8_t *rule, size_t len, uint64_t out[4]);

/* Compares the value with the limits lo and hi, both out of the whole.
 * out: 0 and the value where lo <= value <= hi; 1 and 0 where it is above hi; 2 and 0 where it is below lo; then 0, 0.
 * Refusals: the reader's, 10, 11. */
uint32_t ssat_verdict(const uint8_t *rule, size_t len, uint64_t lo, uint64_t hi, uint64_t out[4]);

/* Counts over the results of a list of files: all, those refused, and those whose value is above hi, below lo and from
 * lo to hi. A tally begins with five noughts. */
struct ssat_tally {
    uint64_t files, refused, above, below, within;
};

/* Compares as ssat_verdict does, returns what it returns, and takes the result, a refusal too, into `tally`: `files`
 * and the count of the result's kind go up by 1. With any count at 4,096 or more nothing is taken in.
 * out: as of ssat_verdict.
 * Refusals: the reader's, 10, 11. */
uint32_t ssat_tally(const uint8_t *rule, size_t len, uint64_t lo, uint64_t hi, struct ssat_tally *tally,
                    uint64_t out[4]);

/* Bounds on the value with only the first `level` variables set.
 * A way to set them in which two clauses without a true literal have one unset literal each, a variable and its
 * opposite, counts as lost.
 * out: lower number, upper number, open weight, 0; all out of the whole.
 * Refusals: the reader's, 12. */
uint32_t ssat_cut(const uint8_t *rule, size_t len, uint64_t level, uint64_t out[4]);

/* The bounds of ssat_cut as doubles, for a plotter. Each is one division, rounded to nearest, of the exact number by
 * the whole, both of which a double holds exactly. Where lower and upper number are the same there is one mark, and low
 * and high are equal; else there are two, and low is under high. The open share may be above 0 with one mark.
 * point: low mark, high mark, open share, each from 0 to 1.
 * out: 1 or 2, the number of marks, 0, 0, 0.
 * Refusals: the reader's, 12, 27. */
uint32_t ssat_point(const uint8_t *rule, size_t len, uint64_t level, double point[3], uint64_t out[4]);

/* Checks a derivation over a rule file.
 * out: closing value, whole, 0, 0.
 * Refusals: the reader's for the rule file, 13 to 21. */
uint32_t ssat_check(const uint8_t *rule, size_t len, const uint8_t *derivation, size_t dlen, uint64_t out[4]);

/* Writes a derivation over a rule file into `buffer`. ssat_check accepts it, and its closing value is the value of the
 * formula.
 * out: byte length, 0, 0, 0.
 * Refusals: the reader's, 22. */
uint32_t ssat_derive(const uint8_t *rule, size_t len, uint8_t *buffer, size_t capacity, uint64_t out[4]);

/* Repairs a stored rule file into `buffer`: literals in rising order, each once; clauses that hold a literal and its
 * opposite dropped, and those that then have the literals of an earlier one; the others in their order; the prefix as
 * it was; a trailer that fits. ssat_read accepts what is written. A clause counts as reordered where its literals,
 * without the later repeats, were not rising. Where clauses are dropped those after them have other numbers, and
 * derivations for the old file must be written anew.
 * out: byte length, clauses dropped, literals dropped from kept clauses, kept clauses reordered.
 * Refusals: the reader's but 7, 23 and 26, 25. */
uint32_t ssat_repair(const uint8_t *rule, size_t len, uint8_t *buffer, size_t capacity, uint64_t out[4]);

#ifdef __cplusplus
}
#endif

#endif
