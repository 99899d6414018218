/* Umbraconga for C: exact max-min fair rates, and the B-Neck machine on a table of words that the caller owns.
 * Link with the archive that `rt lib` in crates/exports writes, crates/exports/out/libexports.a. Every call takes every input and ends. A refusal is
 * reported by its number (README.md has the table), and what is refused changes nothing: a calculation and `umbraconga_records` write no slice, a run
 * leaves the table as it was before the refused record. No call allocates, prints or keeps anything. What is handed to one call must be valid for as
 * many elements as the call names, not null even where a length is 0, aligned, and must not overlap.
 */
#ifndef UMBRACONGA_H
#define UMBRACONGA_H

#include <stddef.h>
#include <stdint.h>

#ifdef __cplusplus
extern "C" {
#endif

/* The words of the machine's table. Their layout is described in README.md. */
#define UMBRACONGA_TABLE_WORDS 9153

/* What stands for "own" as a binding place. */
#define UMBRACONGA_OWN 64

/* The most bytes that the records of a table take: 64 links of 6 bytes and 32 sessions of 19. */
#define UMBRACONGA_RECORDS_MOST 992

/* The direct calculation. For every session that the records declare, its place in nums and dens gets the rate and its place in places what binds it:
 * UMBRACONGA_OWN where it has all that its access line and its maximum allow, else the first link of its path that is a bottleneck of it (fully used,
 * and no session on it has more); other places keep what they had. Each slice needs 32 places at least.
 * report: 0 the refusal's number, or 0; 1 the place of the refused record's kind byte (0 for 1 and 15); 2 the word of declared links; 3 the word of
 * declared sessions; both are 0 after a refusal. */
void umbraconga_calculate(const uint8_t *records, size_t records_len, uint64_t *nums, size_t nums_len, uint64_t *dens, size_t dens_len,
                          uint64_t *places, size_t places_len, uint64_t report[4]);

/* Makes a table the empty one. */
void umbraconga_empty(uint64_t table[UMBRACONGA_TABLE_WORDS]);

/* Runs records on a table.
 * report: 0 the refusal's number, or 0; 1 the place of the refused record's kind byte (0 for 1 and 14); 2 how many records were taken. */
void umbraconga_run(uint64_t table[UMBRACONGA_TABLE_WORDS], const uint8_t *records, size_t records_len, uint64_t report[3]);

/* Whether a table is settled: 1 yes, 0 no, 14 where the table is turned away. */
uint64_t umbraconga_settled(const uint64_t table[UMBRACONGA_TABLE_WORDS]);

/* How many packets are in flight. Of a table that `umbraconga_settled` turns away this means nothing. */
uint64_t umbraconga_in_flight(const uint64_t table[UMBRACONGA_TABLE_WORDS]);

/* What a session was last told. Of a table that `umbraconga_settled` turns away this means nothing.
 * report: 0 whether the session is active (none over 31 is); 1 and 2 the numerator and the denominator last told, 0 and 0 where none was. */
void umbraconga_told(const uint64_t table[UMBRACONGA_TABLE_WORDS], uint32_t session, uint64_t report[3]);

/* Writes the present set of a table to the front of out, as records that `umbraconga_calculate` and, on an empty table, `umbraconga_run` take: the
 * links (kind 1), then the active sessions (kind 2), both by rising number, each session with its access rate, its present maximum and its path.
 * Sessions that are leaving are not written; packets and states are not kept. The bytes of out after those written stay. A slice of the output's
 * length is long enough, and one of UMBRACONGA_RECORDS_MOST always is.
 * report: 0 the refusal's number, or 0: 14 where the table is turned away, then 17 where out is shorter than the output; 1 its place, always 0; 2 how
 * many bytes were written, 0 after a refusal. */
void umbraconga_records(const uint64_t table[UMBRACONGA_TABLE_WORDS], uint8_t *out, size_t out_len, uint64_t report[3]);

#ifdef __cplusplus
}
#endif

#endif
