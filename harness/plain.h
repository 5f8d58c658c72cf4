/* The calls of chudravik.h once more, in plain C and unproved: what the benchmark measures the library against.
 * Each does what its namesake does, by the same algorithm over the same data. */
#ifndef PLAIN_H
#define PLAIN_H

#include "chudravik.h"

chudravik_read_answer plain_read(const uint8_t *text, size_t text_bytes, uint16_t *table, size_t table_words);

chudravik_read_answer plain_read_beginners(const uint8_t *text, size_t text_bytes, uint16_t *table, size_t table_words);

chudravik_write_answer plain_write(chudravik_counts counts, const uint16_t *table, size_t table_words, uint8_t *text,
                                   size_t text_bytes);

uint32_t plain_tick(chudravik_counts counts, const uint16_t *table, size_t table_words, const uint8_t *state,
                    size_t state_bytes, const uint8_t *switches, size_t switches_bytes, uint8_t *next,
                    size_t next_bytes, uint8_t *lamps, size_t lamps_bytes);

chudravik_chain_answer plain_chain(chudravik_counts counts, const uint16_t *table, size_t table_words, size_t w,
                                   uint8_t *cubes, size_t cubes_bytes);

chudravik_chain_answer plain_chain_beginners(chudravik_counts counts, const uint16_t *table, size_t table_words,
                                             uint8_t *cubes, size_t cubes_bytes);

chudravik_judge_answer plain_judge(chudravik_counts counts, const uint16_t *table, size_t table_words,
                                   const uint8_t *cubes, size_t cubes_bytes, size_t n, size_t j, uint8_t *verdict,
                                   size_t verdict_bytes, uint8_t *settled, size_t settled_bytes);

uint32_t plain_why(chudravik_counts counts, const uint16_t *table, size_t table_words, const uint8_t *state,
                   size_t state_bytes, size_t lamp, uint8_t *why, size_t why_bytes);

uint32_t plain_merge(size_t fields, const uint8_t *a, size_t a_bytes, const uint8_t *b, size_t b_bytes, uint8_t *merged,
                     size_t merged_bytes);

chudravik_cover_answer plain_cover(chudravik_counts counts, const uint16_t *table, size_t table_words,
                                   const uint8_t *cubes, size_t cubes_bytes, size_t n, uint8_t *verdict,
                                   size_t verdict_bytes);

chudravik_read_answer plain_read_binary(const uint8_t *binary, size_t binary_bytes, uint16_t *table, size_t table_words);

chudravik_write_answer plain_write_binary(chudravik_counts counts, const uint16_t *table, size_t table_words,
                                          uint8_t *binary, size_t binary_bytes);

chudravik_read_any_answer plain_read_any(const uint8_t *text, size_t text_bytes, uint16_t *table, size_t table_words,
                                         uint16_t *renumbered, size_t renumbered_words);

#endif
