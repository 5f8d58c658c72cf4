/* The calls of chudravik.h once more, written from the document alone and in other shapes than the library's: a
 * tokenised text, gate values by asking downwards from lamps and latches, cubes with one number a field. What the
 * library answers and writes is held against this. From chudravik.h come the parameters and the answers, nothing else.
 */
#ifndef SIMULATOR_H
#define SIMULATOR_H

#include "chudravik.h"

chudravik_read_answer simulate_read(const uint8_t *text, size_t text_bytes, uint16_t *table, size_t table_words);

chudravik_read_answer simulate_read_beginners(const uint8_t *text, size_t text_bytes, uint16_t *table,
                                              size_t table_words);

chudravik_write_answer simulate_write(chudravik_counts counts, const uint16_t *table, size_t table_words, uint8_t *text,
                                      size_t text_bytes);

uint32_t simulate_tick(chudravik_counts counts, const uint16_t *table, size_t table_words, const uint8_t *state,
                       size_t state_bytes, const uint8_t *switches, size_t switches_bytes, uint8_t *next,
                       size_t next_bytes, uint8_t *lamps, size_t lamps_bytes);

chudravik_chain_answer simulate_chain(chudravik_counts counts, const uint16_t *table, size_t table_words, size_t w,
                                      uint8_t *cubes, size_t cubes_bytes);

chudravik_chain_answer simulate_chain_beginners(chudravik_counts counts, const uint16_t *table, size_t table_words,
                                                uint8_t *cubes, size_t cubes_bytes);

chudravik_judge_answer simulate_judge(chudravik_counts counts, const uint16_t *table, size_t table_words,
                                      const uint8_t *cubes, size_t cubes_bytes, size_t n, size_t j, uint8_t *verdict,
                                      size_t verdict_bytes, uint8_t *settled, size_t settled_bytes);

uint32_t simulate_why(chudravik_counts counts, const uint16_t *table, size_t table_words, const uint8_t *state,
                      size_t state_bytes, size_t lamp, uint8_t *why, size_t why_bytes);

uint32_t simulate_merge(size_t fields, const uint8_t *a, size_t a_bytes, const uint8_t *b, size_t b_bytes,
                        uint8_t *merged, size_t merged_bytes);

chudravik_cover_answer simulate_cover(chudravik_counts counts, const uint16_t *table, size_t table_words,
                                      const uint8_t *cubes, size_t cubes_bytes, size_t n, uint8_t *verdict,
                                      size_t verdict_bytes);

#endif
