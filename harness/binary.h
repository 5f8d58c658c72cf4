/* The binary form from the document alone: chudravik_read_binary and chudravik_write_binary once more. A line is as it must
 * be exactly where its numbers, written again, give it back; gates are taken byte by byte.
 */
#ifndef BINARY_H
#define BINARY_H

#include "chudravik.h"

chudravik_read_answer simulate_read_binary(const uint8_t *binary, size_t binary_bytes, uint16_t *table,
                                           size_t table_words);

chudravik_write_answer simulate_write_binary(chudravik_counts counts, const uint16_t *table, size_t table_words,
                                             uint8_t *binary, size_t binary_bytes);

#endif
