/* A call as a string of bytes, for whoever looks for calls by changing bytes: every string is a call.
 *
 *   byte 0      the call, and whether a word of a table is one byte (bit 2) or two. The call is by the high four bits:
 *               0 read, write, tick or run by the two low bits, or a cover where bit 3 is set; then in turn
 *               read_any, judge, why, merge, read_binary, write_binary, read_beginners, chain_beginners
 *   byte 1      how the buffers are laid (twice.h), two bits for each
 *   read        the table's words; how many bytes the text has at least; then the text as it is, with `x` behind it
 *   read_any    the table's words, the list's words; and on as for read
 *   read_binary as read, write_binary as write
 *   read_beginners, chain_beginners  as read; the counts, the table's words, the bytes of cubes, then the table
 *   write       the counts, the table's words, the text's bytes; then the table
 *   tick        the counts, the table's words, the bytes of state, switches, next and lamps; then table, state, switches
 *   run         the counts, the table's words, w, the bytes of cubes, verdict and settled; then the table: a chain, and a
 *               judge of what it left
 *   judge       the counts, the table's words, n, j, the bytes of cubes, verdict and settled; then table, cubes
 *   cover       the counts, the table's words, n, the bytes of cubes and verdict; then table, cubes
 *   why         the counts, the table's words, the lamp, the bytes of state and why; then table, state
 *   merge       the fields, the bytes of a, b and merged; then a, b
 *
 * The counts are I, L, O, A, B and C. A number is one byte below 240; or two, 240 + 256 x (first - 240) + second; or 255
 * and eight, the lowest first. What the string has no bytes for is 0, and a length beyond any that is judged is cut.
 */
#ifndef ENCODED_H
#define ENCODED_H

#include "twice.h"

/* Makes the call of a string, or both of a run's, and answers as twice_make does. The library makes each so many times. */
bool encoded_make(twice *t, const uint8_t *string, size_t bytes, size_t times);

#endif
