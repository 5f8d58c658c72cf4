/* Texts in any order, from the document alone: chudravik_read_any once more, and what such a text means, tick by tick,
 * asked of the text's own lines by recursion. Nothing here knows the library's order of work: lines are tokens, a gate's
 * depth is asked of its operands, and the values of a tick are asked of the lamps and latches downwards.
 */
#ifndef DRAWING_H
#define DRAWING_H

#include "chudravik.h"

#include <stdbool.h>

chudravik_read_any_answer simulate_read_any(const uint8_t *text, size_t text_bytes, uint16_t *table, size_t table_words,
                                            uint16_t *renumbered, size_t renumbered_words);

/* The lines of a text that is accepted. */
typedef struct {
    size_t most;
    chudravik_counts counts;
    size_t input[CHUDRAVIK_MOST_INPUTS];
    size_t latch[CHUDRAVIK_MOST_LATCHES], next[CHUDRAVIK_MOST_LATCHES], reset[CHUDRAVIK_MOST_LATCHES];
    size_t lamp[CHUDRAVIK_MOST_LAMPS], bad[CHUDRAVIK_MOST_BADS], constraint[CHUDRAVIK_MOST_CONSTRAINTS];
    size_t gate[CHUDRAVIK_MOST_GATES], left[CHUDRAVIK_MOST_GATES], right[CHUDRAVIK_MOST_GATES];
} drawing;

/* 1 to 9 and 20 to 22 for a text; 0 where it is read, and then the drawing holds its lines. */
uint32_t read_drawing(const uint8_t *text, size_t text_bytes, drawing *d);

/* What a text shows at a tick: its lamps, then its bad states, then its constraints. */
enum { MOST_SHOWN = CHUDRAVIK_MOST_LAMPS + CHUDRAVIK_MOST_BADS + CHUDRAVIK_MOST_CONSTRAINTS };

/* One tick of the text: what it shows, and the next state, by position, from switches and state. */
void tick_drawing(const drawing *d, const bool *switches, const bool *state, bool *next, bool *shown);

#endif
