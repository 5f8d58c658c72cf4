/* Chudravik: reads a logic circuit (AIGER, ASCII or binary), follows it in 0, 1 and X, and says which lamps can never light.
 *
 * No call has a state behind it: it reads what it is given, fills what it is lent, and answers a number.
 * 0 is accepted; any other number is a refusal (below). Every call ends, for any numbers and any bytes.
 *
 * A buffer is a pointer and a length: in bytes, and for a table in 16-bit words. Nothing beyond a buffer's length is
 * read or written, and no call allocates, keeps a pointer, or touches anything else. A buffer of length 0 may be a null
 * pointer. A call takes at most CHUDRAVIK_MOST_STACK bytes of stack, whatever it is given, unless it says otherwise
 * below (chudravik_read_any, chudravik_why). (Null pointers and stack are tested, not proved.)
 *
 * Calls are safe in parallel, from any threads: they share nothing. Calls that run at the same time may be given the
 * same buffer; one that a call fills is that call's alone while it runs.
 *
 * What a caller must not do, since C cannot be stopped from it and the proofs start from it:
 *   - hand in a length that is more than the memory behind the pointer; so no null pointer with another length than 0;
 *   - hand in a table that is not aligned for uint16_t;
 *   - lend a buffer to be filled that overlaps any other buffer of the same call;
 *   - write to a buffer from another thread while the call runs.
 *
 * The archive is for x86-64 Linux. Of the C library it needs memcpy and memset, and nothing else.
 */
#ifndef CHUDRAVIK_H
#define CHUDRAVIK_H

#include <stddef.h>
#include <stdint.h>

#ifdef __cplusplus
extern "C" {
#endif

/* ---- version ---- */

/* The first part changes when a program that was written for the header before it may no longer compile, link or be
 * answered as it was: a call, a struct, a number, a ceiling or a rule is another. The second changes when something is
 * added, and programs that do not use it stay as they are. The third changes when neither does: every call gives the
 * answers that it gave. The number is 10,000 x first + 100 x second + third. */
#define CHUDRAVIK_VERSION 20000
#define CHUDRAVIK_VERSION_STRING "2.0.0"

/* ---- ceilings ---- */

#define CHUDRAVIK_MOST_INPUTS 256
#define CHUDRAVIK_MOST_LATCHES 512
#define CHUDRAVIK_MOST_LAMPS 64
#define CHUDRAVIK_MOST_GATES 3327
#define CHUDRAVIK_MOST_BADS 64
#define CHUDRAVIK_MOST_CONSTRAINTS 64
#define CHUDRAVIK_MOST_VARIABLES 4095    /* inputs + latches + gates; and M of a text in any order */
#define CHUDRAVIK_MOST_TEXT 60000        /* bytes of a text that is read */
#define CHUDRAVIK_MOST_WRITTEN 59061     /* bytes of a text that is written: no circuit needs more */
#define CHUDRAVIK_MOST_BINARY 19176      /* bytes of a binary text that is written: no circuit needs more */
#define CHUDRAVIK_MOST_INTERVAL 1000     /* w */
#define CHUDRAVIK_MOST_CUBE_BYTES 65536  /* the cube buffer */
#define CHUDRAVIK_MOST_FIELDS 512        /* of the records of chudravik_merge */
#define CHUDRAVIK_BEGINNERS_CUBE_BYTES 19683 /* the least cube buffer of chudravik_chain_beginners */
#define CHUDRAVIK_MOST_STACK 3584
#define CHUDRAVIK_MOST_ANY_STACK 98304   /* chudravik_read_any keeps all lines until it can order them */
#define CHUDRAVIK_WHY_STACK 393216       /* chudravik_why goes down from gate to gate: on the deepest circuit */

/* ---- lengths ---- */

/* Words of the table of a circuit with these counts: for each latch its next literal and its reset (0, 1, or CHUDRAVIK_NO_START for a latch
 * without a start value, which a text shows as the latch's own literal); then the lamp literals, the bad-state literals and
 * the constraint literals; then two operands a gate. A literal is 2 x variable, plus 1 if inverted; variables are numbered
 * from 1, first the inputs, then the latches, then the gates; literals 0 and 1 are the constants. Words beyond are ignored,
 * and never written. */
#define CHUDRAVIK_TABLE_WORDS(counts) \
    (2 * (counts).latches + (counts).lamps + (counts).bads + (counts).constraints + 2 * (counts).gates)
#define CHUDRAVIK_NO_START 2

/* The table of any circuit fits in this many words. */
#define CHUDRAVIK_MOST_TABLE_WORDS                                                                               \
    (2 * (size_t)CHUDRAVIK_MOST_LATCHES + CHUDRAVIK_MOST_LAMPS + CHUDRAVIK_MOST_BADS + CHUDRAVIK_MOST_CONSTRAINTS + \
     2 * (size_t)CHUDRAVIK_MOST_GATES)

/* The list that chudravik_read_any fills has a word for each variable of the text and one for the constant, so this many
 * are enough for any text. */
#define CHUDRAVIK_MOST_LIST_WORDS (CHUDRAVIK_MOST_VARIABLES + 1)

/* Bytes of a record: two bits a field, field 0 in the most significant bits of byte 0; 00 unknown (X), 01 known 0, 10 known
 * 1, 11 never. Leftover bits are 0. A state has a field for each latch, a switch setting for each input, a lamp record for
 * each lamp, a verdict for each lamp and then for each bad state. Bytes of a record beyond this length are ignored where it
 * is given, and stay as they were where it is lent. */
#define CHUDRAVIK_RECORD_BYTES(fields) ((size_t)(fields) == 0 ? (size_t)1 : ((size_t)(fields) + 3) / 4)

/* Bytes of a stored cube: a record with one field in front, its mark, and then a field for each latch, so that latch i is
 * field i + 1. Cubes stand in a cube buffer one behind the other, cube k from byte k x CHUDRAVIK_CUBE_BYTES(latches) on. */
#define CHUDRAVIK_CUBE_BYTES(latches) CHUDRAVIK_RECORD_BYTES((size_t)(latches) + 1)

/* Bytes of a cube buffer that are always enough for a chain with w >= 1: room for w + latches cubes, and for one where there
 * is no latch. Such a chain is never refused with 15. No buffer is longer than CHUDRAVIK_MOST_CUBE_BYTES (13); with w = 16
 * that is always enough for up to 503 latches. */
#define CHUDRAVIK_ROOM_BYTES(w, latches) \
    ((size_t)(latches) == 0 ? (size_t)1 : ((size_t)(w) + (size_t)(latches)) * CHUDRAVIK_CUBE_BYTES(latches))

/* Bytes that are enough for the verdict of any circuit: field lamps + i is bad state i. */
#define CHUDRAVIK_MOST_VERDICT_BYTES CHUDRAVIK_RECORD_BYTES(CHUDRAVIK_MOST_LAMPS + CHUDRAVIK_MOST_BADS)

/* Field i of a record: CHUDRAVIK_UNKNOWN, CHUDRAVIK_LOW or CHUDRAVIK_HIGH. */
#define CHUDRAVIK_FIELD(record, i) (((record)[(i) / 4] >> (6 - 2 * ((i) % 4))) & 3)
#define CHUDRAVIK_UNKNOWN 0
#define CHUDRAVIK_LOW 1
#define CHUDRAVIK_HIGH 2

/* The mark of a stored cube, and its field for latch i. A chain marks a cube as widened where its number was due for
 * widening: w is not 0 and divides it; cube 0 is plain. No call compares marks: a given cube may have either. */
#define CHUDRAVIK_MARK(cube) CHUDRAVIK_FIELD(cube, 0)
#define CHUDRAVIK_PLAIN 1
#define CHUDRAVIK_WIDENED 2
#define CHUDRAVIK_LATCH(cube, i) CHUDRAVIK_FIELD(cube, (i) + 1)

/* ---- refusals ---- */

#define CHUDRAVIK_ACCEPTED 0
#define CHUDRAVIK_TEXT_TOO_LONG 1       /* text over 60,000 bytes */
#define CHUDRAVIK_FIRST_LINE 2          /* first line not `aag M I L O A`, perhaps with B C J F; or `aig ..` in the binary form */
#define CHUDRAVIK_COUNTS 3              /* a count over its ceiling, M not I + L + A, or J or F not 0; fields of a merge over 512 */
#define CHUDRAVIK_BODY_LINE 4           /* a body line missing or ill-formed */
#define CHUDRAVIK_OWN_LITERAL 5         /* own literal not the one due in that place */
#define CHUDRAVIK_LITERAL_TOO_LARGE 6   /* another literal above 2M + 1 */
#define CHUDRAVIK_OPERAND_NOT_BELOW 7   /* gate operand not below the gate's own literal; a difference that cannot be */
#define CHUDRAVIK_RESET 8               /* reset other than 0, 1 or the latch's own literal */
#define CHUDRAVIK_TRAILING 9            /* anything else after the last line */
#define CHUDRAVIK_TOO_SHORT 10          /* a lent table, record or result too short */
#define CHUDRAVIK_TABLE 11              /* a lent table that breaks 6 or 7, or has a reset above 2 */
#define CHUDRAVIK_INTERVAL 12           /* w above 1,000 */
#define CHUDRAVIK_CUBE_BUFFER 13        /* cube buffer under one cube (a beginners' one: under 19,683) or over 65,536 bytes */
#define CHUDRAVIK_RECORD 14             /* a pair 11, or a leftover bit set, in a given record; a given cube's mark 00 or 11 */
#define CHUDRAVIK_NO_ROOM 15            /* no room for the next cube */
#define CHUDRAVIK_NO_LAMPS 16           /* no lamp and no bad state, so nothing to judge */
#define CHUDRAVIK_START_NOT_COVERED 17  /* the start lies inside none of the given cubes, and no constraint is 0 in it */
#define CHUDRAVIK_NEXT_NOT_COVERED 18   /* the next state of a given cube lies inside none of them, and no constraint is 0 in it */
#define CHUDRAVIK_NOT_A_CHAIN 19        /* the given cubes are neither a closed nor an ended chain */
#define CHUDRAVIK_DEFINITION 20         /* a variable defined twice, or an own literal odd, below 2 or above 2M + 1 */
#define CHUDRAVIK_UNDEFINED 21          /* a literal whose variable no line defines */
#define CHUDRAVIK_LOOP 22               /* gates in a loop */
#define CHUDRAVIK_NO_SUCH_LAMP 23       /* a lamp's number that is not below the count of lamps */
#define CHUDRAVIK_LAMP_UNKNOWN 24       /* the lamp's value is X there, so no latch forces it */
#define CHUDRAVIK_BEGINNERS 25          /* a board outside the beginners' rules (chudravik_read_beginners) */
#define CHUDRAVIK_DIFFERENCE 26         /* a difference cut off, longer than two bytes, or with a needless zero group */

/* Where several apply, the first in the order named at the call is given. A refusal answers zeros beside its number and
 * changes no buffer, save 15 (chudravik_chain); 18 names a cube (chudravik_cover). */

/* What to do about a refusal; `./report --explain N` prints a number's line above and its lines here.
 *  1: leave out what stands behind the line `c`, or hand in a smaller circuit
 *  2: save the circuit as AIGER ASCII (`aag`, not the binary `aig`), with nothing before the first line, one blank
 *     between numbers and no leading zeros
 *  3: count the lines again; every ceiling stands at the top of chudravik.h. Justice and fairness are not read: their
 *     counts, J and F, must be 0. A text with unused numbers is for chudravik_read_any
 *  4: look for a line that is missing, has a number too few or too many, a second blank, or another ending than the
 *     first line has
 *  5: number the variables from 1 without gaps, inputs, then latches, then gates, in the order of their lines; or read
 *     with chudravik_read_any
 *  6: correct the literal: it names a variable that the circuit does not have
 *  7: put each gate behind the gates that it reads; or read with chudravik_read_any
 *  8: let the latch start at 0 or 1, or repeat its own literal where it has no start value
 *  9: end the text behind its last line, or put a line `c` before what follows; names of switches and lamps are not read
 * 10: lend as many words or bytes as the call names
 * 11: hand in the counts and the table as they were read, unchanged
 * 12: choose a smaller w
 * 13: lend CHUDRAVIK_CUBE_BYTES at least, and CHUDRAVIK_MOST_CUBE_BYTES at most
 * 14: give each field as 00, 01 or 10, a cube's mark as 01 or 10, and leave the leftover bits 0
 * 15: lend CHUDRAVIK_ROOM_BYTES; where that is over the most, choose a smaller w (1 at least) or a circuit with fewer
 *     latches. The report's own room is enough for 503 latches
 * 16: draw a lamp or a bad state: without one there is nothing to judge, and it is no pass
 * 17: add a cube that holds the start
 * 18: add a cube that holds the next state of the cube named, or make one larger
 * 19: hand in the cubes, n and j as chudravik_chain left them, with the circuit that they were made for; only its lamps
 *     and bad states may be others
 * 20: define each variable once, by an even literal from 2 to 2M
 * 21: define the variable, or connect what reads it elsewhere
 * 22: cut the loop, or put a latch into it
 * 23: name a lamp below the count of lamps
 * 24: ask of a state in which the lamp's value is known
 * 25: draw a smaller board without constants, bad states and constraints, and feed each gate by two different variables; or
 *     read it with chudravik_read and run it with chudravik_chain
 * 26: save the file again with an AIGER writer; it is cut off or damaged
 */

/* ---- the calls ---- */

/* I, L, O, A, B and C. Any numbers may be handed in. A circuit with none of the last two has 0 there.
 * A bad state is a literal that is judged as a lamp is; it has its verdict behind the lamps. A constraint is a literal that
 * is assumed to be 1: an execution is legal at tick t where each constraint is 1 at the ticks 0 to t, and what is said of a
 * circuit with constraints is said of executions as long as they are legal. */
typedef struct {
    size_t inputs;
    size_t latches;
    size_t lamps;
    size_t gates;
    size_t bads;
    size_t constraints;
} chudravik_counts;

typedef struct {
    uint32_t number;
    chudravik_counts counts; /* of the circuit read; zeros with a refusal */
} chudravik_read_answer;

typedef struct {
    uint32_t number;
    chudravik_counts counts; /* of the circuit read; zeros with a refusal */
    size_t variables;        /* M: the list has words 0 to M; 0 with a refusal */
} chudravik_read_any_answer;

typedef struct {
    uint32_t number;
    size_t bytes; /* written; 0 with a refusal */
} chudravik_write_answer;

typedef struct {
    uint32_t number;
    size_t cubes; /* n: how many cubes are stored */
    size_t back;  /* j: the last cube's next state lies inside cube j; n where the chain has ended */
} chudravik_chain_answer;

typedef struct {
    uint32_t number;
    size_t settled; /* s: how many latches are settled; 0 with a refusal */
} chudravik_judge_answer;

typedef struct {
    uint32_t number;
    size_t cube; /* with 18 the first cube whose next state lies inside none; else 0 */
} chudravik_cover_answer;

/* The archive is compiled for these sizes and places; elsewhere its answers would be read wrongly. */
#if defined(__cplusplus) && __cplusplus >= 201103L
#define CHUDRAVIK_IS(name, what, due) static_assert((what) == (due), "chudravik: " #name)
#elif defined(__STDC_VERSION__) && __STDC_VERSION__ >= 201112L
#define CHUDRAVIK_IS(name, what, due) _Static_assert((what) == (due), "chudravik: " #name)
#else
#define CHUDRAVIK_IS(name, what, due) typedef char chudravik_is_##name[(what) == (due) ? 1 : -1]
#endif

CHUDRAVIK_IS(size_of_size, sizeof(size_t), 8);
CHUDRAVIK_IS(size_of_pointer, sizeof(void *), 8);
CHUDRAVIK_IS(size_of_counts, sizeof(chudravik_counts), 48);
CHUDRAVIK_IS(place_of_inputs, offsetof(chudravik_counts, inputs), 0);
CHUDRAVIK_IS(place_of_latches, offsetof(chudravik_counts, latches), 8);
CHUDRAVIK_IS(place_of_lamps, offsetof(chudravik_counts, lamps), 16);
CHUDRAVIK_IS(place_of_gates, offsetof(chudravik_counts, gates), 24);
CHUDRAVIK_IS(place_of_bads, offsetof(chudravik_counts, bads), 32);
CHUDRAVIK_IS(place_of_constraints, offsetof(chudravik_counts, constraints), 40);
CHUDRAVIK_IS(size_of_read_answer, sizeof(chudravik_read_answer), 56);
CHUDRAVIK_IS(place_of_read_number, offsetof(chudravik_read_answer, number), 0);
CHUDRAVIK_IS(place_of_counts, offsetof(chudravik_read_answer, counts), 8);
CHUDRAVIK_IS(size_of_read_any_answer, sizeof(chudravik_read_any_answer), 64);
CHUDRAVIK_IS(place_of_read_any_number, offsetof(chudravik_read_any_answer, number), 0);
CHUDRAVIK_IS(place_of_read_any_counts, offsetof(chudravik_read_any_answer, counts), 8);
CHUDRAVIK_IS(place_of_variables, offsetof(chudravik_read_any_answer, variables), 56);
CHUDRAVIK_IS(size_of_write_answer, sizeof(chudravik_write_answer), 16);
CHUDRAVIK_IS(place_of_write_number, offsetof(chudravik_write_answer, number), 0);
CHUDRAVIK_IS(place_of_bytes, offsetof(chudravik_write_answer, bytes), 8);
CHUDRAVIK_IS(size_of_chain_answer, sizeof(chudravik_chain_answer), 24);
CHUDRAVIK_IS(place_of_chain_number, offsetof(chudravik_chain_answer, number), 0);
CHUDRAVIK_IS(place_of_cubes, offsetof(chudravik_chain_answer, cubes), 8);
CHUDRAVIK_IS(place_of_back, offsetof(chudravik_chain_answer, back), 16);
CHUDRAVIK_IS(size_of_judge_answer, sizeof(chudravik_judge_answer), 16);
CHUDRAVIK_IS(place_of_judge_number, offsetof(chudravik_judge_answer, number), 0);
CHUDRAVIK_IS(place_of_settled, offsetof(chudravik_judge_answer, settled), 8);
CHUDRAVIK_IS(size_of_cover_answer, sizeof(chudravik_cover_answer), 16);
CHUDRAVIK_IS(place_of_cover_number, offsetof(chudravik_cover_answer, number), 0);
CHUDRAVIK_IS(place_of_cube, offsetof(chudravik_cover_answer, cube), 8);

#undef CHUDRAVIK_IS

/* Reads a circuit from its text into the front of the table. The first line has M I L O A and perhaps B C J F: five to nine
 * numbers, and what is left out is 0. Then come the lines of the inputs, latches, lamps, bad states, constraints and gates,
 * in this order; justice and fairness are not read, so J and F must be 0. Its lines end in byte 10, or all of them in bytes
 * 13 and 10: the first line decides; another ending is 4 in a line of the body and 9 at the line `c`.
 * Refusals: 1, 2, 3, then line by line (4, 5, 6, then 7 or 8), 9, and 10 where the table is shorter than
 * CHUDRAVIK_TABLE_WORDS of the circuit. Words beyond that many stay as they were. */
chudravik_read_answer chudravik_read(const uint8_t *text, size_t text_bytes, uint16_t *table, size_t table_words);

/* Reads a circuit from a text whose definitions stand in any order, with unused numbers: M is at most 4,095 and at least
 * I + L + A, an own literal is any even literal from 2 to 2M, and an operand may be defined further down. Into the table
 * go the inputs and latches in the text's order, then the gates by depth (0 for a constant, an input or a latch, and for
 * a gate one more than its deeper operand), those of equal depth in the text's order, operands in the order written. Word
 * v of renumbered is the new number of variable v of the text, and 0 for v = 0 and where no line defines it.
 * For any switches and any state the table's lamps, bad states, constraints and next state are those of the text.
 * Refusals: 1, 2, 3, then line by line (4, 6, 8), then 20, 21, 22, then 9, and 10 where the table is shorter than
 * CHUDRAVIK_TABLE_WORDS of the circuit or the list than M + 1. 5 and 7 are never given. Words beyond stay as they were.
 * The work is linear in the text and the gates, whatever the order. */
chudravik_read_any_answer chudravik_read_any(const uint8_t *text, size_t text_bytes, uint16_t *table, size_t table_words,
                                             uint16_t *renumbered, size_t renumbered_words);

/* Reads a circuit from AIGER's binary form into the front of the table: the first line opens with `aig`; there are no input
 * lines; a latch line is its next literal and perhaps its reset, 0, 1 or the own literal that it does not show; then the
 * lines of lamps, bad states and constraints; then each gate as two differences, own literal less first operand and first
 * operand less second, in groups of seven bits, low group first, the top bit set on all but the last. Byte 10 is the only
 * ending. Behind the last gate the end, or a line `c`. So the first operand of each gate is at least the second.
 * Refusals: 1, 2, 3, then line by line (4, 6, 8), then gate by gate 26 for either difference, and 7 where the first is 0 or
 * above the own literal, or the second above the first operand; then 9, and 10 where the table is shorter than
 * CHUDRAVIK_TABLE_WORDS of the circuit. 5 is never given. Words beyond stay as they were. */
chudravik_read_answer chudravik_read_binary(const uint8_t *binary, size_t binary_bytes, uint16_t *table,
                                            size_t table_words);

/* Reads a beginners' board: as chudravik_read, and then 25 for a board outside the beginners' rules. It has at most 4
 * inputs, 8 latches, 8 lamps and 32 gates, no bad state and no constraint; no next literal, lamp or operand is 0 or 1, and no
 * gate has two operands of one variable (4 and 4, or 4 and 5). A latch without a start value is allowed.
 * A text that is accepted here is accepted by chudravik_read, with the same counts and table.
 * Refusals: as chudravik_read, each by the text as it stands, then 25, which changes no word. */
chudravik_read_answer chudravik_read_beginners(const uint8_t *text, size_t text_bytes, uint16_t *table,
                                               size_t table_words);

/* Writes the text of a circuit to the front of a buffer. Reading it gives the same counts and words back. The first line
 * has B and C up to the last that is not 0 (five numbers where both are 0, six where only C is, else seven), and never J or F.
 * Refusals: 3, 10 for the table, 11, 10 where the buffer is shorter than the text. CHUDRAVIK_MOST_WRITTEN bytes are
 * always enough. Bytes beyond the text stay as they were. */
chudravik_write_answer chudravik_write(chudravik_counts counts, const uint16_t *table, size_t table_words, uint8_t *text,
                                       size_t text_bytes);

/* Writes a circuit in AIGER's binary form to the front of a buffer, the first line as chudravik_write has it, the operands of
 * each gate larger first. Reading it gives the same counts and words back, but for operands so ordered; the circuit behaves
 * the same. Two tables whose operands are so ordered give equal bytes only where they are equal.
 * Refusals: 3, 10 for the table, 11, 10 where the buffer is shorter than the binary text. CHUDRAVIK_MOST_BINARY bytes are
 * always enough. Bytes beyond the binary text stay as they were. */
chudravik_write_answer chudravik_write_binary(chudravik_counts counts, const uint16_t *table, size_t table_words,
                                              uint8_t *binary, size_t binary_bytes);

/* One tick: the next state, and the lamps before the tick, of a state under a switch setting, either with X in it.
 * state has a field for each latch, switches for each input; next is a record for the latches, lamps for the lamps. Bad
 * states and constraints are not told.
 * Refusals: 3, 10 for the table, 11, 10 for state and switches, 14, 10 for next and lamps. Answers the number. */
uint32_t chudravik_tick(chudravik_counts counts, const uint16_t *table, size_t table_words, const uint8_t *state,
                        size_t state_bytes, const uint8_t *switches, size_t switches_bytes, uint8_t *next,
                        size_t next_bytes, uint8_t *lamps, size_t lamps_bytes);

/* A run is two calls: chudravik_chain, and chudravik_judge of what it made. Who changes lamps alone, or adds one, needs the
 * second only.
 *
 * Follows the circuit from the resets, all switches unknown: stores cubes until the next one lies inside a stored one; every
 * w cubes the latches that have just changed are held unknown from then on (w = 0: never). Where some constraint is 0 in the
 * start, or in the next cube, that cube is not stored and the chain has ended: X is not 0.
 * cubes: cube k starts at byte k x CHUDRAVIK_CUBE_BYTES(latches); its mark says whether k was due for widening.
 * With number 0 the chain is closed: n cubes, and the next state of the last lies inside cube j, below n; or it has ended,
 * which only a circuit with constraints can: j = n, and no execution is legal at tick n. With n = 0 not even a start is, and
 * cubes is as it was. chudravik_judge accepts it, with this table and with any that differs from it in its lamps and bad
 * states alone. With w >= 1 and room for w x latches + 1 cubes a chain closes or ends within them.
 * Refusals: 3, 16, 10 for the table, 11, 12, 13, 15. After 15 the answer has n = the room, cubes holds that many cubes, and
 * back is 0. Bytes after the stored cubes stay as they were. */
chudravik_chain_answer chudravik_chain(chudravik_counts counts, const uint16_t *table, size_t table_words, size_t w,
                                       uint8_t *cubes, size_t cubes_bytes);

/* The chain of a beginners' board: as chudravik_chain with w = 0. It always closes: where nothing below refuses, the number
 * is 0 and never 15, and there are at most 3 to the power of latches cubes. chudravik_judge accepts it.
 * Refusals: 3, 16, 10 for the table, 11, 25 (the rules of chudravik_read_beginners), 13 for a buffer under
 * CHUDRAVIK_BEGINNERS_CUBE_BYTES or over 65,536 bytes, however many latches there are. Bytes after the stored cubes stay as
 * they were. */
chudravik_chain_answer chudravik_chain_beginners(chudravik_counts counts, const uint16_t *table, size_t table_words,
                                                 uint8_t *cubes, size_t cubes_bytes);

/* Judges a closed or ended chain of cubes, wherever it comes from: n of them, cube k from byte k x
 * CHUDRAVIK_CUBE_BYTES(latches) on, in a buffer of any length. It is closed where j is below n, cube 0 is the resets, the
 * next state of each cube but the last, all switches unknown, lies inside the cube that follows, and that of the last
 * inside cube j; marks make no difference. A start or next state in which a constraint is 0 need not lie inside any: no
 * legal execution comes there. It has ended where j = n, some constraint is 0 in the next state of the last cube, or in the
 * start where n = 0, and the rest holds.
 * verdict: for each lamp, then for each bad state, CHUDRAVIK_LOW (it can never light, or be), CHUDRAVIK_HIGH (always) or
 * CHUDRAVIK_UNKNOWN (open); with n = 0 CHUDRAVIK_LOW for each.
 * settled: for each latch the value that it keeps from tick j on, else CHUDRAVIK_UNKNOWN; of an ended chain nothing, and s
 * is 0.
 * An accepted chain (number 0) covers every execution as long as it is legal, and without constraints that is for ever:
 * whatever the switches do, the state after t ticks lies in cube t, or for t >= n in cube j + (t - j) mod (n - j); and
 * verdict and settled hold. Where it has ended no execution is legal at tick n. Nothing of how the cubes were made is
 * relied on.
 * Refusals: 3, 16, 10 for the table, 11, 10 where n records do not fit into the buffer (any n), 14 for any of the n
 * records, 19 (so for any j above n), 10 for verdict and settled. Bytes beyond the n cubes are ignored, and those after
 * each record stay as they were. */
chudravik_judge_answer chudravik_judge(chudravik_counts counts, const uint16_t *table, size_t table_words,
                                       const uint8_t *cubes, size_t cubes_bytes, size_t n, size_t j, uint8_t *verdict,
                                       size_t verdict_bytes, uint8_t *settled, size_t settled_bytes);

/* Judges cubes that were worked out elsewhere: n of them, in any order, cube k from byte k x CHUDRAVIK_CUBE_BYTES(latches)
 * on; a buffer of any length. They are accepted exactly where the start (the resets) lies inside one of them, and the next
 * state of each, all switches unknown, inside a single one of them; marks make no difference. A start or next state in
 * which a constraint is 0 need not lie inside any. verdict: for each lamp and bad state as from chudravik_judge, over all n
 * cubes.
 * An accepted cover (number 0) covers every execution as long as it is legal, and without constraints that is for ever:
 * whatever the switches do, the state lies inside one of the cubes at every such tick, so CHUDRAVIK_LOW is dark at each of
 * them and CHUDRAVIK_HIGH lit. Nothing of how the cubes were made is relied on.
 * Refusals: 3, 16, 10 for the table, 11, 10 where n records do not fit into the buffer (any n), 14 for any of the n
 * records, 17, 18, 10 for verdict. No cube (n = 0) is 17, or accepted where a constraint is 0 in the start: each verdict is
 * then CHUDRAVIK_LOW. Bytes beyond the n cubes are ignored, and those after the verdict's record stay as they were. */
chudravik_cover_answer chudravik_cover(chudravik_counts counts, const uint16_t *table, size_t table_words,
                                       const uint8_t *cubes, size_t cubes_bytes, size_t n, uint8_t *verdict,
                                       size_t verdict_bytes);

/* Why a lamp is dark or lit in a state, whatever the switches do: the latches that force it. state has a field for each
 * latch, any of them X; lamps are numbered from 0, in the order of the table. Of lamps only, not of bad states.
 * A gate at 1 is followed into both operands; a gate at 0 into its first operand where that is 0, else into its second. why
 * is a record for the latches: what state has for each that is reached, and CHUDRAVIK_UNKNOWN for the others. So it only
 * forgets, and from it alone, all switches unknown, the lamp has the same value; in every state that agrees with it, under
 * any switches, the lamp is as dark or lit. A constant lamp needs no latch.
 * Refusals: 3, 10 for the table, 11, 10 for state, 14, 23, 24, 10 for why. Bytes after the record stay as they were. Answers
 * the number.
 * The work is linear in the gates. Takes up to CHUDRAVIK_WHY_STACK bytes of stack, by the depth of the gates. */
uint32_t chudravik_why(chudravik_counts counts, const uint16_t *table, size_t table_words, const uint8_t *state,
                       size_t state_bytes, size_t lamp, uint8_t *why, size_t why_bytes);

/* The merge of two records of so many fields, say the settled records of two runs: each field on which both agree, and
 * CHUDRAVIK_UNKNOWN where they do not. So order, grouping and repetition make no difference, a record in which all is
 * unknown swallows every other, and the merge is the narrowest single cube that covers both. The settled record of
 * chudravik_judge is the merge of the cubes from j to n - 1, marks left off.
 * Refusals: 3 where there are more than 512 fields, 10 for a and b, 14 for a and b, 10 for merged. Bytes of a and b beyond
 * their records are ignored, and those of merged stay as they were. Answers the number. */
uint32_t chudravik_merge(size_t fields, const uint8_t *a, size_t a_bytes, const uint8_t *b, size_t b_bytes,
                         uint8_t *merged, size_t merged_bytes);

#ifdef __cplusplus
}
#endif

#endif
