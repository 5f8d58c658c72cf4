/* No verdict is contradicted by random Boolean simulation: boolean TICKS [SEED] [FILE..]
 *
 * Reads the given circuits and random ones of its own, chains and judges each with several intervals and buffers, and
 * where a chain is closed or has ended lets 64 executions of the circuit go in plain Booleans, with random switches,
 * each from a random state that the resets allow. Where a constraint is 0 an execution is no longer legal and stops; the
 * switches are drawn anew a few times before it does. At each tick t the lamps and bad states of those that go on must
 * agree with the verdict, from tick j on the latches with the settled record, and the state must lie inside cube t, or
 * from tick n on inside cube j + (t - j) mod (n - j); and where the chain has ended none goes on at tick n. The same of
 * chains that no call made: one with fields forgotten, and more of them until each next state lies inside what follows,
 * which must be accepted; and one with a single field forgotten, which may be refused. The same of covers: the cubes of
 * a closed chain in another order,
 * which must be accepted with the chain's verdict; the one cube that comes of merging states until nothing is new; and a
 * cube for each value of a latch, which may be refused. At each tick the state must lie inside one of the cubes, and the
 * lamps agree with the verdict. And of why: where a lamp is known in a cube of a chain, it has that value in every state
 * that agrees with the latches that force it, under any switches. TICKS is how many ticks are done at least, each
 * execution's counted; half of them go to the files. Exits 1, with the circuit's text, on a contradiction; and where
 * TICKS is ten million or more, if too few verdicts came up to mean anything.
 *
 * An answer that is weaker than it might be (open in place of never) contradicts nothing, and is not found here. */
#include <ctype.h>
#include <inttypes.h>
#include <stdio.h>
#include <stdlib.h>
#include <string.h>

#include "chance.h"
#include "chudravik.h"
#include "cube.h"

/* A run for each interval, and one for each kind of chain that no call made. */
enum { INTERVALS = 4, MENDED = INTERVALS, ROUGH, RUNS };

enum { EXECUTIONS = 64, REDRAWN = 6, STARTS = 16, HINTS = 64, MANY_TICKS = 10000000, LEAST_OF_A_KIND = 100, MOST_BLURRED = 300 };

static const size_t intervals[INTERVALS] = {0, 1, 2, 16};

struct circuit {
    chudravik_counts counts;
    size_t words;
    uint16_t table[CHUDRAVIK_MOST_TABLE_WORDS];
    size_t text_bytes;
    uint8_t text[CHUDRAVIK_MOST_TEXT + 1];
};

struct run {
    size_t w;
    size_t cubes_bytes;
    bool judged;
    size_t n, j, s;
    uint8_t cubes[CHUDRAVIK_MOST_CUBE_BYTES];
    uint8_t verdict[CHUDRAVIK_MOST_VERDICT_BYTES];
    uint8_t settled[CHUDRAVIK_RECORD_BYTES(CHUDRAVIK_MOST_LATCHES)];
};

struct sent {
    bool accepted;
    size_t n;
    uint8_t cubes[CHUDRAVIK_MOST_CUBE_BYTES];
    uint8_t verdict[CHUDRAVIK_MOST_VERDICT_BYTES];
};

enum { OF_CHAIN, OF_MERGE, OF_LATCH, COVERS };

static struct {
    uint64_t circuits, files, runs, closed, no_room, mended, rough, rough_refused, never, always, open, open_seen_both, settled, free_starts, ticks;
    uint64_t ended, ended_at_once, ended_later, constrained, stopped, bads_never, bads_always;
    uint64_t accepted[COVERS], refused, sent_never, sent_always, forced, forced_free;
} sum;

static struct circuit circuit;
static struct run runs[RUNS];
static struct sent covers[COVERS];

static bool one_in(size_t bound)
{
    return below(bound) == 0;
}

/* ---- failure ---- */

static _Noreturn void fail(const char *who, const char *what, uint32_t number)
{
    fprintf(stderr, "boolean: %s: %s (%" PRIu32 ")\n", who, what, number);
    fwrite(circuit.text, 1, circuit.text_bytes, stderr);
    exit(1);
}

static _Noreturn void contradicted(const struct run *run, const char *what, uint64_t t, uint64_t strays)
{
    int execution = 0;
    while (execution < EXECUTIONS - 1 && (strays >> execution & 1) == 0)
        execution++;
    fprintf(stderr, "boolean: %s contradicted at tick %" PRIu64 " by execution %d (w %zu, n %zu, j %zu, s %zu)\n", what,
            t, execution, run->w, run->n, run->j, run->s);
    fwrite(circuit.text, 1, circuit.text_bytes, stderr);
    exit(1);
}

static _Noreturn void cover_contradicted(const struct sent *sent, const char *what, uint64_t t)
{
    fprintf(stderr, "boolean: %s of a cover contradicted at tick %" PRIu64 " (n %zu)\n", what, t, sent->n);
    fwrite(circuit.text, 1, circuit.text_bytes, stderr);
    exit(1);
}

/* ---- the circuit in plain Booleans: bit e of a word is the value in execution e ---- */

static uint64_t value[CHUDRAVIK_MOST_VARIABLES + 1];
static uint64_t watched[CHUDRAVIK_MOST_LAMPS + CHUDRAVIK_MOST_BADS]; /* the lamps, then the bad states */
static uint64_t constraints_kept;                                    /* by which executions, at this tick */
static uint64_t *const switches = value + 1;

static uint64_t value_of(uint16_t literal)
{
    return value[literal >> 1] ^ (literal & 1 ? UINT64_MAX : 0);
}

static size_t watched_count(void)
{
    return circuit.counts.lamps + circuit.counts.bads;
}

static uint64_t *state(void)
{
    return value + 1 + circuit.counts.inputs;
}

/* A latch without a start value starts by chance, in each execution by itself. */
static uint64_t start_of(uint16_t reset)
{
    sum.free_starts += reset == CHUDRAVIK_NO_START;
    return reset == CHUDRAVIK_NO_START ? draw() : reset == 1 ? UINT64_MAX : 0;
}

static void start(void)
{
    for (size_t i = 0; i < circuit.counts.inputs; i++)
        switches[i] = 0;
    for (size_t i = 0; i < circuit.counts.latches; i++)
        state()[i] = start_of(circuit.table[2 * i + 1]);
}

/* A quarter of the executions have their switches by even chance, one mostly off, one mostly on, one seldom moved. */
static void move_switches(void)
{
    static const uint64_t even = 0x1111111111111111, off = even << 1, on = even << 2, slow = even << 3;
    for (size_t i = 0; i < circuit.counts.inputs; i++) {
        uint64_t a = draw(), b = draw(), c = draw();
        switches[i] = (a & even) | (a & b & c & off) | ((a | b | c) & on) | ((switches[i] ^ (a & b & c)) & slow);
    }
}

static void pass_gates(void)
{
    const uint16_t *lamp = circuit.table + 2 * circuit.counts.latches;
    const uint16_t *constraint = lamp + watched_count();
    const uint16_t *operand = constraint + circuit.counts.constraints;
    uint64_t *gate = state() + circuit.counts.latches;
    for (size_t i = 0; i < circuit.counts.gates; i++)
        gate[i] = value_of(operand[2 * i]) & value_of(operand[2 * i + 1]);
    for (size_t i = 0; i < watched_count(); i++)
        watched[i] = value_of(lamp[i]);
    constraints_kept = UINT64_MAX;
    for (size_t i = 0; i < circuit.counts.constraints; i++)
        constraints_kept &= value_of(constraint[i]);
}

/* Moves the switches and passes the gates. Where a constraint is 0 the switches of that execution are drawn anew. */
static void go_on(uint64_t legal)
{
    move_switches();
    pass_gates();
    for (size_t times = 0; times < REDRAWN && (legal & ~constraints_kept) != 0; times++) {
        uint64_t anew = legal & ~constraints_kept;
        for (size_t i = 0; i < circuit.counts.inputs; i++)
            switches[i] = (switches[i] & ~anew) | (draw() & anew);
        pass_gates();
    }
}

static void tick(void)
{
    uint64_t next[CHUDRAVIK_MOST_LATCHES];
    for (size_t i = 0; i < circuit.counts.latches; i++)
        next[i] = value_of(circuit.table[2 * i]);
    memcpy(state(), next, circuit.counts.latches * sizeof next[0]);
}

/* ---- the promises of a judged chain ---- */

/* The executions whose values lie outside the record, taken from field `front` on: all of them where it has the pair 11. */
static uint64_t outside(const uint8_t *record, size_t front, const uint64_t *values, size_t fields)
{
    static const uint64_t not_high[4] = {0, UINT64_MAX, 0, UINT64_MAX};
    static const uint64_t not_low[4] = {0, 0, UINT64_MAX, UINT64_MAX};
    uint64_t strays = 0;
    for (size_t i = 0; i < fields; i++) {
        unsigned field = CHUDRAVIK_FIELD(record, front + i);
        strays |= (values[i] & not_high[field]) | (~values[i] & not_low[field]);
    }
    return strays;
}

/* The latches of a cube stand behind its mark. */
static uint64_t outside_cube(const uint8_t *cube, const uint64_t *values, size_t latches)
{
    return outside(cube, 1, values, latches);
}

static size_t cube_of_tick(const struct run *run, uint64_t t)
{
    if (t < run->n)
        return (size_t)t;
    return run->j + (size_t)((t - run->j) % (run->n - run->j));
}

static bool has_ended(const struct run *run)
{
    return run->j == run->n;
}

/* Of the executions that are legal at this tick. */
static void check_tick(const struct run *run, uint64_t t, uint64_t legal)
{
    size_t latches = circuit.counts.latches;
    if (has_ended(run) && t >= run->n) {
        if (legal)
            contradicted(run, "end", t, legal);
        return;
    }
    const uint8_t *cube = run->cubes + cube_of_tick(run, t) * CHUDRAVIK_CUBE_BYTES(latches);
    uint64_t strays = legal & outside_cube(cube, state(), latches);
    if (strays)
        contradicted(run, "cube", t, strays);
    strays = legal & outside(run->verdict, 0, watched, watched_count());
    if (strays)
        contradicted(run, "verdict", t, strays);
    strays = t < run->j ? 0 : legal & outside(run->settled, 0, state(), latches);
    if (strays)
        contradicted(run, "settled record", t, strays);
}

/* Each legal execution has to be inside some cube, not all of them in the same. */
static void check_cover(const struct sent *sent, uint64_t t, uint64_t legal)
{
    size_t latches = circuit.counts.latches;
    uint64_t strays = legal;
    for (size_t k = 0; k < sent->n && strays; k++)
        strays &= outside_cube(sent->cubes + k * CHUDRAVIK_CUBE_BYTES(latches), state(), latches);
    if (strays)
        cover_contradicted(sent, "no cube", t);
    if (legal & outside(sent->verdict, 0, watched, watched_count()))
        cover_contradicted(sent, "the verdict", t);
}

static void check_all(uint64_t t, uint64_t legal)
{
    for (size_t r = 0; r < RUNS; r++)
        if (runs[r].judged)
            check_tick(&runs[r], t, legal);
    for (size_t s = 0; s < COVERS; s++)
        if (covers[s].accepted)
            check_cover(&covers[s], t, legal);
}

static uint64_t bits(uint64_t word)
{
    uint64_t count = 0;
    for (; word != 0; word &= word - 1)
        count++;
    return count;
}

/* Until the ticks are over or no execution is legal any more; answers how many there were. */
static uint64_t simulate_once(uint64_t ticks, uint64_t *seen_lit, uint64_t *seen_dark)
{
    uint64_t legal = UINT64_MAX, t = 0;
    for (start(); t < ticks; t++) {
        go_on(legal);
        sum.stopped += bits(legal & ~constraints_kept);
        legal &= constraints_kept;
        for (size_t i = 0; i < circuit.counts.lamps; i++) {
            seen_lit[i] |= legal & watched[i];
            seen_dark[i] |= legal & ~watched[i];
        }
        check_all(t, legal);
        if (legal == 0)
            break;
        sum.ticks += bits(legal);
        tick();
    }
    return t;
}

/* Those that have all stopped start again, a few times where they do not come far. */
static void simulate(uint64_t ticks, uint64_t *seen_lit, uint64_t *seen_dark)
{
    for (uint64_t done = 0, times = 0; done < ticks && times < STARTS; times++)
        done += simulate_once(ticks - done, seen_lit, seen_dark);
}

/* ---- runs ---- */

static size_t promised_bytes(size_t w)
{
    return (w * circuit.counts.latches + 1) * CHUDRAVIK_CUBE_BYTES(circuit.counts.latches);
}

/* Without widening a chain may take many cubes, and its search the square of that: the full buffer is seldom lent. */
static size_t choose_cubes_bytes(size_t w)
{
    size_t record = CHUDRAVIK_CUBE_BYTES(circuit.counts.latches);
    if (w != 0 && promised_bytes(w) <= CHUDRAVIK_MOST_CUBE_BYTES && one_in(3))
        return promised_bytes(w);
    if (one_in(w == 0 ? 64 : 2))
        return CHUDRAVIK_MOST_CUBE_BYTES;
    return record + below(250 * record);
}

static size_t known_fields(const uint8_t *record, size_t fields)
{
    size_t known = 0;
    for (size_t i = 0; i < fields; i++)
        known += CHUDRAVIK_FIELD(record, i) != CHUDRAVIK_UNKNOWN;
    return known;
}

static void check_chain(const struct run *run, chudravik_chain_answer answer)
{
    size_t room = run->cubes_bytes / CHUDRAVIK_CUBE_BYTES(circuit.counts.latches);
    if (answer.number != CHUDRAVIK_ACCEPTED && answer.number != CHUDRAVIK_NO_ROOM)
        fail("chain", "refused", answer.number);
    if (answer.number == CHUDRAVIK_NO_ROOM && run->w != 0 && promised_bytes(run->w) <= run->cubes_bytes)
        fail("chain", "not closed within w x latches + 1 cubes", answer.number);
    if (answer.number == CHUDRAVIK_ACCEPTED && (answer.back > answer.cubes || answer.cubes > room))
        fail("chain", "closed with n and j that cannot be", answer.number);
    if (answer.number == CHUDRAVIK_ACCEPTED && answer.back == answer.cubes && circuit.counts.constraints == 0)
        fail("chain", "ended without constraints", answer.number);
    for (size_t k = 0; k < answer.cubes; k++) {
        bool due = k != 0 && run->w != 0 && k % run->w == 0;
        if (CHUDRAVIK_MARK(run->cubes + k * CHUDRAVIK_CUBE_BYTES(circuit.counts.latches)) != (due ? CHUDRAVIK_WIDENED : CHUDRAVIK_PLAIN))
            fail("chain", "a cube is marked otherwise than its number says", (uint32_t)k);
    }
}

/* Hands the cubes to the judge. */
static uint32_t judge_run(struct run *run)
{
    chudravik_judge_answer answer =
        chudravik_judge(circuit.counts, circuit.table, circuit.words, run->cubes, sizeof run->cubes, run->n, run->j,
                        run->verdict, sizeof run->verdict, run->settled, sizeof run->settled);
    run->judged = answer.number == CHUDRAVIK_ACCEPTED;
    run->s = answer.settled;
    if (run->judged && run->s != known_fields(run->settled, circuit.counts.latches))
        fail("judge", "s is not the count of the settled record", answer.number);
    return answer.number;
}

static void do_run(struct run *run, size_t w)
{
    run->w = w;
    run->cubes_bytes = choose_cubes_bytes(w);
    chudravik_chain_answer answer =
        chudravik_chain(circuit.counts, circuit.table, circuit.words, w, run->cubes, run->cubes_bytes);
    check_chain(run, answer);
    run->n = answer.cubes;
    run->j = answer.back;
    run->judged = false;
    if (answer.number == CHUDRAVIK_ACCEPTED && judge_run(run) != CHUDRAVIK_ACCEPTED)
        fail("judge", "refused what the chain made", 0);
    sum.runs++;
    sum.closed += run->judged && !has_ended(run);
    sum.ended += run->judged && has_ended(run);
    sum.ended_at_once += run->judged && run->n == 0;
    sum.ended_later += run->judged && has_ended(run) && run->n > 1;
    sum.constrained += run->judged && !has_ended(run) && circuit.counts.constraints > 0;
    sum.no_room += !run->judged;
}

/* ---- chains that no call made ---- */

static const uint8_t no_switch_known[CHUDRAVIK_RECORD_BYTES(CHUDRAVIK_MOST_INPUTS)];

static void next_of(const uint8_t *cube, uint8_t next[CHUDRAVIK_RECORD_BYTES(CHUDRAVIK_MOST_LATCHES)])
{
    uint8_t lit[CHUDRAVIK_RECORD_BYTES(CHUDRAVIK_MOST_LAMPS)], now[CHUDRAVIK_RECORD_BYTES(CHUDRAVIK_MOST_LATCHES)];
    state_of_cube(cube, circuit.counts.latches, now);
    uint32_t number = chudravik_tick(circuit.counts, circuit.table, circuit.words, now, sizeof now, no_switch_known,
                                     sizeof no_switch_known, next, CHUDRAVIK_RECORD_BYTES(CHUDRAVIK_MOST_LATCHES), lit,
                                     sizeof lit);
    if (number != CHUDRAVIK_ACCEPTED)
        fail("tick", "refused", number);
}

/* Forgets in a cube what a state does not have alike; answers whether there was anything. */
static bool forget(uint8_t *cube, const uint8_t *now)
{
    bool forgot = false;
    for (size_t i = 0; i < circuit.counts.latches; i++) {
        unsigned field = CHUDRAVIK_LATCH(cube, i);
        if (field == CHUDRAVIK_UNKNOWN || field == CHUDRAVIK_FIELD(now, i))
            continue;
        put_latch(cube, i, CHUDRAVIK_UNKNOWN);
        forgot = true;
    }
    return forgot;
}

static void forget_field(struct run *run)
{
    size_t record = CHUDRAVIK_CUBE_BYTES(circuit.counts.latches), latch = below(circuit.counts.latches);
    uint8_t *cube = run->cubes + (1 + below(run->n - 1)) * record;
    if (circuit.counts.latches > 0)
        put_latch(cube, latch, CHUDRAVIK_UNKNOWN);
}

/* A copy of a chain that goes back to a later cube than cube 0, which has to stay the resets. */
static bool copy_chain(struct run *to, const struct run *from)
{
    size_t record = CHUDRAVIK_CUBE_BYTES(circuit.counts.latches);
    if (!from->judged || has_ended(from) || from->n > MOST_BLURRED || (from->n + 1) * record > sizeof to->cubes)
        return false;
    *to = *from;
    to->judged = false;
    if (from->j == 0) {
        memcpy(to->cubes + from->n * record, from->cubes, record);
        to->n = from->n + 1;
        to->j = 1;
    }
    return true;
}

static void mend(struct run *run)
{
    size_t record = CHUDRAVIK_CUBE_BYTES(circuit.counts.latches);
    uint8_t next[CHUDRAVIK_RECORD_BYTES(CHUDRAVIK_MOST_LATCHES)];
    for (bool changed = true; changed;) {
        changed = false;
        for (size_t k = 0; k < run->n; k++) {
            next_of(run->cubes + k * record, next);
            changed |= forget(run->cubes + (k + 1 < run->n ? k + 1 : run->j) * record, next);
        }
    }
}

static void blur_chains(const struct run *run)
{
    runs[MENDED].judged = runs[ROUGH].judged = false;
    if (copy_chain(&runs[MENDED], run)) {
        for (size_t times = 1 + below(3); times > 0; times--)
            forget_field(&runs[MENDED]);
        mend(&runs[MENDED]);
        uint32_t number = judge_run(&runs[MENDED]);
        if (number != CHUDRAVIK_ACCEPTED)
            fail("judge", "refused a chain that was blurred and mended", number);
        sum.mended++;
    }
    if (copy_chain(&runs[ROUGH], run)) {
        forget_field(&runs[ROUGH]);
        uint32_t number = judge_run(&runs[ROUGH]);
        if (number != CHUDRAVIK_ACCEPTED && number != CHUDRAVIK_NOT_A_CHAIN)
            fail("judge", "refused a blurred chain otherwise than by 19", number);
        sum.rough += number == CHUDRAVIK_ACCEPTED;
        sum.rough_refused += number != CHUDRAVIK_ACCEPTED;
    }
}

static void count_checked(const struct run *run, const uint64_t *seen_lit, const uint64_t *seen_dark)
{
    for (size_t i = 0; i < circuit.counts.lamps; i++) {
        unsigned field = CHUDRAVIK_FIELD(run->verdict, i);
        sum.never += field == CHUDRAVIK_LOW;
        sum.always += field == CHUDRAVIK_HIGH;
        sum.open += field == CHUDRAVIK_UNKNOWN;
        sum.open_seen_both += field == CHUDRAVIK_UNKNOWN && seen_lit[i] && seen_dark[i];
    }
    for (size_t i = circuit.counts.lamps; i < watched_count(); i++) {
        sum.bads_never += run->n > 0 && CHUDRAVIK_FIELD(run->verdict, i) == CHUDRAVIK_LOW;
        sum.bads_always += CHUDRAVIK_FIELD(run->verdict, i) == CHUDRAVIK_HIGH;
    }
    sum.settled += run->s;
}

/* ---- covers ---- */

static uint32_t send_cover(struct sent *sent)
{
    size_t bytes = sent->n * CHUDRAVIK_CUBE_BYTES(circuit.counts.latches);
    uint32_t number = chudravik_cover(circuit.counts, circuit.table, circuit.words, sent->cubes, bytes, sent->n,
                                      sent->verdict, sizeof sent->verdict)
                          .number;
    sent->accepted = number == CHUDRAVIK_ACCEPTED;
    sum.refused += !sent->accepted;
    return number;
}

static void count_cover(size_t s)
{
    sum.accepted[s]++;
    for (size_t i = 0; i < circuit.counts.lamps; i++) {
        sum.sent_never += CHUDRAVIK_FIELD(covers[s].verdict, i) == CHUDRAVIK_LOW;
        sum.sent_always += CHUDRAVIK_FIELD(covers[s].verdict, i) == CHUDRAVIK_HIGH;
    }
}

/* The cubes of a chain, from the last to the first. */
static void send_chain(struct sent *sent, const struct run *run)
{
    size_t record = CHUDRAVIK_CUBE_BYTES(circuit.counts.latches);
    sent->n = run->n;
    for (size_t k = 0; k < sent->n; k++)
        memcpy(sent->cubes + (sent->n - 1 - k) * record, run->cubes + k * record, record);
    if (send_cover(sent) != CHUDRAVIK_ACCEPTED ||
        memcmp(sent->verdict, run->verdict, CHUDRAVIK_RECORD_BYTES(watched_count())) != 0)
        fail("cover", "the cubes of a chain are refused, or judged otherwise", 0);
}

static unsigned start_field(uint16_t reset)
{
    return reset == CHUDRAVIK_NO_START ? CHUDRAVIK_UNKNOWN : reset == 1 ? CHUDRAVIK_HIGH : CHUDRAVIK_LOW;
}

/* What a state and all that follow have in common, with all switches unknown. */
static void send_merge(struct sent *sent)
{
    uint8_t next[CHUDRAVIK_RECORD_BYTES(CHUDRAVIK_MOST_LATCHES)];
    cube_of_nothing(circuit.counts.latches, CHUDRAVIK_PLAIN, sent->cubes);
    for (size_t i = 0; i < circuit.counts.latches; i++)
        put_latch(sent->cubes, i, start_field(circuit.table[2 * i + 1]));
    do
        next_of(sent->cubes, next);
    while (forget(sent->cubes, next));
    sent->n = 1;
    uint32_t number = send_cover(sent);
    if (number != CHUDRAVIK_ACCEPTED)
        fail("cover", "refused, though its next state brings nothing new", number);
}

static void send_latch(struct sent *sent)
{
    size_t record = CHUDRAVIK_CUBE_BYTES(circuit.counts.latches), latch = below(circuit.counts.latches);
    for (unsigned field = CHUDRAVIK_LOW; field <= CHUDRAVIK_HIGH; field++) {
        uint8_t *cube = sent->cubes + (field - 1) * record;
        cube_of_nothing(circuit.counts.latches, CHUDRAVIK_WIDENED, cube);
        put_latch(cube, latch, field);
    }
    sent->n = 2;
    send_cover(sent);
}

static void send_covers(const struct run *run)
{
    covers[OF_CHAIN].accepted = covers[OF_LATCH].accepted = false;
    if (run->judged)
        send_chain(&covers[OF_CHAIN], run);
    send_merge(&covers[OF_MERGE]);
    if (circuit.counts.latches > 0)
        send_latch(&covers[OF_LATCH]);
    for (size_t s = 0; s < COVERS; s++)
        if (covers[s].accepted)
            count_cover(s);
}

/* ---- why ---- */

/* States by chance, but for the latches that force it. */
static void start_inside(const uint8_t *record)
{
    for (size_t i = 0; i < circuit.counts.latches; i++) {
        unsigned field = CHUDRAVIK_FIELD(record, i);
        state()[i] = field == CHUDRAVIK_UNKNOWN ? draw() : field == CHUDRAVIK_HIGH ? UINT64_MAX : 0;
        sum.forced_free += field == CHUDRAVIK_UNKNOWN;
    }
    for (size_t i = 0; i < circuit.counts.inputs; i++)
        switches[i] = draw();
}

static void force_lamp(const uint8_t *given, size_t lamp)
{
    uint8_t why[CHUDRAVIK_RECORD_BYTES(CHUDRAVIK_MOST_LATCHES)];
    uint32_t number = chudravik_why(circuit.counts, circuit.table, circuit.words, given,
                                    CHUDRAVIK_RECORD_BYTES(circuit.counts.latches), lamp, why, sizeof why);
    if (number == CHUDRAVIK_LAMP_UNKNOWN)
        return;
    if (number != CHUDRAVIK_ACCEPTED)
        fail("why", "refused", number);
    start_inside(why);
    pass_gates();
    if (watched[lamp] != 0 && watched[lamp] != UINT64_MAX)
        fail("why", "the latches named do not force the lamp", (uint32_t)lamp);
    uint64_t forced = watched[lamp];
    start_inside(given);
    pass_gates();
    if (watched[lamp] != forced)
        fail("why", "the latches named force the lamp otherwise", (uint32_t)lamp);
    sum.forced++;
}

static void force_lamps(const struct run *run)
{
    uint8_t given[CHUDRAVIK_RECORD_BYTES(CHUDRAVIK_MOST_LATCHES)];
    if (run->n == 0)
        return;
    state_of_cube(run->cubes + below(run->n) * CHUDRAVIK_CUBE_BYTES(circuit.counts.latches), circuit.counts.latches, given);
    for (size_t i = 0; i < circuit.counts.lamps; i++)
        force_lamp(given, i);
}

/* Goes at least twice through the longest chain, so that each cube of a round is met again. */
static void examine(uint64_t least_ticks)
{
    uint64_t seen_lit[CHUDRAVIK_MOST_LAMPS] = {0}, seen_dark[CHUDRAVIK_MOST_LAMPS] = {0};
    uint64_t longest = 0;
    bool judged = false;
    sum.circuits++;
    for (size_t r = 0; r < INTERVALS; r++)
        do_run(&runs[r], intervals[r]);
    const struct run *run = &runs[below(INTERVALS)];
    blur_chains(run);
    send_covers(run);
    force_lamps(run);
    for (size_t r = 0; r < RUNS; r++) {
        judged |= runs[r].judged;
        if (runs[r].judged && runs[r].n > longest)
            longest = runs[r].n;
    }
    if (!judged)
        return;
    uint64_t ticks = 2 * longest + 64;
    simulate(ticks < least_ticks ? least_ticks : ticks, seen_lit, seen_dark);
    for (size_t r = 0; r < RUNS; r++)
        if (runs[r].judged)
            count_checked(&runs[r], seen_lit, seen_dark);
}

static void read_circuit(const char *who)
{
    chudravik_read_answer answer =
        chudravik_read(circuit.text, circuit.text_bytes, circuit.table, CHUDRAVIK_MOST_TABLE_WORDS);
    if (answer.number != CHUDRAVIK_ACCEPTED)
        fail(who, "refused by the reader", answer.number);
    circuit.counts = answer.counts;
    circuit.words = CHUDRAVIK_TABLE_WORDS(answer.counts);
}

/* ---- random circuits: pieces that pupils draw, wired together at random ---- */

/* Hints are literals that are worth a lamp: what the piece is built never, or always, to do. */
static struct {
    chudravik_counts counts;
    uint16_t next[CHUDRAVIK_MOST_LATCHES], reset[CHUDRAVIK_MOST_LATCHES], lamp[CHUDRAVIK_MOST_LAMPS];
    uint16_t bad[CHUDRAVIK_MOST_BADS], constraint[CHUDRAVIK_MOST_CONSTRAINTS];
    uint16_t operand[CHUDRAVIK_MOST_GATES][2];
    uint16_t hint[HINTS];
    size_t hints;
} draft;

static uint16_t latch(size_t i)
{
    return (uint16_t)(2 * (1 + draft.counts.inputs + i));
}

static uint16_t any_literal(void)
{
    return (uint16_t)below(2 * (1 + draft.counts.inputs + draft.counts.latches + draft.counts.gates));
}

static void hint(uint16_t literal)
{
    if (draft.hints < HINTS)
        draft.hint[draft.hints++] = literal;
}

/* A full draft answers the constant 0: still a circuit, and pieces need no care. */
static uint16_t both(uint16_t a, uint16_t b)
{
    if (draft.counts.gates == CHUDRAVIK_MOST_GATES)
        return 0;
    size_t gate = draft.counts.gates++, first = below(2);
    draft.operand[gate][first] = a;
    draft.operand[gate][1 - first] = b;
    return latch(draft.counts.latches + gate);
}

static uint16_t either(uint16_t a, uint16_t b)
{
    return both(a ^ 1, b ^ 1) ^ 1;
}

static uint16_t just_one(uint16_t a, uint16_t b)
{
    uint16_t some = either(a, b);
    return both(some, both(a, b) ^ 1);
}

static void add_any_gate(void)
{
    uint16_t a = any_literal();
    both(a, any_literal());
}

static uint16_t count_is(size_t at, size_t size, size_t number)
{
    uint16_t all = 1;
    for (size_t i = 0; i < size; i++)
        all = both(all, latch(at + i) ^ (number >> i & 1 ? 0 : 1));
    return all;
}

static void draw_ring(size_t at, size_t size)
{
    uint16_t some = 0, two = 0;
    for (size_t i = 0; i < size; i++) {
        draft.next[at + i] = latch(at + (i + size - 1) % size);
        draft.reset[at + i] = i == 0;
        two = either(two, both(some, latch(at + i)));
        some = either(some, latch(at + i));
    }
    hint(two);
    hint(some);
}

/* Counts to some number and starts again, each tick or by some literal. */
static void draw_counter(size_t at, size_t size)
{
    size_t last = below((size_t)1 << size);
    uint16_t moves = one_in(3) ? any_literal() : 1;
    uint16_t carry = moves, stays = both(moves, count_is(at, size, last)) ^ 1;
    for (size_t i = 0; i < size; i++) {
        draft.next[at + i] = both(stays, just_one(latch(at + i), carry));
        draft.reset[at + i] = 0;
        carry = both(carry, latch(at + i));
    }
    hint(count_is(at, size, last));
    hint(count_is(at, size, ((size_t)1 << size) - 1));
}

/* Power-on, or power-off: one latch after the other changes, once. */
static void draw_chain(size_t at, size_t size)
{
    uint16_t becomes = (uint16_t)below(2);
    for (size_t i = 0; i < size; i++) {
        draft.next[at + i] = i == 0 ? becomes : latch(at + i - 1);
        draft.reset[at + i] = one_in(8) ? CHUDRAVIK_NO_START : becomes ^ 1;
    }
    hint(both(latch(at + size - 1) ^ becomes ^ 1, latch(at) ^ becomes));
}

/* Latches that cannot be left once they have a value: some are there from the start. */
static void draw_keepers(size_t at, size_t size)
{
    for (size_t i = 0; i < size; i++) {
        bool high = one_in(2);
        draft.next[at + i] = high ? either(latch(at + i), any_literal()) : both(latch(at + i), any_literal());
        draft.reset[at + i] = one_in(8) ? CHUDRAVIK_NO_START : one_in(4) ? !high : high;
        hint(latch(at + i));
    }
}

static uint16_t any_reset(void)
{
    return one_in(4) ? CHUDRAVIK_NO_START : one_in(2);
}

static void draw_shift(size_t at, size_t size)
{
    for (size_t i = 0; i < size; i++) {
        draft.next[at + i] = i == 0 ? any_literal() : latch(at + i - 1);
        draft.reset[at + i] = any_reset();
    }
}

static void draw_wild(size_t at, size_t size)
{
    for (size_t i = 0; i < size; i++) {
        draft.next[at + i] = any_literal();
        draft.reset[at + i] = any_reset();
    }
}

static void draw_pieces(size_t latches)
{
    static void (*const piece[])(size_t, size_t) = {draw_ring,    draw_counter, draw_chain,
                                                    draw_keepers, draw_shift,   draw_wild};
    for (size_t at = 0; at < latches;) {
        size_t size = 1 + below(one_in(8) ? 10 : 5);
        if (size > latches - at)
            size = latches - at;
        piece[below(sizeof piece / sizeof piece[0])](at, size);
        for (size_t i = below(4); i > 0; i--)
            add_any_gate();
        at += size;
    }
}

static uint16_t draw_lamp(void)
{
    uint16_t hinted = draft.hints == 0 ? any_literal() : draft.hint[below(draft.hints)];
    uint16_t literal = any_literal();
    switch (below(8)) {
    case 0:
        return (uint16_t)below(2);
    case 1:
        return both(literal, literal ^ 1);
    case 2:
        return both(hinted, literal);
    case 3:
        return either(hinted, literal);
    case 4:
        return literal;
    default:
        return hinted ^ (uint16_t)one_in(3);
    }
}

/* Whether a literal is 0 in every start, by 64 of them, with random switches: the draft's own gates. */
static bool is_low_at_start(uint16_t literal)
{
    static uint64_t at_start[CHUDRAVIK_MOST_VARIABLES + 1];
    size_t first = 1 + draft.counts.inputs;
    at_start[0] = 0;
    for (size_t i = 1; i < first; i++)
        at_start[i] = draw();
    for (size_t i = 0; i < draft.counts.latches; i++)
        at_start[first + i] = draft.reset[i] == CHUDRAVIK_NO_START ? draw() : draft.reset[i] == 1 ? UINT64_MAX : 0;
    for (size_t i = 0; i < draft.counts.gates; i++) {
        uint16_t a = draft.operand[i][0], b = draft.operand[i][1];
        at_start[first + draft.counts.latches + i] =
            (at_start[a / 2] ^ (a % 2 ? UINT64_MAX : 0)) & (at_start[b / 2] ^ (b % 2 ? UINT64_MAX : 0));
    }
    return at_start[literal / 2] == (literal % 2 ? UINT64_MAX : 0);
}

/* Two switches that are never both on, or what a piece is built never or always to do; seldom what is 0 from the start
 * on. */
static uint16_t draw_constraint(void)
{
    if (draft.counts.inputs >= 2 && one_in(3))
        return both(2, 4) ^ 1;
    uint16_t literal = one_in(2) && draft.hints > 0 ? draft.hint[below(draft.hints)] : any_literal();
    return is_low_at_start(literal) && !one_in(8) ? literal ^ 1 : literal;
}

/* Half of the circuits have neither. */
static void draw_assumptions(void)
{
    draft.counts.bads = draft.counts.constraints = 0;
    if (one_in(2))
        return;
    size_t bads = below(5), constraints = below(4);
    while (draft.counts.bads < bads)
        draft.bad[draft.counts.bads++] = draw_lamp();
    while (draft.counts.constraints < constraints)
        draft.constraint[draft.counts.constraints++] = draw_constraint();
}

static void draw_draft(void)
{
    draft.hints = 0;
    draft.counts.inputs = below(one_in(16) ? 60 : 6);
    draft.counts.latches = below(one_in(32) ? 200 : one_in(4) ? 40 : 13);
    draft.counts.gates = 0;
    draw_pieces(draft.counts.latches);
    for (size_t i = below(8 + draft.counts.latches); i > 0; i--)
        add_any_gate();
    draft.counts.lamps = 1 + below(one_in(16) ? CHUDRAVIK_MOST_LAMPS : 11);
    for (size_t i = 0; i < draft.counts.lamps; i++)
        draft.lamp[i] = draw_lamp();
    draw_assumptions();
}

static void add_numbers(const char *before, size_t count, const size_t *numbers)
{
    char line[64];
    int bytes = snprintf(line, sizeof line, "%s", before);
    for (size_t i = 0; i < count; i++)
        bytes += snprintf(line + bytes, sizeof line - (size_t)bytes, "%s%zu", bytes == 0 ? "" : " ", numbers[i]);
    line[bytes++] = '\n';
    if (circuit.text_bytes + (size_t)bytes > CHUDRAVIK_MOST_TEXT)
        fail("own circuit", "text too long", 0);
    memcpy(circuit.text + circuit.text_bytes, line, (size_t)bytes);
    circuit.text_bytes += (size_t)bytes;
}

static size_t reset_shown(size_t own, uint16_t reset)
{
    return reset == CHUDRAVIK_NO_START ? own : reset;
}

/* A reset of 0 is sometimes written out, and so are numbers of the first line that may be left out: a reader must take
 * both. */
static void write_draft(void)
{
    chudravik_counts n = draft.counts;
    size_t own = 2;
    circuit.text_bytes = 0;
    size_t least = n.constraints > 0 ? 7 : n.bads > 0 ? 6 : 5;
    add_numbers("aag", one_in(2) ? least : least + below(10 - least),
                (size_t[]){n.inputs + n.latches + n.gates, n.inputs, n.latches, n.lamps, n.gates, n.bads, n.constraints, 0, 0});
    for (size_t i = 0; i < n.inputs; i++, own += 2)
        add_numbers("", 1, &own);
    for (size_t i = 0; i < n.latches; i++, own += 2)
        add_numbers("", draft.reset[i] || one_in(4) ? 3 : 2, (size_t[]){own, draft.next[i], reset_shown(own, draft.reset[i])});
    for (size_t i = 0; i < n.lamps; i++)
        add_numbers("", 1, (size_t[]){draft.lamp[i]});
    for (size_t i = 0; i < n.bads; i++)
        add_numbers("", 1, (size_t[]){draft.bad[i]});
    for (size_t i = 0; i < n.constraints; i++)
        add_numbers("", 1, (size_t[]){draft.constraint[i]});
    for (size_t i = 0; i < n.gates; i++, own += 2)
        add_numbers("", 3, (size_t[]){own, draft.operand[i][0], draft.operand[i][1]});
}

static int table_is_draft(void)
{
    const uint16_t *word = circuit.table;
    int same = circuit.counts.inputs == draft.counts.inputs && circuit.counts.latches == draft.counts.latches &&
               circuit.counts.lamps == draft.counts.lamps && circuit.counts.gates == draft.counts.gates &&
               circuit.counts.bads == draft.counts.bads && circuit.counts.constraints == draft.counts.constraints;
    for (size_t i = 0; same && i < draft.counts.latches; i++, word += 2)
        same = word[0] == draft.next[i] && word[1] == draft.reset[i];
    for (size_t i = 0; same && i < draft.counts.lamps; i++, word++)
        same = word[0] == draft.lamp[i];
    for (size_t i = 0; same && i < draft.counts.bads; i++, word++)
        same = word[0] == draft.bad[i];
    for (size_t i = 0; same && i < draft.counts.constraints; i++, word++)
        same = word[0] == draft.constraint[i];
    for (size_t i = 0; same && i < draft.counts.gates; i++, word += 2)
        same = word[0] == draft.operand[i][0] && word[1] == draft.operand[i][1];
    return same;
}

static void examine_random(void)
{
    draw_draft();
    write_draft();
    read_circuit("own circuit");
    if (!table_is_draft())
        fail("own circuit", "read as another circuit", 0);
    examine(0);
}

/* ---- given circuits ---- */

static void examine_file(const char *path, uint64_t least_ticks)
{
    FILE *file = fopen(path, "rb");
    circuit.text_bytes = file == NULL ? 0 : fread(circuit.text, 1, sizeof circuit.text, file);
    if (file == NULL || ferror(file))
        fail(path, "cannot be loaded", 0);
    fclose(file);
    read_circuit(path);
    examine(least_ticks);
    sum.files++;
}

/* ---- the whole ---- */

static int number_of(const char *word, uint64_t *number)
{
    char *end;
    *number = strtoull(word, &end, 10);
    return isdigit((unsigned char)word[0]) && *end == '\0';
}

static void print_sum(void)
{
    printf("circuits %" PRIu64 ", of them from files %" PRIu64 "\n", sum.circuits, sum.files);
    printf("chains %" PRIu64 ": closed %" PRIu64 ", ended %" PRIu64 ", no room %" PRIu64 "\n", sum.runs, sum.closed,
           sum.ended, sum.no_room);
    printf("with constraints: closed %" PRIu64 ", ended with no cube %" PRIu64 ", with more than one %" PRIu64
           "; executions that stopped %" PRIu64 "\n",
           sum.constrained, sum.ended_at_once, sum.ended_later, sum.stopped);
    printf("bad states: never %" PRIu64 ", always %" PRIu64 "\n", sum.bads_never, sum.bads_always);
    printf("chains that no call made: mended %" PRIu64 ", rough %" PRIu64 ", refused %" PRIu64 "\n", sum.mended, sum.rough,
           sum.rough_refused);
    printf("verdicts: never %" PRIu64 ", always %" PRIu64 ", open %" PRIu64 " (seen both lit and dark %" PRIu64 ")\n",
           sum.never, sum.always, sum.open, sum.open_seen_both);
    printf("settled latches %" PRIu64 "\n", sum.settled);
    printf("latches started by chance %" PRIu64 "\n", sum.free_starts);
    printf("covers: of a chain %" PRIu64 ", merged %" PRIu64 ", by a latch %" PRIu64 ", refused %" PRIu64
           "; never %" PRIu64 ", always %" PRIu64 "\n",
           sum.accepted[OF_CHAIN], sum.accepted[OF_MERGE], sum.accepted[OF_LATCH], sum.refused, sum.sent_never,
           sum.sent_always);
    printf("lamps forced %" PRIu64 ", with latches left free %" PRIu64 "\n", sum.forced, sum.forced_free);
    printf("ticks %" PRIu64 "\n", sum.ticks);
}

int main(int argc, char **argv)
{
    uint64_t ticks, seed = 1;
    int first_file = 2;
    if (argc < 2 || !number_of(argv[1], &ticks)) {
        fprintf(stderr, "usage: boolean TICKS [SEED] [FILE..]\n");
        return 1;
    }
    if (argc > 2 && number_of(argv[2], &seed))
        first_file = 3;
    else
        seed = 1;
    throw_dice(seed, 0);
    printf("seed %" PRIu64 "\n", seed);
    for (int i = first_file; i < argc; i++)
        examine_file(argv[i], ticks / 2 / EXECUTIONS / (uint64_t)(argc - first_file));
    while (sum.ticks < ticks)
        examine_random();
    print_sum();
    if (ticks >= MANY_TICKS &&
        (sum.never < LEAST_OF_A_KIND || sum.always < LEAST_OF_A_KIND || sum.settled < LEAST_OF_A_KIND ||
         sum.free_starts < LEAST_OF_A_KIND || sum.forced < LEAST_OF_A_KIND || sum.forced_free < LEAST_OF_A_KIND || sum.mended < LEAST_OF_A_KIND || sum.rough < LEAST_OF_A_KIND ||
         sum.rough_refused < LEAST_OF_A_KIND || sum.sent_never < LEAST_OF_A_KIND || sum.sent_always < LEAST_OF_A_KIND ||
         sum.accepted[OF_LATCH] < LEAST_OF_A_KIND || sum.refused < LEAST_OF_A_KIND ||
         sum.ended_at_once < LEAST_OF_A_KIND || sum.ended_later < LEAST_OF_A_KIND || sum.constrained < LEAST_OF_A_KIND ||
         sum.stopped < LEAST_OF_A_KIND || sum.bads_never < LEAST_OF_A_KIND || sum.bads_always < LEAST_OF_A_KIND)) {
        fprintf(stderr, "boolean: too few verdicts of a kind\n");
        return 1;
    }
    return 0;
}
