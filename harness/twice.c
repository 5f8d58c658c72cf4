/* See twice.h. */
#include "twice.h"

#include <stdarg.h>
#include <stdio.h>
#include <stdlib.h>
#include <string.h>

const char *const call_names[CALLS] = {"read",        "read_any", "read_binary", "read_beg", "write", "write_binary", "tick",
                                       "chain",
                                       "chain_beg", "judge",    "cover",           "why",   "merge"};
const char *const role_names[ROLES] = {"text",  "table", "list",    "state",  "switches",
                                       "next",  "lamps", "cubes",   "verdict", "settled",
                                       "why",   "a",     "b",       "merged"};

/* ---- buffers ---- */

static uint8_t *longest_buffer(void)
{
    uint8_t *memory = malloc(LONGEST_BUFFER);
    if (memory == NULL) {
        fputs("twice: no memory\n", stderr);
        exit(2);
    }
    return memory;
}

void twice_take_memory(twice *t)
{
    memset(t, 0, sizeof *t);
    for (size_t role = 0; role < ROLES; role++) {
        t->lent[role].simulated = longest_buffer();
        t->lent[role].before = longest_buffer();
    }
}

void twice_begin(twice *t, enum call call, chudravik_counts counts, numbers with)
{
    for (size_t role = 0; role < ROLES; role++)
        t->lent[role].used = false;
    t->call = call;
    t->counts = counts;
    t->with = with;
}

uint8_t *twice_content(twice *t, enum role role)
{
    return t->lent[role].before;
}

void twice_lend(twice *t, enum role role, bool given, size_t bytes, enum laid laid)
{
    lent *l = &t->lent[role];
    l->used = true;
    l->given = given;
    l->null = laid == LAID_NULL && bytes == 0;
    l->bytes = bytes;
    uint8_t *library = guarded_lay(&l->library, bytes, laid == LAID_BEFORE ? GUARD_BEFORE : GUARD_BEHIND);
    if (bytes == 0)
        return;
    memcpy(library, l->before, bytes);
    memcpy(l->simulated, l->before, bytes);
}

uint8_t *of_library(const twice *t, enum role role)
{
    return t->lent[role].null ? NULL : t->lent[role].library.start;
}

static uint8_t *of_simulator(const twice *t, enum role role)
{
    return t->lent[role].simulated;
}

static size_t bytes_of(const twice *t, enum role role)
{
    return t->lent[role].bytes;
}

/* Regions and malloc'ed memory start on even addresses, and a table or a list has an even count of bytes. */
uint16_t *library_table(const twice *t)
{
    return (uint16_t *)(void *)of_library(t, TABLE);
}

static uint16_t *simulator_table(const twice *t)
{
    return (uint16_t *)(void *)of_simulator(t, TABLE);
}

size_t table_words(const twice *t)
{
    return bytes_of(t, TABLE) / 2;
}

/* ---- the calls ---- */

static answer library_reads(const twice *t)
{
    chudravik_read_answer read =
        chudravik_read(of_library(t, TEXT), bytes_of(t, TEXT), library_table(t), table_words(t));
    return (answer){.number = read.number, .counts = read.counts};
}

static answer simulator_reads(const twice *t)
{
    chudravik_read_answer read =
        simulate_read(of_simulator(t, TEXT), bytes_of(t, TEXT), simulator_table(t), table_words(t));
    return (answer){.number = read.number, .counts = read.counts};
}

static uint16_t *library_list(const twice *t)
{
    return (uint16_t *)(void *)of_library(t, LIST);
}

static uint16_t *simulator_list(const twice *t)
{
    return (uint16_t *)(void *)of_simulator(t, LIST);
}

static answer library_reads_any(const twice *t)
{
    chudravik_read_any_answer read =
        chudravik_read_any(of_library(t, TEXT), bytes_of(t, TEXT), library_table(t), table_words(t), library_list(t),
                           bytes_of(t, LIST) / 2);
    return (answer){.number = read.number, .counts = read.counts, .variables = read.variables};
}

static answer simulator_reads_any(const twice *t)
{
    chudravik_read_any_answer read =
        simulate_read_any(of_simulator(t, TEXT), bytes_of(t, TEXT), simulator_table(t), table_words(t),
                          simulator_list(t), bytes_of(t, LIST) / 2);
    return (answer){.number = read.number, .counts = read.counts, .variables = read.variables};
}

static answer library_reads_beginners(const twice *t)
{
    chudravik_read_answer read =
        chudravik_read_beginners(of_library(t, TEXT), bytes_of(t, TEXT), library_table(t), table_words(t));
    return (answer){.number = read.number, .counts = read.counts};
}

static answer simulator_reads_beginners(const twice *t)
{
    chudravik_read_answer read =
        simulate_read_beginners(of_simulator(t, TEXT), bytes_of(t, TEXT), simulator_table(t), table_words(t));
    return (answer){.number = read.number, .counts = read.counts};
}

static answer library_writes(const twice *t)
{
    chudravik_write_answer write =
        chudravik_write(t->counts, library_table(t), table_words(t), of_library(t, TEXT), bytes_of(t, TEXT));
    return (answer){.number = write.number, .bytes = write.bytes};
}

static answer simulator_writes(const twice *t)
{
    chudravik_write_answer write =
        simulate_write(t->counts, simulator_table(t), table_words(t), of_simulator(t, TEXT), bytes_of(t, TEXT));
    return (answer){.number = write.number, .bytes = write.bytes};
}

static answer library_reads_binary(const twice *t)
{
    chudravik_read_answer read =
        chudravik_read_binary(of_library(t, TEXT), bytes_of(t, TEXT), library_table(t), table_words(t));
    return (answer){.number = read.number, .counts = read.counts};
}

static answer simulator_reads_binary(const twice *t)
{
    chudravik_read_answer read =
        simulate_read_binary(of_simulator(t, TEXT), bytes_of(t, TEXT), simulator_table(t), table_words(t));
    return (answer){.number = read.number, .counts = read.counts};
}

static answer library_writes_binary(const twice *t)
{
    chudravik_write_answer write =
        chudravik_write_binary(t->counts, library_table(t), table_words(t), of_library(t, TEXT), bytes_of(t, TEXT));
    return (answer){.number = write.number, .bytes = write.bytes};
}

static answer simulator_writes_binary(const twice *t)
{
    chudravik_write_answer write =
        simulate_write_binary(t->counts, simulator_table(t), table_words(t), of_simulator(t, TEXT), bytes_of(t, TEXT));
    return (answer){.number = write.number, .bytes = write.bytes};
}

static answer library_ticks(const twice *t)
{
    uint32_t number = chudravik_tick(t->counts, library_table(t), table_words(t), of_library(t, STATE),
                                     bytes_of(t, STATE), of_library(t, SWITCHES), bytes_of(t, SWITCHES),
                                     of_library(t, NEXT), bytes_of(t, NEXT), of_library(t, LAMPS), bytes_of(t, LAMPS));
    return (answer){.number = number};
}

static answer simulator_ticks(const twice *t)
{
    uint32_t number =
        simulate_tick(t->counts, simulator_table(t), table_words(t), of_simulator(t, STATE), bytes_of(t, STATE),
                      of_simulator(t, SWITCHES), bytes_of(t, SWITCHES), of_simulator(t, NEXT), bytes_of(t, NEXT),
                      of_simulator(t, LAMPS), bytes_of(t, LAMPS));
    return (answer){.number = number};
}

static answer library_chains(const twice *t)
{
    chudravik_chain_answer chain = chudravik_chain(t->counts, library_table(t), table_words(t), t->with.w,
                                                   of_library(t, CUBES), bytes_of(t, CUBES));
    return (answer){.number = chain.number, .cubes = chain.cubes, .back = chain.back};
}

static answer simulator_chains(const twice *t)
{
    chudravik_chain_answer chain = simulate_chain(t->counts, simulator_table(t), table_words(t), t->with.w,
                                                  of_simulator(t, CUBES), bytes_of(t, CUBES));
    return (answer){.number = chain.number, .cubes = chain.cubes, .back = chain.back};
}

static answer library_chains_beginners(const twice *t)
{
    chudravik_chain_answer chain = chudravik_chain_beginners(t->counts, library_table(t), table_words(t),
                                                             of_library(t, CUBES), bytes_of(t, CUBES));
    return (answer){.number = chain.number, .cubes = chain.cubes, .back = chain.back};
}

static answer simulator_chains_beginners(const twice *t)
{
    chudravik_chain_answer chain = simulate_chain_beginners(t->counts, simulator_table(t), table_words(t),
                                                            of_simulator(t, CUBES), bytes_of(t, CUBES));
    return (answer){.number = chain.number, .cubes = chain.cubes, .back = chain.back};
}

static answer library_judges(const twice *t)
{
    chudravik_judge_answer judge =
        chudravik_judge(t->counts, library_table(t), table_words(t), of_library(t, CUBES), bytes_of(t, CUBES), t->with.n,
                        t->with.j, of_library(t, VERDICT), bytes_of(t, VERDICT), of_library(t, SETTLED),
                        bytes_of(t, SETTLED));
    return (answer){.number = judge.number, .settled = judge.settled};
}

static answer simulator_judges(const twice *t)
{
    chudravik_judge_answer judge =
        simulate_judge(t->counts, simulator_table(t), table_words(t), of_simulator(t, CUBES), bytes_of(t, CUBES),
                       t->with.n, t->with.j, of_simulator(t, VERDICT), bytes_of(t, VERDICT), of_simulator(t, SETTLED),
                       bytes_of(t, SETTLED));
    return (answer){.number = judge.number, .settled = judge.settled};
}

static answer library_covers(const twice *t)
{
    chudravik_cover_answer cover =
        chudravik_cover(t->counts, library_table(t), table_words(t), of_library(t, CUBES), bytes_of(t, CUBES), t->with.n,
                        of_library(t, VERDICT), bytes_of(t, VERDICT));
    return (answer){.number = cover.number, .cube = cover.cube};
}

static answer simulator_covers(const twice *t)
{
    chudravik_cover_answer cover =
        simulate_cover(t->counts, simulator_table(t), table_words(t), of_simulator(t, CUBES), bytes_of(t, CUBES), t->with.n,
                       of_simulator(t, VERDICT), bytes_of(t, VERDICT));
    return (answer){.number = cover.number, .cube = cover.cube};
}

static answer library_explains(const twice *t)
{
    uint32_t number = chudravik_why(t->counts, library_table(t), table_words(t), of_library(t, STATE), bytes_of(t, STATE),
                                    t->with.lamp, of_library(t, REASON), bytes_of(t, REASON));
    return (answer){.number = number};
}

static answer simulator_explains(const twice *t)
{
    uint32_t number = simulate_why(t->counts, simulator_table(t), table_words(t), of_simulator(t, STATE),
                                   bytes_of(t, STATE), t->with.lamp, of_simulator(t, REASON), bytes_of(t, REASON));
    return (answer){.number = number};
}

static answer library_merges(const twice *t)
{
    uint32_t number = chudravik_merge(t->with.fields, of_library(t, ONE), bytes_of(t, ONE), of_library(t, OTHER),
                                      bytes_of(t, OTHER), of_library(t, MERGED), bytes_of(t, MERGED));
    return (answer){.number = number};
}

static answer simulator_merges(const twice *t)
{
    uint32_t number = simulate_merge(t->with.fields, of_simulator(t, ONE), bytes_of(t, ONE), of_simulator(t, OTHER),
                                     bytes_of(t, OTHER), of_simulator(t, MERGED), bytes_of(t, MERGED));
    return (answer){.number = number};
}

typedef answer call_of(const twice *t);

static call_of *const by_library[CALLS] = {
    [READ] = library_reads,   [READ_ANY] = library_reads_any,         [READ_BINARY] = library_reads_binary,
    [WRITE] = library_writes, [WRITE_BINARY] = library_writes_binary, [TICK] = library_ticks,
    [CHAIN] = library_chains, [JUDGE] = library_judges,               [COVER] = library_covers,
    [WHY] = library_explains, [MERGE] = library_merges, [READ_BEGINNERS] = library_reads_beginners, [CHAIN_BEGINNERS] = library_chains_beginners,
};
static call_of *const by_simulator[CALLS] = {
    [READ] = simulator_reads,   [READ_ANY] = simulator_reads_any,         [READ_BINARY] = simulator_reads_binary,
    [WRITE] = simulator_writes, [WRITE_BINARY] = simulator_writes_binary, [TICK] = simulator_ticks,
    [CHAIN] = simulator_chains, [JUDGE] = simulator_judges,               [COVER] = simulator_covers,
    [WHY] = simulator_explains, [MERGE] = simulator_merges,
    [READ_BEGINNERS] = simulator_reads_beginners, [CHAIN_BEGINNERS] = simulator_chains_beginners,
};

/* ---- what is compared ---- */

static bool differs(twice *t, const char *form, ...)
{
    va_list rest;
    va_start(rest, form);
    vsnprintf(t->difference, sizeof t->difference, form, rest);
    va_end(rest);
    return false;
}

static bool same_number(twice *t, const char *name, size_t library, size_t simulator)
{
    return library == simulator || differs(t, "%s: library %zu, simulator %zu", name, library, simulator);
}

static bool same_answers(twice *t)
{
    const answer *l = &t->library, *s = &t->simulator;
    return same_number(t, "number", l->number, s->number) &&
           same_number(t, "I", l->counts.inputs, s->counts.inputs) &&
           same_number(t, "L", l->counts.latches, s->counts.latches) &&
           same_number(t, "O", l->counts.lamps, s->counts.lamps) &&
           same_number(t, "A", l->counts.gates, s->counts.gates) &&
           same_number(t, "B", l->counts.bads, s->counts.bads) &&
           same_number(t, "C", l->counts.constraints, s->counts.constraints) &&
           same_number(t, "M", l->variables, s->variables) && same_number(t, "bytes", l->bytes, s->bytes) &&
           same_number(t, "n", l->cubes, s->cubes) && same_number(t, "j", l->back, s->back) &&
           same_number(t, "s", l->settled, s->settled) && same_number(t, "cube", l->cube, s->cube);
}

static bool same_bytes(twice *t, enum role role, const char *complaint, const uint8_t *due)
{
    const lent *l = &t->lent[role];
    const uint8_t *is = l->library.start;
    size_t i = 0;
    if (l->bytes == 0 || memcmp(is, due, l->bytes) == 0)
        return true;
    while (is[i] == due[i])
        i++;
    return differs(t, "%s %s: byte %zu is %02x, not %02x", role_names[role], complaint, i, is[i], due[i]);
}

static bool same_buffer(twice *t, enum role role)
{
    const lent *l = &t->lent[role];
    if (l->given && !same_bytes(t, role, "was given, and the library changed it", l->before))
        return false;
    return same_bytes(t, role, "is not as the simulator left it", l->simulated);
}

static bool same_buffers(twice *t)
{
    for (size_t role = 0; role < ROLES; role++)
        if (t->lent[role].used && !same_buffer(t, (enum role)role))
            return false;
    return true;
}

static bool whole_beyond(twice *t)
{
    for (size_t role = 0; role < ROLES; role++)
        if (t->lent[role].used && !guarded_whole(&t->lent[role].library))
            return differs(t, "%s: a canary beyond the buffer has changed", role_names[role]);
    return true;
}

bool twice_make(twice *t)
{
    t->library = by_library[t->call](t);
    t->simulator = by_simulator[t->call](t);
    t->made[t->call]++;
    t->accepted[t->call] += t->library.number == CHUDRAVIK_ACCEPTED;
    return same_answers(t) && same_buffers(t) && whole_beyond(t);
}

bool twice_again(twice *t)
{
    t->library = by_library[t->call](t);
    return same_answers(t) && same_buffers(t);
}

/* ---- failure ---- */

static void show_buffer(const char *name, const lent *l)
{
    fprintf(stderr, "  %s%s: %zu bytes:", name, l->null ? " (null)" : "", l->bytes);
    for (size_t i = 0; i < l->bytes && i < 64; i++)
        fprintf(stderr, " %02x", l->before[i]);
    fputs(l->bytes > 64 ? " ..\n" : "\n", stderr);
}

void twice_show(const twice *t)
{
    const chudravik_counts *c = &t->counts;
    fprintf(stderr, "  call %s, I %zu, L %zu, O %zu, A %zu, B %zu, C %zu, w %zu, n %zu, j %zu, lamp %zu, fields %zu\n",
            call_names[t->call], c->inputs, c->latches, c->lamps, c->gates, c->bads, c->constraints, t->with.w, t->with.n,
            t->with.j, t->with.lamp, t->with.fields);
    for (size_t role = 0; role < ROLES; role++)
        if (t->lent[role].used)
            show_buffer(role_names[role], &t->lent[role]);
}

enum role twice_near(const twice *t, const void *address)
{
    for (size_t role = 0; role < ROLES; role++)
        if (guarded_near(&t->lent[role].library, address))
            return (enum role)role;
    return ROLES;
}
