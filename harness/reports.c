/* The report program from outside: its standard input, output, error and exit status, and nothing else of it.
 *
 *   reports COUNT SEED FILE.. -- COMMAND [ARG..]
 *
 * COMMAND is started anew for each input and must take all of it, print the report that is made here from the
 * simulator, nothing on standard error, and end with status 0 within 10 seconds. The inputs are the circuits in FILE..,
 * as they are and padded, those of the document, and two at the ceilings, sent in pieces of several sizes; then COUNT
 * random ones. The first that fails is kept in a file in the current folder. Exits 1 on a failure, 2 where no test was
 * made. */
#define _GNU_SOURCE
#include "chance.h"
#include "simulator.h"

#include <errno.h>
#include <fcntl.h>
#include <inttypes.h>
#include <poll.h>
#include <signal.h>
#include <spawn.h>
#include <stdarg.h>
#include <stdbool.h>
#include <stdio.h>
#include <stdlib.h>
#include <string.h>
#include <sys/ioctl.h>
#include <sys/wait.h>
#include <time.h>
#include <unistd.h>

/* "takes w = 16 and a cube buffer of 65,536 bytes" */
enum { INTERVAL = 16, CUBE_BYTES = 65536 };

enum {
    LONGEST_INPUT = 1 << 20,
    LONGEST_REPORT = 16384, /* ample: a first line, and at most 15 bytes for each of 64 lamps, 64 bad states and 512 latches */
    MOST_HEARD = 65536,     /* of what the program says; it is stopped beyond */
    MILLISECONDS_ALLOWED = 10000,
    NUMBERS = 17,       /* 0 and the document's refusals */
    COUNT_FOR_ALL = 200 /* so many random inputs have to meet the common numbers, all of them */
};

static void trouble(const char *what)
{
    fprintf(stderr, "reports: %s: %s\n", what, strerror(errno));
    exit(2);
}

/* ---- chance ---- */

static uint64_t seed, inputs_made;

static void fill_noise(uint8_t *bytes, size_t count)
{
    for (size_t i = 0; i < count; i++)
        bytes[i] = (uint8_t)draw();
}

/* ---- the input in hand ---- */

static struct {
    uint8_t byte[LONGEST_INPUT];
    size_t count;
    char name[200];
} input;

static void name_input(const char *form, ...)
{
    va_list rest;
    va_start(rest, form);
    vsnprintf(input.name, sizeof input.name, form, rest);
    va_end(rest);
}

/* Puts bytes in the place of others; does nothing where the input would grow too long. */
static void replace(size_t at, size_t old_count, const void *bytes, size_t count)
{
    if (input.count - old_count + count > sizeof input.byte)
        return;
    memmove(input.byte + at + count, input.byte + at + old_count, input.count - at - old_count);
    memcpy(input.byte + at, bytes, count);
    input.count += count - old_count;
}

static void append(const void *bytes, size_t count)
{
    replace(input.count, 0, bytes, count);
}

static void set_input(const void *bytes, size_t count)
{
    input.count = 0;
    append(bytes, count);
}

/* Noise behind a `c` line, up to the length; a longer input stays as it is. */
static void pad(size_t length)
{
    append("c\n", 2);
    if (input.count >= length)
        return;
    fill_noise(input.byte + input.count, length - input.count);
    input.count = length;
}

/* ---- the report that is due ---- */

static struct {
    char byte[LONGEST_REPORT];
    size_t count;
    uint32_t number; /* 0: the run is closed */
    bool has_lamp[3]; /* with this verdict */
    bool has_settled;
    bool has_bad;
    bool has_ended;
} due;

static void say(const char *form, ...)
{
    va_list rest;
    va_start(rest, form);
    due.count += (size_t)vsnprintf(due.byte + due.count, sizeof due.byte - due.count, form, rest);
    va_end(rest);
    if (due.count >= sizeof due.byte) {
        fputs("reports: a report is longer than any can be\n", stderr);
        exit(2);
    }
}

static void say_refusal(uint32_t number)
{
    due.number = number;
    say("refused %" PRIu32 "\n", number);
}

static const char *const WORDS[] = {
    [CHUDRAVIK_UNKNOWN] = "open", [CHUDRAVIK_LOW] = "never", [CHUDRAVIK_HIGH] = "always"};

static void say_lamps(const uint8_t *verdict, size_t lamps)
{
    for (size_t i = 0; i < lamps; i++) {
        unsigned field = CHUDRAVIK_FIELD(verdict, i);
        due.has_lamp[field] = true;
        say("lamp %zu %s\n", i, WORDS[field]);
    }
}

/* "bad states follow the lamps as `bad`, number, verdict" */
static void say_bads(const uint8_t *verdict, chudravik_counts counts)
{
    due.has_bad = counts.bads > 0;
    for (size_t i = 0; i < counts.bads; i++)
        say("bad %zu %s\n", i, WORDS[CHUDRAVIK_FIELD(verdict, counts.lamps + i)]);
}

static void say_latches(const uint8_t *settled, size_t latches)
{
    static const char values[] = {[CHUDRAVIK_UNKNOWN] = '-', [CHUDRAVIK_LOW] = '0', [CHUDRAVIK_HIGH] = '1'};
    for (size_t i = 0; i < latches; i++) {
        unsigned field = CHUDRAVIK_FIELD(settled, i);
        due.has_settled |= field != CHUDRAVIK_UNKNOWN;
        say("latch %zu %c\n", i, values[field]);
    }
}

static void say_run(chudravik_counts counts, const uint16_t *table, size_t words)
{
    static uint8_t cubes[CUBE_BYTES];
    uint8_t verdict[CHUDRAVIK_MOST_VERDICT_BYTES];
    uint8_t settled[CHUDRAVIK_RECORD_BYTES(CHUDRAVIK_MOST_LATCHES)];
    chudravik_chain_answer chain = simulate_chain(counts, table, words, INTERVAL, cubes, sizeof cubes);
    if (chain.number != CHUDRAVIK_ACCEPTED) {
        say_refusal(chain.number);
        return;
    }
    chudravik_judge_answer judge = simulate_judge(counts, table, words, cubes, sizeof cubes, chain.cubes, chain.back,
                                                  verdict, sizeof verdict, settled, sizeof settled);
    if (judge.number != CHUDRAVIK_ACCEPTED) {
        fputs("reports: the simulator refuses its own chain\n", stderr);
        exit(2);
    }
    due.has_ended = chain.back == chain.cubes;
    if (due.has_ended) /* "The report's first line is then `cubes`, n and `ended`" */
        say("cubes %zu ended\n", chain.cubes);
    else
        say("cubes %zu back %zu settled %zu\n", chain.cubes, chain.back, judge.settled);
    say_lamps(verdict, counts.lamps);
    say_bads(verdict, counts);
    say_latches(settled, counts.latches);
}

static void make_due(void)
{
    static uint16_t table[CHUDRAVIK_MOST_TABLE_WORDS];
    memset(&due, 0, sizeof due);
    chudravik_read_answer read = simulate_read(input.byte, input.count, table, CHUDRAVIK_MOST_TABLE_WORDS);
    if (read.number == CHUDRAVIK_ACCEPTED)
        say_run(read.counts, table, CHUDRAVIK_MOST_TABLE_WORDS);
    else
        say_refusal(read.number);
}

/* ---- failing ---- */

static char **command;

static void show(const char *whose, const char *bytes, size_t count)
{
    fprintf(stderr, "  %s, %zu bytes: \"", whose, count);
    for (size_t i = 0; i < count && i < 400; i++) {
        if (bytes[i] == '\n')
            fputs("\\n", stderr);
        else if (bytes[i] >= ' ' && bytes[i] <= '~')
            fputc(bytes[i], stderr);
        else
            fprintf(stderr, "\\x%02x", (uint8_t)bytes[i]);
    }
    fputs(count > 400 ? "\" ..\n" : "\"\n", stderr);
}

static void keep_input(void)
{
    char path[100];
    snprintf(path, sizeof path, "reports-seed-%" PRIu64 "-input-%" PRIu64, seed, inputs_made);
    FILE *file = fopen(path, "wb");
    if (file == NULL || fwrite(input.byte, 1, input.count, file) != input.count || fclose(file) != 0)
        trouble(path);
    fprintf(stderr, "  the input, %zu bytes, is in %s\n  again:", input.count, path);
    for (char **word = command; *word != NULL; word++)
        fprintf(stderr, " %s", *word);
    fprintf(stderr, " <%s\n", path);
}

/* ---- how an input is sent ---- */

enum way { WHOLE, SINGLE_BYTES, SEVENS, SIXTY_ONES, PAGES, RANDOM_PIECES, WAYS };

static const struct {
    const char *name;
    size_t piece;
    size_t longest; /* input that is sent so, since very many pieces only take time */
} ways[WAYS] = {
    [WHOLE] = {"whole", LONGEST_INPUT, LONGEST_INPUT},
    [SINGLE_BYTES] = {"in single bytes", 1, 2000},
    [SEVENS] = {"in pieces of 7", 7, 70000},
    [SIXTY_ONES] = {"in pieces of 61", 61, LONGEST_INPUT},
    [PAGES] = {"in pieces of 4,096", 4096, LONGEST_INPUT},
    [RANDOM_PIECES] = {"in random pieces", 0, LONGEST_INPUT},
};

static size_t piece_length(enum way way)
{
    if (way != RANDOM_PIECES)
        return ways[way].piece;
    size_t most = between(1, 4096);
    return between(1, most);
}

static enum way possible_way(size_t turn)
{
    while (ways[turn % WAYS].longest < input.count)
        turn++;
    return (enum way)(turn % WAYS);
}

/* ---- the program and what it is told and says ---- */

typedef struct {
    int from; /* -1 after its end */
    char byte[MOST_HEARD];
    size_t count;
} heard;

static struct {
    pid_t id;
    enum way way;
    int to;     /* -1 when all is sent */
    int unread; /* the other end, kept open: what the program has left in it is seen after its end, and none is lost */
    size_t sent;
    heard output, error;
    bool ended;
    int status;
    int64_t started;
} program;

static struct {
    size_t starts, pieces;
    int64_t longest;
    size_t fixed[NUMBERS], random[NUMBERS];
    size_t with_lamp[3], with_settled, with_bad, with_end;
} tally;

static int64_t milliseconds(void)
{
    struct timespec now;
    clock_gettime(CLOCK_MONOTONIC, &now);
    return (int64_t)now.tv_sec * 1000 + now.tv_nsec / 1000000;
}

/* The program leads a group of its own, so that whatever it has started ends with it. */
static void stop_program(void)
{
    if (program.ended)
        return;
    kill(-program.id, SIGKILL);
    waitpid(program.id, NULL, 0);
}

static void fail(const char *form, ...)
{
    va_list rest;
    va_start(rest, form);
    stop_program();
    fprintf(stderr, "reports: input number %" PRIu64 ", %s, sent %s: ", inputs_made, input.name,
            ways[program.way].name);
    vfprintf(stderr, form, rest);
    va_end(rest);
    fputc('\n', stderr);
    show("due", due.byte, due.count);
    show("standard output", program.output.byte, program.output.count);
    show("standard error", program.error.byte, program.error.count);
    keep_input();
    exit(1);
}

static void make_pipe(int ends[2])
{
    if (pipe2(ends, O_CLOEXEC) != 0)
        trouble("pipe");
}

/* A pipe with room for one page takes the next piece only after the one before was read to its end: so each read of the
 * program returns one piece at most. */
static void make_narrow(int end)
{
    if (fcntl(end, F_SETPIPE_SZ, 4096) < 0)
        trouble("pipe size");
}

static void must(int error)
{
    if (error != 0) {
        errno = error;
        trouble(command[0]);
    }
}

static void spawn(int in, int out, int err)
{
    extern char **environ;
    posix_spawn_file_actions_t ends;
    posix_spawnattr_t group;
    must(posix_spawn_file_actions_init(&ends));
    must(posix_spawn_file_actions_adddup2(&ends, in, STDIN_FILENO));
    must(posix_spawn_file_actions_adddup2(&ends, out, STDOUT_FILENO));
    must(posix_spawn_file_actions_adddup2(&ends, err, STDERR_FILENO));
    must(posix_spawnattr_init(&group));
    must(posix_spawnattr_setflags(&group, POSIX_SPAWN_SETPGROUP));
    must(posix_spawnattr_setpgroup(&group, 0));
    must(posix_spawnp(&program.id, command[0], &ends, &group, command, environ));
    posix_spawn_file_actions_destroy(&ends);
    posix_spawnattr_destroy(&group);
}

static void close_end(int *end)
{
    close(*end);
    *end = -1;
}

static void start_program(enum way way)
{
    int in[2], out[2], err[2];
    make_pipe(in);
    make_pipe(out);
    make_pipe(err);
    if (way != WHOLE)
        make_narrow(in[1]);
    program.way = way;
    program.sent = program.output.count = program.error.count = 0;
    program.ended = false;
    program.started = milliseconds();
    spawn(in[0], out[1], err[1]);
    close(out[1]);
    close(err[1]);
    program.to = in[1];
    program.unread = in[0];
    program.output.from = out[0];
    program.error.from = err[0];
    if (fcntl(program.to, F_SETFL, O_NONBLOCK) != 0)
        trouble("pipe flags");
    if (input.count == 0)
        close_end(&program.to);
    tally.starts++;
}

static void send_piece(void)
{
    size_t left = input.count - program.sent, piece = piece_length(program.way);
    ssize_t taken = write(program.to, input.byte + program.sent, piece < left ? piece : left);
    if (taken < 0 && errno == EAGAIN)
        return;
    if (taken < 0)
        trouble("sending");
    tally.pieces++;
    program.sent += (size_t)taken;
    if (program.sent == input.count)
        close_end(&program.to);
}

static void hear(heard *from)
{
    ssize_t got = read(from->from, from->byte + from->count, sizeof from->byte - from->count);
    if (got < 0)
        trouble("hearing");
    if (got == 0)
        close_end(&from->from);
    from->count += (size_t)got;
    if (from->count == sizeof from->byte)
        fail("it says more and more");
}

static bool all_heard(void)
{
    return program.output.from == -1 && program.error.from == -1;
}

/* After both outputs' end there is only the program's own to wait for, which is near. */
static void exchange(void)
{
    struct pollfd ends[] = {
        {.fd = program.to, .events = POLLOUT},
        {.fd = program.output.from, .events = POLLIN},
        {.fd = program.error.from, .events = POLLIN},
    };
    if (poll(ends, 3, all_heard() ? 1 : 100) < 0 && errno != EINTR)
        trouble("poll");
    if (ends[0].revents != 0)
        send_piece();
    if (ends[1].revents != 0)
        hear(&program.output);
    if (ends[2].revents != 0)
        hear(&program.error);
}

static void look_for_end(void)
{
    if (all_heard())
        program.ended = waitpid(program.id, &program.status, WNOHANG) == program.id;
    int64_t passed = milliseconds() - program.started;
    if (!program.ended && passed >= MILLISECONDS_ALLOWED)
        fail("no end within 10 seconds");
    if (passed > tally.longest)
        tally.longest = passed;
}

/* What was never sent, and what still lies in the pipe. */
static size_t count_untaken(void)
{
    int unread = 0;
    if (ioctl(program.unread, FIONREAD, &unread) != 0)
        trouble("pipe rest");
    return input.count - program.sent + (size_t)unread;
}

static size_t first_difference(const char *one, const char *other, size_t count)
{
    size_t i = 0;
    while (i < count && one[i] == other[i])
        i++;
    return i;
}

static void compare_output(void)
{
    const heard *output = &program.output;
    size_t common = output->count < due.count ? output->count : due.count;
    size_t same = first_difference(output->byte, due.byte, common);
    if (same < common)
        fail("byte %zu of its report is not the one due", same);
    if (output->count != due.count)
        fail("its report has %zu bytes, not %zu", output->count, due.count);
}

static void judge(void)
{
    if (WIFSIGNALED(program.status))
        fail("ended by signal %d", WTERMSIG(program.status));
    if (!WIFEXITED(program.status) || WEXITSTATUS(program.status) != 0)
        fail("exit status %d", WEXITSTATUS(program.status));
    if (program.error.count != 0)
        fail("something on standard error");
    size_t untaken = count_untaken();
    if (untaken != 0)
        fail("%zu bytes of the input were not taken", untaken);
    compare_output();
}

static void try_way(enum way way)
{
    start_program(way);
    while (!program.ended) {
        exchange();
        look_for_end();
    }
    judge();
    close_end(&program.unread);
}

static void count_input(size_t *numbers)
{
    inputs_made++;
    throw_dice(seed, inputs_made);
    numbers[due.number]++;
    if (due.number != CHUDRAVIK_ACCEPTED)
        return;
    for (size_t field = 0; field < 3; field++)
        tally.with_lamp[field] += due.has_lamp[field];
    tally.with_settled += due.has_settled;
    tally.with_bad += due.has_bad;
    tally.with_end += due.has_ended;
}

/* The input in hand, in every way or in one. */
static void try_every_way(void)
{
    make_due();
    for (size_t way = 0; way < WAYS; way++)
        if (input.count <= ways[way].longest)
            try_way((enum way)way);
    count_input(tally.fixed);
}

static void try_one_way(size_t *numbers, size_t turn)
{
    make_due();
    try_way(possible_way(turn));
    count_input(numbers);
}

/* ---- circuits made here ---- */

typedef struct {
    chudravik_counts counts;
    uint16_t word[CHUDRAVIK_MOST_TABLE_WORDS];
} circuit;

static size_t latch_literal(const circuit *c, size_t i)
{
    return 2 * (1 + c->counts.inputs + i);
}

static size_t gate_literal(const circuit *c, size_t i)
{
    return 2 * (1 + c->counts.inputs + c->counts.latches + i);
}

static void set_latch(circuit *c, size_t i, size_t next, size_t reset)
{
    c->word[2 * i] = (uint16_t)next;
    c->word[2 * i + 1] = (uint16_t)reset;
}

/* Bad states are literals as lamps are. A constraint is any literal, or where it must not be 0 a switch, which is X. */
static void make_lamps_and_gates(circuit *c, bool constraints_kept)
{
    size_t literals = gate_literal(c, c->counts.gates), watched = c->counts.lamps + c->counts.bads;
    uint16_t *lamp = c->word + 2 * c->counts.latches;
    uint16_t *operand = lamp + watched + c->counts.constraints;
    for (size_t i = 0; i < watched; i++)
        lamp[i] = (uint16_t)(chance(15) ? below(2) : below(literals));
    for (size_t i = 0; i < c->counts.constraints; i++)
        lamp[watched + i] = (uint16_t)(constraints_kept ? 2 + below(2 * c->counts.inputs) : below(literals));
    for (size_t i = 0; i < 2 * c->counts.gates; i++)
        operand[i] = (uint16_t)below(gate_literal(c, i / 2));
}

static void set_input_to_circuit(const circuit *c)
{
    chudravik_write_answer written =
        simulate_write(c->counts, c->word, CHUDRAVIK_MOST_TABLE_WORDS, input.byte, sizeof input.byte);
    if (written.number != CHUDRAVIK_ACCEPTED) {
        fprintf(stderr, "reports: a circuit made here is refused by %" PRIu32 "\n", written.number);
        exit(2);
    }
    input.count = written.bytes;
}

static void make_small_circuit(void)
{
    static circuit c;
    c.counts.inputs = between(0, 5);
    c.counts.latches = between(0, 14);
    c.counts.lamps = chance(10) ? 0 : between(1, 9);
    c.counts.gates = between(0, 40);
    c.counts.bads = chance(40) ? between(1, 5) : 0;
    c.counts.constraints = chance(40) ? between(1, 2) : 0;
    for (size_t i = 0; i < c.counts.latches; i++) {
        size_t next = below(gate_literal(&c, c.counts.gates));
        set_latch(&c, i, next, below(2));
    }
    make_lamps_and_gates(&c, false);
    set_input_to_circuit(&c);
    name_input("a small random circuit");
}

/* A circuit at the ceilings. The first latches make a row, each following the one before it, inverted or not; all are
 * at rest but the first, whose change goes down the row by one latch a tick. Each change is a cube that no earlier one
 * subsumes (a widened one goes on as X), so the run needs one cube more than the row has latches. The other latches
 * keep their values. There is room for 65,536 / 129 = 508 cubes: a row of 507 just closes, one of 508 gets 15. */
enum { LONGEST_ROW_CLOSED = CUBE_BYTES / CHUDRAVIK_CUBE_BYTES(CHUDRAVIK_MOST_LATCHES) - 1 };

static void make_row(size_t row)
{
    static circuit c;
    c.counts = (chudravik_counts){CHUDRAVIK_MOST_INPUTS, CHUDRAVIK_MOST_LATCHES, CHUDRAVIK_MOST_LAMPS,
                                  CHUDRAVIK_MOST_GATES,  CHUDRAVIK_MOST_BADS,    CHUDRAVIK_MOST_CONSTRAINTS};
    size_t reset = below(2);
    set_latch(&c, 0, 1 - reset, reset);
    for (size_t i = 1; i < row; i++) {
        size_t inverted = below(2);
        reset ^= inverted;
        set_latch(&c, i, latch_literal(&c, i - 1) ^ inverted, reset);
    }
    for (size_t i = row; i < CHUDRAVIK_MOST_LATCHES; i++)
        set_latch(&c, i, latch_literal(&c, i), below(2));
    make_lamps_and_gates(&c, true);
    set_input_to_circuit(&c);
    name_input("the ceilings with a row of %zu latches", row);
}

/* ---- circuits from files ---- */

typedef struct {
    const char *path;
    uint8_t *byte;
    size_t count;
} stored;

static stored *files;
static size_t file_count;

static stored load(const char *path)
{
    static uint8_t bytes[LONGEST_INPUT];
    FILE *file = fopen(path, "rb");
    if (file == NULL)
        trouble(path);
    stored made = {.path = path, .count = fread(bytes, 1, sizeof bytes, file)};
    if (ferror(file))
        trouble(path);
    fclose(file);
    made.byte = malloc(made.count + 1);
    if (made.byte == NULL)
        trouble(path);
    memcpy(made.byte, bytes, made.count);
    return made;
}

static void load_files(char **paths, size_t count)
{
    files = calloc(count, sizeof *files);
    if (files == NULL)
        trouble("files");
    for (file_count = 0; file_count < count; file_count++)
        files[file_count] = load(paths[file_count]);
}

static const stored *take_file(size_t number)
{
    const stored *file = &files[number % file_count];
    set_input(file->byte, file->count);
    return file;
}

/* ---- damage ---- */

static const char EDGES[][7] = {
    "0",    "1",    "2",    "3",    "63",   "64",   "65",   "255",   "256",   "257",   "511",   "512",
    "513",  "3326", "3327", "3328", "4094", "4095", "4096", "8190",  "8191",  "8192",  "9999",  "10000",
    "65535", "65536", "65537", "99999", "100000", "00", "01", "007", "", "+1", "-1",
};

enum { EDGE_COUNT = sizeof EDGES / sizeof EDGES[0] };

static bool is_digit(size_t at)
{
    return at < input.count && input.byte[at] >= '0' && input.byte[at] <= '9';
}

static void change_byte(void)
{
    static const char likely[] = "0123456789 \nac\t\r";
    if (input.count == 0)
        return;
    size_t at = below(input.count);
    input.byte[at] = (uint8_t)(chance(60) ? (uint8_t)likely[below(sizeof likely - 1)] : below(256));
}

static void delete_byte(void)
{
    if (input.count != 0)
        replace(below(input.count), 1, "", 0);
}

static void insert_byte(void)
{
    static const char likely[] = "0123456789 \nc";
    uint8_t byte = (uint8_t)(chance(60) ? (uint8_t)likely[below(sizeof likely - 1)] : below(256));
    replace(below(input.count + 1), 0, &byte, 1);
}

static void cut(void)
{
    input.count = below(input.count + 1);
}

typedef struct {
    size_t start, end;
} span;

/* The line that holds the byte, its byte 10 included. */
static span line_around(size_t at)
{
    span line = {at, at};
    while (line.start > 0 && input.byte[line.start - 1] != '\n')
        line.start--;
    while (line.end < input.count && input.byte[line.end] != '\n')
        line.end++;
    line.end += line.end < input.count;
    return line;
}

static void swap_lines(void)
{
    static uint8_t before[LONGEST_INPUT];
    if (input.count == 0)
        return;
    span one = line_around(below(input.count)), other = line_around(below(input.count));
    if (one.start == other.start)
        return;
    span first = one.start < other.start ? one : other, last = one.start < other.start ? other : one;
    size_t length = input.count;
    memcpy(before, input.byte, length);
    input.count = first.start;
    append(before + last.start, last.end - last.start);
    append(before + first.end, last.start - first.end);
    append(before + first.start, first.end - first.start);
    append(before + last.end, length - last.end);
}

/* The number that the byte is in; nothing where it is in none. */
static span number_around(size_t at)
{
    span number = {at, at};
    while (number.start > 0 && is_digit(number.start - 1))
        number.start--;
    while (is_digit(number.end))
        number.end++;
    return number;
}

static size_t value_of(span number)
{
    size_t value = 0;
    for (size_t i = number.start; i < number.end && value < 100000; i++)
        value = 10 * value + (size_t)(input.byte[i] - '0');
    return value;
}

static void put_number(span number, size_t value)
{
    char digits[24];
    int count = snprintf(digits, sizeof digits, "%zu", value);
    replace(number.start, number.end - number.start, digits, (size_t)count);
}

static void put_edge(span number)
{
    const char *edge = EDGES[below(EDGE_COUNT)];
    replace(number.start, number.end - number.start, edge, strlen(edge));
}

static void put_neighbour(span number)
{
    size_t value = value_of(number);
    put_number(number, value > 0 && chance(40) ? value - 1 : value + between(1, 2));
}

/* An edge of the document's, one around 2M + 1, or the number's own neighbour. */
static void change_number_at(size_t at)
{
    while (at < input.count && !is_digit(at))
        at++;
    if (at == input.count)
        return;
    span number = number_around(at);
    size_t choice = below(3);
    if (choice == 0)
        put_edge(number);
    else if (choice == 1)
        put_number(number, 2 * value_of(number_around(4)) + below(4));
    else
        put_neighbour(number);
}

static void change_number(void)
{
    change_number_at(below(input.count));
}

static void change_count(void)
{
    change_number_at(below(line_around(0).end));
}

/* ---- kinds of random input ---- */

static const struct {
    const char *name;
    void (*done)(void);
} DAMAGES[] = {{"a byte changed", change_byte}, {"a byte deleted", delete_byte}, {"a byte inserted", insert_byte},
               {"cut", cut},                    {"lines swapped", swap_lines},   {"a number changed", change_number},
               {"a count changed", change_count}};

enum { DAMAGE_COUNT = sizeof DAMAGES / sizeof DAMAGES[0] };

static void damage(const char *what)
{
    size_t first = below(DAMAGE_COUNT), more = chance(30) ? between(1, 3) : 0;
    DAMAGES[first].done();
    for (size_t i = 0; i < more; i++)
        DAMAGES[below(DAMAGE_COUNT)].done();
    name_input("%s, %s, and %zu damages more", what, DAMAGES[first].name, more);
}

static void damage_file(size_t turn)
{
    damage(take_file(turn)->path);
}

static void damage_circuit(size_t turn)
{
    (void)turn;
    make_small_circuit();
    damage("a small random circuit");
}

static void pad_file(size_t turn)
{
    const stored *file = take_file(turn);
    size_t length = chance(50) ? between(59900, 60100) : between(100, 140000);
    pad(length);
    name_input("%s, padded", file->path);
}

static void follow_file(size_t turn)
{
    static const char *const behind[] = {"c\n",  "c",       "\n",  "x\n",  "c \n",  " c\n",
                                         "cc\n", "i0 go\n", "0\n", "\r\n", "c\r\n"};
    const stored *file = take_file(turn);
    const char *rest = behind[below(sizeof behind / sizeof behind[0])];
    for (size_t line = 0; line < input.count; line = line_around(line).end)
        if (input.byte[line] == 'c')
            input.count = line;
    append(rest, strlen(rest));
    name_input("%s, with other bytes behind its last line", file->path);
}

static void make_noise(size_t turn)
{
    static const char *const fronts[] = {"", "", "aag ", "aag 1 0 1 0 0\n", "aag 0 0 0 0 0\n", "aag 0 0 0 0 0\nc\n"};
    const char *front = fronts[turn % (sizeof fronts / sizeof fronts[0])];
    size_t length = chance(70) ? below(60) : below(70000);
    set_input(front, strlen(front));
    fill_noise(input.byte + input.count, length);
    input.count += length;
    name_input("noise");
}

static void make_circuit(size_t turn)
{
    (void)turn;
    make_small_circuit();
}

static void make_ceilings(size_t turn)
{
    make_row(turn % 2 == 0 ? between(LONGEST_ROW_CLOSED + 1, CHUDRAVIK_MOST_LATCHES) : between(1, LONGEST_ROW_CLOSED));
}

static void make_random_input(size_t turn)
{
    static void (*const kinds[])(size_t) = {
        damage_file, make_circuit, damage_file,  pad_file,       damage_file, damage_circuit, make_noise,
        follow_file, damage_file,  make_circuit, damage_circuit, damage_file, make_ceilings,
    };
    enum { KINDS = sizeof kinds / sizeof kinds[0] };
    kinds[turn % KINDS](turn / KINDS + turn % KINDS);
}

/* ---- all inputs ---- */

#define S "aag 3 0 2 1 1/2 4/4 2 1/6/6 4 2/"

static const char REPORT_ON_S[] = "cubes 2 back 0 settled 0\nlamp 0 never\nlatch 0 -\nlatch 1 -\n";

/* The document's, with its `/` for byte 10; then one each for 3, 4, 5 and 9, which none of those gets; a latch that toggles,
 * without a lamp and with one; S with a bad state, and under constraints: one that it keeps, one that is 0 at the start, and
 * one that is 0 after a tick; bad states alone, constraints alone, first lines of eight, nine and ten numbers, B = 65, J and F
 * that are not 0; and a switch that is assumed to be on, which ends nothing. */
static const char *const BENCH[] = {
    "aag 1 0 1 1 0/2 3/2/",
    "aag 3 1 1 1 1/2/4 7/4/6 3 5/",
    "aag 2 1 0 1 1/2/4/4 2 3/",
    S,
    "aag 1 0 1 1 0/2 1/2/",
    "aag 5 0 2 1 3/2 3/4 11/10/6 4 3/8 5 2/10 9 7/",
    "aag 0 0 0 0 0/",
    "aag 1 0 1 0 0/2 2 2/",
    "aag 2 1 0 0 1/2/4 4 2/",
    "aag 2 1 0 0 1/2/4 6 2/",
    "aag 1 0 0 0 0/",
    "aag 1 1 0 0 0/",
    "aag 1 1 0 0 0/4/",
    "aag 1 1 0 0 0/2/2/",
    "aag 1 0 1 0 0/2 3/",
    "aag 1 0 1 1 0/2 3/0/",
    "aag 3 0 2 1 1 1/2 4/4 2 1/6/2/6 4 2/",
    "aag 3 0 2 1 1 0 1/2 4/4 2 1/6/7/6 4 2/",
    "aag 3 0 2 1 1 1 1/2 4/4 2 1/6/2/2/6 4 2/",
    "aag 3 0 2 1 1 1 1/2 4/4 2 1/6/2/3/6 4 2/",
    "aag 3 0 2 0 1 2/2 4/4 2 1/6/7/6 4 2/",
    "aag 1 0 1 0 0 0 1/2 3/2/",
    "aag 1 0 1 1 0 0 0 0/2 3/2/",
    "aag 1 0 1 1 0 0 0 0 0/2 3/2/",
    "aag 1 0 1 1 0 0 0 0 0 0/2 3/2/",
    "aag 1 0 1 1 0 65/2 3/2/",
    "aag 1 0 1 1 0 0 0 1/2 3/2/",
    "aag 1 0 1 1 0 0 0 0 1/2 3/2/",
    "aag 2 1 1 1 0 0 1/2/4 2/4/2/",
};

static void take_bench(const char *text)
{
    set_input(text, strlen(text));
    for (size_t i = 0; i < input.count; i++)
        if (input.byte[i] == '/')
            input.byte[i] = '\n';
    name_input("%s", text);
}

/* "For S it prints exactly": what is made here has to be that too. */
static void check_own_report(void)
{
    take_bench(S);
    make_due();
    if (due.count != strlen(REPORT_ON_S) || memcmp(due.byte, REPORT_ON_S, due.count) != 0) {
        fputs("reports: the report made here on S is not the document's\n", stderr);
        exit(1);
    }
}

static void try_files(void)
{
    for (size_t i = 0; i < file_count; i++) {
        const stored *file = take_file(i);
        name_input("%s", file->path);
        try_every_way();
    }
}

static void try_bench(void)
{
    set_input("", 0);
    name_input("nothing");
    try_every_way();
    for (size_t i = 0; i < sizeof BENCH / sizeof BENCH[0]; i++) {
        take_bench(BENCH[i]);
        try_every_way();
    }
}

/* Around the longest text that is read, around what a buffer of 65,536 bytes holds, and far beyond. */
static void try_padded(void)
{
    static const size_t lengths[] = {59999, 60000, 60001, 65535, 65536, 65537, 1000000};
    enum { LENGTHS = sizeof lengths / sizeof lengths[0] };
    for (size_t i = 0; i < file_count * LENGTHS; i++) {
        const stored *file = take_file(i / LENGTHS);
        pad(lengths[i % LENGTHS]);
        name_input("%s, padded to %zu bytes", file->path, lengths[i % LENGTHS]);
        try_one_way(tally.fixed, i);
    }
}

static void try_ceilings(void)
{
    make_row(LONGEST_ROW_CLOSED);
    try_every_way();
    make_row(LONGEST_ROW_CLOSED + 1);
    try_every_way();
}

static void try_random(size_t count)
{
    for (size_t i = 0; i < count; i++) {
        make_random_input(i);
        try_one_way(tally.random, below(WAYS));
    }
}

/* ---- what was met ---- */

static void print_tally(void)
{
    printf("reports: %" PRIu64 " inputs, %zu starts, %zu pieces; the longest start took %" PRId64 " ms\n", inputs_made,
           tally.starts, tally.pieces, tally.longest);
    for (size_t number = 0; number < NUMBERS; number++)
        if (tally.fixed[number] + tally.random[number] != 0)
            printf("  number %2zu: %5zu fixed, %6zu random\n", number, tally.fixed[number], tally.random[number]);
    printf("  reports with a lamp never: %zu, always: %zu, open: %zu; with a settled latch: %zu; with bad states: %zu; "
           "ended: %zu\n",
           tally.with_lamp[CHUDRAVIK_LOW], tally.with_lamp[CHUDRAVIK_HIGH], tally.with_lamp[CHUDRAVIK_UNKNOWN],
           tally.with_settled, tally.with_bad, tally.with_end);
}

/* Judged by the random inputs alone, since the fixed ones are there to meet them. */
static bool all_numbers_met(void)
{
    static const size_t due_numbers[] = {0, 1, 2, 3, 4, 9, 15, 16};
    bool all = true;
    for (size_t i = 0; i < sizeof due_numbers / sizeof due_numbers[0]; i++)
        if (tally.random[due_numbers[i]] == 0) {
            fprintf(stderr, "reports: no random input met number %zu\n", due_numbers[i]);
            all = false;
        }
    return all;
}

/* ---- command line ---- */

static uint64_t number_from(const char *word)
{
    char *end;
    errno = 0;
    uint64_t number = strtoull(word, &end, 10);
    if (errno != 0 || *word < '0' || *word > '9' || *end != '\0') {
        fprintf(stderr, "reports: not a number: %s\n", word);
        exit(2);
    }
    return number;
}

static int find_dashes(int argc, char **argv)
{
    int at = 1;
    while (at < argc && strcmp(argv[at], "--") != 0)
        at++;
    return at;
}

int main(int argc, char **argv)
{
    int dashes = find_dashes(argc, argv);
    if (dashes < 4 || dashes + 1 >= argc) {
        fputs("usage: reports COUNT SEED FILE.. -- COMMAND [ARG..]\n", stderr);
        return 2;
    }
    size_t count = (size_t)number_from(argv[1]);
    seed = number_from(argv[2]);
    throw_dice(seed, inputs_made);
    command = argv + dashes + 1;
    load_files(argv + 3, (size_t)dashes - 3);
    check_own_report();
    try_bench();
    try_files();
    try_ceilings();
    try_padded();
    try_random(count);
    print_tally();
    return (count < COUNT_FOR_ALL || all_numbers_met()) && fflush(stdout) == 0 ? 0 : 1;
}
