/* Calls from several threads at once: threads CALLS SEED CORPUS
 *
 * Each thread makes so many calls in memory of its own, each a string of the corpus as it is or with some bytes changed
 * by chance, to the library and to the simulator (encoded.h), and each again and again, so that the library is nearly
 * always in several of them. In between all run one circuit, whose table they share, in memory that cannot be written
 * to. Fails where anything differs, or where a call was never accepted.
 */
#include "chance.h"
#include "corpus.h"
#include "encoded.h"

#include <pthread.h>
#include <stdio.h>
#include <stdlib.h>
#include <string.h>

enum { THREADS = 8, TIMES = 64, SHARED_EVERY = 16 };

static corpus all;
static size_t calls_each;
static uint64_t seed;

typedef struct {
    pthread_t thread;
    uint64_t number;
    twice t;
    uint8_t string[CORPUS_LONGEST];
} worker;

static void fail(worker *w, const char *what)
{
    fprintf(stderr, "threads: thread %u: %s\n", (unsigned)w->number, what);
    twice_show(&w->t);
    exit(1);
}

static size_t take_string(worker *w)
{
    const corpus_string *found = &all.at[below(all.count)];
    if (found->bytes == 0)
        return 0;
    memcpy(w->string, found->string, found->bytes);
    for (size_t changes = chance(50) ? between(1, 3) : 0; changes > 0; changes--) {
        size_t place = below(found->bytes);
        w->string[place] = (uint8_t)(chance(50) ? below(256) : w->string[place] + between(0, 2) - 1);
    }
    return found->bytes;
}

/* Two latches that swap, and a lamp that is lit when both are 1. Constant, so that writing to it would be seen. */
static const chudravik_counts shared_counts = {0, 2, 1, 1, 0, 0};
static const uint16_t shared_table[] = {4, 0, 2, 1, 6, 4, 2};

static void run_shared(worker *w)
{
    uint8_t cubes[2], verdict, settled;
    size_t words = sizeof shared_table / sizeof shared_table[0];
    chudravik_chain_answer chain = chudravik_chain(shared_counts, shared_table, words, 0, cubes, sizeof cubes);
    chudravik_judge_answer judge = chudravik_judge(shared_counts, shared_table, words, cubes, sizeof cubes, chain.cubes,
                                                   chain.back, &verdict, 1, &settled, 1);
    if (chain.number != CHUDRAVIK_ACCEPTED || chain.cubes != 2 || chain.back != 0 || cubes[0] != 0x58 ||
        cubes[1] != 0x64 || judge.number != CHUDRAVIK_ACCEPTED || judge.settled != 0 || verdict != 0x40 || settled != 0)
        fail(w, "the shared circuit did not run as it must");
}

static void *work(void *given)
{
    worker *w = given;
    throw_dice(seed, w->number);
    for (size_t i = 0; i < calls_each; i++) {
        size_t bytes = take_string(w);
        if (!encoded_make(&w->t, w->string, bytes, TIMES))
            fail(w, w->t.difference);
        if (i % SHARED_EVERY == 0)
            run_shared(w);
    }
    return NULL;
}

static void must(int answer)
{
    if (answer != 0) {
        fprintf(stderr, "threads: a thread cannot be started or joined: %s\n", strerror(answer));
        exit(2);
    }
}

static size_t sum_accepted(const worker *workers, size_t call)
{
    size_t sum = 0;
    for (size_t i = 0; i < THREADS; i++)
        sum += workers[i].t.accepted[call];
    return sum;
}

int main(int argc, char **argv)
{
    static worker workers[THREADS];
    if (argc != 4) {
        fputs("usage: threads CALLS SEED CORPUS\n", stderr);
        return 2;
    }
    calls_each = strtoul(argv[1], NULL, 10);
    seed = strtoull(argv[2], NULL, 10);
    corpus_load(&all, argv[3]);
    for (size_t i = 0; i < THREADS; i++) {
        workers[i].number = i;
        twice_take_memory(&workers[i].t);
    }
    for (size_t i = 0; i < THREADS; i++)
        must(pthread_create(&workers[i].thread, NULL, work, &workers[i]));
    for (size_t i = 0; i < THREADS; i++)
        must(pthread_join(workers[i].thread, NULL));
    printf("%d threads, %zu calls each, %d times, seed %llu; accepted:", THREADS, calls_each, TIMES,
           (unsigned long long)seed);
    for (size_t call = 0; call < CALLS; call++)
        printf(" %s %zu", call_names[call], sum_accepted(workers, call));
    putchar('\n');
    for (size_t call = 0; call < CALLS; call++)
        if (sum_accepted(workers, call) == 0) {
            fprintf(stderr, "threads: %s was never accepted\n", call_names[call]);
            return 1;
        }
    return 0;
}
