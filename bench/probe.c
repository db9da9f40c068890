// The same probe in plain C: relaxed loads, one compare-exchange at a vacant place.
// probe BITS LOAD THREADS LOOKUPS prints what `bench_trees table` prints: nanoseconds and counts of inserts and of hits, and the sum of the names.
#define _POSIX_C_SOURCE 200809L
#include <pthread.h>
#include <stdatomic.h>
#include <stdint.h>
#include <stdio.h>
#include <stdlib.h>
#include <time.h>

#define SPREAD 11400714819323198485ull

static _Atomic uint64_t *words;
static uint64_t count;

// The name of a word, or 0 where every place holds another.
static uint32_t intern(uint64_t word) {
    uint64_t place = ((word >> 32) * 2654435761ull + (uint32_t)word * 2246822519ull) % count;
    for (uint64_t step = 0; step < count; step++) {
        uint64_t found = atomic_load_explicit(&words[2 + place], memory_order_relaxed);
        if (found == 0 &&
            atomic_compare_exchange_strong_explicit(&words[2 + place], &found, word, memory_order_relaxed, memory_order_relaxed))
            return (uint32_t)(2 + place);
        if (found == word)
            return (uint32_t)(2 + place);
        place = place + 1 == count ? 0 : place + 1;
    }
    return 0;
}

struct work {
    int hits;
    uint64_t from, to, stored, count, seed, sum;
};

__attribute__((noinline)) static uint64_t insert(uint64_t from, uint64_t to) {
    uint64_t sum = 0;
    for (uint64_t i = from; i < to; i++) {
        uint64_t word = (i + 1) * SPREAD;
        if (word != 0)
            sum += intern(word);
    }
    return sum;
}

__attribute__((noinline)) static uint64_t hit(uint64_t stored, uint64_t count, uint64_t seed) {
    uint64_t sum = 0, state = seed;
    for (uint64_t i = 0; i < count; i++) {
        state = state * 6364136223846793005ull + 1442695040888963407ull;
        uint64_t word = (((state >> 32) * stored >> 32) + 1) * SPREAD;
        if (word != 0)
            sum += intern(word);
    }
    return sum;
}

static void *run(void *arg) {
    struct work *work = arg;
    work->sum = work->hits ? hit(work->stored, work->count, work->seed) : insert(work->from, work->to);
    return 0;
}

static void halve(struct work all, struct work *left, struct work *right) {
    *left = *right = all;
    left->to = right->from = all.from + (all.to - all.from) / 2;
    left->count = right->count = all.count / 2;
    right->seed = all.seed + 12345;
}

static uint64_t share(struct work all, uint64_t threads) {
    if (threads != 4) {
        run(&all);
        return all.sum;
    }
    struct work halves[2], works[4];
    pthread_t handles[4];
    halve(all, &halves[0], &halves[1]);
    halve(halves[0], &works[0], &works[1]);
    halve(halves[1], &works[2], &works[3]);
    for (int i = 1; i < 4; i++)
        pthread_create(&handles[i], 0, run, &works[i]);
    run(&works[0]);
    for (int i = 1; i < 4; i++)
        pthread_join(handles[i], 0);
    return works[0].sum + works[1].sum + works[2].sum + works[3].sum;
}

struct deal {
    struct work all;
    uint64_t threads, sum;
};

static uint64_t share_tree(struct work all, uint64_t threads);

static void *deal(void *arg) {
    struct deal *deal = arg;
    deal->sum = share_tree(deal->all, deal->threads);
    return 0;
}

// The same with half of the work in a thread of its own, which starts the next in turn, as two nested joins do.
static uint64_t share_tree(struct work all, uint64_t threads) {
    if (threads < 2) {
        run(&all);
        return all.sum;
    }
    struct work halves[2];
    halve(all, &halves[0], &halves[1]);
    struct deal second = {halves[1], threads / 2, 0};
    pthread_t handle;
    pthread_create(&handle, 0, deal, &second);
    uint64_t first = share_tree(halves[0], threads / 2);
    pthread_join(handle, 0);
    return first + second.sum;
}

static uint64_t now(void) {
    struct timespec t;
    clock_gettime(CLOCK_MONOTONIC, &t);
    return t.tv_sec * 1000000000ull + t.tv_nsec;
}

int main(int argc, char **argv) {
    if (argc < 5)
        return 2;
    uint64_t places = 1ull << atoi(argv[1]);
    uint64_t stored = places * strtoull(argv[2], 0, 10) / 100;
    uint64_t threads = strtoull(argv[3], 0, 10);
    uint64_t lookups = strtoull(argv[4], 0, 10);
    uint64_t (*shared)(struct work, uint64_t) = argc > 5 ? share_tree : share;
    uint64_t batch = places / 20, before = stored > batch ? stored - batch : 0;
    count = places - 2;
    // Written once, as the table is, so that no page is new to the probes.
    words = malloc((places + (1 << 20)) * 8);
    for (uint64_t i = 0; i < places + (1 << 20); i++)
        atomic_store_explicit(&words[i], 0, memory_order_relaxed);
    uint64_t sum = share((struct work){.to = before}, 1);
    uint64_t start = now();
    sum += shared((struct work){.from = before, .to = stored}, threads);
    uint64_t inserting = now() - start;
    start = now();
    sum += shared((struct work){.hits = 1, .stored = stored, .count = lookups, .seed = 1}, threads);
    uint64_t finding = now() - start;
    printf("%llu %llu %llu %llu %llu\n", (unsigned long long)inserting, (unsigned long long)(stored - before),
           (unsigned long long)finding, (unsigned long long)lookups, (unsigned long long)sum);
    return 0;
}
