// Plain C loops of the formulas of leaf_block, and the time of each for a block: the least of several rounds.
#include <stdint.h>
#include <stdio.h>
#include <string.h>
#include <time.h>

#define BLOCKS 10000000
#define ROUNDS 15
#define ROWS 0x0101010101010101ULL
#define INLINE static inline __attribute__((always_inline))
#define APART __attribute__((noinline))

static volatile uint64_t blocks = BLOCKS;

INLINE uint64_t next(uint64_t x) { return x * 6364136223846793005ULL + 1442695040888963407ULL; }

// Column k of a times row k of b, for the eight k.
INLINE uint64_t compose_product(uint64_t a, uint64_t b) {
    uint64_t all = 0;
    for (int k = 0; k < 8; k++) all |= ((a >> k) & ROWS) * ((b >> (8 * k)) & 255);
    return all;
}

// Column k of a spread over its rows, and row k of b spread over all rows.
INLINE uint64_t compose_masks(uint64_t a, uint64_t b) {
    uint64_t all = 0;
    for (int k = 0; k < 8; k++) all |= (((a >> k) & ROWS) * 255) & (((b >> (8 * k)) & 255) * ROWS);
    return all;
}

// The rows as bytes.
INLINE uint64_t compose_rows(uint64_t a, uint64_t b) {
    uint8_t x[8], y[8], rows[8] = {0};
    memcpy(x, &a, 8);
    memcpy(y, &b, 8);
    for (int k = 0; k < 8; k++)
        for (int i = 0; i < 8; i++) rows[i] |= -((x[i] >> k) & 1) & y[k];
    uint64_t all;
    memcpy(&all, rows, 8);
    return all;
}

INLINE uint64_t transpose_swaps(uint64_t x) {
    uint64_t t;
    t = (x ^ (x >> 7)) & 0x00AA00AA00AA00AAULL;
    x = x ^ t ^ (t << 7);
    t = (x ^ (x >> 14)) & 0x0000CCCC0000CCCCULL;
    x = x ^ t ^ (t << 14);
    t = (x ^ (x >> 28)) & 0x00000000F0F0F0F0ULL;
    return x ^ t ^ (t << 28);
}

#define TWO(name)                                                                                                \
    APART uint64_t name##_each(uint64_t count) {                                                                 \
        uint64_t sum = 0, x = 88172645463325252ULL;                                                              \
        for (uint64_t i = 0; i < count; i++) {                                                                   \
            uint64_t y = next(x);                                                                                \
            sum += name(x, y);                                                                                   \
            x = y;                                                                                               \
        }                                                                                                        \
        return sum;                                                                                              \
    }                                                                                                            \
    APART uint64_t name##_chain(uint64_t count) {                                                                \
        uint64_t all = 88172645463325252ULL;                                                                     \
        for (uint64_t i = 0; i < count; i++) all = name(all ^ i, i * 11400714819323198485ULL);                   \
        return all;                                                                                              \
    }

TWO(compose_product)
TWO(compose_masks)
TWO(compose_rows)

APART uint64_t transpose_swaps_each(uint64_t count) {
    uint64_t sum = 0, x = 88172645463325252ULL;
    for (uint64_t i = 0; i < count; i++) {
        x = next(x);
        sum += transpose_swaps(x);
    }
    return sum;
}

APART uint64_t transpose_swaps_chain(uint64_t count) {
    uint64_t all = 88172645463325252ULL;
    for (uint64_t i = 0; i < count; i++) all = transpose_swaps(all) + i;
    return all;
}

static double now(void) {
    struct timespec t;
    clock_gettime(CLOCK_MONOTONIC, &t);
    return t.tv_sec * 1e9 + t.tv_nsec;
}

static uint64_t sum;

static double least(uint64_t (*work)(uint64_t)) {
    double best = 1e18;
    for (int round = 0; round < ROUNDS; round++) {
        double start = now();
        sum ^= work(blocks);
        double time = now() - start;
        if (time < best) best = time;
    }
    return best / BLOCKS;
}

#define SHOW(name) printf("%s %-16s %6.2f ns each, %6.2f ns chained\n", COMPILER, #name, least(name##_each), least(name##_chain))

int main(void) {
    SHOW(compose_product);
    SHOW(compose_masks);
    SHOW(compose_rows);
    SHOW(transpose_swaps);
    fprintf(stderr, "%016llx\n", (unsigned long long)sum);
    return 0;
}
