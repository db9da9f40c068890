// The same trees, operators, probe and memory of results in plain C, for one thread and without a proof.
// plain BITS CELLS prints what `bench_trees boole` prints. Compiled with BLOCKS, dense squares of 256 rows go by their blocks, as the proved operators do; without it all go by quarters. Compiled with COUNTED, it counts: behind each operator come the nodes that it made and the words that it probed, of nodes and of results, cold.
#define _POSIX_C_SOURCE 200809L
#include <stdint.h>
#include <stdio.h>
#include <stdlib.h>
#include <string.h>
#include <time.h>

#ifdef COUNTED
#define COUNT(n) ((n)++)
#else
#define COUNT(n) ((void)0)
#endif

enum { UNION, INTER, DIFF, TRANSPOSE };
#define BOTTOM 3
#define HEIGHT 12
#define SLOTS (1u << 20)

static uint64_t *words, *memo, count, made, probes;

static uint32_t intern(uint64_t word) {
    uint64_t place = ((word >> 32) * 2654435761ull + (uint32_t)word * 2246822519ull) % count;
    for (uint64_t step = 0; step < count; step++) {
        COUNT(probes);
        if (words[2 + place] == 0) {
            COUNT(made);
            words[2 + place] = word;
            return (uint32_t)(2 + place);
        }
        if (words[2 + place] == word)
            return (uint32_t)(2 + place);
        place = place + 1 == count ? 0 : place + 1;
    }
    fprintf(stderr, "the table is full\n");
    exit(1);
}

static uint32_t pair(uint32_t left, uint32_t right) {
    return left == 0 && right == 0 ? 0 : intern(((uint64_t)left << 32) + right);
}

static uint32_t corner(uint32_t nw, uint32_t ne, uint32_t sw, uint32_t se) {
    uint32_t north = pair(nw, ne), south = pair(sw, se);
    return pair(north, south);
}

static uint32_t block(uint64_t bits) { return bits == 0 ? 0 : intern(bits); }

static uint32_t left(uint32_t name) { return (uint32_t)(words[name] >> 32); }
static uint32_t right(uint32_t name) { return (uint32_t)words[name]; }

static int is_full(int height, uint32_t name) {
    if (height == BOTTOM)
        return words[name] == UINT64_MAX;
    if (left(name) != right(name))
        return 0;
    uint32_t north = left(name);
    return left(north) == right(north) && is_full(height - 1, left(north));
}

static uint64_t asked(int op, int height, uint32_t a, uint32_t b) {
    return ((uint64_t)(a >> 10) << 47) + ((uint64_t)(b >> 10) << 33) + ((uint64_t)(op + 1) << 5) + height;
}

static uint64_t *slot(uint32_t a, uint32_t b) { return &memo[a % 1024 * 1024 + b % 1024]; }

static uint64_t swap(uint64_t x, int by, uint64_t mask) {
    uint64_t turned = (x ^ x >> by) & mask;
    return x ^ turned ^ turned << by;
}

static uint64_t block_by(int op, uint64_t a, uint64_t b) {
    switch (op) {
    case UNION: return a | b;
    case INTER: return a & b;
    case DIFF: return a & ~b;
    }
    return swap(swap(swap(a, 7, 0x00AA00AA00AA00AAull), 14, 0x0000CCCC0000CCCCull), 28, 0x00000000F0F0F0F0ull);
}

#ifdef BLOCKS
#define ROWS 8
#define PLACES 1024

static uint32_t seen[256], weight;

static void weigh(int height, uint32_t name) {
    if (weight == 0 || weight >= 42)
        return;
    if (name == 0) {
        weight = weight < 4 ? 0 : weight - 4;
        return;
    }
    if (seen[name % 256] == name)
        return;
    seen[name % 256] = name;
    weight++;
    if (height < 5)
        return;
    uint32_t north = left(name), south = right(name);
    weigh(height - 1, left(north));
    weigh(height - 1, right(north));
    weigh(height - 1, left(south));
    weigh(height - 1, right(south));
}

static int blocks_pay(uint32_t name) {
    memset(seen, 0, sizeof seen);
    weight = 12;
    weigh(ROWS, name);
    return weight >= 42;
}

static void spill(uint32_t name, int turned, uint64_t *blocks) {
    uint32_t names[PLACES] = {name};
    for (int many = 1; many < PLACES; many *= 4)
        for (int k = many - 1; k >= 0; k--) {
            uint32_t north = left(names[k]), south = right(names[k]);
            uint32_t ne = right(north), sw = left(south);
            names[4 * k] = left(north);
            names[4 * k + 1] = turned ? sw : ne;
            names[4 * k + 2] = turned ? ne : sw;
            names[4 * k + 3] = right(south);
        }
    for (int k = 0; k < PLACES; k++)
        blocks[k] = words[names[k]];
}

static uint32_t gathered(const uint64_t *blocks) {
    uint32_t names[PLACES];
    for (int k = 0; k < PLACES; k++)
        names[k] = block(blocks[k]);
    for (int many = PLACES / 4; many > 0; many /= 4)
        for (int k = 0; k < many; k++)
            names[k] = corner(names[4 * k], names[4 * k + 1], names[4 * k + 2], names[4 * k + 3]);
    return names[0];
}

static uint32_t by_blocks(int op, uint32_t a, uint32_t b) {
    uint64_t first[PLACES], second[PLACES] = {0};
    spill(a, op == TRANSPOSE, first);
    if (op != TRANSPOSE)
        spill(b, 0, second);
    for (int k = 0; k < PLACES; k++)
        first[k] = block_by(op, first[k], second[k]);
    return gathered(first);
}
#endif

static uint32_t applied(int op, int height, uint32_t a, uint32_t b) {
    switch (op) {
    case TRANSPOSE:
        if (a == 0)
            return 0;
        break;
    case UNION:
        if (a == b || b == 0)
            return a;
        if (a == 0)
            return b;
        break;
    case INTER:
        if (a == b)
            return a;
        if (a == 0 || b == 0)
            return 0;
        break;
    case DIFF:
        if (a == b || a == 0)
            return 0;
        if (b == 0)
            return a;
        break;
    }
    if (height == BOTTOM)
        return block(block_by(op, words[a], words[b]));
    if ((op == UNION || op == INTER) && b < a) {
        uint32_t first = a;
        a = b;
        b = first;
    }
    if (op == TRANSPOSE) {
        if (is_full(height, a))
            return a;
    } else {
        if (is_full(height, a) && op == UNION)
            return a;
        if (is_full(height, a) && op == INTER)
            return b;
        if (is_full(height, b))
            return op == UNION ? b : op == INTER ? a : 0;
    }
    uint64_t *at = slot(a, b), word = asked(op, height, a, b), mask = ((1ull << 24) - 1) << 9;
    COUNT(probes);
    if ((*at & ~mask) == word)
        return (uint32_t)((*at & mask) >> 9);
#ifdef BLOCKS
    if (height == ROWS && blocks_pay(a) && (op == TRANSPOSE || blocks_pay(b))) {
        uint32_t made_of_blocks = by_blocks(op, a, b);
        *at = word + ((uint64_t)made_of_blocks << 9);
        return made_of_blocks;
    }
#endif
    uint32_t a_north = left(a), a_south = right(a), b_north = left(b), b_south = right(b);
    uint32_t nw, ne, sw, se;
    if (op == TRANSPOSE) {
        nw = applied(op, height - 1, left(a_north), 0);
        ne = applied(op, height - 1, left(a_south), 0);
        sw = applied(op, height - 1, right(a_north), 0);
        se = applied(op, height - 1, right(a_south), 0);
    } else {
        nw = applied(op, height - 1, left(a_north), left(b_north));
        ne = applied(op, height - 1, right(a_north), right(b_north));
        sw = applied(op, height - 1, left(a_south), left(b_south));
        se = applied(op, height - 1, right(a_south), right(b_south));
    }
    uint32_t found = corner(nw, ne, sw, se);
    *at = word + ((uint64_t)found << 9);
    return found;
}

static uint64_t state = 1;

static uint32_t random_quad(int height, uint64_t chance) {
    if (height == BOTTOM) {
        uint64_t bits = 0;
        for (int cell = 0; cell < 64; cell++) {
            state = state * 6364136223846793005ull + 1442695040888963407ull;
            bits = bits * 2 + ((state >> 33) % 1000 < chance);
        }
        return block(bits);
    }
    uint32_t nw = random_quad(height - 1, chance), ne = random_quad(height - 1, chance);
    uint32_t sw = random_quad(height - 1, chance), se = random_quad(height - 1, chance);
    return corner(nw, ne, sw, se);
}

static uint64_t now(void) {
    struct timespec t;
    clock_gettime(CLOCK_MONOTONIC, &t);
    return (uint64_t)t.tv_sec * 1000000000 + (uint64_t)t.tv_nsec;
}

// writes to each page, since a compiler may take zeros that were not written yet for what was asked
static void touch(uint64_t *list, uint64_t size) {
    for (uint64_t k = 0; k < size; k += 512)
        *(volatile uint64_t *)&list[k] = 0;
}

int main(int argc, char **argv) {
    if (argc < 3)
        return 1;
    uint64_t size = 1ull << atoi(argv[1]), chance = strtoull(argv[2], 0, 10);
    count = size - 2;
    words = malloc(size * 8);
    memo = malloc(SLOTS * 8);
    if (words == 0 || memo == 0)
        return 1;
    memset(words, 0, size * 8);
    memset(memo, 0, SLOTS * 8);
    touch(words, size);
    touch(memo, SLOTS);
    uint32_t a = random_quad(HEIGHT, chance), b = random_quad(HEIGHT, chance);
    printf("%u %u\n", a, b);
    for (int op = UNION; op <= TRANSPOSE; op++) {
        uint32_t second = op == TRANSPOSE ? 0 : b;
        made = probes = 0;
        uint64_t start = now();
        uint32_t name = applied(op, HEIGHT, a, second);
        uint64_t cold = now() - start, cold_made = made, cold_probes = probes;
        start = now();
        uint32_t once_more = applied(op, HEIGHT, a, second);
        uint64_t again = now() - start;
        printf("%llu %llu %u %u %llu %llu\n", (unsigned long long)cold, (unsigned long long)again, name, once_more,
               (unsigned long long)cold_made, (unsigned long long)cold_probes);
    }
}
