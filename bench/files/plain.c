// Relation files of version 1, written and read in plain C, over the same trees and the same probe of a table of node words, for one thread and without a proof.
// plain BITS TASK HEIGHT PAIRS prints what `bench_engine files` prints of the tasks random and full. Compiled with NODES, it keeps the words of nodes that a reading asks for, and prints how long these alone take in a table of their own, cold and again, how many were asked for and how many made.
#define _POSIX_C_SOURCE 200809L
#include <stdint.h>
#include <stdio.h>
#include <stdlib.h>
#include <string.h>
#include <time.h>

#define BOTTOM 3
#define LIMIT (1ull << 26)

static uint64_t *words, count;
#ifdef NODES
static uint64_t made, asked, *kept, room;
#endif

// the time of the processor, so that what else runs on the machine adds little to it
static uint64_t now(void) {
    struct timespec time;
    clock_gettime(CLOCK_PROCESS_CPUTIME_ID, &time);
    return (uint64_t)time.tv_sec * 1000000000ull + (uint64_t)time.tv_nsec;
}

// ---- nodes
static void make_table(int bits) {
    count = (1ull << bits) - 2;
    free(words);
    words = malloc(sizeof(uint64_t) << bits);
    for (uint64_t i = 0; i < 1ull << bits; i++)
        ((volatile uint64_t *)words)[i] = 0; // each page is written here, and not when the first node comes
}

static uint32_t intern(uint64_t word) {
#ifdef NODES
    if (kept && asked == room)
        kept = realloc(kept, (room *= 2) * sizeof(uint64_t));
    if (kept)
        kept[asked] = word;
    asked++;
#endif
    uint64_t place = ((word >> 32) * 2654435761ull + (uint32_t)word * 2246822519ull) % count;
    for (uint64_t step = 0; step < count; step++) {
        if (words[2 + place] == 0) {
#ifdef NODES
            made++;
#endif
            words[2 + place] = word;
            return (uint32_t)(2 + place);
        }
        if (words[2 + place] == word)
            return (uint32_t)(2 + place);
        place = place + 1 == count ? 0 : place + 1;
    }
    fprintf(stderr, "the table is full\n");
    exit(1);
}

static uint32_t pair(uint32_t left, uint32_t right) {
    return left == 0 && right == 0 ? 0 : intern(((uint64_t)left << 32) + right);
}

static uint32_t corner(const uint32_t *quarter) {
    uint32_t north = pair(quarter[0], quarter[1]), south = pair(quarter[2], quarter[3]);
    return pair(north, south);
}

static uint32_t block(uint64_t bits) { return bits == 0 ? 0 : intern(bits); }

static void quarters_of(uint32_t name, uint32_t *quarter) {
    uint64_t whole = words[name], north = words[whole >> 32], south = words[(uint32_t)whole];
    quarter[0] = (uint32_t)(north >> 32);
    quarter[1] = (uint32_t)north;
    quarter[2] = (uint32_t)(south >> 32);
    quarter[3] = (uint32_t)south;
}

// ---- numbers of the header
static void put(uint8_t *bytes, uint64_t number, int length) {
    for (int i = length; i-- > 0; number >>= 8)
        bytes[i] = (uint8_t)number;
}

static uint64_t get(const uint8_t *bytes, int length) {
    uint64_t number = 0;
    for (int i = 0; i < length; i++)
        number = number << 8 | bytes[i];
    return number;
}

static int height_of(uint64_t rows, uint64_t cols) {
    int height = 1;
    while (1ull << height < rows || 1ull << height < cols)
        height++;
    return height;
}

// ---- writing: the groups of each level are counted, and then written where the level's last group ended
static uint64_t groups[26], ends[26];
static uint8_t *tree, *cells;

static const uint64_t mask_of[4] = {1, 1, 0x0303, 0x0F0F0F0F};

static uint64_t quarter_of(uint64_t bits, int height, int k) {
    int half = 1 << (height - 1);
    return bits >> (k / 2 * half * 8 + k % 2 * half) & mask_of[height];
}

static void count_block(int level, int height, uint64_t bits) {
    groups[level]++;
    if (height > 1)
        for (int k = 0; k < 4; k++) {
            uint64_t quarter = quarter_of(bits, height, k);
            if (quarter)
                count_block(level + 1, height - 1, quarter);
        }
}

static void count_quad(int level, int height, uint32_t name) {
    if (height == BOTTOM) {
        count_block(level, height, words[name]);
        return;
    }
    uint32_t quarter[4];
    quarters_of(name, quarter);
    groups[level]++;
    for (int k = 0; k < 4; k++)
        if (quarter[k])
            count_quad(level + 1, height - 1, quarter[k]);
}

static void put_group(uint8_t *part, int level, unsigned bits) {
    uint64_t at = ends[level]++;
    part[at / 2] |= (uint8_t)(at % 2 ? bits : bits << 4);
}

static void put_block(int level, int height, uint64_t bits) {
    uint64_t quarter[4];
    unsigned set = 0;
    for (int k = 0; k < 4; k++) {
        quarter[k] = quarter_of(bits, height, k);
        set = set << 1 | (quarter[k] != 0);
    }
    put_group(height == 1 ? cells : tree, level, set);
    if (height > 1)
        for (int k = 0; k < 4; k++)
            if (quarter[k])
                put_block(level + 1, height - 1, quarter[k]);
}

static void put_quad(int level, int height, uint32_t name) {
    if (height == BOTTOM) {
        put_block(level, height, words[name]);
        return;
    }
    uint32_t quarter[4];
    quarters_of(name, quarter);
    unsigned set = 0;
    for (int k = 0; k < 4; k++)
        set = set << 1 | (quarter[k] != 0);
    put_group(tree, level, set);
    for (int k = 0; k < 4; k++)
        if (quarter[k])
            put_quad(level + 1, height - 1, quarter[k]);
}

static uint8_t *written(uint64_t rows, uint64_t cols, uint32_t name, uint64_t *length) {
    int height = height_of(rows, cols);
    memset(groups, 0, sizeof groups);
    if (name && height < BOTTOM)
        count_block(1, height, words[name]);
    else if (name)
        count_quad(1, height, name);
    uint64_t t = 0, l = 4 * groups[height];
    for (int level = 1; level < height; level++) {
        ends[level] = t / 4;
        t += 4 * groups[level];
    }
    ends[height] = 0;
    if (t + l > LIMIT)
        return NULL;
    *length = 29 + (t + 7) / 8 + (l + 7) / 8;
    uint8_t *bytes = calloc(*length, 1);
    memcpy(bytes, "RVK1", 4);
    put(bytes + 4, rows, 4);
    put(bytes + 8, cols, 4);
    bytes[12] = (uint8_t)height;
    put(bytes + 13, t, 8);
    put(bytes + 21, l, 8);
    tree = bytes + 29;
    cells = tree + (t + 7) / 8;
    if (name && height < BOTTOM)
        put_block(1, height, words[name]);
    else if (name)
        put_quad(1, height, name);
    return bytes;
}

// ---- reading: the form of the whole file, and then nodes from the leaves upwards, each level's groups in their order
static unsigned group_at(const uint8_t *part, uint64_t at) { return (at % 2 ? part[at / 2] : part[at / 2] >> 4) & 15; }

static uint64_t ones(const uint8_t *part, uint64_t from, uint64_t to) {
    uint64_t found = 0;
    for (; from < to && from % 16; from++)
        found += (uint64_t)__builtin_popcount(group_at(part, from));
    for (; from + 16 <= to; from += 16) {
        uint64_t word;
        memcpy(&word, part + from / 2, 8);
        found += (uint64_t)__builtin_popcountll(word);
    }
    for (; from < to; from++)
        found += (uint64_t)__builtin_popcount(group_at(part, from));
    return found;
}

static int has_zero(const uint8_t *part, uint64_t number) {
    for (uint64_t at = 0; at < number; at++)
        if (group_at(part, at) == 0)
            return 1;
    return 0;
}

static uint64_t top_rows, top_cols;

static int is_outside(int level, int height, uint64_t row, uint64_t col) {
    unsigned set = group_at(height == 1 ? cells : tree, ends[level]++);
    uint64_t half = 1ull << (height - 1);
    for (int k = 0; k < 4; k++)
        if (set >> (3 - k) & 1) {
            uint64_t below = row + (uint64_t)(k / 2) * half, right = col + (uint64_t)(k % 2) * half;
            if (height == 1 ? below >= top_rows || right >= top_cols : is_outside(level + 1, height - 1, below, right))
                return 1;
        }
    return 0;
}

static uint64_t block_at(int level, int height) {
    unsigned set = group_at(height == 1 ? cells : tree, ends[level]++);
    uint64_t bits = 0;
    int half = 1 << (height - 1);
    for (int k = 0; k < 4; k++)
        if (set >> (3 - k) & 1)
            bits |= (height == 1 ? 1 : block_at(level + 1, height - 1)) << (k / 2 * half * 8 + k % 2 * half);
    return bits;
}

static uint32_t quad_at(int level, int height) {
    if (height == BOTTOM)
        return block(block_at(level, height));
    unsigned set = group_at(tree, ends[level]++);
    uint32_t quarter[4];
    for (int k = 0; k < 4; k++)
        quarter[k] = set >> (3 - k) & 1 ? quad_at(level + 1, height - 1) : 0;
    return corner(quarter);
}

static void begin(const uint64_t *starts, int height) {
    memcpy(ends, starts, sizeof ends);
    ends[height] = 0;
}

// whether the bytes are a relation file; its relation's name
static int is_read(uint8_t *bytes, uint64_t length, uint32_t *name) {
    if (length < 29 || memcmp(bytes, "RVK1", 4))
        return 0;
    uint64_t rows = get(bytes + 4, 4), cols = get(bytes + 8, 4), t = get(bytes + 13, 8), l = get(bytes + 21, 8);
    if (rows > 1 << 24 || cols > 1 << 24 || bytes[12] != height_of(rows, cols))
        return 0;
    int height = bytes[12];
    if (length - 29 < t / 8 || length - 29 - t / 8 < l / 8 || length < 29 + (t + 7) / 8 + (l + 7) / 8)
        return 0;
    tree = bytes + 29;
    cells = tree + (t + 7) / 8;
    uint64_t starts[26] = {0}, from = 0, number = t || l;
    for (int level = 1; level < height; level++) {
        starts[level] = from;
        if (t / 4 - from < number)
            return 0;
        from += number;
        number = ones(tree, from - number, from);
    }
    if (4 * from != t || 4 * number != l || has_zero(tree, t / 4) || has_zero(cells, l / 4))
        return 0;
    top_rows = rows;
    top_cols = cols;
    begin(starts, height);
    if (l && (rows < 1ull << height || cols < 1ull << height) && is_outside(1, height, 0, 0))
        return 0;
    if ((t % 8 && tree[t / 8] & 15) || (l % 8 && cells[l / 8] & 15) || length != 29 + (t + 7) / 8 + (l + 7) / 8)
        return 0;
    begin(starts, height);
    *name = l == 0 ? 0 : height < BOTTOM ? block(block_at(1, height)) : quad_at(1, height);
    return 1;
}

// ---- relations by chance, from their places on the Z-curve, leaves by row and column
static uint64_t spread(uint64_t x) {
    x = (x | x << 16) & 0x0000FFFF0000FFFFull;
    x = (x | x << 8) & 0x00FF00FF00FF00FFull;
    x = (x | x << 4) & 0x0F0F0F0F0F0F0F0Full;
    x = (x | x << 2) & 0x3333333333333333ull;
    return (x | x << 1) & 0x5555555555555555ull;
}

static int compare(const void *a, const void *b) {
    uint64_t x = *(const uint64_t *)a, y = *(const uint64_t *)b;
    return (x > y) - (x < y);
}

static uint32_t built(int height, const uint64_t *places, uint64_t number, uint64_t base) {
    if (number == 0)
        return 0;
    if (height == BOTTOM) {
        uint64_t bits = 0;
        for (uint64_t i = 0; i < number; i++) {
            uint64_t z = places[i] - base;
            uint64_t row = (z >> 1 & 1) | (z >> 2 & 2) | (z >> 3 & 4), col = (z & 1) | (z >> 1 & 2) | (z >> 2 & 4);
            bits |= 1ull << (8 * row + col);
        }
        return block(bits);
    }
    uint64_t part = 1ull << (2 * (height - 1));
    uint32_t quarter[4];
    for (int k = 0; k < 4; k++) {
        uint64_t in = 0;
        while (in < number && places[in] < base + part)
            in++;
        quarter[k] = built(height - 1, places, in, base);
        places += in;
        number -= in;
        base += part;
    }
    return corner(quarter);
}

static uint64_t next(uint64_t state) { return state * 6364136223846793005ull + 1442695040888963407ull; }

static uint32_t by_chance(int height, uint64_t number) {
    uint64_t *places = malloc((number + 1) * sizeof *places), state = 1, side = 1ull << height;
    for (uint64_t i = 0; i < number; i++) {
        uint64_t row = next(state);
        state = next(row);
        places[i] = spread((row >> 33) % side) << 1 | spread((state >> 33) % side);
    }
    qsort(places, number, sizeof *places, compare);
    uint32_t name = built(height, places, number, 0);
    free(places);
    return name;
}

static uint32_t full(int height) {
    uint32_t name = block(UINT64_MAX);
    for (int h = BOTTOM; h < height; h++)
        name = corner((uint32_t[4]){name, name, name, name});
    return name;
}

int main(int argc, char **argv) {
    if (argc != 5)
        return 2;
    int bits = atoi(argv[1]), height = atoi(argv[3]);
    make_table(bits);
    uint32_t name = strcmp(argv[2], "full") ? by_chance(height, strtoull(argv[4], NULL, 10)) : full(height);
    uint64_t length = 0, sum = 0, start = now();
    uint8_t *bytes = written(1ull << height, 1ull << height, name, &length);
    uint64_t time = now() - start;
    (void)time;
    if (!bytes)
        return printf("not written\n"), 0;
    for (uint64_t i = 0; i < length; i++)
        sum = sum * 31 + bytes[i];
#ifdef NODES
    kept = malloc((room = 1 << 20) * sizeof *kept);
    asked = made = 0;
#else
    printf("write %llu %llu %llu %u\n", (unsigned long long)time, (unsigned long long)length, (unsigned long long)sum, name);
#endif
    make_table(bits);
    for (int again = 0; again < 2; again++) {
        uint32_t found = 0;
        start = now();
        int read = is_read(bytes, length, &found);
        time = now() - start;
        if (!read)
            return printf("not read\n"), 0;
#ifdef NODES
        (void)found;
        break;
#else
        printf("read %llu %u\n", (unsigned long long)time, found);
#endif
    }
#ifdef NODES
    uint64_t number = asked, nodes = made, *list = kept, names = 0, times[2];
    kept = NULL;
    make_table(bits);
    for (int again = 0; again < 2; again++) {
        start = now();
        for (uint64_t i = 0; i < number; i++)
            names += intern(list[i]);
        times[again] = now() - start;
    }
    printf("nodes %llu %llu %llu %llu %llu\n", (unsigned long long)times[0], (unsigned long long)times[1], (unsigned long long)number, (unsigned long long)nodes, (unsigned long long)names);
#endif
    return 0;
}
