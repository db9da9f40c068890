/* A relation of pairs by chance is named from the sorted places of its pairs, in plain C, in five ways: node by node, cutting
   the places at each quarter; two heights at a time, asking for the places of the words of four corners before the first is
   named; height by height, a number of corners at a time, asking for all their places first; node by node, but a quad of a
   single pair by the bits of its place; and the same with the names of such quads kept, 3 heights above the leaves, as
   crates/rel_domains does. All make the same words, but for a few that are a pair of names and a leaf's cells at once, since
   names differ.

       cc -O3 -march=x86-64-v2 -o /tmp/naming bench/naming/plain.c && /tmp/naming HEIGHT PAIRS BITS

   The square has 2^HEIGHT rows, the table 2^BITS words on large pages. The least of five rounds, in seconds. */
#define _GNU_SOURCE
#include <stdint.h>
#include <stdio.h>
#include <stdlib.h>
#include <string.h>
#include <sys/mman.h>
#include <time.h>

typedef uint64_t u64;
typedef uint32_t u32;

enum { LEAF = 3, MOST = 64, KEPT = 3, ROUNDS = 5, WAYS = 7 };
static const char *WAY[WAYS] = {"node by node", "two heights at a time", "4 corners", "16 corners", "32 corners",
                                "single pairs by their places", "with their names kept"};
static u64 *table, count, made;
static u32 kept[64 << 2 * KEPT];
static int bits;

static double now(void) {
    struct timespec t;
    clock_gettime(CLOCK_PROCESS_CPUTIME_ID, &t);
    return t.tv_sec + t.tv_nsec * 1e-9;
}

static inline u64 home(u64 word) {
    u64 sum = (word >> 32) * 2654435761u + (word & 0xffffffffu) * 2246822519u;
    while (sum >> bits >= 2) sum = (sum >> bits) * 2 + (sum & (count + 1));
    while (sum >= count) sum -= count;
    return sum;
}

static inline u32 intern(u64 word) {
    for (u64 place = home(word);; place = place + 1 == count ? 0 : place + 1) {
        u64 found = __atomic_load_n(&table[2 + place], __ATOMIC_SEQ_CST);
        if (!found && __atomic_compare_exchange_n(&table[2 + place], &found, word, 0, __ATOMIC_SEQ_CST, __ATOMIC_SEQ_CST)) {
            made++;
            return 2 + place;
        }
        if (found == word) return 2 + place;
    }
}

static inline u32 pair(u32 left, u32 right) { return left || right ? intern(((u64)left << 32) + right) : 0; }

static inline void ask(u32 left, u32 right) {
    if (left || right) (void)*(volatile u64 *)&table[2 + home(((u64)left << 32) + right)];
}

static inline u32 corner(const u32 *q) {
    u32 north = pair(q[0], q[1]), south = pair(q[2], q[3]);
    return pair(north, south);
}

static u64 place_of(u32 i, u32 j, int height) {
    u64 place = 0;
    for (int h = height - 1; h >= LEAF; h--) place = place * 4 + (i >> h & 1) * 2 + (j >> h & 1);
    return place * 64 + (i & 7) * 8 + (j & 7);
}

static int compare(const void *a, const void *b) {
    u64 x = *(const u64 *)a, y = *(const u64 *)b;
    return (x > y) - (x < y);
}

/* where the numbers from a bound on begin */
static u64 cut(const u64 *places, u64 n, u64 bound) {
    u64 low = 0;
    while (n) {
        u64 half = n / 2;
        if (places[low + half] < bound) low += half + 1, n -= half + 1;
        else n = half;
    }
    return low;
}

static void quarters(const u64 *places, u64 n, u64 base, u64 part, u64 *ends) {
    ends[0] = 0, ends[4] = n;
    ends[2] = cut(places, n, base + 2 * part);
    ends[1] = cut(places, ends[2], base + part);
    ends[3] = ends[2] + cut(places + ends[2], n - ends[2], base + 3 * part);
}

static u32 leaf(u64 base, const u64 *places, u64 n) {
    u64 word = 0;
    for (u64 i = 0; i < n; i++) word |= 1ull << (places[i] - base);
    return intern(word);
}

static u32 by_nodes(int depth, u64 base, const u64 *places, u64 n) {
    if (!n) return 0;
    if (!depth) return leaf(base, places, n);
    u64 part = 64ull << 2 * (depth - 1), end[5];
    u32 q[4];
    quarters(places, n, base, part, end);
    for (int k = 0; k < 4; k++) q[k] = by_nodes(depth - 1, base + k * part, places + end[k], end[k + 1] - end[k]);
    return corner(q);
}

/* a quad of a single pair, some depths higher */
static u32 climb(u32 name, u64 place, int from, int to) {
    for (int depth = from; depth < to; depth++) {
        u64 quarter = place >> (6 + 2 * depth) & 3;
        u32 half = quarter & 1 ? pair(0, name) : pair(name, 0);
        name = quarter & 2 ? pair(0, half) : pair(half, 0);
    }
    return name;
}

static u32 single(int depth, u64 place, int keeps) {
    if (!keeps || depth < KEPT) return climb(intern(1ull << (place & 63)), place, 0, depth);
    u32 *name = &kept[place & ((64 << 2 * KEPT) - 1)];
    if (!*name) *name = climb(intern(1ull << (place & 63)), place, 0, KEPT);
    return climb(*name, place, KEPT, depth);
}

static u32 by_singles(int depth, u64 base, const u64 *places, u64 n, int keeps) {
    if (!n) return 0;
    if (n == 1) return single(depth, places[0], keeps);
    if (!depth) return leaf(base, places, n);
    u64 part = 64ull << 2 * (depth - 1), end[5];
    u32 q[4];
    quarters(places, n, base, part, end);
    for (int k = 0; k < 4; k++) q[k] = by_singles(depth - 1, base + k * part, places + end[k], end[k + 1] - end[k], keeps);
    return corner(q);
}

static u32 by_two(int depth, u64 base, const u64 *places, u64 n) {
    if (depth < 2 || !n) return by_nodes(depth, base, places, n);
    u64 part = 64ull << 2 * (depth - 1), sub = part / 4, end[5], inner[5];
    u32 g[4][4], q[4];
    quarters(places, n, base, part, end);
    for (int k = 0; k < 4; k++) {
        quarters(places + end[k], end[k + 1] - end[k], base + k * part, sub, inner);
        for (int l = 0; l < 4; l++)
            g[k][l] = by_two(depth - 2, base + k * part + l * sub, places + end[k] + inner[l], inner[l + 1] - inner[l]);
    }
    for (int k = 0; k < 4; k++) ask(g[k][0], g[k][1]), ask(g[k][2], g[k][3]);
    for (int k = 0; k < 4; k++) q[k] = corner(g[k]);
    return corner(q);
}

static u32 by_heights(int depth, const u64 *places, u64 n, int at_once, u64 *at, u32 *name) {
    u64 m = 0;
    for (u64 i = 0; i < n; m++) {
        u64 word = 0;
        at[m] = places[i] >> 6;
        for (; i < n && places[i] >> 6 == at[m]; i++) word |= 1ull << (places[i] & 63);
        name[m] = intern(word);
    }
    for (; depth; depth--) {
        u64 written = 0;
        for (u64 i = 0; i < m;) {
            u64 square[MOST];
            u32 g[MOST][4], half[MOST][2];
            int k = 0;
            for (; k < at_once && i < m; k++) {
                memset(g[k], 0, sizeof g[k]);
                square[k] = at[i] >> 2;
                for (; i < m && at[i] >> 2 == square[k]; i++) g[k][at[i] & 3] = name[i];
                ask(g[k][0], g[k][1]), ask(g[k][2], g[k][3]);
            }
            for (int j = 0; j < k; j++) {
                half[j][0] = pair(g[j][0], g[j][1]), half[j][1] = pair(g[j][2], g[j][3]);
                ask(half[j][0], half[j][1]);
            }
            for (int j = 0; j < k; j++, written++) at[written] = square[j], name[written] = pair(half[j][0], half[j][1]);
        }
        m = written;
    }
    return m ? name[0] : 0;
}

static u64 next(u64 *state) {
    *state ^= *state << 13, *state ^= *state >> 7, *state ^= *state << 17;
    return *state >> 20;
}

int main(int words, char **word) {
    if (words != 4) return 2;
    int height = atoi(word[1]);
    u64 n = strtoull(word[2], NULL, 10), state = 88172645463325252ull, m = 0;
    bits = atoi(word[3]);
    count = (1ull << bits) - 2;
    size_t size = 8ull << bits, large = 2 << 20;
    char *memory = mmap(0, size + large, PROT_READ | PROT_WRITE, MAP_PRIVATE | MAP_ANONYMOUS, -1, 0);
    table = (u64 *)(((uintptr_t)memory + large - 1) & ~(uintptr_t)(large - 1));
    madvise(table, size, MADV_HUGEPAGE);
    u64 *places = malloc(8 * n), *at = malloc(8 * n);
    u32 *name = malloc(4 * n), rows = 1u << height;
    for (u64 k = 0; k < n; k++) {
        u32 i = next(&state) % rows, j = next(&state) % rows;
        places[k] = place_of(i, j, height);
    }
    qsort(places, n, 8, compare);
    for (u64 k = 0; k < n; k++) if (!k || places[k] != places[k - 1]) places[m++] = places[k];
    double best[WAYS];
    for (int round = 0; round < ROUNDS; round++)
        for (int way = 0; way < WAYS; way++) {
            memset(table, 0, size);
            memset(kept, 0, sizeof kept);
            made = 0;
            double began = now();
            u32 root = way == 0 ? by_nodes(height - LEAF, 0, places, m)
                     : way == 1 ? by_two(height - LEAF, 0, places, m)
                     : way > 4 ? by_singles(height - LEAF, 0, places, m, way == 6)
                     : by_heights(height - LEAF, places, m, way == 2 ? 4 : way == 3 ? 16 : 32, at, name);
            double took = now() - began;
            if (!root) return 1;
            if (!round || took < best[way]) best[way] = took;
        }
    printf("2^%d rows, %llu pairs, %llu words:", height, (unsigned long long)m, (unsigned long long)made);
    for (int way = 0; way < WAYS; way++) printf("  %s %.3f (%.2f)", WAY[way], best[way], best[way] / best[0]);
    printf("\n");
}
