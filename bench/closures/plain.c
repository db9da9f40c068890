/* The closure of a relation without cycles in plain C, in four ways, over the lists and the table of bench/peers/lists.c:

       plain WAY BITS VERTICES STEPS

   makes the relation in which so many steps lead from each vertex to later ones by chance, closes it in a table of
   2^BITS words on large pages, and prints the milliseconds for finding the pairs, for sorting them along the Z-curve
   and for naming them, then the numbers of pairs and of words. The ways:

   order     each row is the union of its successors and their rows, the vertices in depth-first order
   searches  a search from each vertex, as crates/rel_joins does
   bits      rows of bits, united in depth-first order; blocks are cut from them, and nothing is sorted
   ahead     the same, 64 rows and columns at a time: the places of all words of a height are asked for first

       cc -O3 -march=x86-64-v2 -o /tmp/closures bench/closures/plain.c && /tmp/closures order 24 4096 2 */
#define main main_of_lists
#include "../peers/lists.c"
#undef main
#include <time.h>

enum { BLOCK = 64 };

static double now(void) {
    struct timespec t;
    clock_gettime(CLOCK_PROCESS_CPUTIME_ID, &t);
    return t.tv_sec * 1e3 + t.tv_nsec * 1e-6;
}
static u64 next(u64 *state) {
    *state ^= *state << 13, *state ^= *state >> 7, *state ^= *state << 17;
    return *state >> 20;
}
static Tree graph(u32 n, u32 steps) {
    List list = {0, 0, NULL};
    u64 state = 88172645463325252ull;
    for (u32 i = 0; i + 1 < n; i++)
        for (u32 k = 0; k < steps; k++) push(&list, i, i + 1 + next(&state) % (n - 1 - i));
    return tree_of(n, n, list.pair, list.count);
}

/* each row is the union of its successors and their rows; a successor that is there already has its row there */
static List by_order(u32 n, List edges, const u32 *starts) {
    List closed = {0, 0, NULL};
    u32 *order = depth_first(n, edges, starts), *stamp = zeros(4 * (u64)n);
    u64 (*row)[2] = room_for(16 * (u64)n);
    for (u32 k = 0; k < n; k++) {
        u32 x = order[k];
        row[x][0] = closed.count;
        for (u32 l = starts[x]; l < starts[x + 1]; l++) {
            u32 y = edges.pair[l][1];
            if (stamp[y] == x + 1) continue;
            note(&closed, stamp, x, y);
            for (u64 m = row[y][0]; m < row[y][1]; m++) note(&closed, stamp, x, closed.pair[m][1]);
        }
        row[x][1] = closed.count;
    }
    return closed;
}

/* appends a pair, unless it stands at the place where its column was put last */
static inline void note_at(List *list, u32 *place, u32 i, u32 j) {
    u32 p = place[j];
    if (p < list->count && list->pair[p][0] == i && list->pair[p][1] == j) return;
    place[j] = list->count;
    push(list, i, j);
}
static List by_searches(u32 n, List edges, const u32 *starts) {
    List closed = {0, 0, NULL};
    u32 *place = zeros(4 * (u64)n);
    for (u32 i = 0; i < n; i++) {
        u64 p = closed.count;
        for (u32 l = starts[i]; l < starts[i + 1]; l++) note_at(&closed, place, i, edges.pair[l][1]);
        for (; p < closed.count; p++) {
            u32 x = closed.pair[p][1];
            for (u32 l = starts[x]; l < starts[x + 1]; l++) note_at(&closed, place, i, edges.pair[l][1]);
        }
    }
    return closed;
}

static u64 *bits_of_rows, words_of_row;
static void by_bits(u32 n, List edges, const u32 *starts) {
    u32 *order = depth_first(n, edges, starts);
    words_of_row = (n + BLOCK - 1) / BLOCK;
    bits_of_rows = zeros(8 * words_of_row * (n + BLOCK));
    for (u32 k = 0; k < n; k++) {
        u64 *row = bits_of_rows + words_of_row * order[k];
        for (u32 l = starts[order[k]]; l < starts[order[k] + 1]; l++) {
            u32 y = edges.pair[l][1];
            const u64 *from = bits_of_rows + words_of_row * y;
            if (row[y / BLOCK] >> y % BLOCK & 1) continue;
            for (u64 w = 0; w < words_of_row; w++) row[w] |= from[w];
            row[y / BLOCK] |= 1ull << y % BLOCK;
        }
    }
}
static u64 block(u32 i, u32 j) {
    u64 word = 0;
    for (int k = 0; k < SIDE; k++)
        word |= (bits_of_rows[(i + k) * words_of_row + j / BLOCK] >> j % BLOCK & 0xff) << SIDE * k;
    return word;
}
static inline void ask(u32 left, u32 right) {
    if (left || right) __builtin_prefetch(&table[2 + home(((u64)left << 32) + right)]);
}
/* the quad of 64 rows and columns, a height at a time, its blocks along the Z-curve */
static u32 named_64(u32 i, u32 j) {
    u64 word[BLOCK];
    u32 name[BLOCK];
    for (u32 b = 0; b < BLOCK; b++) {
        u32 south = (b >> 1 & 1) | (b >> 2 & 2) | (b >> 3 & 4), east = (b & 1) | (b >> 1 & 2) | (b >> 2 & 4);
        word[b] = block(i + SIDE * south, j + SIDE * east);
        if (word[b]) __builtin_prefetch(&table[2 + home(word[b])]);
    }
    for (u32 b = 0; b < BLOCK; b++) name[b] = word[b] ? intern(word[b]) : 0;
    for (u32 n = BLOCK / 2; n; n /= 2) {
        for (u32 b = 0; b < n; b++) ask(name[2 * b], name[2 * b + 1]);
        for (u32 b = 0; b < n; b++) name[b] = pair(name[2 * b], name[2 * b + 1]);
    }
    return name[0];
}
static u32 named_bits(int height, u32 i, u32 j, int ahead) {
    if (ahead && height == 6) return named_64(i, j);
    if (height == LEAF) {
        u64 word = block(i, j);
        return word ? intern(word) : 0;
    }
    u32 half = 1u << (height - 1);
    u32 nw = named_bits(height - 1, i, j, ahead), ne = named_bits(height - 1, i, j + half, ahead);
    u32 sw = named_bits(height - 1, i + half, j, ahead), se = named_bits(height - 1, i + half, j + half, ahead);
    u32 north = pair(nw, ne), south = pair(sw, se);
    return pair(north, south);
}

int main(int count_of_words, char **word) {
    if (count_of_words != 5) return 2;
    open_table(atoi(word[2]));
    u32 n = atoi(word[3]);
    Tree t = graph(n, atoi(word[4]));
    List edges = listed(t);
    u32 *starts = starts_of(edges, n);
    int ordered = !strcmp(word[1], "order"), ahead = !strcmp(word[1], "ahead");
    double began = now(), found, sorted;
    u64 before = made;
    if (ordered || !strcmp(word[1], "searches")) {
        List closed = ordered ? by_order(n, edges, starts) : by_searches(n, edges, starts);
        found = now();
        u64 *places = room_for(8 * closed.count);
        for (u64 k = 0; k < closed.count; k++) places[k] = place_of(closed.pair[k][0], closed.pair[k][1]);
        sort(places, closed.count, 2 * t.height);
        sorted = now();
        t.name = named(t.height, 0, places, closed.count);
    } else {
        by_bits(n, edges, starts);
        found = sorted = now();
        t.name = named_bits(t.height, 0, 0, ahead);
    }
    printf("%s: found in %.1f, sorted in %.1f, named in %.1f; %llu pairs, %llu words\n", word[1], found - began,
           sorted - found, now() - sorted, (unsigned long long)pairs_in(t), (unsigned long long)(made - before));
}
