/* The work of bench/peers by the steps that the program takes on sparse relations, in plain C:

       lists WORK BITS FILE..

   makes the trees of the files in a table of 2^BITS words on large pages, does the work on lists of their pairs, and
   prints how many pairs come out. The work `read` makes the trees and ends. A word is a block of 8 by 8 cells, or the
   names of two quads side by side, or of two such halves, one above the other; a name is a place in the table. */
#define _GNU_SOURCE
#include "pairs.h"
#include <string.h>
#include <sys/mman.h>

typedef uint64_t u64;
typedef uint32_t u32;
typedef struct { u32 rows, cols, name; int height; } Tree;
typedef struct { u64 count, room; u32 (*pair)[2]; } List;
typedef struct { u32 name, column; } Quad;
typedef struct { u64 bits; u32 column; } Block;

enum { LEAF = 3, SIDE = 1 << LEAF, TOP = 24, DIGIT = 8, LINE = 18 };
static u64 *table, count, made;
static int bits, files;
static Tree *given;

static void *there(void *room) {
    if (!room) exit(3);
    return room;
}
static void *room_for(u64 size) { return there(malloc(size + 8)); }
static void *zeros(u64 size) { return there(calloc(size + 8, 1)); }

static void open_table(int wanted) {
    size_t large = 2 << 20, size = 8ull << wanted;
    bits = wanted, count = (1ull << bits) - 2;
    char *memory = mmap(0, size + large, PROT_READ | PROT_WRITE, MAP_PRIVATE | MAP_ANONYMOUS, -1, 0);
    if (memory == MAP_FAILED) exit(3);
    table = (u64 *)(((uintptr_t)memory + large - 1) & ~(uintptr_t)(large - 1));
    madvise(table, size, MADV_HUGEPAGE);
}
static inline u64 home(u64 word) {
    u64 sum = (word >> 32) * 2654435761u + (word & 0xffffffffu) * 2246822519u;
    while (sum >> bits >= 2) sum = (sum >> bits) * 2 + (sum & (count + 1));
    while (sum >= count) sum -= count;
    return sum;
}
/* the name of a word; a table that is full ends the run */
static inline u32 intern(u64 word) {
    for (u64 place = home(word);; place = place + 1 == count ? 0 : place + 1) {
        u64 *at = &table[2 + place], found = __atomic_load_n(at, __ATOMIC_SEQ_CST);
        if (!found && __atomic_compare_exchange_n(at, &found, word, 0, __ATOMIC_SEQ_CST, __ATOMIC_SEQ_CST)) {
            if (++made == count) exit(4);
            return 2 + place;
        }
        if (found == word) return 2 + place;
    }
}
static inline u32 pair(u32 left, u32 right) { return left || right ? intern(((u64)left << 32) + right) : 0; }
static inline u32 first(u32 name) { return table[name] >> 32; }
static inline u32 second(u32 name) { return (u32)table[name]; }

/* the bits of a number, each with a zero before it */
static inline u64 spread(u64 x) {
    x = (x | x << 16) & 0x0000ffff0000ffff;
    x = (x | x << 8) & 0x00ff00ff00ff00ff;
    x = (x | x << 4) & 0x0f0f0f0f0f0f0f0f;
    x = (x | x << 2) & 0x3333333333333333;
    return (x | x << 1) & 0x5555555555555555;
}
/* the place of a cell on the Z-curve of the blocks, and by rows within its block */
static inline u64 place_of(u32 i, u32 j) {
    u64 block = 2 * spread(i >> LEAF) + spread(j >> LEAF);
    return block << 2 * LEAF | (i % SIDE) << LEAF | j % SIDE;
}
/* sorts numbers below 2^WIDTH, digit by digit, the lowest first */
static void sort(u64 *numbers, u64 n, int width) {
    u64 *from = numbers, *other = room_for(8 * n), *to = other;
    for (int low = 0; low < width; low += DIGIT) {
        u64 end[(1 << DIGIT) + 1] = {0};
        for (u64 k = 0; k < n; k++) end[(from[k] >> low) % (1 << DIGIT) + 1]++;
        for (int digit = 0; digit < 1 << DIGIT; digit++) end[digit + 1] += end[digit];
        for (u64 k = 0; k < n; k++) to[end[(from[k] >> low) % (1 << DIGIT)]++] = from[k];
        u64 *sorted = to;
        to = from, from = sorted;
    }
    if (from != numbers) memcpy(numbers, from, 8 * n);
    free(other);
}

/* where the places from a bound on begin */
static u64 cut(const u64 *places, u64 n, u64 bound) {
    u64 low = 0;
    while (n) {
        u64 half = n / 2;
        if (places[low + half] < bound) low += half + 1, n -= half + 1;
        else n = half;
    }
    return low;
}
static u32 leaf(const u64 *places, u64 n) {
    u64 word = 0;
    for (u64 k = 0; k < n; k++) word |= 1ull << places[k] % (SIDE * SIDE);
    return intern(word);
}
/* the quad of a single pair, from its block up */
static u32 climb(int height, u64 place) {
    u32 name = leaf(&place, 1);
    for (int h = LEAF; h < height; h++) {
        u32 half = place >> 2 * h & 1 ? pair(0, name) : pair(name, 0);
        name = place >> (2 * h + 1) & 1 ? pair(0, half) : pair(half, 0);
    }
    return name;
}
/* the quad of sorted places, which count from a base */
static u32 named(int height, u64 base, const u64 *places, u64 n) {
    if (!n) return 0;
    if (n == 1) return climb(height, *places);
    if (height == LEAF) return leaf(places, n);
    u64 part = 1ull << 2 * (height - 1), south = cut(places, n, base + 2 * part);
    u64 east = cut(places, south, base + part), last = south + cut(places + south, n - south, base + 3 * part);
    u32 nw = named(height - 1, base, places, east);
    u32 ne = named(height - 1, base + part, places + east, south - east);
    u32 sw = named(height - 1, base + 2 * part, places + south, last - south);
    u32 se = named(height - 1, base + 3 * part, places + last, n - last);
    u32 north = pair(nw, ne), below = pair(sw, se);
    return pair(north, below);
}
static int height_over(u32 rows, u32 cols) {
    int height = LEAF;
    while (1u << height < rows || 1u << height < cols) height++;
    return height;
}
/* the tree of pairs in any order */
static Tree tree_of(u32 rows, u32 cols, u32 (*listed)[2], u64 n) {
    Tree t = {rows, cols, 0, height_over(rows, cols)};
    u64 *places = room_for(8 * n);
    for (u64 k = 0; k < n; k++) places[k] = place_of(listed[k][0], listed[k][1]);
    sort(places, n, 2 * t.height);
    t.name = named(t.height, 0, places, n);
    free(places);
    return t;
}
static Tree tree_of_file(const char *path) {
    Pairs p = read_pairs(path);
    Tree t = tree_of(p.rows, p.cols, p.pair, p.count);
    free(p.pair);
    return t;
}
/* appends the names on both sides of a half, unless they are empty */
static inline u32 *put_names(u32 *end, u32 half) {
    u32 west = first(half), east = second(half);
    if (west) *end++ = west;
    if (east) *end++ = east;
    return end;
}
/* how many pairs a tree has, by the names of all its quads of a height, from the root down */
static u64 pairs_in(Tree t) {
    u64 n = t.name != 0, cells = 0;
    u32 *quads = room_for(4);
    *quads = t.name;
    for (int h = t.height; h > LEAF; h--) {
        u32 *below = room_for(16 * n), *end = below;
        for (u64 k = 0; k < n; k++) end = put_names(put_names(end, first(quads[k])), second(quads[k]));
        free(quads);
        quads = below, n = end - below;
    }
    for (u64 k = 0; k < n; k++) cells += __builtin_popcountll(table[quads[k]]);
    free(quads);
    return cells;
}

/* makes room in a list for more pairs */
static inline void widen(List *list, u64 more) {
    if (list->count + more <= list->room) return;
    list->room = 2 * list->room > list->count + more ? 2 * list->room : list->count + more;
    list->pair = there(realloc(list->pair, 8 * list->room));
}
static inline void push(List *list, u32 i, u32 j) {
    widen(list, 1);
    list->pair[list->count][0] = i, list->pair[list->count++][1] = j;
}

static Quad *halves[TOP][2];
static Block *blocks;

/* appends the pairs of one row of a block */
static inline void list_bits(List *list, u32 cells, u32 row, u32 column) {
    for (; cells; cells &= cells - 1) {
        list->pair[list->count][0] = row;
        list->pair[list->count++][1] = column + __builtin_ctz(cells);
    }
}
/* appends the pairs of a strip of leaves, row by row */
static void list_leaves(List *list, const Quad *strip, u64 n, u32 row) {
    u64 cells = 0;
    for (u64 k = 0; k < n; k++) {
        blocks[k] = (Block){table[strip[k].name], strip[k].column};
        cells += __builtin_popcountll(blocks[k].bits);
    }
    widen(list, cells);
    for (u32 i = 0; i < SIDE; i++)
        for (u64 k = 0; k < n; k++) list_bits(list, blocks[k].bits >> SIDE * i & 0xff, row + i, blocks[k].column);
}
/* appends the quarters on both sides of a half, unless they are empty */
static inline Quad *put(Quad *end, u32 half, u32 column, u32 middle) {
    u32 west = first(half), east = second(half);
    if (west) *end++ = (Quad){west, column};
    if (east) *end++ = (Quad){east, middle};
    return end;
}
/* appends the pairs of a strip of quads, the upper half of its rows first */
static void list_strip(List *list, const Quad *strip, u64 n, int height, u32 row) {
    if (!n) return;
    if (height == LEAF) {
        list_leaves(list, strip, n, row);
        return;
    }
    u32 side = 1u << (height - 1);
    Quad *upper = halves[height - 1][0], *lower = halves[height - 1][1], *upper_end = upper, *lower_end = lower;
    for (u64 k = 0; k < n; k++) {
        u32 north = first(strip[k].name), south = second(strip[k].name), column = strip[k].column;
        upper_end = put(upper_end, north, column, column + side);
        lower_end = put(lower_end, south, column, column + side);
    }
    list_strip(list, upper, upper_end - upper, height - 1, row);
    list_strip(list, lower, lower_end - lower, height - 1, row + side);
}
/* the pairs of a tree, by row and then by column */
static List listed(Tree t) {
    List list = {0, 0, NULL};
    for (int h = LEAF; h < t.height; h++)
        for (int k = 0; k < 2; k++) halves[h][k] = room_for(sizeof(Quad) << (t.height - h));
    blocks = room_for(sizeof(Block) << (t.height - LEAF));
    Quad root = {t.name, 0};
    list_strip(&list, &root, t.name != 0, t.height, 0);
    for (int h = LEAF; h < t.height; h++) free(halves[h][0]), free(halves[h][1]);
    free(blocks);
    return list;
}
/* for each number up to that of the rows, how many pairs have a lower row */
static u32 *starts_of(List list, u32 rows) {
    u32 *starts = room_for(4 * ((u64)rows + 1)), row = 0;
    for (u64 k = 0; k < list.count; k++)
        while (row <= list.pair[k][0]) starts[row++] = k;
    while (row <= rows) starts[row++] = list.count;
    return starts;
}

/* appends a pair, unless the last row with a pair in its column is this row; rows are stamped by their number and 1 */
static inline void note(List *list, u32 *stamp, u32 i, u32 j) {
    if (stamp[j] == i + 1) return;
    stamp[j] = i + 1;
    push(list, i, j);
}
static Tree product(void) {
    List left = listed(given[0]), right = listed(given[1]), joined = {0, 0, NULL};
    u32 *starts = starts_of(right, given[1].rows), *stamp = zeros(4 * (u64)given[1].cols);
    for (u64 k = 0; k < left.count; k++) {
        u32 i = left.pair[k][0], j = left.pair[k][1];
        for (u32 l = starts[j]; l < starts[j + 1]; l++) note(&joined, stamp, i, right.pair[l][1]);
    }
    return tree_of(given[0].rows, given[1].cols, joined.pair, joined.count);
}

/* the vertices, each after those that its edges lead to; a cycle ends the run */
static u32 *depth_first(u32 n, List edges, const u32 *starts) {
    enum { NEW, OPEN, DONE };
    u32 *order = room_for(4 * (u64)n), *stack = room_for(4 * (u64)n), *next = room_for(4 * (u64)n);
    u32 height = 0, done = 0;
    char *state = zeros(n);
    memcpy(next, starts, 4 * (u64)n);
    for (u32 root = 0; root < n; root++) {
        if (state[root] == NEW) state[root] = OPEN, stack[height++] = root;
        while (height) {
            u32 x = stack[height - 1];
            if (next[x] == starts[x + 1]) {
                state[x] = DONE, order[done++] = x, height--;
                continue;
            }
            u32 y = edges.pair[next[x]++][1];
            if (state[y] == OPEN) exit(1);
            if (state[y] == NEW) state[y] = OPEN, stack[height++] = y;
        }
    }
    free(stack), free(next), free(state);
    return order;
}
/* each row is the union of its successors and their rows; a successor that is there already has its row there */
static Tree closure(void) {
    u32 n = given[0].rows;
    List edges = listed(given[0]), closed = {0, 0, NULL};
    u32 *starts = starts_of(edges, n), *order = depth_first(n, edges, starts), *stamp = zeros(4 * (u64)n);
    u64 (*row)[2] = room_for(16 * (u64)n);
    for (u32 k = 0; k < n; k++) {
        u32 x = order[k];
        row[x][0] = closed.count;
        for (u32 l = starts[x]; l < starts[x + 1]; l++) {
            u32 y = edges.pair[l][1];
            if (stamp[y] == x + 1) continue;
            note(&closed, stamp, x, y);
            for (u64 m = row[y][0]; m < row[y][1]; m++) note(&closed, stamp, x, closed.pair[m][1]);
        }
        row[x][1] = closed.count;
    }
    return tree_of(n, n, closed.pair, closed.count);
}

/* A vector is a heap of bytes: a byte of the lower half has a bit for each of eight elements, one above them is the
   union of the two below it. Its tree is that of a line, a relation of one row. */
typedef unsigned char Heap;

static void mark(Heap *heap, u64 leaves) {
    for (u64 k = leaves - 1; k; k--) heap[k] = heap[2 * k] | heap[2 * k + 1];
}
static u32 named_line(const Heap *heap, int height, u64 k) {
    if (!heap[k]) return 0;
    if (height == LEAF) return intern(heap[k]);
    u32 west = named_line(heap, height - 1, 2 * k), east = named_line(heap, height - 1, 2 * k + 1);
    return pair(pair(west, east), 0);
}
/* adds the rows of the elements of a vector */
static void add_image(List edges, const u32 *starts, const Heap *now, Heap *image, u64 leaves) {
    for (u64 k = 0; k < leaves; k++)
        for (u32 cells = now[leaves + k]; cells; cells &= cells - 1) {
            u64 i = SIDE * k + __builtin_ctz(cells);
            for (u32 l = starts[i]; l < starts[i + 1]; l++) {
                u32 j = edges.pair[l][1];
                image[leaves + j / SIDE] |= 1 << j % SIDE;
            }
        }
}
/* what is reached from the first element in the graph that all files give together, level by level */
static Tree search(void) {
    Tree found = {1, given[0].rows, 0, given[0].height};
    u64 leaves = 1ull << (found.height - LEAF);
    Heap *all = zeros(2 * leaves), *now = zeros(2 * leaves), *image = zeros(2 * leaves);
    List edges[files];
    u32 *starts[files];
    for (int f = 0; f < files; f++) edges[f] = listed(given[f]), starts[f] = starts_of(edges[f], given[f].rows);
    all[leaves] = now[leaves] = 1;
    mark(all, leaves), mark(now, leaves);
    while (now[1]) {
        memset(image, 0, 2 * leaves);
        for (int f = 0; f < files; f++) add_image(edges[f], starts[f], now, image, leaves);
        for (u64 k = leaves; k < 2 * leaves; k++) now[k] = image[k] & ~all[k], all[k] |= now[k];
        mark(now, leaves), mark(all, leaves);
        named_line(now, found.height, 1);
        found.name = named_line(all, found.height, 1);
    }
    return found;
}

/* appends a number, and a sign after it */
static char *put_number(char *end, u32 number, char sign) {
    char digits[10];
    int k = 10;
    do digits[--k] = '0' + number % 10;
    while (number /= 10);
    memcpy(end, digits + k, 10 - k);
    end[10 - k] = sign;
    return end + 11 - k;
}
/* writes the list of the pairs, counted from 1, as LIST does */
static Tree listing(void) {
    List list = listed(given[0]);
    char *text = room_for(LINE * list.count + 100), *end = text;
    end += sprintf(text, "%u x %u, pairs %llu\n", given[0].rows, given[0].cols, (unsigned long long)list.count);
    for (u64 k = 0; k < list.count; k++)
        end = put_number(put_number(end, list.pair[k][0] + 1, ':'), list.pair[k][1] + 1, '\n');
    fwrite(text, 1, end - text, stdout);
    return given[0];
}

static const struct { const char *name; Tree (*made)(void); } works[] = {
    {"closure", closure}, {"product", product}, {"search", search}, {"listing", listing},
};

int main(int count_of_words, char **word) {
    if (count_of_words < 4 || atoi(word[2]) < 10 || atoi(word[2]) > 24) return 2;
    open_table(atoi(word[2]));
    files = count_of_words - 3;
    given = room_for(files * sizeof *given);
    for (int f = 0; f < files; f++) given[f] = tree_of_file(word[3 + f]);
    if (!strcmp(word[1], "read")) return 0;
    for (size_t k = 0; k < sizeof works / sizeof *works; k++)
        if (!strcmp(word[1], works[k].name)) {
            Tree t = works[k].made();
            printf("%llu\n", (unsigned long long)pairs_in(t));
            return 0;
        }
    return 2;
}
