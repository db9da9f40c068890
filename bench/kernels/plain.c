// The same trees, products and closures in plain C, by the same steps, for one thread and without a proof.
// plain BITS products HEIGHT CELLS prints what `bench_trees products` prints of its random squares.
// plain BITS random|acyclic|cycle VERTICES prints the line of `bench_engine kernels` for a closure by quarters.
#define _POSIX_C_SOURCE 200809L
#include <stdint.h>
#include <stdio.h>
#include <stdlib.h>
#include <string.h>
#include <time.h>

enum { UNION, COMPOSE };
#define BOTTOM 3
#define SLOTS (1u << 20)
#define PLACES 1024
#define TALLEST 13
// a call of its own, so that its arrays are on the stack once
#define ALONE __attribute__((noinline)) static

static uint64_t *words, *memo, count;
static int bits;

// ---- the table
static uint64_t home(uint64_t word) {
    uint64_t x = (word >> 32) * 2654435761ull + (uint32_t)word * 2246822519ull;
    while (x >= 2ull << bits)
        x = (x >> bits) * 2 + (x & ((1ull << bits) - 1));
    while (x >= count)
        x -= count;
    return x;
}

static uint32_t intern(uint64_t word) {
    uint64_t place = home(word);
    for (uint64_t step = 0; step < count; step++) {
        if (words[2 + place] == 0) {
            words[2 + place] = word;
            return (uint32_t)(2 + place);
        }
        if (words[2 + place] == word)
            return (uint32_t)(2 + place);
        place = place + 1 == count ? 0 : place + 1;
    }
    fprintf(stderr, "the table is full\n");
    exit(1);
}

static uint32_t pair(uint32_t left, uint32_t right) {
    return left == 0 && right == 0 ? 0 : intern(((uint64_t)left << 32) + right);
}

static uint32_t corner(uint32_t nw, uint32_t ne, uint32_t sw, uint32_t se) {
    uint32_t north = pair(nw, ne), south = pair(sw, se);
    return pair(north, south);
}

static uint32_t block(uint64_t cells) { return cells == 0 ? 0 : intern(cells); }

static uint32_t left(uint32_t name) { return (uint32_t)(words[name] >> 32); }
static uint32_t right(uint32_t name) { return (uint32_t)words[name]; }

typedef struct {
    uint32_t nw, ne, sw, se;
} Four;

static Four quarters(uint32_t name) {
    uint32_t north = left(name), south = right(name);
    return (Four){left(north), right(north), left(south), right(south)};
}

static int is_full(int height, uint32_t name) {
    if (height == BOTTOM)
        return words[name] == UINT64_MAX;
    if (left(name) != right(name))
        return 0;
    uint32_t north = left(name);
    return left(north) == right(north) && is_full(height - 1, left(north));
}

// ---- the memory of results
static uint64_t asked(int op, int height, uint32_t a, uint32_t b) {
    return ((uint64_t)(a >> 10) << 47) + ((uint64_t)(b >> 10) << 33) + ((uint64_t)(op + 1) << 5) + height;
}

static uint64_t *slot(uint32_t a, uint32_t b) { return &memo[a % 1024 * 1024 + b % 1024]; }

#define RESULT (((1ull << 24) - 1) << 9)

static int look(int op, int height, uint32_t a, uint32_t b, uint32_t *found) {
    uint64_t word = *slot(a, b);
    if ((word & ~RESULT) != asked(op, height, a, b))
        return 0;
    *found = (uint32_t)((word & RESULT) >> 9);
    return 1;
}

static uint32_t noted(int op, int height, uint32_t a, uint32_t b, uint32_t found) {
    *slot(a, b) = asked(op, height, a, b) + ((uint64_t)found << 9);
    return found;
}

// ---- blocks in tree order
static int weight;
static uint32_t weighed[256];

static void weigh(int height, uint32_t name) {
    if (weight == 0 || weight >= 42)
        return;
    if (name == 0) {
        weight = weight < 4 ? 0 : weight - 4;
        return;
    }
    if (weighed[name % 256] == name)
        return;
    weighed[name % 256] = name;
    weight++;
    if (height < 5)
        return;
    Four q = quarters(name);
    weigh(height - 1, q.nw);
    weigh(height - 1, q.ne);
    weigh(height - 1, q.sw);
    weigh(height - 1, q.se);
}

static int blocks_pay(uint32_t name) {
    memset(weighed, 0, sizeof weighed);
    weight = 12;
    weigh(8, name);
    return weight >= 42;
}

ALONE void spill_blocks(uint32_t name, uint64_t *blocks) {
    uint32_t names[PLACES] = {name};
    for (int many = 1; many < PLACES; many *= 4)
        for (int k = many - 1; k >= 0; k--) {
            Four q = quarters(names[k]);
            names[4 * k] = q.nw;
            names[4 * k + 1] = q.ne;
            names[4 * k + 2] = q.sw;
            names[4 * k + 3] = q.se;
        }
    for (int k = 0; k < PLACES; k++)
        blocks[k] = words[names[k]];
}

ALONE uint32_t gather_blocks(const uint64_t *blocks, int height) {
    uint32_t names[PLACES];
    int many = 1 << 2 * (height - BOTTOM);
    for (int k = 0; k < many; k++)
        names[k] = block(blocks[k]);
    for (many /= 4; many > 0; many /= 4)
        for (int k = 0; k < many; k++)
            names[k] = corner(names[4 * k], names[4 * k + 1], names[4 * k + 2], names[4 * k + 3]);
    return names[0];
}

// ---- the union
ALONE uint32_t united_blocks(uint32_t a, uint32_t b) {
    uint64_t first[PLACES], second[PLACES];
    spill_blocks(a, first);
    spill_blocks(b, second);
    for (int k = 0; k < PLACES; k++)
        first[k] |= second[k];
    return gather_blocks(first, 8);
}

static uint32_t united(int height, uint32_t a, uint32_t b) {
    uint32_t found;
    if (a == b || b == 0)
        return a;
    if (a == 0)
        return b;
    if (height == BOTTOM)
        return block(words[a] | words[b]);
    if (b < a) {
        uint32_t first = a;
        a = b;
        b = first;
    }
    if (is_full(height, a))
        return a;
    if (is_full(height, b))
        return b;
    if (look(UNION, height, a, b, &found))
        return found;
    if (height == 8 && blocks_pay(a) && blocks_pay(b))
        return noted(UNION, height, a, b, united_blocks(a, b));
    Four p = quarters(a), q = quarters(b);
    uint32_t nw = united(height - 1, p.nw, q.nw), ne = united(height - 1, p.ne, q.ne);
    uint32_t sw = united(height - 1, p.sw, q.sw), se = united(height - 1, p.se, q.se);
    return noted(UNION, height, a, b, corner(nw, ne, sw, se));
}

// ---- rows of bits
typedef struct {
    uint64_t w[4];
} Row;

static void join(Row *x, const Row *y) {
    for (int k = 0; k < 4; k++)
        x->w[k] |= y->w[k];
}

static void add_block(Row *z, uint64_t cells, int row, int col) {
    for (int t = 0; t < 8; t++)
        z[row + t].w[col / 64] |= (cells >> 8 * t & 255) << col % 64;
}

static uint64_t block_at(const Row *z, int row, int col) {
    uint64_t cells = 0;
    for (int t = 0; t < 8; t++)
        cells |= (z[row + t].w[col / 64] >> col % 64 & 255) << 8 * t;
    return cells;
}

static void spill_rows(int height, uint32_t name, Row *z, int row, int col) {
    if (name == 0)
        return;
    if (height == BOTTOM) {
        add_block(z, words[name], row, col);
        return;
    }
    int half = 1 << (height - 1);
    Four q = quarters(name);
    spill_rows(height - 1, q.nw, z, row, col);
    spill_rows(height - 1, q.ne, z, row, col + half);
    spill_rows(height - 1, q.sw, z, row + half, col);
    spill_rows(height - 1, q.se, z, row + half, col + half);
}

static int is_clear(const Row *z, int row, int col, int side) {
    Row all = {{0}};
    for (int t = 0; t < side; t++)
        join(&all, &z[row + t]);
    for (int k = col; k < col + side; k += 8)
        if (all.w[k / 64] >> k % 64 & 255)
            return 0;
    return 1;
}

static void cut(const Row *z, int height, int row, int col, int k, uint64_t *blocks) {
    if (height == BOTTOM) {
        blocks[k] = block_at(z, row, col);
        return;
    }
    int half = 1 << (height - 1);
    cut(z, height - 1, row, col, 4 * k, blocks);
    cut(z, height - 1, row, col + half, 4 * k + 1, blocks);
    cut(z, height - 1, row + half, col, 4 * k + 2, blocks);
    cut(z, height - 1, row + half, col + half, 4 * k + 3, blocks);
}

ALONE uint32_t gather_rows(const Row *z, int height) {
    uint64_t blocks[PLACES];
    if (is_clear(z, 0, 0, 1 << height))
        return 0;
    cut(z, height, 0, 0, 0, blocks);
    return gather_blocks(blocks, height);
}

ALONE void compose_by_tables(Row *z, const Row *a, const Row *b) {
    Row tables[256];
    for (int q = 0; q < 4; q++) {
        for (int e = 0; e < 256; e++) {
            int m = e % 16, first = m ? __builtin_ctz(m) : 0;
            tables[e] = m ? tables[e - m + (m & (m - 1))] : (Row){{0}};
            if (m)
                join(&tables[e], &b[64 * q + 4 * (e / 16) + first]);
        }
        for (int i = 0; i < 256; i++) {
            Row all = z[i];
            for (int g = 0; g < 16; g++)
                join(&all, &tables[16 * g + (a[i].w[q] >> 4 * g & 15)]);
            z[i] = all;
        }
    }
}

static void compose_rows(Row *z, const Row *a, const Row *b) {
    int cells = 0;
    for (int i = 0; i < 256; i++)
        for (int k = 0; k < 4; k++)
            cells += __builtin_popcountll(a[i].w[k]);
    if (cells >= 8192) {
        compose_by_tables(z, a, b);
        return;
    }
    for (int i = 0; i < 256; i++) {
        Row all = z[i];
        for (int q = 0; q < 4; q++)
            for (uint64_t w = a[i].w[q]; w; w &= w - 1)
                join(&all, &b[64 * q + __builtin_ctzll(w)]);
        z[i] = all;
    }
}

// ---- what is dense
static uint32_t seen[256];

static int met_under(int height, uint32_t name, int met, int most) {
    if (name == 0 || met >= most || seen[name % 256] == name)
        return met;
    seen[name % 256] = name;
    if (height == BOTTOM)
        return met + 1;
    Four q = quarters(name);
    met = met_under(height - 1, q.nw, met + 1, most);
    met = met_under(height - 1, q.ne, met, most);
    met = met_under(height - 1, q.sw, met, most);
    return met_under(height - 1, q.se, met, most);
}

static int has_under(int height, uint32_t name, int least) {
    memset(seen, 0, sizeof seen);
    return met_under(height, name, 0, least) >= least;
}

static int may_be_dense(Four q) {
    if (q.nw == q.se)
        return 0;
    return q.nw == 0 || q.se == 0 ? q.ne && q.sw : q.ne || q.sw;
}

static int filled(int height, uint32_t name) {
    if (name == 0 || height == BOTTOM)
        return 0;
    Four q = quarters(name);
    return (q.nw != 0) + (q.ne != 0) + (q.sw != 0) + (q.se != 0);
}

static int is_dense(int height, uint32_t name) {
    Four q = quarters(name);
    if (!may_be_dense(q))
        return 0;
    if (filled(height - 1, q.nw) + filled(height - 1, q.ne) + filled(height - 1, q.sw) + filled(height - 1, q.se) < 12)
        return 0;
    return has_under(height, name, height == 8 ? 80 : height == 7 ? 40 : 20);
}

static int rows_pay(int height, uint32_t a, uint32_t b, int tallest) {
    return height >= 6 && height <= 8 && height <= tallest && is_dense(height, a) && is_dense(height, b);
}

static uint32_t squares[1024];

static int dense_under(int height, uint32_t name, int joins, int met, int most) {
    if (name == 0 || met >= most || squares[name % 1024] == name)
        return met;
    squares[name % 1024] = name;
    if (height == 8)
        return met + (joins ? has_under(8, name, 40) : is_dense(8, name));
    Four q = quarters(name);
    met = dense_under(height - 1, q.nw, joins, met, most);
    met = dense_under(height - 1, q.ne, joins, met, most);
    met = dense_under(height - 1, q.sw, joins, met, most);
    return dense_under(height - 1, q.se, joins, met, most);
}

static int has_many(int height, uint32_t name, int joins) {
    static const int least[] = {2, 4, 16, 64, 256};
    int most = height <= 12 ? least[height - 9] : 256;
    if (!may_be_dense(quarters(name)))
        return 0;
    memset(squares, 0, sizeof squares);
    return dense_under(height, name, joins, 0, most) >= most;
}

static int has_dense(int height, uint32_t name) {
    memset(squares, 0, sizeof squares);
    return dense_under(height, name, 0, 0, 1) > 0;
}

static int sums_pay(int height, uint32_t a, uint32_t b, int joins, int tallest) {
    return height >= 9 && height <= tallest && has_many(height, a, joins) && has_many(height, b, joins);
}

static int asked_under(int height, uint32_t a, uint32_t b, int tallest) {
    if (tallest == 0 || height < 8)
        return 0;
    if (height == 8 || height > tallest)
        return tallest;
    return has_dense(height, a) && has_dense(height, b) ? tallest : 0;
}

// ---- sums of products, in rows
ALONE void add_times(const Row *upper, const Row *lower, uint32_t b, Row *north, Row *south) {
    if (b == 0)
        return;
    Row y[256] = {{{0}}};
    spill_rows(8, b, y, 0, 0);
    compose_rows(north, upper, y);
    compose_rows(south, lower, y);
}

ALONE void add_four_products(uint32_t above, uint32_t below, uint32_t west, uint32_t east, Row z[4][256]) {
    if (above == 0 && below == 0)
        return;
    Row upper[256] = {{{0}}}, lower[256] = {{{0}}};
    spill_rows(8, above, upper, 0, 0);
    spill_rows(8, below, lower, 0, 0);
    add_times(upper, lower, west, z[0], z[2]);
    add_times(upper, lower, east, z[1], z[3]);
}

static void add_to_squares(int height, uint32_t a, uint32_t b, int row, int col, Row z[4][256]) {
    if (a == 0 || b == 0)
        return;
    Four p = quarters(a), q = quarters(b);
    if (height == 9) {
        add_four_products(p.nw, p.sw, q.nw, q.ne, z);
        add_four_products(p.ne, p.se, q.sw, q.se, z);
        return;
    }
    int half = 1 << (height - 1), south = row >= half, east = col >= half;
    row -= south ? half : 0;
    col -= east ? half : 0;
    add_to_squares(height - 1, south ? p.sw : p.nw, east ? q.ne : q.nw, row, col, z);
    add_to_squares(height - 1, south ? p.se : p.ne, east ? q.se : q.sw, row, col, z);
}

// the quad of an addend and of a composition's cells, from a row and a column on
ALONE uint32_t four_sums(Four q, int tall, uint32_t a, uint32_t b, int row, int col) {
    Row z[4][256] = {{{{0}}}};
    spill_rows(8, q.nw, z[0], 0, 0);
    spill_rows(8, q.ne, z[1], 0, 0);
    spill_rows(8, q.sw, z[2], 0, 0);
    spill_rows(8, q.se, z[3], 0, 0);
    add_to_squares(tall, a, b, row, col, z);
    uint32_t nw = gather_rows(z[0], 8), ne = gather_rows(z[1], 8);
    uint32_t sw = gather_rows(z[2], 8), se = gather_rows(z[3], 8);
    return corner(nw, ne, sw, se);
}

static uint32_t summed(int height, uint32_t x, int tall, uint32_t a, uint32_t b, int row, int col) {
    Four q = quarters(x);
    if (height == 9)
        return four_sums(q, tall, a, b, row, col);
    int half = 1 << (height - 1);
    uint32_t nw = summed(height - 1, q.nw, tall, a, b, row, col), ne = summed(height - 1, q.ne, tall, a, b, row, col + half);
    uint32_t sw = summed(height - 1, q.sw, tall, a, b, row + half, col);
    uint32_t se = summed(height - 1, q.se, tall, a, b, row + half, col + half);
    return corner(nw, ne, sw, se);
}

ALONE uint32_t joined_small(int height, uint32_t x, uint32_t y, uint32_t z) {
    Row sum[256] = {{{0}}}, first[256] = {{{0}}}, second[256] = {{{0}}};
    spill_rows(height, x, sum, 0, 0);
    spill_rows(height, y, first, 0, 0);
    spill_rows(height, z, second, 0, 0);
    compose_rows(sum, first, second);
    return gather_rows(sum, height);
}

// ---- the composition
static uint64_t block_compose(uint64_t a, uint64_t b) {
    uint64_t found = 0;
    for (int j = 0; j < 8; j++)
        found |= (a >> j & 0x0101010101010101ull) * (b >> 8 * j & 255);
    return found;
}

static uint32_t composed(int height, uint32_t a, uint32_t b, int tallest) {
    uint32_t found;
    if (a == 0 || b == 0)
        return 0;
    if (height == BOTTOM)
        return block(block_compose(words[a], words[b]));
    if (is_full(height, a) && is_full(height, b))
        return a;
    if (look(COMPOSE, height, a, b, &found))
        return found;
    if (rows_pay(height, a, b, tallest))
        return noted(COMPOSE, height, a, b, joined_small(height, 0, a, b));
    if (sums_pay(height, a, b, 0, tallest))
        return noted(COMPOSE, height, a, b, summed(height, 0, height, a, b, 0, 0));
    int under = asked_under(height, a, b, tallest);
    Four p = quarters(a), q = quarters(b);
    uint32_t first = composed(height - 1, p.nw, q.nw, under), second = composed(height - 1, p.ne, q.sw, under);
    uint32_t nw = united(height - 1, first, second);
    first = composed(height - 1, p.nw, q.ne, under), second = composed(height - 1, p.ne, q.se, under);
    uint32_t ne = united(height - 1, first, second);
    first = composed(height - 1, p.sw, q.nw, under), second = composed(height - 1, p.se, q.sw, under);
    uint32_t sw = united(height - 1, first, second);
    first = composed(height - 1, p.sw, q.ne, under), second = composed(height - 1, p.se, q.se, under);
    uint32_t se = united(height - 1, first, second);
    return noted(COMPOSE, height, a, b, corner(nw, ne, sw, se));
}

// ---- the closure
// x | y*z
static uint32_t joined(int height, uint32_t x, uint32_t y, uint32_t z) {
    uint32_t found;
    if (height > BOTTOM && y && z && !(is_full(height, y) && is_full(height, z))) {
        int least = height == 8 ? 40 : height == 7 ? 20 : 10;
        int small = height >= 6 && height <= 8 && has_under(height, y, least) && has_under(height, z, least);
        if ((small || sums_pay(height, y, z, 1, TALLEST)) && !look(COMPOSE, height, y, z, &found))
            return height <= 8 ? joined_small(height, x, y, z) : summed(height, x, height, y, z, 0, 0);
    }
    return united(height, x, composed(height, y, z, TALLEST));
}

static uint32_t gather_square(const Row *z, int height, int row, int col) {
    if (height == BOTTOM)
        return block(block_at(z, row, col));
    if (is_clear(z, row, col, 1 << height))
        return 0;
    int half = 1 << (height - 1);
    uint32_t nw = gather_square(z, height - 1, row, col), ne = gather_square(z, height - 1, row, col + half);
    uint32_t sw = gather_square(z, height - 1, row + half, col), se = gather_square(z, height - 1, row + half, col + half);
    return corner(nw, ne, sw, se);
}

ALONE uint32_t closed_by_rows(int height, uint32_t name) {
    Row z[256] = {{{0}}};
    spill_rows(height, name, z, 0, 0);
    for (int k = 0; k < 256; k++)
        for (int i = 0; i < 256; i++)
            if (z[i].w[k / 64] >> k % 64 & 1)
                join(&z[i], &z[k]);
    return gather_square(z, height, 0, 0);
}

static uint32_t closed(int height, uint32_t name) {
    if (name == 0)
        return 0;
    if (height == BOTTOM) {
        for (int k = 0; k < 3; k++)
            name = joined(height, name, name, name);
        return name;
    }
    Four q = quarters(name);
    if (height >= 6 && height <= 8 && q.nw != q.se && has_under(height, name, height == 8 ? 80 : height == 7 ? 40 : 20))
        return closed_by_rows(height, name);
    int h = height - 1;
    uint32_t a = closed(h, q.nw);
    uint32_t b = joined(h, q.ne, a, q.ne), c = joined(h, q.sw, q.sw, a), rest = joined(h, q.se, q.sw, b);
    uint32_t d = rest == q.nw ? a : closed(h, rest);
    uint32_t east = joined(h, b, b, d), south = joined(h, c, d, c), north = joined(h, a, east, c);
    return corner(north, east, south, d);
}

// ---- what is measured
static uint64_t state = 1;

static uint64_t next(void) { return state = state * 6364136223846793005ull + 1442695040888963407ull; }

static uint32_t random_quad(int height, uint64_t chance) {
    if (height == BOTTOM) {
        uint64_t cells = 0;
        for (int cell = 0; cell < 64; cell++)
            cells = cells * 2 + ((next() >> 33) % 1000000 < chance);
        return block(cells);
    }
    uint32_t nw = random_quad(height - 1, chance), ne = random_quad(height - 1, chance);
    uint32_t sw = random_quad(height - 1, chance), se = random_quad(height - 1, chance);
    return corner(nw, ne, sw, se);
}

static uint64_t *cells;
static uint32_t vertices;

static uint32_t quad_of(int height, uint32_t row, uint32_t col) {
    if (row >= vertices || col >= vertices)
        return 0;
    if (height == BOTTOM) {
        uint64_t found = 0;
        for (uint32_t t = 0; t < 8 && row + t < vertices; t++)
            found |= (cells[((uint64_t)(row + t) * ((vertices + 63) / 64 * 64) + col) / 64] >> col % 64 & 255) << 8 * t;
        return block(found);
    }
    uint32_t half = 1u << (height - 1);
    uint32_t nw = quad_of(height - 1, row, col), ne = quad_of(height - 1, row, col + half);
    uint32_t sw = quad_of(height - 1, row + half, col), se = quad_of(height - 1, row + half, col + half);
    return corner(nw, ne, sw, se);
}

static void add_edge(char graph, uint32_t from) {
    uint64_t lot = next() >> 33;
    uint32_t to = from + 1 == vertices ? 0 : from + 1;
    if (graph == 'a' && from + 1 == vertices)
        return;
    if (graph == 'r')
        to = lot % vertices;
    if (graph == 'a')
        to = from + 1 + lot % (vertices - from - 1);
    uint64_t at = (uint64_t)from * ((vertices + 63) / 64 * 64) + to;
    cells[at / 64] |= 1ull << at % 64;
}

static uint64_t pairs(int height, uint32_t name) {
    if (name == 0)
        return 0;
    if (height == BOTTOM)
        return __builtin_popcountll(words[name]);
    Four q = quarters(name);
    if (q.nw == q.ne && q.nw == q.sw && q.nw == q.se)
        return 4 * pairs(height - 1, q.nw);
    return pairs(height - 1, q.nw) + pairs(height - 1, q.ne) + pairs(height - 1, q.sw) + pairs(height - 1, q.se);
}

static uint64_t now(void) {
    struct timespec t;
    clock_gettime(CLOCK_MONOTONIC, &t);
    return (uint64_t)t.tv_sec * 1000000000 + (uint64_t)t.tv_nsec;
}

// writes to each page, since a compiler may take zeros that were not written yet for what was asked
static void touch(uint64_t *list, uint64_t size) {
    for (uint64_t k = 0; k < size; k += 512)
        *(volatile uint64_t *)&list[k] = 0;
}

// a new table, whose pages are written
static void make_table(void) {
    uint64_t size = 1ull << bits;
    count = size - 2;
    free(words);
    free(memo);
    words = malloc(size * 8);
    memo = malloc(SLOTS * 8);
    if (words == 0 || memo == 0)
        exit(1);
    memset(words, 0, size * 8);
    memset(memo, 0, SLOTS * 8);
    touch(words, size);
    touch(memo, SLOTS);
}

static void measure_products(int height, uint64_t each) {
    for (int tallest = TALLEST; tallest >= 0; tallest -= TALLEST) {
        make_table();
        state = 1;
        uint64_t chance = (each * 1000000) >> height;
        uint32_t a = random_quad(height, chance), b = random_quad(height, chance);
        uint64_t start = now();
        uint32_t name = composed(height, a, b, tallest);
        printf("%s %llu %u\n", tallest ? "rows" : "quarters", (unsigned long long)(now() - start), name);
    }
}

static void measure_closure(char graph) {
    int height = BOTTOM;
    while (1u << height < vertices)
        height++;
    make_table();
    cells = calloc((uint64_t)vertices * ((vertices + 63) / 64), 8);
    for (uint32_t from = 0; from < vertices; from++) {
        add_edge(graph, from);
        add_edge(graph, from);
    }
    uint32_t name = quad_of(height, 0, 0);
    uint64_t start = now();
    uint32_t closure = closed(height, name);
    printf("quarters %llu %llu\n", (unsigned long long)(now() - start), (unsigned long long)pairs(height, closure));
}

int main(int argc, char **argv) {
    if (argc < 4)
        return 1;
    bits = atoi(argv[1]);
    if (argv[2][0] == 'p') {
        measure_products(atoi(argv[3]), argc > 4 ? strtoull(argv[4], 0, 10) : 8);
        return 0;
    }
    vertices = (uint32_t)atoi(argv[3]);
    measure_closure(argv[2][0]);
}
