/* The work of bench/peers on matrices of bits, 64 a word: dense WORK WORD.. prints how many pairs come out.
   A set of elements is a column of the membership relation, and bit i of its number says whether element i is in it. */
#include "pairs.h"
#include <string.h>

typedef uint64_t Word;
typedef struct { size_t rows, cols, wide; Word *bits; } Matrix;

static char **given;

static Matrix made(size_t rows, size_t cols) {
    Matrix m = {rows, cols, (cols + 63) / 64, NULL};
    m.bits = calloc(rows * m.wide + 1, sizeof(Word));
    return m;
}
static Word *row(Matrix m, size_t i) { return m.bits + i * m.wide; }
static int has(Matrix m, size_t i, size_t j) { return row(m, i)[j / 64] >> (j % 64) & 1; }
static void put(Matrix m, size_t i, size_t j) { row(m, i)[j / 64] |= (Word)1 << (j % 64); }
static void join(Word *to, const Word *from, size_t wide) { for (size_t k = 0; k < wide; k++) to[k] |= from[k]; }
/* the bits of the last word of a row that are columns */
static Word rest(Matrix m) { return m.cols % 64 ? ((Word)1 << m.cols % 64) - 1 : ~(Word)0; }

static Matrix file(int place) {
    Pairs p = read_pairs(given[place]);
    Matrix m = made(p.rows, p.cols);
    for (size_t k = 0; k < p.count; k++) put(m, p.pair[k][0], p.pair[k][1]);
    return m;
}
static size_t number(int place) { return strtoul(given[place], NULL, 10); }

static uint64_t count(Matrix m) {
    uint64_t n = 0;
    for (size_t k = 0; k < m.rows * m.wide; k++) n += __builtin_popcountll(m.bits[k]);
    return n;
}
static Matrix transposed(Matrix m) {
    Matrix t = made(m.cols, m.rows);
    for (size_t i = 0; i < m.rows; i++)
        for (size_t k = 0; k < m.wide; k++)
            for (Word w = row(m, i)[k]; w; w &= w - 1) put(t, 64 * k + __builtin_ctzll(w), i);
    return t;
}
static Matrix complement(Matrix m) {
    Matrix c = made(m.rows, m.cols);
    for (size_t i = 0; i < m.rows; i++) {
        for (size_t k = 0; k < m.wide; k++) row(c, i)[k] = ~row(m, i)[k];
        if (m.wide) row(c, i)[m.wide - 1] &= rest(m);
    }
    return c;
}
static Matrix product(Matrix a, Matrix b) {
    Matrix c = made(a.rows, b.cols);
    for (size_t i = 0; i < a.rows; i++)
        for (size_t k = 0; k < a.wide; k++)
            for (Word w = row(a, i)[k]; w; w &= w - 1) join(row(c, i), row(b, 64 * k + __builtin_ctzll(w)), c.wide);
    return c;
}
static void close_under(Matrix m) {
    for (size_t k = 0; k < m.rows; k++)
        for (size_t i = 0; i < m.rows; i++)
            if (has(m, i, k)) join(row(m, i), row(m, k), m.wide);
}
/* how many rows of the one are rows of the other, each with each */
static uint64_t equal_rows(Matrix a, Matrix b) {
    uint64_t n = 0;
    for (size_t i = 0; i < a.rows; i++)
        for (size_t j = 0; j < b.rows; j++) n += !memcmp(row(a, i), row(b, j), a.wide * sizeof(Word));
    return n;
}

/* relations that stand in files */

static uint64_t start(void) { return 0; }
static uint64_t read_all(void) {
    uint64_t n = 0;
    for (int place = 0; given[place]; place++) n += count(file(place));
    return n;
}
static uint64_t closure(void) {
    Matrix m = file(0);
    close_under(m);
    return count(m);
}
static uint64_t composed(void) { return count(product(file(0), file(1))); }
static uint64_t of_closure(void) {
    Matrix m = file(0);
    close_under(m);
    Matrix t = transposed(m);
    return equal_rows(t, t);
}
static uint64_t mix(void) {
    Matrix r = file(0), s = file(1), t = transposed(s);
    uint64_t n = 0;
    for (size_t k = 0; k < r.rows * r.wide; k++)
        n += __builtin_popcountll((r.bits[k] | s.bits[k]) & ~(r.bits[k] & t.bits[k]));
    return n;
}
static uint64_t united(void) {
    Matrix r = file(0);
    join(r.bits, file(1).bits, r.rows * r.wide);
    return count(r);
}
static uint64_t met(void) {
    Matrix r = file(0), s = file(1);
    for (size_t k = 0; k < r.rows * r.wide; k++) r.bits[k] &= s.bits[k];
    return count(r);
}
static uint64_t outside(void) { return count(complement(file(0))); }
static uint64_t turned(void) { return count(transposed(file(0))); }
static uint64_t columns_by_rows(void) { return count(product(transposed(file(0)), file(1))); }
static uint64_t right_residual(void) {
    return count(complement(product(transposed(file(0)), complement(file(1)))));
}
static uint64_t quotient(void) { return equal_rows(transposed(file(0)), transposed(file(1))); }
static uint64_t quotient_of_rows(void) { return equal_rows(file(0), file(1)); }
/* the rows of the one that meet a row of the other, or that hold one, each with each */
static uint64_t rows_that(int hold) {
    Matrix r = file(0), s = file(1);
    uint64_t n = 0;
    for (size_t i = 0; i < r.rows; i++)
        for (size_t j = 0; j < s.rows; j++) {
            size_t k = 0;
            while (k < r.wide && !(row(s, j)[k] & (hold ? ~row(r, i)[k] : row(r, i)[k]))) k++;
            n += hold == (k == r.wide);
        }
    return n;
}
static uint64_t rows_by_columns(void) { return rows_that(0); }
static uint64_t left_residual(void) { return rows_that(1); }

/* sets of sets */

static Matrix membership(size_t n) {
    static const Word low[6] = {0xaaaaaaaaaaaaaaaa, 0xcccccccccccccccc, 0xf0f0f0f0f0f0f0f0,
                                0xff00ff00ff00ff00, 0xffff0000ffff0000, 0xffffffff00000000};
    Matrix e = made(n, (size_t)1 << n);
    for (size_t i = 0; i < n; i++)
        for (size_t k = 0; k < e.wide; k++) row(e, i)[k] = (i < 6 ? low[i] : -(Word)(k >> (i - 6) & 1)) & rest(e);
    return e;
}
static uint64_t epsi(void) { return count(membership(number(0))); }
static uint64_t inclusion(void) {
    Matrix e = membership(number(0)), out = made(1, e.cols);
    uint64_t n = 0;
    for (size_t s = 0; s < e.cols; s++) {
        memset(out.bits, 0, out.wide * sizeof(Word));
        for (size_t i = 0; i < e.rows; i++)
            if (s >> i & 1) for (size_t k = 0; k < e.wide; k++) out.bits[k] |= ~row(e, i)[k] & rest(e);
        n += e.cols - count(out);
    }
    return n;
}
static uint64_t kernels(void) {
    Matrix g = file(0), e = membership(g.rows), p = product(g, e), breaks = made(1, e.cols);
    for (size_t i = 0; i < e.rows; i++)
        for (size_t k = 0; k < e.wide; k++) breaks.bits[k] |= ~(row(e, i)[k] ^ row(p, i)[k]) & rest(e);
    return e.cols - count(breaks);
}
/* whether another set of v is over, or under, set s: row s of the inclusion, or its column, by pieces */
static int is_beaten(Matrix e, Matrix v, size_t s, int by_greater) {
    enum { PIECE = 64 };
    for (size_t from = 0; from < v.wide; from += PIECE) {
        size_t wide = v.wide - from < PIECE ? v.wide - from : PIECE;
        Word others[PIECE], some = 0;
        memcpy(others, v.bits + from, wide * sizeof(Word));
        if (s / 64 >= from && s / 64 < from + wide) others[s / 64 - from] &= ~((Word)1 << s % 64);
        for (size_t k = 0; k < wide; k++) some |= others[k];
        for (size_t i = 0; i < e.rows && some; i++) {
            const Word *in = row(e, i) + from;
            if (!(s >> i & 1) && !by_greater) for (size_t k = 0; k < wide; k++) others[k] &= ~in[k];
            if ((s >> i & 1) && by_greater) for (size_t k = 0; k < wide; k++) others[k] &= in[k];
        }
        for (size_t k = some = 0; k < wide; k++) some |= others[k];
        if (some) return 1;
    }
    return 0;
}
static uint64_t extremes(Matrix e, Matrix v, int greatest) {
    uint64_t n = 0;
    for (size_t s = 0; s < v.cols; s++) n += has(v, 0, s) && !is_beaten(e, v, s, greatest);
    return n;
}
/* the sets that have no pair of the relation within */
static Matrix without_pairs(Matrix g, Matrix e) {
    Matrix p = product(g, e), bad = made(1, e.cols);
    for (size_t i = 0; i < e.rows; i++)
        for (size_t k = 0; k < e.wide; k++) bad.bits[k] |= row(e, i)[k] & row(p, i)[k];
    return complement(bad);
}
static uint64_t independent(void) {
    Matrix g = file(0), e = membership(g.rows);
    return extremes(e, without_pairs(g, e), 1);
}
static uint64_t cliques(void) {
    Matrix g = file(0), e = membership(g.rows);
    for (size_t i = 0; i < g.rows; i++) put(g, i, i);
    return extremes(e, without_pairs(complement(g), e), 1);
}
/* the sets that are in all rows */
static Matrix in_all(Matrix m) {
    Matrix out = made(1, m.cols), c = complement(m);
    for (size_t i = 0; i < m.rows; i++) join(out.bits, row(c, i), m.wide);
    return complement(out);
}
static uint64_t dominating(void) {
    Matrix g = file(0), e = membership(g.rows);
    for (size_t i = 0; i < g.rows; i++) put(g, i, i);
    return extremes(e, in_all(product(g, e)), 0);
}
static uint64_t hitting(void) {
    Matrix m = file(0), e = membership(m.rows);
    return extremes(e, in_all(product(transposed(m), e)), 0);
}
/* a row for each sum from 0 to the quota: the sets with so many votes or more */
static uint64_t coalitions(void) {
    Pairs p = read_pairs(given[0]);
    size_t quota = number(1);
    Matrix e = membership(p.rows), sums = made(quota + 1, e.cols);
    memset(sums.bits, 255, sums.wide * sizeof(Word));
    for (size_t u = 0; u < p.count; u++)
        for (size_t q = quota; q > 0; q--)
            for (size_t k = 0; k < e.wide; k++) row(sums, q)[k] |= row(sums, q - 1)[k] & row(e, p.pair[u][0])[k];
    Matrix won = made(1, e.cols);
    join(won.bits, row(sums, quota), won.wide);
    return extremes(e, won, 0);
}

static const struct { const char *name; uint64_t (*count)(void); } works[] = {
    {"start", start}, {"read", read_all}, {"closure", closure}, {"product", composed}, {"quotient", of_closure},
    {"mix", mix},
    {"union", united}, {"inter", met}, {"complement", outside}, {"transposed", turned}, {"image", composed},
    {"meets", rows_by_columns}, {"outer", columns_by_rows}, {"under", right_residual}, {"over", left_residual},
    {"columns", quotient}, {"rows", quotient_of_rows},
    {"epsi", epsi}, {"inclusion", inclusion}, {"kernels", kernels}, {"independent", independent}, {"cliques", cliques},
    {"dominating", dominating}, {"hitting", hitting}, {"coalitions", coalitions},
};

int main(int count_of_words, char **word) {
    if (count_of_words < 2) return 2;
    given = word + 2;
    for (size_t k = 0; k < sizeof works / sizeof *works; k++)
        if (!strcmp(word[1], works[k].name)) {
            printf("%llu\n", (unsigned long long)works[k].count());
            return 0;
        }
    return 2;
}
