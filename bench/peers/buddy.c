/* The work of bench/peers on binary decision diagrams (BuDDy): buddy WORK WORD.. prints how many pairs come out.
   Three groups of variables, a, b and c, with the bits of all three next to each other, the highest first. Sets have
   variables behind them, one an element, and two sets have theirs in turn. */
#include "pairs.h"
#include <bdd.h>
#include <string.h>

enum { A, B, C };
enum { ONE, OTHER };
static int height;
static bdd group[3];
static bddPair *to_next, *c_to_b, *turn, *b_to_c;
static char **given;

static uint32_t number(int place) { return strtoul(given[place], NULL, 10); }
static int at(int which, int bit) { return 3 * (height - 1 - bit) + which; }
static int element(int set, uint32_t i) { return 3 * height + 2 * (int)i + set; }

/* for relations of at most this size, and two sets of so many elements; relations alone want more nodes */
static void begin(uint32_t size, uint32_t elements) {
    for (height = 1; (uint32_t)1 << height < size; height++) {}
    int nodes = elements ? 1000000 : 4000000;
    bdd_init(nodes, nodes / 4);
    bdd_setmaxincrease(4000000);
    bdd_setvarnum(3 * height + 2 * elements);
    to_next = bdd_newpair(), c_to_b = bdd_newpair(), turn = bdd_newpair(), b_to_c = bdd_newpair();
    for (int g = A; g <= C; g++) {
        group[g] = bddtrue;
        for (int k = 0; k < height; k++) group[g] = bdd_addref(bdd_and(group[g], bdd_ithvar(at(g, k))));
    }
    for (int k = 0; k < height; k++) {
        bdd_setpair(to_next, at(A, k), at(B, k));
        bdd_setpair(to_next, at(B, k), at(C, k));
        bdd_setpair(c_to_b, at(C, k), at(B, k));
        bdd_setpair(b_to_c, at(B, k), at(C, k));
        bdd_setpair(turn, at(A, k), at(B, k));
        bdd_setpair(turn, at(B, k), at(A, k));
    }
}

/* relations */

static uint64_t key_of(const uint32_t pair[2]) {
    uint64_t key = 0;
    for (int k = height - 1; k >= 0; k--) key = key << 2 | (pair[0] >> k & 1) << 1 | (pair[1] >> k & 1);
    return key;
}
static int by_key(const void *x, const void *y) {
    uint64_t a = *(const uint64_t *)x, b = *(const uint64_t *)y;
    return (a > b) - (a < b);
}
/* the set of these keys, of which so many bits are left */
static bdd of_keys(const uint64_t *keys, size_t count, int bits) {
    if (!count) return bddfalse;
    if (!bits) return bddtrue;
    size_t low = 0;
    while (low < count && !(keys[low] >> (bits - 1) & 1)) low++;
    bdd zero = bdd_addref(of_keys(keys, low, bits - 1)), one = bdd_addref(of_keys(keys + low, count - low, bits - 1));
    int variable = at(bits % 2 ? B : A, (bits - 1) / 2);
    bdd both = bdd_addref(bdd_ite(bdd_ithvar(variable), one, zero));
    bdd_delref(zero), bdd_delref(one);
    return both;
}
static bdd relation(Pairs p) {
    uint64_t *keys = malloc(8 * (size_t)p.count + 8);
    for (size_t k = 0; k < p.count; k++) keys[k] = key_of(p.pair[k]);
    qsort(keys, p.count, 8, by_key);
    return bdd_addref(of_keys(keys, p.count, 2 * height));
}
static bdd file(int place) {
    Pairs p = read_pairs(given[place]);
    if (!height) begin(p.rows > p.cols ? p.rows : p.cols, 0);
    return relation(p);
}
static bdd product(bdd r, bdd s) {
    bdd next = bdd_addref(bdd_replace(s, to_next));
    bdd through = bdd_addref(bdd_relprod(r, next, group[B]));
    bdd made = bdd_addref(bdd_replace(through, c_to_b));
    bdd_delref(next), bdd_delref(through);
    return made;
}
static bdd closed(bdd r) {
    for (bdd now = r;;) {
        bdd twice = product(now, now), more = bdd_addref(bdd_or(now, twice));
        bdd_delref(twice);
        if (more == now) return now;
        now = more;
    }
}
static double pairs_in(bdd r) { return bdd_satcountset(r, bdd_and(group[A], group[B])); }

static double closure(void) { return pairs_in(closed(file(0))); }
static double composed(void) {
    bdd r = file(0);
    return pairs_in(product(r, file(1)));
}
static double quotient(void) {
    bdd c = closed(file(0)), other = bdd_addref(bdd_replace(c, b_to_c));
    bdd equal = bdd_addref(bdd_forall(bdd_biimp(c, other), group[A]));
    return bdd_satcountset(equal, bdd_and(group[B], group[C]));
}
static double mix(void) {
    bdd r = file(0), s = file(1);
    bdd met = bdd_addref(bdd_and(r, bdd_addref(bdd_replace(s, turn))));
    return pairs_in(bdd_addref(bdd_apply(bdd_addref(bdd_or(r, s)), met, bddop_diff)));
}

/* membership, as a relation between the numbers of elements and sets */

static bdd numbered(int which, uint32_t value) {
    bdd cube = bddtrue;
    for (int k = 0; k < height; k++)
        cube = bdd_addref(bdd_and(cube, value >> k & 1 ? bdd_ithvar(at(which, k)) : bdd_nithvar(at(which, k))));
    return cube;
}
static bdd membership(int which, uint32_t size, int set) {
    bdd all = bddfalse;
    for (uint32_t i = 0; i < size; i++)
        all = bdd_addref(bdd_or(all, bdd_addref(bdd_and(numbered(which, i), bdd_ithvar(element(set, i))))));
    return all;
}
static bdd elements(int set, uint32_t size) {
    bdd cube = bddtrue;
    for (uint32_t i = 0; i < size; i++) cube = bdd_addref(bdd_and(cube, bdd_ithvar(element(set, i))));
    return cube;
}
static double epsi(void) {
    uint32_t size = number(0);
    begin(size, size);
    bdd e = membership(A, size, ONE);
    return bdd_satcountset(e, bdd_addref(bdd_and(group[A], elements(ONE, size))));
}
static double inclusion(void) {
    uint32_t size = number(0);
    begin(size, size);
    bdd one = membership(A, size, ONE), other = membership(A, size, OTHER);
    bdd within = bdd_addref(bdd_forall(bdd_imp(one, other), group[A]));
    return bdd_satcountset(within, bdd_addref(bdd_and(elements(ONE, size), elements(OTHER, size))));
}
static double kernels(void) {
    Pairs p = read_pairs(given[0]);
    begin(p.rows, p.rows);
    bdd e = membership(A, p.rows, ONE), inner = membership(B, p.rows, ONE), domain = bddfalse;
    bdd reached = bdd_addref(bdd_relprod(relation(p), inner, group[B]));
    for (uint32_t i = 0; i < p.rows; i++) domain = bdd_addref(bdd_or(domain, numbered(A, i)));
    bdd breaks = bdd_addref(bdd_exist(bdd_and(domain, bdd_biimp(e, reached)), group[A]));
    return bdd_satcountset(bdd_not(breaks), elements(ONE, p.rows));
}

/* sets of sets, as functions of their elements */

static void also(bdd *all, bdd more) {
    bdd_addref(more);
    bdd both = bdd_addref(bdd_and(*all, more));
    bdd_delref(*all), bdd_delref(more);
    *all = both;
}
/* those of v over which, or under which, no other one of v is */
static double extremes(bdd v, uint32_t size, int greatest) {
    bdd within = bddtrue, equal = bddtrue;
    bddPair *to_other = bdd_newpair();
    for (uint32_t i = size; i-- > 0;) {
        bdd one = bdd_ithvar(element(ONE, i)), other = bdd_ithvar(element(OTHER, i));
        also(&within, greatest ? bdd_imp(one, other) : bdd_imp(other, one));
        also(&equal, bdd_biimp(one, other));
        bdd_setpair(to_other, element(ONE, i), element(OTHER, i));
    }
    bdd strict = bdd_addref(bdd_apply(within, equal, bddop_diff));
    bdd others = bdd_addref(bdd_replace(v, to_other));
    bdd beaten = bdd_addref(bdd_relprod(strict, others, elements(OTHER, size)));
    return bdd_satcountset(bdd_addref(bdd_apply(v, beaten, bddop_diff)), elements(ONE, size));
}
/* the matrix of a small relation, row by row */
static char *cells(Pairs p) {
    char *cell = calloc(p.rows * (size_t)p.cols + 1, 1);
    for (size_t k = 0; k < p.count; k++) cell[p.pair[k][0] * (size_t)p.cols + p.pair[k][1]] = 1;
    return cell;
}
/* the sets without two different elements that are in the relation, or that are not in it */
static bdd without_pairs(Pairs p, int in_it) {
    char *cell = cells(p);
    bdd all = bddtrue;
    for (uint32_t i = p.rows; i-- > 0;)
        for (uint32_t j = p.rows; j-- > i + 1;)
            if ((cell[i * p.cols + j] || cell[j * p.cols + i]) == in_it)
                also(&all, bdd_or(bdd_nithvar(element(ONE, i)), bdd_nithvar(element(ONE, j))));
    return all;
}
static double largest_without(int in_it) {
    Pairs p = read_pairs(given[0]);
    begin(p.rows, p.rows);
    return extremes(without_pairs(p, in_it), p.rows, 1);
}
static double independent(void) { return largest_without(1); }
static double cliques(void) { return largest_without(0); }
/* the sets that meet each column of the relation, with the element of the column's own number in it or not */
static double least_that_meet(int own) {
    Pairs p = read_pairs(given[0]);
    begin(p.rows, p.rows);
    char *cell = cells(p);
    bdd all = bddtrue;
    for (uint32_t j = 0; j < p.cols; j++) {
        bdd some = bddfalse;
        for (uint32_t i = p.rows; i-- > 0;)
            if (cell[i * p.cols + j] || (own && i == j)) some = bdd_addref(bdd_or(some, bdd_ithvar(element(ONE, i))));
        also(&all, some);
    }
    return extremes(all, p.rows, 0);
}
static double dominating(void) { return least_that_meet(1); }
static double hitting(void) { return least_that_meet(0); }
/* a function for each sum from 0 to the quota: the sets with so many votes or more */
static double coalitions(void) {
    Pairs p = read_pairs(given[0]);
    uint32_t quota = number(1);
    begin(p.rows, p.rows);
    bdd *sum = malloc(sizeof(bdd) * (quota + 1));
    for (uint32_t q = 0; q <= quota; q++) sum[q] = q ? bddfalse : bddtrue;
    for (size_t u = 0; u < p.count; u++)
        for (uint32_t q = quota; q > 0; q--) {
            bdd more = bdd_addref(bdd_and(sum[q - 1], bdd_ithvar(element(ONE, p.pair[u][0]))));
            bdd both = bdd_addref(bdd_or(sum[q], more));
            bdd_delref(more), bdd_delref(sum[q]);
            sum[q] = both;
        }
    return extremes(sum[quota], p.rows, 0);
}

/* what stands before all work on sets, and on relations */
static double start(void) {
    begin(24, 24);
    return 0;
}
static double read_all(void) {
    double n = 0;
    for (int place = 0; given[place]; place++) n += pairs_in(file(place));
    return n;
}

static const struct { const char *name; double (*count)(void); } works[] = {
    {"start", start}, {"read", read_all}, {"closure", closure}, {"product", composed}, {"quotient", quotient},
    {"mix", mix},
    {"epsi", epsi}, {"inclusion", inclusion}, {"kernels", kernels}, {"independent", independent}, {"cliques", cliques},
    {"dominating", dominating}, {"hitting", hitting}, {"coalitions", coalitions},
};

int main(int count_of_words, char **word) {
    if (count_of_words < 2) return 2;
    given = word + 2;
    for (size_t k = 0; k < sizeof works / sizeof *works; k++)
        if (!strcmp(word[1], works[k].name)) {
            printf("%.0f\n", works[k].count());
            return 0;
        }
    return 2;
}
