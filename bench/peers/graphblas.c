/* The work of bench/peers on sparse matrices (SuiteSparse:GraphBLAS, one thread): graphblas WORK FILE.. prints how many
   pairs come out. */
#include "pairs.h"
#include <GraphBLAS.h>
#include <string.h>

static char **given;

/* the relation of so many files from a place on, all of one type */
static GrB_Matrix united_files(int place, int files) {
    GrB_Index rows = 0, cols = 0, count = 0, *i = NULL, *j = NULL;
    for (int f = place; f < place + files; f++) {
        Pairs p = read_pairs(given[f]);
        rows = p.rows, cols = p.cols;
        i = realloc(i, 8 * (count + p.count) + 8), j = realloc(j, 8 * (count + p.count) + 8);
        for (size_t k = 0; k < p.count; k++, count++) i[count] = p.pair[k][0], j[count] = p.pair[k][1];
        free(p.pair);
    }
    bool *one = malloc(count + 1);
    memset(one, 1, count + 1);
    GrB_Matrix m;
    GrB_Matrix_new(&m, GrB_BOOL, rows, cols);
    GrB_Matrix_build_BOOL(m, i, j, one, count, GrB_LOR);
    free(i), free(j), free(one);
    return m;
}
static GrB_Matrix file(int place) { return united_files(place, 1); }
static GrB_Index rows_of(GrB_Matrix m) {
    GrB_Index n;
    GrB_Matrix_nrows(&n, m);
    return n;
}
static GrB_Index cols_of(GrB_Matrix m) {
    GrB_Index n;
    GrB_Matrix_ncols(&n, m);
    return n;
}
static GrB_Matrix made(GrB_Index rows, GrB_Index cols) {
    GrB_Matrix m;
    GrB_Matrix_new(&m, GrB_BOOL, rows, cols);
    return m;
}
static GrB_Matrix like(GrB_Matrix m) { return made(rows_of(m), cols_of(m)); }
static GrB_Index count(GrB_Matrix m) {
    GrB_Index n;
    GrB_Matrix_nvals(&n, m);
    return n;
}
static void close_under(GrB_Matrix m) {
    for (GrB_Index before = 0; before != count(m);) {
        before = count(m);
        GrB_mxm(m, NULL, GrB_LOR, GrB_LOR_LAND_SEMIRING_BOOL, m, m, NULL);
    }
}
static GrB_Matrix complement(GrB_Matrix m) {
    GrB_Matrix c = like(m);
    GrB_Matrix_assign_BOOL(c, m, NULL, true, GrB_ALL, 0, GrB_ALL, 0, GrB_DESC_SC);
    return c;
}
/* the pairs of columns, or of rows, that the two relations have in common somewhere */
static GrB_Matrix columns_meet(GrB_Matrix r, GrB_Matrix s) {
    GrB_Matrix m = made(cols_of(r), cols_of(s));
    GrB_mxm(m, NULL, NULL, GrB_LOR_LAND_SEMIRING_BOOL, r, s, GrB_DESC_T0);
    return m;
}
static GrB_Matrix rows_meet(GrB_Matrix r, GrB_Matrix s) {
    GrB_Matrix m = made(rows_of(r), rows_of(s));
    GrB_mxm(m, NULL, NULL, GrB_LOR_LAND_SEMIRING_BOOL, r, s, GrB_DESC_T1);
    return m;
}
static GrB_Index all_but(GrB_Matrix m) { return rows_of(m) * cols_of(m) - count(m); }
/* the pairs outside of both */
static GrB_Index outside_both(GrB_Matrix m, GrB_Matrix n) {
    GrB_Matrix either = like(m);
    GrB_eWiseAdd(either, NULL, NULL, GrB_LOR, m, n, NULL);
    return all_but(either);
}
static GrB_Index equal_columns(GrB_Matrix r, GrB_Matrix s) {
    return outside_both(columns_meet(r, complement(s)), columns_meet(complement(r), s));
}

static GrB_Index read_all(void) {
    GrB_Index n = 0;
    for (int place = 0; given[place]; place++) n += count(file(place));
    return n;
}
static GrB_Index closure(void) {
    GrB_Matrix m = file(0);
    close_under(m);
    return count(m);
}
static GrB_Index composed(void) {
    GrB_Matrix r = file(0), s = file(1), m = made(rows_of(r), cols_of(s));
    GrB_mxm(m, NULL, NULL, GrB_LOR_LAND_SEMIRING_BOOL, r, s, NULL);
    return count(m);
}
static GrB_Index of_closure(void) {
    GrB_Matrix m = file(0);
    close_under(m);
    return equal_columns(m, m);
}
static GrB_Index mix(void) {
    GrB_Matrix r = file(0), s = file(1), met = like(r), all = like(r);
    GrB_eWiseMult(met, NULL, NULL, GrB_LAND, r, s, GrB_DESC_T1);
    GrB_eWiseAdd(all, met, NULL, GrB_LOR, r, s, GrB_DESC_SC);
    return count(all);
}
static GrB_Index united(void) {
    GrB_Matrix r = file(0), s = file(1), m = like(r);
    GrB_eWiseAdd(m, NULL, NULL, GrB_LOR, r, s, NULL);
    return count(m);
}
static GrB_Index met(void) {
    GrB_Matrix r = file(0), s = file(1), m = like(r);
    GrB_eWiseMult(m, NULL, NULL, GrB_LAND, r, s, NULL);
    return count(m);
}
static GrB_Index outside(void) { return count(complement(file(0))); }
static GrB_Index turned(void) {
    GrB_Matrix r = file(0), m = made(cols_of(r), rows_of(r));
    GrB_transpose(m, NULL, NULL, r, NULL);
    return count(m);
}
static GrB_Index rows_by_columns(void) { return count(rows_meet(file(0), file(1))); }
static GrB_Index columns_by_rows(void) { return count(columns_meet(file(0), file(1))); }
static GrB_Index right_residual(void) { return all_but(columns_meet(file(0), complement(file(1)))); }
static GrB_Index left_residual(void) { return all_but(rows_meet(complement(file(0)), file(1))); }
static GrB_Index quotient(void) { return equal_columns(file(0), file(1)); }
static GrB_Index quotient_of_rows(void) {
    GrB_Matrix r = file(0), s = file(1);
    return outside_both(rows_meet(r, complement(s)), rows_meet(complement(r), s));
}
/* what is reached from the first element in the graph that all files give together */
static GrB_Index search(void) {
    int files = 0;
    while (given[files]) files++;
    GrB_Matrix g = united_files(0, files);
    GrB_Vector found, now;
    GrB_Vector_new(&found, GrB_BOOL, rows_of(g)), GrB_Vector_new(&now, GrB_BOOL, rows_of(g));
    GrB_Vector_setElement_BOOL(now, true, 0);
    GrB_Index more = 1, all = 0;
    while (more) {
        GrB_Vector_assign_BOOL(found, now, NULL, true, GrB_ALL, 0, GrB_DESC_S);
        GrB_vxm(now, found, NULL, GrB_LOR_LAND_SEMIRING_BOOL, now, g, GrB_DESC_RSC);
        GrB_Vector_nvals(&more, now), GrB_Vector_nvals(&all, found);
    }
    return all;
}

static const struct { const char *name; GrB_Index (*count)(void); } works[] = {
    {"read", read_all}, {"closure", closure}, {"product", composed}, {"quotient", of_closure}, {"mix", mix},
    {"union", united}, {"inter", met}, {"complement", outside}, {"transposed", turned}, {"image", composed},
    {"meets", rows_by_columns}, {"outer", columns_by_rows}, {"under", right_residual}, {"over", left_residual},
    {"columns", quotient}, {"rows", quotient_of_rows}, {"search", search},
};

int main(int count_of_words, char **word) {
    if (count_of_words < 2) return 2;
    given = word + 2;
    GrB_init(GrB_NONBLOCKING);
    GxB_Global_Option_set(GxB_GLOBAL_NTHREADS, 1);
    for (size_t k = 0; k < sizeof works / sizeof *works; k++)
        if (!strcmp(word[1], works[k].name)) {
            printf("%llu\n", (unsigned long long)works[k].count());
            GrB_finalize();
            return 0;
        }
    return 2;
}
