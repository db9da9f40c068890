/* Relations as pairs in a file: rows, columns, how many pairs, and the pairs, each number in four bytes of this machine. */
#include <stdint.h>
#include <stdio.h>
#include <stdlib.h>

typedef struct { uint32_t rows, cols, count; uint32_t (*pair)[2]; } Pairs;

static Pairs read_pairs(const char *path) {
    Pairs p;
    FILE *file = fopen(path, "rb");
    if (!file || fread(&p, 4, 3, file) != 3) exit(3);
    p.pair = malloc(8 * (size_t)p.count + 8);
    if (fread(p.pair, 8, p.count, file) != p.count) exit(3);
    fclose(file);
    return p;
}
