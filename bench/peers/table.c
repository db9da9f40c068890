/* What a table of 2^BITS node words costs at least: it and its 2^20 memo words are zeroed once and copied once. */
#include <stdint.h>
#include <stdio.h>
#include <stdlib.h>
#include <string.h>

int main(int count_of_words, char **word) {
    size_t size = ((size_t)1 << strtoul(word[count_of_words - 1], NULL, 10)) + (1 << 20);
    volatile uint64_t *table = malloc(8 * size);
    for (size_t k = 0; k < size; k++) table[k] = 0;
    uint64_t *copy = malloc(8 * size);
    memcpy(copy, (const uint64_t *)table, 8 * size);
    printf("%llu\n", (unsigned long long)copy[size - 1]);
    return 0;
}
