// The same move in plain C: one walk over uses, each listed behind those of the names of its word, by a set with linear
// probing that grows as it fills; then the words of new names, placed by the probe of the table.
// plain BITS SIDE prints what `bench_trees compact` prints: nanoseconds, how many words are stored, and a number for them all.
#define _POSIX_C_SOURCE 200809L
#include <stdint.h>
#include <stdio.h>
#include <stdlib.h>
#include <time.h>

#define SPREAD 11400714819323198485ull
#define MEMO (1u << 20)

static uint64_t count;

// The name of a word, which is placed where it stands nowhere yet.
static uint32_t place(uint64_t *words, uint64_t word) {
    uint64_t at = ((word >> 32) * 2654435761ull + (uint32_t)word * 2246822519ull) % count;
    while (words[2 + at] != 0 && words[2 + at] != word)
        at = at + 1 == count ? 0 : at + 1;
    words[2 + at] = word;
    return (uint32_t)(2 + at);
}

// ---- the table that is moved, made as `bench_trees compact` makes it
static uint64_t *old, next;

static uint32_t tree(int depth) {
    if (depth == 0)
        return place(old, ++next * SPREAD);
    uint64_t left = tree(depth - 1);
    uint32_t right = tree(depth - 1);
    return place(old, (left << 32) + right);
}

// ---- a set of uses that keeps their order
struct use {
    uint32_t depth, name;
};

static struct use *uses;
static uint32_t *slots, used, room, mask;

static uint32_t *slot_of(struct use use) {
    uint64_t hash = (((uint64_t)use.depth << 32) + use.name) * SPREAD;
    uint32_t at = (uint32_t)(hash >> 32) & mask;
    while (slots[at] != 0 && (uses[slots[at] - 1].depth != use.depth || uses[slots[at] - 1].name != use.name))
        at = (at + 1) & mask;
    return &slots[at];
}

static void add(struct use use) {
    if (used == room) {
        room = room == 0 ? 4 : room * 2;
        uses = realloc(uses, room * sizeof *uses);
        free(slots);
        slots = calloc(room * 2, sizeof *slots);
        mask = room * 2 - 1;
        for (uint32_t i = 0; i < used; i++)
            *slot_of(uses[i]) = i + 1;
    }
    uses[used] = use;
    *slot_of(use) = ++used;
}

static void walk(uint32_t depth, uint32_t name) {
    struct use use = {depth, name};
    if (name == 0 || (used > 0 && *slot_of(use) != 0))
        return;
    if (depth > 0) {
        walk(depth - 1, (uint32_t)(old[name] >> 32));
        walk(depth - 1, (uint32_t)old[name]);
    }
    add(use);
}

static uint32_t new_name(uint32_t *names, uint32_t depth, uint32_t name) {
    return name == 0 ? 0 : names[*slot_of((struct use){depth, name}) - 1];
}

static uint64_t *moved(uint32_t depth, uint32_t *roots) {
    walk(depth, roots[0]);
    walk(depth, roots[1]);
    uint64_t *words = malloc((count + 2 + MEMO) * 8);
    for (uint64_t i = 0; i < count + 2 + MEMO; i++)
        words[i] = 0;
    uint32_t *names = malloc(used * sizeof *names);
    for (uint32_t i = 0; i < used; i++) {
        uint64_t word = old[uses[i].name];
        if (uses[i].depth > 0)
            word = ((uint64_t)new_name(names, uses[i].depth - 1, (uint32_t)(word >> 32)) << 32) +
                   new_name(names, uses[i].depth - 1, (uint32_t)word);
        names[i] = place(words, word);
    }
    roots[0] = new_name(names, depth, roots[0]);
    roots[1] = new_name(names, depth, roots[1]);
    return words;
}

static uint64_t now(void) {
    struct timespec t;
    clock_gettime(CLOCK_MONOTONIC, &t);
    return t.tv_sec * 1000000000ull + t.tv_nsec;
}

int main(int argc, char **argv) {
    if (argc < 3)
        return 2;
    count = (1ull << atoi(argv[1])) - 2;
    int depth = 0;
    for (int side = atoi(argv[2]); side > 8; side /= 2)
        depth += 2;
    old = malloc((count + 2 + MEMO) * 8);
    for (uint64_t i = 0; i < count + 2 + MEMO; i++)
        old[i] = 0;
    uint32_t roots[2];
    roots[0] = tree(depth);
    tree(depth);
    roots[1] = tree(depth);
    uint64_t start = now();
    uint64_t *words = moved(depth, roots);
    uint64_t time = now() - start;
    uint64_t stored = 0, sum = 0;
    for (uint64_t i = 0; i < count + 2 + MEMO; i++) {
        stored += words[i] != 0;
        sum = sum * 31 + words[i];
    }
    printf("%llu %llu %llu\n", (unsigned long long)time, (unsigned long long)stored, (unsigned long long)sum);
    return 0;
}
