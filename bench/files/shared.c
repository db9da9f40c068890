// Relation files of version 2, written and read in plain C, over the trees and the table of plain.c, for one thread and without a proof.
// shared BITS HEIGHT PAIRS prints what `bench_engine files` prints of the task shared: a file of one relation A, read as a whole, and once more by its name.
#define main main_of_version_1
#include "plain.c"
#undef main

// ---- maps from two words to a number from 1 on
struct slot { uint64_t first, second; uint32_t number; };
struct map { struct slot *slots; uint64_t size, used; };

static struct slot *place_of(struct map *map, uint64_t first, uint64_t second) {
    uint64_t at = (first * 0x9E3779B97F4A7C15ull ^ (second + (first >> 29)) * 0xC2B2AE3D27D4EB4Full);
    at ^= at >> 32;
    for (;; at++) {
        struct slot *slot = map->slots + (at & (map->size - 1));
        if (slot->number == 0 || (slot->first == first && slot->second == second))
            return slot;
    }
}

static struct slot *found(struct map *map, uint64_t first, uint64_t second) {
    if (2 * map->used >= map->size) {
        struct map old = *map;
        map->size = old.size ? 2 * old.size : 1024;
        map->slots = calloc(map->size, sizeof *map->slots);
        for (uint64_t i = 0; i < old.size; i++)
            if (old.slots[i].number)
                *place_of(map, old.slots[i].first, old.slots[i].second) = old.slots[i];
        free(old.slots);
    }
    return place_of(map, first, second);
}

static void note(struct map *map, uint64_t first, uint64_t second, uint32_t number) {
    *found(map, first, second) = (struct slot){first, second, number};
    map->used++;
}

static void clear(struct map *map) {
    free(map->slots);
    memset(map, 0, sizeof *map);
}

// ---- writing: visits number the squares, each by its quarters
typedef uint32_t four[4];
static struct map squares, quads, leaves;
static four *list;
static uint64_t listed, space;

static uint32_t number_of(const uint32_t *q) {
    uint64_t first = (uint64_t)q[0] << 32 | q[1], second = (uint64_t)q[2] << 32 | q[3];
    struct slot *slot = found(&squares, first, second);
    if (slot->number)
        return slot->number;
    if (listed == space)
        list = realloc(list, (space = space ? 2 * space : 1024) * sizeof *list);
    memcpy(list[listed++], q, sizeof *list);
    note(&squares, first, second, (uint32_t)listed + 1);
    return (uint32_t)listed + 1;
}

static uint32_t visit_block(int height, uint64_t bits) {
    if (bits == 0 || height == 0)
        return bits != 0;
    uint32_t number = found(&leaves, bits, (uint64_t)height)->number;
    if (number)
        return number;
    four quarter;
    for (int k = 0; k < 4; k++)
        quarter[k] = visit_block(height - 1, quarter_of(bits, height, k));
    number = number_of(quarter);
    note(&leaves, bits, (uint64_t)height, number);
    return number;
}

static uint32_t visit_quad(int height, uint32_t name) {
    if (name == 0)
        return 0;
    if (height == BOTTOM)
        return visit_block(height, words[name]);
    uint32_t number = found(&quads, name, (uint64_t)height)->number;
    if (number)
        return number;
    four quarter;
    quarters_of(name, quarter);
    for (int k = 0; k < 4; k++)
        quarter[k] = visit_quad(height - 1, quarter[k]);
    number = number_of(quarter);
    note(&quads, name, (uint64_t)height, number);
    return number;
}

static uint8_t *written_all(uint64_t rows, uint64_t cols, uint32_t name, uint64_t *length) {
    int height = height_of(rows, cols);
    uint32_t root = height < BOTTOM ? visit_block(height, name ? words[name] : 0) : visit_quad(height, name);
    *length = 12 + 16 * listed + 14;
    if (8 * *length > LIMIT)
        return NULL;
    uint8_t *bytes = malloc(*length), *at = bytes + 12;
    memcpy(bytes, "RVK2", 4);
    put(bytes + 4, listed, 4);
    put(bytes + 8, 1, 4);
    for (uint64_t i = 0; i < listed; i++)
        for (int k = 0; k < 4; k++, at += 4)
            put(at, list[i][k], 4);
    at[0] = 1;
    at[1] = 'A';
    put(at + 2, rows, 4);
    put(at + 6, cols, 4);
    put(at + 10, root, 4);
    clear(&squares);
    clear(&quads);
    clear(&leaves);
    return bytes;
}

// ---- reading: all tests, and then nodes from the leaves upwards, each number asked for once
static uint8_t *heights;
static uint32_t (*extents)[2], *noted;
static uint64_t following;

static int is_quadrant(uint64_t number, const uint32_t *q) {
    int height = -1;
    for (int k = 0; k < 4; k++)
        if (q[k]) {
            if (q[k] >= number || (height >= 0 && heights[q[k]] != height))
                return 0;
            height = heights[q[k]];
        }
    uint64_t first = (uint64_t)q[0] << 32 | q[1], second = (uint64_t)q[2] << 32 | q[3];
    if (height < 0 || height == 24 || found(&squares, first, second)->number)
        return 0;
    note(&squares, first, second, (uint32_t)number);
    heights[number] = (uint8_t)(height + 1);
    for (int k = 0; k < 4; k++)
        if (q[k])
            for (int side = 0; side < 2; side++) {
                uint32_t reach = extents[q[k]][side] + ((side ? k % 2 : k / 2) ? 1u << height : 0);
                if (extents[number][side] < reach)
                    extents[number][side] = reach;
            }
    return 1;
}

static int is_in_order(uint32_t number) {
    if (number < following)
        return 1;
    const uint32_t *q = list[number - 2];
    for (int k = 0; k < 4; k++)
        if (!is_in_order(q[k]))
            return 0;
    return number == following++;
}

static int is_word(const uint8_t *name, uint64_t length) {
    for (uint64_t i = 0; i < length; i++) {
        int letter = (name[i] | 32) >= 'a' && (name[i] | 32) <= 'z';
        if (!letter && !(i && ((name[i] >= '0' && name[i] <= '9') || name[i] == '_')))
            return 0;
    }
    return 1;
}

static uint64_t bits_of(uint32_t number, int height) {
    if (number == 0 || height == 0)
        return number;
    uint64_t bits = 0;
    int half = 1 << (height - 1);
    for (int k = 0; k < 4; k++)
        bits |= bits_of(list[number - 2][k], height - 1) << (k / 2 * half * 8 + k % 2 * half);
    return bits;
}

static uint32_t quad_of(uint32_t number, int height) {
    if (number == 0 || noted[number])
        return number ? noted[number] : 0;
    if (height == BOTTOM)
        return noted[number] = block(bits_of(number, height));
    four quarter;
    for (int k = 0; k < 4; k++)
        quarter[k] = quad_of(list[number - 2][k], height - 1);
    return noted[number] = corner(quarter);
}

// whether the bytes are a file of relations, of which each has a name; the name of the last relation's root
static int is_read_all(const uint8_t *bytes, uint64_t length, uint32_t *name) {
    if (length < 12 || memcmp(bytes, "RVK2", 4))
        return 0;
    uint64_t count_of_quads = get(bytes + 4, 4), relations = get(bytes + 8, 4), at = 12 + 16 * count_of_quads;
    if (length < at)
        return 0;
    heights = calloc(count_of_quads + 2, 1);
    extents = calloc(count_of_quads + 2, sizeof *extents);
    noted = calloc(count_of_quads + 2, sizeof *noted);
    list = malloc((count_of_quads + 1) * sizeof *list);
    uint32_t *roots = malloc((relations < length ? relations : length) * sizeof *roots);
    uint8_t *levels = malloc(relations < length ? relations : length);
    extents[1][0] = extents[1][1] = 1;
    int good = 1;
    for (uint64_t i = 0; good && i < count_of_quads; i++) {
        for (uint64_t k = 0; k < 4; k++)
            list[i][k] = (uint32_t)get(bytes + 12 + 16 * i + 4 * k, 4);
        good = is_quadrant(i + 2, list[i]);
    }
    const uint8_t *earlier = NULL;
    for (uint64_t i = 0; good && i < relations; i++) {
        uint64_t size = at < length ? bytes[at] : 0;
        if (size < 1 || size > 64 || length - at < size + 13 || !is_word(bytes + at + 1, size))
            good = 0;
        else {
            const uint8_t *here = bytes + at;
            int differ = earlier ? memcmp(earlier + 1, here + 1, earlier[0] < size ? earlier[0] : size) : -1;
            uint64_t rows = get(here + size + 1, 4), cols = get(here + size + 5, 4), root = get(here + size + 9, 4);
            levels[i] = (uint8_t)height_of(rows, cols);
            good = (differ < 0 || (differ == 0 && earlier[0] < size)) && rows <= 1 << 24 && cols <= 1 << 24;
            good = good && (root == 0 || (root > 1 && root < count_of_quads + 2 && heights[root] == levels[i]));
            good = good && extents[root][0] <= rows && extents[root][1] <= cols;
            roots[i] = (uint32_t)root;
            earlier = here;
            at += size + 13;
        }
    }
    following = 2;
    for (uint64_t i = 0; good && i < relations; i++)
        good = is_in_order(roots[i]);
    good = good && following == count_of_quads + 2 && at == length;
    for (uint64_t i = 0; good && i < relations; i++)
        *name = levels[i] < BOTTOM ? block(bits_of(roots[i], levels[i])) : quad_of(roots[i], levels[i]);
    free(heights), free(extents), free(noted), free(list), free(roots), free(levels);
    clear(&squares);
    return good;
}

int main(int argc, char **argv) {
    if (argc != 4)
        return 2;
    int bits = atoi(argv[1]), height = atoi(argv[2]);
    make_table(bits);
    uint32_t name = by_chance(height, strtoull(argv[3], NULL, 10));
    uint64_t length = 0, sum = 0, start = now();
    uint8_t *bytes = written_all(1ull << height, 1ull << height, name, &length);
    uint64_t time = now() - start;
    free(list);
    if (!bytes)
        return printf("not written\n"), 0;
    for (uint64_t i = 0; i < length; i++)
        sum = sum * 31 + bytes[i];
    printf("write %llu %llu %llu %u\n", (unsigned long long)time, (unsigned long long)length, (unsigned long long)sum, name);
    make_table(bits);
    for (int again = 0; again < 2; again++) {
        uint32_t root = 0;
        start = now();
        int read = is_read_all(bytes, length, &root);
        time = now() - start;
        if (!read)
            return printf("not read\n"), 0;
        printf("read %llu %u\n", (unsigned long long)time, root);
    }
#ifdef BYTES
    FILE *file = fopen("shared.k2", "wb");
    fwrite(bytes, 1, length, file);
    fclose(file);
#endif
    return 0;
}
