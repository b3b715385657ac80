/*
 * What drawing the symbols of a page takes, by where they lie: the same list of instances, without checks.
 *
 * usage: unchecked_drawing FILE.jb2 [RUNS]
 *
 * FILE is one that unchecked_symbols.c takes. Prints the least milliseconds of RUNS pages (200) by each way, without the
 * page's clearing: symbols as the library keeps them, a list of addresses of structs, each with the address of a block of rows; one
 * table of sizes and addresses of the same blocks; and one table and all rows side by side. The pages must be the same.
 */
#include "unchecked_symbols.h"

/* A bitmap as large as the library's, with its rows in a block of its own. */
struct bitmap {
    struct symbol symbol;
    size_t stride, room, used;
    const uint64_t *rows;
};

struct entry {
    struct symbol symbol;
    const uint64_t *rows;
};

static struct bitmap *bitmaps;
static const struct bitmap **list;
static struct entry *entries;

static void draw_by_list(const struct input *input) {
    for (uint32_t i = 0; i < input->instances; i++) {
        const struct bitmap *bitmap = list[instances[i].id];
        draw(bitmap->symbol, bitmap->rows, instances[i].x, instances[i].y);
    }
}

static void draw_by_table(const struct input *input) {
    for (uint32_t i = 0; i < input->instances; i++) {
        struct entry entry = entries[instances[i].id];
        draw(entry.symbol, entry.rows, instances[i].x, instances[i].y);
    }
}

static void draw_packed(const struct input *input) {
    for (uint32_t i = 0; i < input->instances; i++) {
        struct symbol symbol = symbols[instances[i].id];
        draw(symbol, pool + symbol.first, instances[i].x, instances[i].y);
    }
}

static void lay_out(const struct input *input) {
    bitmaps = calloc(input->symbols, sizeof *bitmaps);
    list = calloc(input->symbols, sizeof *list);
    entries = calloc(input->symbols, sizeof *entries);
    for (uint32_t i = 0; i < input->symbols; i++) {
        uint64_t *rows = malloc(symbols[i].height * sizeof *rows);
        memcpy(rows, pool + symbols[i].first, symbols[i].height * sizeof *rows);
        bitmaps[i] = (struct bitmap){.symbol = symbols[i], .rows = rows};
        list[i] = bitmaps + i;
        entries[i] = (struct entry){symbols[i], rows};
    }
}

int main(int count, char **words) {
    static void (*const ways[])(const struct input *) = {draw_by_list, draw_by_table, draw_packed};
    double least[] = {1e9, 1e9, 1e9};
    if (count < 2)
        fail("usage: unchecked_drawing FILE.jb2 [RUNS]");
    struct input input = read_input(words[1]);
    decode(&input);
    size_t size = page.words * page.height * sizeof *page.rows;
    uint64_t *first = malloc(size);
    memcpy(first, page.rows, size);
    lay_out(&input);
    for (int runs = count > 2 ? atoi(words[2]) : 200; runs > 0; runs--) {
        for (int way = 0; way < 3; way++) {
            clear_page();
            double began = milliseconds();
            ways[way](&input);
            double taken = milliseconds() - began;
            least[way] = taken < least[way] ? taken : least[way];
            if (memcmp(first, page.rows, size) != 0)
                fail("another page");
        }
    }
    printf("list %.2f, table %.2f, packed %.2f\n", least[0], least[1], least[2]);
    return 0;
}
