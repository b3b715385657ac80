/* A loop without checks for a page of symbols: its symbols, its numbers and its picture. See unchecked_symbols.c. */
#include "unchecked.h"

enum { CONTEXTS = 512, WORD = 64 };

/* Where a segment's data are. */
struct data {
    const uint8_t *begin, *end;
};

/* The first row of a symbol in `pool`. A row is a word, its first column in the highest bit. */
struct symbol {
    uint32_t width, height, first;
};

/* Integer procedures, by their contexts. */
enum procedure { IADH, IADW, IADT, IAFS, IADS, IAIT, PROCEDURES };

/* A symbol at a place of the page. */
struct instance {
    uint32_t id, x, y;
};

struct page {
    size_t width, height, words;
    uint64_t *rows;
};

static uint8_t pixels[1 << 16], integers[PROCEDURES][CONTEXTS], *ids;
static struct symbol *symbols;
static struct instance *instances;
static uint64_t *pool;
static struct page page;

ALWAYS_INLINE unsigned decide(struct decoder *decoder, uint8_t *context) {
    uint8_t index = *context;
    struct state state = states[index];
    uint32_t rest = decoder->a - state.qe;
    if (rest < decoder->floor)
        return renormalized(decoder, context, state, rest);
    decoder->a = rest;
    return index & 1;
}

ALWAYS_INLINE unsigned next_bit(struct decoder *decoder, uint8_t *of, unsigned *prev) {
    unsigned bit = decide(decoder, of + *prev), next = 2 * *prev + bit;
    *prev = *prev < 256 ? next : 256 + next % 256;
    return bit;
}

/* An integer (A.2). Returns 0 where it is out of band. */
static int next_integer(struct decoder *decoder, enum procedure procedure, int *value) {
    static const struct { uint32_t bits, offset; } ranges[] = {{2, 0}, {4, 4}, {6, 20}, {8, 84}, {12, 340}, {32, 4436}};
    uint8_t *of = integers[procedure];
    unsigned prev = 1, is_negative = next_bit(decoder, of, &prev), ones = 0;
    while (ones < 5 && next_bit(decoder, of, &prev))
        ones++;
    uint32_t sum = 0;
    for (uint32_t i = 0; i < ranges[ones].bits; i++)
        sum = 2 * sum + next_bit(decoder, of, &prev);
    sum += ranges[ones].offset;
    *value = is_negative ? -(int)sum : (int)sum;
    return !is_negative || sum != 0;
}

static uint32_t next_id(struct decoder *decoder, unsigned length) {
    uint32_t prev = 1;
    for (unsigned i = 0; i < length; i++)
        prev = 2 * prev + decide(decoder, ids + prev);
    return prev - (1U << length);
}

/* A context has the four pixels on the left, then seven of the row above, then five of the row above that. */
ALWAYS_INLINE uint64_t next_row(struct decoder *decoder, uint64_t above, uint64_t top, unsigned width) {
    unsigned context = (unsigned)(above >> 60 << 4 | top >> 61 << 11);
    uint64_t row = 0;
    above <<= 4;
    top <<= 3;
    for (unsigned x = 0; x < width; x++) {
        unsigned pixel = decide(decoder, pixels + context);
        context = (context << 1 & 0xF7EE) | pixel | (unsigned)(above >> 63 << 4 | top >> 63 << 11);
        above <<= 1;
        top <<= 1;
        row = 2 * row + pixel;
    }
    return row << (WORD - width);
}

static void decode_symbol(struct decoder *decoder, const struct symbol *symbol) {
    uint64_t above = 0, top = 0, *rows = pool + symbol->first;
    for (uint32_t y = 0; y < symbol->height; y++) {
        rows[y] = next_row(decoder, above, top, symbol->width);
        top = above;
        above = rows[y];
    }
}

static void decode_symbols(struct data dictionary, uint32_t count) {
    struct decoder decoder = new_decoder(dictionary.begin + 18, dictionary.end);
    uint32_t first = 0, height = 0;
    for (uint32_t i = 0; i < count;) {
        int change;
        uint32_t width = 0;
        next_integer(&decoder, IADH, &change);
        height += (uint32_t)change;
        while (next_integer(&decoder, IADW, &change)) {
            width += (uint32_t)change;
            if (width - 1 >= WORD || first + height > count * WORD)
                fail("the symbols are too large, or one has no column");
            symbols[i] = (struct symbol){width, height, first};
            decode_symbol(&decoder, &symbols[i++]);
            first += height;
        }
    }
}

/* Draws a symbol with these rows. */
ALWAYS_INLINE void draw(struct symbol symbol, const uint64_t *rows, uint32_t x, uint32_t y) {
    uint64_t *to = page.rows + y * page.words + x / WORD;
    unsigned shift = x % WORD;
    for (uint32_t row = 0; row < symbol.height; row++, to += page.words) {
        to[0] |= rows[row] >> shift;
        if (shift + symbol.width > WORD)
            to[1] |= rows[row] << (WORD - shift);
    }
}

static void decode_text(struct data text, uint32_t count, unsigned id_length) {
    struct decoder decoder = new_decoder(text.begin + 23, text.end);
    unsigned strip_log = text.begin[18] >> 2 & 3;
    int offset = (int8_t)(text.begin[17] << 1) >> 3, change, first = 0, top;
    next_integer(&decoder, IADT, &change);
    top = -change * (1 << strip_log);
    for (uint32_t i = 0; i < count;) {
        next_integer(&decoder, IADT, &change);
        top += change * (1 << strip_log);
        next_integer(&decoder, IAFS, &change);
        first += change;
        int x = first, below = 0;
        do {
            if (strip_log > 0)
                next_integer(&decoder, IAIT, &below);
            uint32_t id = next_id(&decoder, id_length), y = (uint32_t)(top + below) + 1 - symbols[id].height;
            instances[i++] = (struct instance){id, (uint32_t)x, y};
            draw(symbols[id], pool + symbols[id].first, (uint32_t)x, y);
            x += (int)symbols[id].width - 1 + offset;
        } while (next_integer(&decoder, IADS, &change) && (x += change, 1));
    }
}

/* The data of the first segment of this type, or of this type + 1, in a sequential file whose segments have small numbers and one byte for their page. */
static struct data data_of(const uint8_t *file, size_t size, unsigned type) {
    const uint8_t *at = file + (file[8] & 2 ? 9 : 13);
    while (at + 11 < file + size) {
        const uint8_t *begin = at + 11 + (at[5] >> 5), *end = begin + number_at(begin - 4);
        if ((at[4] & 62) == type)
            return (struct data){begin, end};
        at = end;
    }
    fail("the file has no symbol dictionary, or no text region");
    return (struct data){NULL, NULL};
}

/* What a page is made of. */
struct input {
    struct data dictionary, text;
    uint32_t symbols, instances;
    unsigned id_length;
};

static void check_kind(const uint8_t *dictionary, const uint8_t *text) {
    if (dictionary[0] | dictionary[1] || (text[17] & 0x83) != 0 || (text[18] & 0xF3) != 0)
        fail("the dictionary or the text region is of another kind");
}

static void make_room(const struct input *input) {
    const uint8_t *text = input->text.begin;
    page = (struct page){.width = number_at(text), .height = number_at(text + 4)};
    page.words = page.width / WORD + 2;
    page.rows = malloc(page.words * page.height * sizeof *page.rows);
    symbols = malloc(input->symbols * sizeof *symbols);
    instances = malloc(input->instances * sizeof *instances);
    pool = malloc(input->symbols * (size_t)(WORD * sizeof *pool));
    ids = malloc((size_t)1 << input->id_length);
}

static struct input read_input(const char *name) {
    size_t size;
    const uint8_t *file = read_file(name, &size);
    struct input input = {.dictionary = data_of(file, size, 0), .text = data_of(file, size, 6)};
    check_kind(input.dictionary.begin, input.text.begin);
    input.symbols = number_at(input.dictionary.begin + 14);
    input.instances = number_at(input.text.begin + 19);
    while (1U << input.id_length < input.symbols)
        input.id_length++;
    make_room(&input);
    make_states();
    return input;
}

static void clear_page(void) { memset(page.rows, 0, page.words * page.height * sizeof *page.rows); }

static void decode_dictionary(const struct input *input) {
    memset(pixels, 0, sizeof pixels);
    memset(integers, 0, sizeof integers);
    decode_symbols(input->dictionary, input->symbols);
}

static void decode_page(const struct input *input) {
    memset(integers, 0, sizeof integers);
    memset(ids, 0, (size_t)1 << input->id_length);
    clear_page();
    decode_text(input->text, input->instances, input->id_length);
}

/* Decodes the page. Returns the time between its symbols and its text. */
static inline __attribute__((noinline)) double decode(const struct input *input) {
    decode_dictionary(input);
    double between = milliseconds();
    decode_page(input);
    return between;
}

/* Writes the page to standard output as PBM. */
static inline void write_page(void) {
    size_t length = (page.width + 7) / 8;
    uint64_t row[page.words];
    printf("P4\n%zu %zu\n", page.width, page.height);
    for (size_t y = 0; y < page.height; y++) {
        for (size_t i = 0; i < page.words; i++)
            row[i] = __builtin_bswap64(page.rows[y * page.words + i]);
        fwrite(row, 1, length, stdout);
    }
}
