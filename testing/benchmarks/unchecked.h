/* What the loops without checks share: the arithmetic decoder, the file and the clock. They trust the file. */
#include <stdint.h>
#include <stdio.h>
#include <stdlib.h>
#include <string.h>
#include <time.h>

#define ALWAYS_INLINE static inline __attribute__((always_inline))

enum { STATES = 47 };

struct state {
    uint16_t qe;
    uint8_t likely, unlikely;
};

struct decoder {
    /* A, and the least A that needs no renormalization. */
    uint32_t a, floor;
    /* C from bit 48 on, with `bits` bits that were read ahead below it. */
    uint64_t code;
    int bits;
    unsigned last;
    const uint8_t *next, *end;
};

/* Table E.1: Qe, the next rows after a likely and an unlikely symbol, and whether the likely symbol is switched. */
static const uint16_t table[STATES][4] = {
    {0x5601, 1, 1, 1},   {0x3401, 2, 6, 0},   {0x1801, 3, 9, 0},   {0x0AC1, 4, 12, 0},  {0x0521, 5, 29, 0},
    {0x0221, 38, 33, 0}, {0x5601, 7, 6, 1},   {0x5401, 8, 14, 0},  {0x4801, 9, 14, 0},  {0x3801, 10, 14, 0},
    {0x3001, 11, 17, 0}, {0x2401, 12, 18, 0}, {0x1C01, 13, 20, 0}, {0x1601, 29, 21, 0}, {0x5601, 15, 14, 1},
    {0x5401, 16, 14, 0}, {0x5101, 17, 15, 0}, {0x4801, 18, 16, 0}, {0x3801, 19, 17, 0}, {0x3401, 20, 18, 0},
    {0x3001, 21, 19, 0}, {0x2801, 22, 19, 0}, {0x2401, 23, 20, 0}, {0x2201, 24, 21, 0}, {0x1C01, 25, 22, 0},
    {0x1801, 26, 23, 0}, {0x1601, 27, 24, 0}, {0x1401, 28, 25, 0}, {0x1201, 29, 26, 0}, {0x1101, 30, 27, 0},
    {0x0AC1, 31, 28, 0}, {0x09C1, 32, 29, 0}, {0x08A1, 33, 30, 0}, {0x0521, 34, 31, 0}, {0x0441, 35, 32, 0},
    {0x02A1, 36, 33, 0}, {0x0221, 37, 34, 0}, {0x0141, 38, 35, 0}, {0x0111, 39, 36, 0}, {0x0085, 40, 37, 0},
    {0x0049, 41, 38, 0}, {0x0025, 42, 39, 0}, {0x0015, 43, 40, 0}, {0x0009, 44, 41, 0}, {0x0005, 45, 42, 0},
    {0x0001, 45, 43, 0}, {0x5601, 46, 46, 0},
};

/* A state is a row of the table and, in its lowest bit, the likely symbol. */
static struct state states[2 * STATES];

static void make_states(void) {
    for (unsigned i = 0; i < 2 * STATES; i++) {
        const uint16_t *row = table[i / 2];
        states[i] = (struct state){row[0], (uint8_t)(2 * row[1] + i % 2), (uint8_t)(2 * row[2] + (i % 2 ^ row[3]))};
    }
}

/* BYTEIN, as often as bytes fit (Annex G: C is complemented). */
static void fill(struct decoder *decoder) {
    while (decoder->bits <= 32) {
        unsigned byte = decoder->next < decoder->end ? *decoder->next : 0xFF;
        int is_stuffed = decoder->last == 0xFF;
        if (is_stuffed && byte > 0x8F) {
            decoder->bits += 8;
            continue;
        }
        int64_t value = is_stuffed ? 0xFE - 2 * (int64_t)byte : 0xFF - (int64_t)byte;
        decoder->code += (uint64_t)value << (40 - decoder->bits);
        decoder->bits += is_stuffed ? 7 : 8;
        decoder->last = byte;
        decoder->next++;
    }
}

static void renormalize(struct decoder *decoder, int shifts) {
    decoder->a <<= shifts;
    decoder->code <<= shifts;
    decoder->bits -= shifts;
    if (decoder->bits < 0)
        fill(decoder);
    uint32_t high = (uint32_t)(decoder->code >> 48);
    decoder->floor = high < 0x8000 ? 0x8000 : high + 1;
}

static struct decoder new_decoder(const uint8_t *begin, const uint8_t *end) {
    unsigned first = *begin;
    struct decoder decoder = {0x8000, 0, (uint64_t)(0xFF - first) << 48, 0, first, begin + 1, end};
    fill(&decoder);
    renormalize(&decoder, 7);
    decoder.a = 0x8000;
    return decoder;
}

/* A decision that isn't quiet: `rest` is what the less likely symbol leaves of A. */
ALWAYS_INLINE unsigned renormalized(struct decoder *decoder, uint8_t *context, struct state state, uint32_t rest) {
    uint32_t high = (uint32_t)(decoder->code >> 48);
    unsigned is_lower = high >= rest, is_unlikely = is_lower ^ (rest < state.qe);
    uint32_t below = is_lower ? rest : 0;
    *context = is_unlikely ? state.unlikely : state.likely;
    decoder->a = is_lower ? state.qe : rest;
    decoder->code -= (uint64_t)below << 48;
    renormalize(decoder, __builtin_clz(decoder->a) - 16);
    return (state.likely & 1) ^ is_unlikely;
}

static void fail(const char *what) {
    fprintf(stderr, "unchecked: %s\n", what);
    exit(1);
}

static uint32_t number_at(const uint8_t *bytes) {
    return (uint32_t)bytes[0] << 24 | (uint32_t)bytes[1] << 16 | (uint32_t)bytes[2] << 8 | bytes[3];
}

static uint8_t *read_file(const char *name, size_t *size) {
    FILE *file = fopen(name, "rb");
    if (file == NULL || fseek(file, 0, SEEK_END) != 0)
        fail(name);
    *size = (size_t)ftell(file);
    uint8_t *bytes = malloc(*size + 1);
    rewind(file);
    if (bytes == NULL || fread(bytes, 1, *size, file) != *size)
        fail(name);
    fclose(file);
    return bytes;
}

static double milliseconds(void) {
    struct timespec now;
    clock_gettime(CLOCK_PROCESS_CPUTIME_ID, &now);
    return (double)now.tv_sec * 1e3 + (double)now.tv_nsec / 1e6;
}
