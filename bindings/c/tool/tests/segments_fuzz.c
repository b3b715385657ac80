/* Lists the segments of damaged files, in memory of exactly their size, so that the sanitizers see each read outside.
 *
 *     segments_fuzz COUNT SEED FILE ..
 *
 * With -DLIBFUZZER it is a target of clang's -fsanitize=fuzzer instead. */
#include "../names.h"

#include "../messages.h"

#include <stdio.h>
#include <stdlib.h>
#include <string.h>

static size_t listed;

/* Each segment is found by its number, or an earlier one of that number, and by its page in its order. */
static bool is_found(const struct segment_list *list, const struct segment *segment) {
    size_t count, place = 0;
    const struct segment *first = segment_of_number(list, segment->number);
    const struct segment *const *of_page = segments_of_page(list, segment->page, &count);
    while (place < count && of_page[place] < segment)
        place++;
    return first != NULL && first <= segment && first->number == segment->number && place < count &&
           of_page[place] == segment;
}

/* Reads all that the list offers. */
static void read_list(struct segment_list *list) {
    struct page_information information;
    struct region region;
    struct text text = {NULL, 0, 0};
    for (size_t i = 0; i < list->count; i++) {
        const struct segment *segment = &list->at[i];
        if (segment->data > list->size || segment->length > list->size - segment->data || !is_found(list, segment))
            abort();
        uint32_t *numbers = referred_numbers(list, segment);
        for (size_t j = 0; j < segment->referred_count; j++)
            if (numbers[j] >= segment->number)
                abort();
        free(numbers);
        region_of(list, segment, &region);
        add_coding(&text, list, segment);
        page_information_of(list, segment->page, &information);
        text.length = 0;
        listed++;
    }
    stated_pixels(list);
    if (size_without_line_end(list) > list->size || segment_of_number(list, 7) == &list->last)
        abort();
    free_text(&text);
}

static void list_bytes(const uint8_t *bytes, size_t size) {
    struct file_header header = {.size = 0};
    uint8_t *exact = malloc(size > 0 ? size : 1);
    if (exact == NULL)
        abort();
    memcpy(exact, bytes, size);
    read_file_header(&header, exact, size);
    for (int i = 0; i < 4; i++) {
        struct segment_list list;
        list_segments(&list, exact, size, i < 2 ? 0 : header.size, i % 2);
        read_list(&list);
        free_segments(&list);
    }
    free(exact);
}

#ifdef LIBFUZZER

int LLVMFuzzerTestOneInput(const uint8_t *bytes, size_t size) {
    list_bytes(bytes, size);
    return 0;
}

#else

static uint64_t state;

static size_t chance(size_t below) {
    state = state * 6364136223846793005u + 1442695040888963407u;
    return (size_t)(state >> 33) % below;
}

/* Cuts off the bytes, or gives some of them another value, and returns how many are left. */
static size_t damage(uint8_t *bytes, size_t size) {
    static const uint8_t edges[] = {0, 1, 0x1F, 0x20, 0x7F, 0x80, 0xE0, 0xFF};
    if (chance(3) == 0)
        size = chance(size + 1);
    for (size_t i = chance(6); i > 0 && size > 0; i--) {
        size_t place = chance(chance(2) ? size : size < 64 ? size : 64);
        bytes[place] = chance(2) ? edges[chance(sizeof edges)] : (uint8_t)chance(256);
        for (size_t j = place; j < size && j < place + 4 && chance(4) == 0; j++)
            bytes[j] = 0xFF;
    }
    return size;
}

int main(int count, char **words) {
    static uint8_t whole[1 << 16], damaged[1 << 16];
    state = count > 2 ? strtoull(words[2], NULL, 10) : 1;
    unsigned long runs = count > 3 ? strtoul(words[1], NULL, 10) : 0;
    for (unsigned long run = 0; run < runs; run++) {
        FILE *file = fopen(words[3 + chance((size_t)count - 3)], "rb");
        if (file == NULL)
            return 1;
        size_t size = fread(whole, 1, sizeof whole, file);
        fclose(file);
        for (int i = 0; i < 50; i++) {
            memcpy(damaged, whole, size);
            list_bytes(damaged, damage(damaged, size));
        }
    }
    printf("%lu damaged files, %zu segments listed\n", runs * 50, listed);
    return 0;
}

#endif
