#include "platform.h"

#include "segments.h"

#include "messages.h"

#include <stdlib.h>
#include <string.h>

enum { IDENTIFICATION_SIZE = 8, IS_SEQUENTIAL = 1, HAS_NO_COUNT = 2 };

static uint32_t number_at(const uint8_t *bytes, size_t size) {
    uint32_t number = 0;
    for (size_t i = 0; i < size; i++)
        number = number << 8 | bytes[i];
    return number;
}

/* What the library returned. Where it had no memory, the program ends as it does without memory of its own. */
static uint32_t with_memory(uint32_t answer) {
    if (answer == HAYRO_JBIG2_OUT_OF_MEMORY)
        end_without_memory();
    return answer;
}

/* The number and the type are shown of damaged headers too, and of types that T.88 doesn't list. */
static void read_number_and_type(struct segment_list *list) {
    enum { NUMBER_SIZE = 4, TYPE_BITS = 0x3F };
    const uint8_t *bytes = list->bytes + list->last.place;
    size_t left = list->size - list->last.place;
    list->known = KNOWS_NOTHING;
    if (left < NUMBER_SIZE)
        return;
    list->last.number = number_at(bytes, NUMBER_SIZE);
    list->known = KNOWS_NUMBER;
    if (left == NUMBER_SIZE)
        return;
    list->last.type = bytes[NUMBER_SIZE] & TYPE_BITS;
    list->known = KNOWS_TYPE;
}

/* Reads the header at a place into `list->last`, and returns its error. */
static uint32_t read_header(struct segment_list *list, size_t place) {
    struct segment *segment = &list->last;
    hayro_jbig2_segment_info info;
    *segment = (struct segment){.place = place, .data = place};
    read_number_and_type(list);
    uint32_t error =
        with_memory(hayro_jbig2_segment_get_info(NULL, false, list->bytes + place, list->size - place, &info));
    if (error != HAYRO_JBIG2_OK)
        return error;
    segment->page = info.page;
    segment->referred_count = info.references;
    segment->header_size = info.header_length;
    segment->stated = info.data_length;
    list->known = KNOWS_HEADER;
    return HAYRO_JBIG2_OK;
}

/* The length of a segment by a copy of its header and of at most `most` bytes of its data. */
static uint32_t measure_copy(const struct segment_list *list, const struct segment *segment, size_t most,
                             size_t *taken) {
    uint8_t *copy = room_for(segment->header_size + most);
    memcpy(copy, list->bytes + segment->place, segment->header_size);
    memcpy(copy + segment->header_size, list->bytes + segment->data, most);
    uint32_t error = with_memory(hayro_jbig2_segment_get_length(NULL, false, copy, segment->header_size + most, taken));
    free(copy);
    return error;
}

/* How many bytes header and data take, where a marker ends the data (7.2.7). Data that don't follow their header are
 * copied after it, more of them until the marker is there, so that a file with many of them is listed soon. */
static uint32_t measure(const struct segment_list *list, const struct segment *segment, size_t *taken) {
    enum { FIRST_COPY = 256 };
    size_t left = list->size - segment->data;
    if (segment->data == segment->place + segment->header_size)
        return with_memory(hayro_jbig2_segment_get_length(NULL, false, list->bytes + segment->place,
                                                          list->size - segment->place, taken));
    for (size_t most = FIRST_COPY; most < left; most *= 2)
        if (measure_copy(list, segment, most, taken) == HAYRO_JBIG2_OK)
            return HAYRO_JBIG2_OK;
    return measure_copy(list, segment, left, taken);
}

/* Finds a segment's data at a place, and returns the error where they aren't all there. */
static uint32_t read_data(const struct segment_list *list, struct segment *segment, size_t place) {
    size_t left = list->size - place, taken = 0;
    uint32_t error = HAYRO_JBIG2_OK;
    segment->data = place;
    if (segment->stated == HAYRO_JBIG2_UNKNOWN_LENGTH)
        error = measure(list, segment, &taken);
    else if (segment->stated > left)
        error = HAYRO_JBIG2_PARSE_UNEXPECTED_EOF;
    else
        taken = segment->header_size + (size_t)segment->stated;
    segment->length = error == HAYRO_JBIG2_OK ? taken - segment->header_size : left;
    return error;
}

static void append(struct segment_list *list) {
    if (list->count == list->room) {
        list->room = 2 * list->room + 8;
        list->at = larger_room(list->at, list->room * sizeof *list->at);
    }
    list->at[list->count++] = list->last;
}

static void list_one_after_the_other(struct segment_list *list, size_t place) {
    struct segment *last = &list->last;
    for (; place < list->size; place = last->data + last->length) {
        list->error = read_header(list, place);
        if (list->error == HAYRO_JBIG2_OK)
            list->error = read_data(list, last, place + last->header_size);
        if (list->error != HAYRO_JBIG2_OK)
            return;
        append(list);
        if (last->type == END_OF_FILE)
            return;
    }
}

static void list_headers_first(struct segment_list *list, size_t place) {
    bool has_end = false;
    for (; place < list->size && !has_end; place += list->last.header_size) {
        list->error = read_header(list, place);
        if (list->error != HAYRO_JBIG2_OK)
            return;
        append(list);
        has_end = list->last.type == END_OF_FILE;
    }
    for (size_t i = 0; i < list->count; i++) {
        list->error = read_data(list, &list->at[i], place);
        place += list->at[i].length;
        if (list->error == HAYRO_JBIG2_OK)
            continue;
        list->last = list->at[i];
        list->count = i;
    }
}

static int compare(uint32_t one, uint32_t other) { return (one > other) - (one < other); }

/* Segments with the same key stay in their order. */
static int compare_numbers(const void *one, const void *other) {
    const struct segment *a = *(const struct segment *const *)one, *b = *(const struct segment *const *)other;
    return a->number != b->number ? compare(a->number, b->number) : (a > b) - (a < b);
}

static int compare_pages(const void *one, const void *other) {
    const struct segment *a = *(const struct segment *const *)one, *b = *(const struct segment *const *)other;
    return a->page != b->page ? compare(a->page, b->page) : (a > b) - (a < b);
}

static const struct segment **sorted(const struct segment_list *list, int (*order)(const void *, const void *)) {
    const struct segment **segments = room_for(list->count * sizeof *segments);
    for (size_t i = 0; i < list->count; i++)
        segments[i] = &list->at[i];
    qsort(segments, list->count, sizeof *segments, order);
    return segments;
}

void list_segments(struct segment_list *list, const uint8_t *bytes, size_t size, size_t start, bool has_random_access) {
    *list = (struct segment_list){.bytes = bytes, .size = size};
    if (has_random_access)
        list_headers_first(list, start);
    else
        list_one_after_the_other(list, start);
    list->by_number = sorted(list, compare_numbers);
    list->by_page = sorted(list, compare_pages);
}

void free_segments(struct segment_list *list) {
    free(list->at);
    free(list->by_number);
    free(list->by_page);
    *list = (struct segment_list){.bytes = NULL};
}

bool has_file_header(const uint8_t *bytes, size_t size) {
    return size >= IDENTIFICATION_SIZE && memcmp(bytes, "\x97JB2\r\n\x1A\n", IDENTIFICATION_SIZE) == 0;
}

bool read_file_header(struct file_header *header, const uint8_t *bytes, size_t size) {
    enum { FLAGS_END = IDENTIFICATION_SIZE + 1, COUNT_SIZE = 4 };
    uint8_t flags = size < FLAGS_END ? 0 : bytes[IDENTIFICATION_SIZE];
    *header = (struct file_header){.is_sequential = flags & IS_SEQUENTIAL, .has_count = !(flags & HAS_NO_COUNT)};
    size_t whole = header->has_count ? FLAGS_END + COUNT_SIZE : FLAGS_END;
    bool is_whole = size >= whole;
    header->size = is_whole ? whole : size < FLAGS_END ? size : FLAGS_END;
    if (is_whole && header->has_count)
        header->page_count = number_at(bytes + FLAGS_END, COUNT_SIZE);
    return is_whole;
}

uint32_t *referred_numbers(const struct segment_list *list, const struct segment *segment) {
    uint32_t *numbers = room_for(segment->referred_count * sizeof *numbers);
    with_memory(hayro_jbig2_segment_get_references(NULL, false, list->bytes + segment->place,
                                                   list->size - segment->place, numbers, segment->referred_count));
    return numbers;
}

static uint32_t number_of(const struct segment *segment) { return segment->number; }

static uint32_t page_of(const struct segment *segment) { return segment->page; }

/* Where the first of sorted segments is whose key is not below this one. */
static size_t first_from(const struct segment_list *list, const struct segment *const *segments,
                         uint32_t (*key_of)(const struct segment *segment), uint32_t key) {
    size_t first = 0, end = list->count;
    while (first < end) {
        size_t middle = first + (end - first) / 2;
        if (key_of(segments[middle]) < key)
            first = middle + 1;
        else
            end = middle;
    }
    return first;
}

const struct segment *segment_of_number(const struct segment_list *list, uint32_t number) {
    size_t first = first_from(list, list->by_number, number_of, number);
    return first < list->count && list->by_number[first]->number == number ? list->by_number[first] : NULL;
}

const struct segment *const *segments_of_page(const struct segment_list *list, uint32_t page, size_t *count) {
    size_t first = first_from(list, list->by_page, page_of, page), end = first;
    while (end < list->count && list->by_page[end]->page == page)
        end++;
    *count = end - first;
    return list->by_page + first;
}

uint32_t number_in(const struct segment_list *list, const struct segment *segment, size_t place, size_t size) {
    if (place > segment->length || size > segment->length - place)
        return 0;
    return number_at(list->bytes + segment->data + place, size);
}

bool is_region(unsigned type) {
    static const uint8_t regions[] = {4, 6, 7, 20, 22, 23, 36, 38, 39, 40, 42, 43};
    return memchr(regions, (int)type, sizeof regions) != NULL;
}

bool is_known_type(unsigned type) {
    static const uint8_t others[] = {0, 16, 48, 49, 50, 51, 52, 53, 54, 62};
    return is_region(type) || memchr(others, (int)type, sizeof others) != NULL;
}

static void read_page_information(const struct segment_list *list, const struct segment *segment,
                                  struct page_information *information) {
    *information = (struct page_information){
        .width = number_in(list, segment, 0, 4),
        .height = number_in(list, segment, 4, 4),
        .x_resolution = number_in(list, segment, 8, 4),
        .y_resolution = number_in(list, segment, 12, 4),
        .flags = (uint8_t)number_in(list, segment, 16, 1),
        .striping = (uint16_t)number_in(list, segment, 17, 2),
    };
}

bool page_information_of(const struct segment_list *list, uint32_t page, struct page_information *information) {
    size_t count;
    const struct segment *const *segments = segments_of_page(list, page, &count), *first = NULL;
    for (size_t i = 0; i < count; i++)
        if (segments[i]->type == PAGE_INFORMATION && (first == NULL || segments[i]->number < first->number))
            first = segments[i];
    if (first != NULL)
        read_page_information(list, first, information);
    return first != NULL;
}

/* One more than the greatest last row of all stripes, for pages whose height is unknown. */
static uint32_t rows_of_stripes(const struct segment_list *list) {
    uint32_t rows = 0;
    for (size_t i = 0; i < list->count; i++) {
        const struct segment *segment = &list->at[i];
        if (segment->type != END_OF_STRIPE || segment->length != 4)
            continue;
        uint32_t last = number_in(list, segment, 0, 4);
        if (last < UINT32_MAX && last + 1 > rows)
            rows = last + 1;
    }
    return rows;
}

uint64_t stated_pixels(const struct segment_list *list) {
    enum { LONGEST_SIDE = 65535 };
    uint64_t pixels = 0;
    uint32_t rows = rows_of_stripes(list);
    for (size_t i = 0; i < list->count; i++) {
        struct page_information page;
        if (list->at[i].type != PAGE_INFORMATION)
            continue;
        read_page_information(list, &list->at[i], &page);
        uint32_t height = page.height == UNKNOWN_HEIGHT ? rows : page.height;
        if (page.width <= LONGEST_SIDE && height <= LONGEST_SIDE)
            pixels += (uint64_t)page.width * height;
    }
    return pixels;
}

size_t size_without_line_end(const struct segment_list *list) {
    size_t rest = list->size - list->last.place;
    if (list->error != HAYRO_JBIG2_PARSE_UNEXPECTED_EOF || rest > 2)
        return list->size;
    for (size_t i = list->last.place; i < list->size; i++)
        if (list->bytes[i] != '\r' && list->bytes[i] != '\n')
            return list->size;
    return list->last.place;
}
