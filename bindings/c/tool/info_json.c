#include "platform.h"

#include "listing.h"
#include "names.h"

#include <stdio.h>
#include <stdlib.h>
#include <string.h>

/* How many bytes a character of UTF-8 has by its first byte, or 0 where none begins so. */
static int size_by_first(unsigned char first) {
    if (first < 0x80)
        return 1;
    if (first < 0xC2 || first > 0xF4)
        return 0;
    return first < 0xE0 ? 2 : first < 0xF0 ? 3 : 4;
}

/* How many bytes the character has here, or 0 where there is none. */
static int utf8_size(const unsigned char *at) {
    int size = size_by_first(at[0]);
    for (int i = 1; i < size; i++)
        if ((at[i] & 0xC0) != 0x80)
            return 0;
    bool is_long = (at[0] == 0xE0 && at[1] < 0xA0) || (at[0] == 0xF0 && at[1] < 0x90);
    bool is_bad = (at[0] == 0xED && at[1] >= 0xA0) || (at[0] == 0xF4 && at[1] >= 0x90);
    return is_long || is_bad ? 0 : size;
}

static void print_string(const char *text) {
    const unsigned char *at = (const unsigned char *)text;
    putchar('"');
    while (*at != '\0') {
        int size = utf8_size(at);
        if (size == 0)
            fputs("\\ufffd", stdout);
        else if (is_control(text, (const char *)at + size - 1))
            printf("\\u%04x", at[size - 1]);
        else
            printf("%s%.*s", *at == '"' || *at == '\\' ? "\\" : "", size, (const char *)at);
        at += size > 0 ? size : 1;
    }
    putchar('"');
}

/* The key of a member. All but the first have a comma before them. */
static void print_key(const char *key, bool is_first) { printf("%s\"%s\": ", is_first ? "" : ", ", key); }

static void print_number(const char *key, unsigned long long number) {
    print_key(key, false);
    printf("%llu", number);
}

static void print_member(const char *key, const char *text) {
    print_key(key, false);
    print_string(text);
}

static void print_truth(const char *key, bool is_so) {
    print_key(key, false);
    fputs(is_so ? "true" : "false", stdout);
}

static void print_fault(const struct fault *fault) {
    putchar('{');
    print_key("error", true);
    printf("%lu", (unsigned long)fault->error);
    print_member("text", text_of_answer(fault->error));
    if (fault->has_segment)
        print_number("segment", fault->segment);
    if (fault->has_type)
        print_number("type", fault->type);
    if (fault->has_place)
        print_number("byte", fault->place);
    if (fault->note[0] != '\0')
        print_member("note", fault->note);
    if (fault->others > 0)
        print_number("more_segments", fault->others);
    print_truth("in_globals", fault->is_of_globals);
    putchar('}');
}

static void print_referred(const struct segment_list *list, const struct segment *segment) {
    uint32_t *numbers = referred_numbers(list, segment);
    fputs(", \"refers_to\": [", stdout);
    for (size_t i = 0; i < segment->referred_count; i++)
        printf("%s%lu", i > 0 ? ", " : "", (unsigned long)numbers[i]);
    putchar(']');
    free(numbers);
}

static void print_region(const struct segment_list *list, const struct segment *segment) {
    struct region region;
    if (!region_of(list, segment, &region))
        return;
    printf(", \"region\": {\"width\": %lu, \"height\": %lu, \"x\": %ld, \"y\": %ld", (unsigned long)region.width,
           (unsigned long)region.height, (long)region.x, (long)region.y);
    print_member("operator", name_of_operator(region.operator_number));
    putchar('}');
}

static void print_segment(const struct segment_list *list, const struct segment *segment, bool is_first) {
    struct text coding = {NULL, 0, 0};
    fputs(is_first ? "\n      {" : ",\n      {", stdout);
    print_key("number", true);
    printf("%lu", (unsigned long)segment->number);
    print_number("type", segment->type);
    print_member("name", name_of_type(segment->type));
    print_number("page", segment->page);
    print_number("byte", segment->place);
    print_number("data_byte", segment->data);
    print_number("length", segment->length);
    print_truth("length_is_unknown", segment->stated == HAYRO_JBIG2_UNKNOWN_LENGTH);
    print_referred(list, segment);
    print_region(list, segment);
    add_coding(&coding, list, segment);
    if (coding.length > 0)
        print_member("coding", coding.at);
    free_text(&coding);
    putchar('}');
}

static void print_segments(const struct segment_list *list) {
    print_key("segments", false);
    putchar('[');
    for (size_t i = 0; i < list->count; i++)
        print_segment(list, &list->at[i], i == 0);
    putchar(']');
    if (list->error == HAYRO_JBIG2_OK)
        return;
    printf(", \"list_ends\": {\"byte\": %zu, \"error\": %lu", list->last.place, (unsigned long)list->error);
    print_member("text", text_of_answer(list->error));
    putchar('}');
}

static bool has_printed;
static bool has_page;

static void begin(const struct listing *listing) {
    const struct document *document = listing->document;
    static const char *const kinds[] = {"file", "pdf", "embedded"};
    fputs(has_printed ? ",\n  {" : "[\n  {", stdout);
    has_printed = true;
    has_page = false;
    print_key("file", true);
    print_string(document->name);
    print_member("kind", kinds[document->kind]);
    print_number("bytes", document->bytes.length);
    if (document->kind == KIND_FILE)
        print_member("organisation", document->header.is_sequential ? "sequential" : "random access");
    if (document->kind == KIND_FILE && document->header.has_count)
        print_number("stated_pages", document->header.page_count);
    if (document->kind == KIND_PDF)
        print_number("pdf_pages", document->pages);
    fputs(",\n    \"faults\": [", stdout);
    for (size_t i = 0; i < listing->found_count; i++) {
        fputs(i > 0 ? ", " : "", stdout);
        print_fault(&listing->found[i]);
    }
    fputs("],\n    \"pages\": [", stdout);
}

static void print_information(const struct page_information *information) {
    print_number("x_resolution", information->x_resolution);
    print_number("y_resolution", information->y_resolution);
    print_truth("height_is_stated", information->height != UNKNOWN_HEIGHT);
    print_truth("striped", information->striping & 0x8000);
    print_number("most_rows_of_a_stripe", information->striping & 0x7FFF);
    print_number("default_pixel", information->flags >> 2 & 1);
    print_member("combination", name_of_operator(information->flags >> 3 & 3));
}

static void print_object(const char *key, int object, int generation) {
    print_key(key, false);
    printf("\"%d %d\"", object, generation);
}

static void print_image(const struct image *image) {
    print_number("image", image->nth);
    print_object("object", image->object, image->generation);
    if (image->globals != NULL)
        print_object("globals", image->globals->object, image->globals->generation);
    print_number("pdf_width", image->width);
    print_number("pdf_height", image->height);
    print_truth("inverted", image->is_inverted);
    print_truth("mask", image->is_mask);
}

static void print_page(const struct listing *listing, size_t index, const struct drawn *drawn,
                       const struct segment_list *list) {
    const struct document *document = listing->document;
    const struct image *image = &document->images[index];
    fputs(has_page ? ",\n     {" : "\n     {", stdout);
    has_page = true;
    print_key("page", true);
    printf("%zu", image->page);
    print_member("state", name_of_state(drawn->status));
    if (drawn->width > 0) {
        print_number("number", drawn->number);
        print_number("width", drawn->width);
        print_number("height", drawn->height);
    }
    if (drawn->has_information)
        print_information(&drawn->information);
    if (document->kind == KIND_PDF)
        print_image(image);
    fputs(", \"faults\": [", stdout);
    for (size_t i = 0; i < drawn->faults.count; i++) {
        fputs(i > 0 ? ", " : "", stdout);
        print_fault(&drawn->faults.at[i]);
    }
    putchar(']');
    if (list != NULL)
        print_segments(list);
    putchar('}');
}

static void end(const struct listing *listing) {
    const struct document *document = listing->document;
    bool is_first = true;
    putchar(']');
    if (document->kind == KIND_FILE)
        print_segments(&document->list);
    fputs(",\n    \"globals\": [", stdout);
    for (size_t i = 0; i < document->globals_count; i++) {
        const struct globals *globals = document->globals[i];
        if (!globals->is_read)
            continue;
        printf("%s{\"bytes\": %zu", is_first ? "" : ", ", globals->bytes.length);
        is_first = false;
        if (document->kind == KIND_PDF)
            print_object("object", globals->object, globals->generation);
        print_segments(&globals->list);
        putchar('}');
    }
    fputs("]}", stdout);
}

static void finish(void) { puts(has_printed ? "\n]" : "[]"); }

const struct printer json_printer = {begin, print_page, end, finish};
