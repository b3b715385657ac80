#include "platform.h"

#include "listing.h"
#include "names.h"

#include <stdio.h>
#include <stdlib.h>
#include <string.h>

/* Control characters of a name could be meant for the terminal. */
static void print_name(const char *name) {
    for (const char *at = name; *at != '\0'; at++)
        putchar(is_control(name, at) ? '?' : *at);
}

static void print_text(struct text *text, const char *end) {
    if (text->length > 0)
        print_name(text->at);
    fputs(end, stdout);
    free_text(text);
}

static void print_fault(const char *beginning, const struct fault *fault) {
    struct text text = {NULL, 0, 0};
    fputs(beginning, stdout);
    if (fault->has_place)
        printf("byte %zu: ", fault->place);
    add_fault_text(&text, fault);
    print_text(&text, "\n");
}

static void begin(const struct listing *listing) {
    const struct document *document = listing->document;
    const struct file_header *header = &document->header;
    print_name(document->name);
    printf(": %s, %zu bytes", name_of_kind(document->kind, &document->bytes), document->bytes.length);
    if (document->kind == KIND_FILE)
        printf(", %s", header->is_sequential ? "sequential" : "random access");
    if (document->kind == KIND_FILE && header->has_count)
        printf(", %lu pages stated", (unsigned long)header->page_count);
    if (document->kind == KIND_PDF)
        printf(", %zu pages, %zu JBIG2 images", document->pages, document->count);
    putchar('\n');
    for (size_t i = 0; i < listing->found_count; i++)
        print_fault("  FAULT: ", &listing->found[i]);
}

static void print_resolution(const struct page_information *information) {
    double x = information->x_resolution * 0.0254, y = information->y_resolution * 0.0254;
    if (information->x_resolution == 0 && information->y_resolution == 0)
        fputs(", no resolution", stdout);
    else if (information->x_resolution == information->y_resolution)
        printf(", %.1f dpi", x);
    else
        printf(", %.1f by %.1f dpi", x, y);
}

static void print_information(const struct page_information *information) {
    enum { IS_BLACK = 4, IS_STRIPED = 0x8000 };
    print_resolution(information);
    if (information->striping & IS_STRIPED)
        printf(", striped (at most %d rows)", information->striping & 0x7FFF);
    if (information->height == UNKNOWN_HEIGHT)
        fputs(", height not stated", stdout);
    printf(", %s, combined by %s", information->flags & IS_BLACK ? "black" : "white",
           name_of_operator(information->flags >> 3 & 3));
}

static void print_image(const struct image *image) {
    printf("  object %d %d, %lu by %lu", image->object, image->generation, (unsigned long)image->width,
           (unsigned long)image->height);
    if (image->globals != NULL)
        printf(", globals in object %d %d", image->globals->object, image->globals->generation);
    printf("%s%s\n", image->is_inverted ? ", inverted (/Decode)" : "", image->is_mask ? ", a mask (/ImageMask)" : "");
}

static void add_referred(struct text *text, const struct segment_list *list, const struct segment *segment) {
    enum { SHOWN = 12 };
    uint32_t *numbers = referred_numbers(list, segment);
    for (size_t i = 0; i < segment->referred_count && i < SHOWN; i++)
        add_text(text, "%s%lu", i > 0 ? "," : "", (unsigned long)numbers[i]);
    free(numbers);
    if (segment->referred_count > SHOWN)
        add_text(text, ".. (%zu)", segment->referred_count);
    if (segment->referred_count == 0)
        add_text(text, "-");
}

static void add_region(struct text *text, const struct segment_list *list, const struct segment *segment) {
    struct region region;
    if (region_of(list, segment, &region))
        add_text(text, "%lu by %lu at %ld,%ld %s", (unsigned long)region.width, (unsigned long)region.height,
                 (long)region.x, (long)region.y, name_of_operator(region.operator_number));
    else
        add_text(text, "-");
}

static void print_segment(const struct segment_list *list, const struct segment *segment) {
    struct text referred = {NULL, 0, 0}, region = {NULL, 0, 0}, coding = {NULL, 0, 0};
    add_referred(&referred, list, segment);
    add_region(&region, list, segment);
    add_coding(&coding, list, segment);
    printf("  %8lu  %-37s  %4lu  %9zu  %8zu%s  %-9s  %-27s", (unsigned long)segment->number,
           name_of_type(segment->type), (unsigned long)segment->page, segment->place, segment->length,
           segment->stated == HAYRO_JBIG2_UNKNOWN_LENGTH ? "*" : " ", referred.at, region.at);
    print_text(&coding, "\n");
    free_text(&referred);
    free_text(&region);
}

static int compare_faults(const void *one, const void *other) {
    const struct fault *a = one, *b = other;
    if (a->place != b->place)
        return a->place < b->place ? -1 : 1;
    return (a->error > b->error) - (a->error < b->error);
}

/* A file's fault is one of each page that lacks something by it, too. */
static bool is_same(const struct fault *one, const struct fault *other) {
    return compare_faults(one, other) == 0 && one->others == other->others && strcmp(one->note, other->note) == 0;
}

/* Those that have a place in a list, by their places. Globals have places of their own, but for those of a file. */
static size_t sort_faults(const struct fault *faults, size_t count, bool is_file, struct fault *sorted) {
    size_t sorted_count = 0;
    for (size_t i = 0; i < count; i++)
        if (faults[i].has_place && (is_file || !faults[i].is_of_globals))
            sorted[sorted_count++] = faults[i];
    qsort(sorted, sorted_count, sizeof *sorted, compare_faults);
    return sorted_count;
}

/* The segments of a list, with the faults that were found in it. */
static void print_segments(const struct segment_list *list, const struct fault *found, size_t found_count,
                           bool is_file) {
    struct fault *faults = room_for(found_count * sizeof *faults);
    size_t count = sort_faults(found, found_count, is_file, faults), next = 0;
    bool has_last = list->error != HAYRO_JBIG2_OK && list->known >= KNOWS_TYPE;
    if (list->count > 0 || has_last)
        printf("  %8s  %-37s  %4s  %9s  %8s   %-9s  %-27s%s\n", "segment", "type", "page", "byte", "length",
               "refers to", "region", "coding");
    for (size_t i = 0; i < list->count + has_last; i++) {
        const struct segment *segment = i < list->count ? &list->at[i] : &list->last;
        print_segment(list, segment);
        while (next < count && faults[next].place < segment->place)
            next++;
        for (; next < count && faults[next].place == segment->place; next++)
            if (next == 0 || !is_same(&faults[next - 1], &faults[next]))
                print_fault("      ^ FAULT at ", &faults[next]);
    }
    free(faults);
}

static void print_page(const struct listing *listing, size_t index, const struct drawn *drawn,
                       const struct segment_list *list) {
    const struct document *document = listing->document;
    const struct image *image = &document->images[index];
    printf("page %zu", image->page);
    if (image->all > 1)
        printf(", image %zu", image->nth);
    if (document->kind == KIND_FILE && drawn->number != image->page && drawn->width > 0)
        printf(" (number %lu)", (unsigned long)drawn->number);
    printf(": %s", name_of_state(drawn->status));
    if (drawn->width > 0)
        printf(", %lu by %lu pixels", (unsigned long)drawn->width, (unsigned long)drawn->height);
    if (drawn->has_information)
        print_information(&drawn->information);
    putchar('\n');
    for (size_t i = 0; i < drawn->faults.count; i++)
        print_fault("  FAULT: ", &drawn->faults.at[i]);
    if (document->kind == KIND_PDF)
        print_image(image);
    if (list != NULL)
        print_segments(list, drawn->faults.at, drawn->faults.count, false);
}

static void end(const struct listing *listing) {
    const struct document *document = listing->document;
    if (document->kind == KIND_FILE)
        print_segments(&document->list, listing->found, listing->found_count, true);
    for (size_t i = 0; i < document->globals_count; i++) {
        const struct globals *globals = document->globals[i];
        if (!globals->is_read)
            continue;
        fputs("globals", stdout);
        if (document->kind == KIND_PDF)
            printf(" in object %d %d", globals->object, globals->generation);
        printf(": %zu bytes\n", globals->bytes.length);
        print_segments(&globals->list, NULL, 0, false);
    }
}

static void finish(void) {}

const struct printer table_printer = {begin, print_page, end, finish};
