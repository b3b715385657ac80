#include "platform.h"

#ifdef HAVE_QPDF

#include "globals.h"
#include "pdf_objects.h"

#include <search.h>
#include <stdlib.h>
#include <string.h>

/* Objects inside of each other, far more than a page has. */
enum { DEEPEST = 50 };

int filter_index_of_jbig2(qpdf_data qpdf, qpdf_oh dictionary) {
    qpdf_oh filter = qpdf_oh_get_key(qpdf, dictionary, "/Filter");
    int last = 0;
    if (qpdf_oh_is_array(qpdf, filter)) {
        last = qpdf_oh_get_array_n_items(qpdf, filter) - 1;
        if (last < 0)
            return -1;
        filter = qpdf_oh_get_array_item(qpdf, filter, last);
    }
    return qpdf_oh_is_name_and_equals(qpdf, filter, "/JBIG2Decode") ? last : -1;
}

static int compare_numbers(const void *one, const void *other) {
    return ((uintptr_t)one > (uintptr_t)other) - ((uintptr_t)one < (uintptr_t)other);
}

/* Numbers may be of any size, so they are kept in a tree. */
bool is_new(struct pdf *pdf, qpdf_oh object) {
    int number = qpdf_oh_get_object_id(pdf->qpdf, object);
    void *key = (void *)(uintptr_t)number;
    if (number <= 0)
        return true;
    if (tfind(key, &pdf->seen, compare_numbers) != NULL)
        return false;
    if (tsearch(key, &pdf->seen, compare_numbers) == NULL)
        end_without_memory();
    return true;
}

static int compare_globals(const void *one, const void *other) {
    const struct globals *a = one, *b = other;
    if (a->object != b->object)
        return a->object < b->object ? -1 : 1;
    return (a->generation > b->generation) - (a->generation < b->generation);
}

void forget_objects(struct pdf *pdf) {
    while (pdf->seen != NULL)
        tdelete(*(void **)pdf->seen, &pdf->seen, compare_numbers);
    while (pdf->globals != NULL)
        tdelete(*(void **)pdf->globals, &pdf->globals, compare_globals);
}

static struct globals *globals_in(struct document *document, qpdf_oh stream) {
    struct pdf *pdf = document->pdf;
    struct globals wanted = {.object = qpdf_oh_get_object_id(pdf->qpdf, stream),
                             .generation = qpdf_oh_get_generation(pdf->qpdf, stream)};
    struct globals **found = tfind(&wanted, &pdf->globals, compare_globals);
    if (found != NULL)
        return *found;
    struct globals *globals = new_globals((struct bytes){NULL, 0});
    globals->object = wanted.object;
    globals->generation = wanted.generation;
    add_globals(document, globals);
    if (tsearch(globals, &pdf->globals, compare_globals) == NULL)
        end_without_memory();
    return globals;
}

/* The globals of an image, by the parameters of its filter. */
static struct globals *globals_of(struct document *document, qpdf_oh dictionary, int filter) {
    qpdf_data qpdf = document->pdf->qpdf;
    qpdf_oh parameters = qpdf_oh_get_key(qpdf, dictionary, "/DecodeParms");
    if (qpdf_oh_is_array(qpdf, parameters) && filter < qpdf_oh_get_array_n_items(qpdf, parameters))
        parameters = qpdf_oh_get_array_item(qpdf, parameters, filter);
    qpdf_oh globals = qpdf_oh_get_key_if_dict(qpdf, parameters, "/JBIG2Globals");
    return qpdf_oh_is_stream(qpdf, globals) ? globals_in(document, globals) : NULL;
}

static uint32_t side_of(qpdf_data qpdf, qpdf_oh dictionary, const char *key) {
    long long side = 0;
    bool is_side = qpdf_oh_get_value_as_longlong(qpdf, qpdf_oh_get_key(qpdf, dictionary, key), &side);
    return !is_side || side < 0 ? 0 : side > 65535 ? 65535 : (uint32_t)side;
}

static bool is_inverted(qpdf_data qpdf, qpdf_oh dictionary) {
    qpdf_oh decode = qpdf_oh_get_key(qpdf, dictionary, "/Decode");
    if (!qpdf_oh_is_array(qpdf, decode) || qpdf_oh_get_array_n_items(qpdf, decode) < 1)
        return false;
    return qpdf_oh_get_numeric_value(qpdf, qpdf_oh_get_array_item(qpdf, decode, 0)) > 0;
}

/* Pages are counted from 1. */
static void add_image(struct document *document, qpdf_oh stream, size_t page) {
    qpdf_data qpdf = document->pdf->qpdf;
    qpdf_oh dictionary = qpdf_oh_get_dict(qpdf, stream);
    int filter = filter_index_of_jbig2(qpdf, dictionary);
    if (filter < 0)
        return;
    QPDF_BOOL is_mask = QPDF_FALSE;
    qpdf_oh_get_value_as_bool(qpdf, qpdf_oh_get_key(qpdf, dictionary, "/ImageMask"), &is_mask);
    /* The room doubles with each power of two. */
    if ((document->count & (document->count - 1)) == 0)
        document->images = larger_room(document->images, (2 * document->count + 1) * sizeof *document->images);
    document->images[document->count++] = (struct image){
        .page = page,
        .object = qpdf_oh_get_object_id(qpdf, stream),
        .generation = qpdf_oh_get_generation(qpdf, stream),
        .globals = globals_of(document, dictionary, filter),
        .width = side_of(qpdf, dictionary, "/Width"),
        .height = side_of(qpdf, dictionary, "/Height"),
        .is_inverted = is_inverted(qpdf, dictionary),
        .is_mask = is_mask,
    };
}

static void walk(struct document *document, qpdf_oh object, size_t page, int depth);

/* Goes on with each value of a dictionary but the way back to the tree of pages. */
static void walk_dictionary(struct document *document, qpdf_oh dictionary, size_t page, int depth) {
    qpdf_data qpdf = document->pdf->qpdf;
    char **keys = NULL;
    size_t count = 0;
    /* The walk below has iterations of its own, so the keys are copied first. */
    qpdf_oh_begin_dict_key_iter(qpdf, dictionary);
    while (qpdf_oh_dict_more_keys(qpdf)) {
        const char *key = qpdf_oh_dict_next_key(qpdf);
        keys = larger_room(keys, (count + 1) * sizeof *keys);
        size_t size = strlen(key) + 1;
        keys[count] = room_for(size);
        memcpy(keys[count++], key, size);
    }
    for (size_t i = 0; i < count; i++) {
        if (strcmp(keys[i], "/Parent") != 0 && strcmp(keys[i], "/P") != 0) {
            qpdf_oh value = qpdf_oh_get_key(qpdf, dictionary, keys[i]);
            walk(document, value, page, depth + 1);
            qpdf_oh_release(qpdf, value);
        }
        free(keys[i]);
    }
    free(keys);
}

static void walk_array(struct document *document, qpdf_oh array, size_t page, int depth) {
    qpdf_data qpdf = document->pdf->qpdf;
    for (int i = 0, count = qpdf_oh_get_array_n_items(qpdf, array); i < count; i++) {
        qpdf_oh item = qpdf_oh_get_array_item(qpdf, array, i);
        walk(document, item, page, depth + 1);
        qpdf_oh_release(qpdf, item);
    }
}

static void walk(struct document *document, qpdf_oh object, size_t page, int depth) {
    qpdf_data qpdf = document->pdf->qpdf;
    bool is_stream = qpdf_oh_is_stream(qpdf, object);
    bool is_page = qpdf_oh_is_dictionary_of_type(qpdf, object, "/Page", "");
    if (depth > DEEPEST || is_page || !is_new(document->pdf, object))
        return;
    if (is_stream)
        add_image(document, object, page);
    if (is_stream || qpdf_oh_is_dictionary(qpdf, object))
        walk_dictionary(document, is_stream ? qpdf_oh_get_dict(qpdf, object) : object, page, depth);
    else if (qpdf_oh_is_array(qpdf, object))
        walk_array(document, object, page, depth);
}

void find_images(struct document *document, qpdf_oh object, size_t page) { walk(document, object, page, 0); }

#else

/* No translation unit may be empty. */
typedef int no_pdf_objects;

#endif
