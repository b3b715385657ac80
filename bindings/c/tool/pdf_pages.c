#include "platform.h"

#ifdef HAVE_QPDF

#include "pdf_objects.h"

#include <stdlib.h>

/* libqpdf could list the pages too. It calls itself for each level of their tree, and copies a page that is there
 * twice, so a small file could ask for all of the stack or of the memory. */

/* A node of the tree of pages on the way down. No handles are kept, since they are released after each step. */
struct node {
    int object, generation;
    int next; /* of its kids */
    bool has_resources, is_searched;
    size_t heir; /* where on the way the node is whose resources its pages inherit, itself where there are none */
};

struct descent {
    struct node *at;
    size_t count, room;
};

static bool has_dictionary(qpdf_data qpdf, qpdf_oh object, const char *key) {
    return qpdf_oh_is_dictionary(qpdf, qpdf_oh_get_key_if_dict(qpdf, object, key));
}

/* Goes down into a node. One that comes up again has no further pages. */
static void enter(struct document *document, struct descent *way, qpdf_oh object) {
    qpdf_data qpdf = document->pdf->qpdf;
    if (!qpdf_oh_is_indirect(qpdf, object))
        object = qpdf_make_indirect_object(qpdf, object);
    if (!is_new(document->pdf, object)) {
        if (document->damage.length == 0)
            add_text(&document->damage, "a part of its tree of pages is there twice");
        return;
    }
    if (way->count == way->room) {
        way->room = 2 * way->room + 8;
        way->at = larger_room(way->at, way->room * sizeof *way->at);
    }
    bool has_resources = has_dictionary(qpdf, object, "/Resources");
    way->at[way->count] = (struct node){
        .object = qpdf_oh_get_object_id(qpdf, object),
        .generation = qpdf_oh_get_generation(qpdf, object),
        .has_resources = has_resources,
        .heir = has_resources || way->count == 0 ? way->count : way->at[way->count - 1].heir,
    };
    way->count++;
}

/* The resources that pages of a node inherit, unless a page before this one did. */
static void search_inherited(struct document *document, struct node *node) {
    qpdf_data qpdf = document->pdf->qpdf;
    if (!node->has_resources || node->is_searched)
        return;
    node->is_searched = true;
    qpdf_oh dictionary = qpdf_get_object_by_id(qpdf, node->object, node->generation);
    find_images(document, qpdf_oh_get_key(qpdf, dictionary, "/Resources"), document->pages);
}

static void search_annotations(struct document *document, qpdf_oh annotations) {
    qpdf_data qpdf = document->pdf->qpdf;
    if (!qpdf_oh_is_array(qpdf, annotations) || !is_new(document->pdf, annotations))
        return;
    for (int i = 0, count = qpdf_oh_get_array_n_items(qpdf, annotations); i < count; i++) {
        qpdf_oh annotation = qpdf_oh_get_array_item(qpdf, annotations, i);
        qpdf_oh drawing = qpdf_oh_get_key_if_dict(qpdf, annotation, "/AP");
        if (qpdf_oh_is_dictionary(qpdf, drawing) && is_new(document->pdf, annotation))
            find_images(document, drawing, document->pages);
        qpdf_oh_release(qpdf, drawing);
        qpdf_oh_release(qpdf, annotation);
    }
}

static void add_page(struct document *document, struct descent *way, qpdf_oh page) {
    qpdf_data qpdf = document->pdf->qpdf;
    document->pages++;
    if (!is_new(document->pdf, page))
        return;
    if (has_dictionary(qpdf, page, "/Resources"))
        find_images(document, qpdf_oh_get_key(qpdf, page, "/Resources"), document->pages);
    else
        search_inherited(document, &way->at[way->at[way->count - 1].heir]);
    search_annotations(document, qpdf_oh_get_key(qpdf, page, "/Annots"));
}

/* In some files the catalog names a page in place of the tree. */
static qpdf_oh top_of_tree(qpdf_data qpdf) {
    enum { HIGHEST = 100 };
    qpdf_oh top = qpdf_oh_get_key_if_dict(qpdf, qpdf_get_root(qpdf), "/Pages");
    for (int i = 0; i < HIGHEST && has_dictionary(qpdf, top, "/Parent"); i++)
        top = qpdf_oh_get_key(qpdf, top, "/Parent");
    return top;
}

/* One kid of the last node, or back from it. */
static void step(struct document *document, struct descent *way) {
    qpdf_data qpdf = document->pdf->qpdf;
    struct node *node = &way->at[way->count - 1];
    qpdf_oh dictionary = qpdf_get_object_by_id(qpdf, node->object, node->generation);
    qpdf_oh kids = qpdf_oh_get_key(qpdf, dictionary, "/Kids");
    if (node->next >= qpdf_oh_get_array_n_items(qpdf, kids)) {
        way->count--;
        return;
    }
    qpdf_oh kid = qpdf_oh_get_array_item(qpdf, kids, node->next++);
    if (!qpdf_oh_is_dictionary(qpdf, kid))
        return;
    if (qpdf_oh_has_key(qpdf, kid, "/Kids"))
        enter(document, way, kid);
    else
        add_page(document, way, kid);
}

void find_pages(struct document *document) {
    qpdf_data qpdf = document->pdf->qpdf;
    struct descent way = {NULL, 0, 0};
    qpdf_oh top = top_of_tree(qpdf);
    if (qpdf_oh_is_dictionary(qpdf, top))
        enter(document, &way, top);
    while (way.count > 0) {
        step(document, &way);
        qpdf_oh_release_all(qpdf);
    }
    free(way.at);
}

#else

/* No translation unit may be empty. */
typedef int no_pdf_pages;

#endif
