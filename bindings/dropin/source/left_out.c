#include "context.h"

static void warn_of_several(struct context *context, uint32_t segment, size_t count, const char *one,
                            const char *several, uint32_t error) {
    char what[80];
    if (count > 1)
        snprintf(what, sizeof what, "%zu %s", count, several);
    if (count > 0)
        tell_answer(context, SEVERITY_WARNING, segment, count == 1 ? one : what, error);
}

static void tell_passed_over(struct context *context, size_t count, uint32_t segment, uint32_t error) {
    warn_of_several(context, segment, count, "a segment was passed over", "segments were passed over, this one first",
                    error);
}

/* The segment at which the list ends early has a warning of its own. A page counts it too, after all others. A page of a
 * file counts it only where it may lack it. If it is the only one counted, its number and its error are those of the
 * list's end. */
static size_t passed_before_the_end(const struct context *context, const struct lacks *lacks) {
    const hayro_jbig2_passed_over *passed = &lacks->passed;
    const hayro_jbig2_left_out *left_out = &lacks->left_out;
    if (left_out->list_error == HAYRO_JBIG2_OK || passed->count == 0)
        return passed->count;
    bool is_end =
        passed->count == 1 && passed->segment == left_out->list_segment && passed->error == left_out->list_error;
    return context->is_embedded || is_end ? passed->count - 1 : passed->count;
}

/* NO_SEGMENT and the decoder's number for none are the same. */
static void tell_end(struct context *context, const hayro_jbig2_left_out *left_out) {
    bool is_cut = left_out->list_error == HAYRO_JBIG2_PARSE_UNEXPECTED_EOF;
    if (left_out->list_error != HAYRO_JBIG2_OK)
        tell_answer(context, SEVERITY_WARNING, left_out->list_segment,
                    is_cut ? "a segment is left out" : "the rest of the segments is left out", left_out->list_error);
}

void tell_lacks(struct context *context) {
    const struct lacks lacks = context->lacks;
    const hayro_jbig2_left_out *left_out = &lacks.left_out;
    context->lacks = (struct lacks){0};
    tell_passed_over(context, passed_before_the_end(context, &lacks), lacks.passed.segment, lacks.passed.error);
    tell_passed_over(context, left_out->segments, left_out->segment, left_out->error);
    warn_of_several(context, NO_SEGMENT, left_out->pages, "a page is left out",
                    "pages are left out, the first as follows", left_out->page_error);
    tell_end(context, left_out);
}
