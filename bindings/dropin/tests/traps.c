/* What the callers of the library do that is easy to miss; bindings/dropin/README.md lists it. */
#include "support.h"

#include <string.h>

static struct image *drawn(struct context *context) {
    CHECK(jbig2_data_in(context, stream.at, stream.length) == 0);
    CHECK(jbig2_complete_page(context) == 0);
    return jbig2_page_out(context);
}

/* The program jbig2dec frees the globals before it asks for the page, with the page's own allocator. */
static void draws_after_its_globals_are_freed(void) {
    struct counted memory = counted_allocator();
    struct heard heard = {0};
    struct globals *globals = made_globals(&memory.base, &heard);
    struct context *context = embedded_context(&memory.base, globals, &heard);
    CHECK(jbig2_data_in(context, stream.at, stream.length) == 0);
    CHECK(jbig2_global_ctx_free(globals) == &memory.base);
    unsigned long before = memory.requests;
    CHECK(jbig2_complete_page(context) == 0);
    struct image *image = jbig2_page_out(context);
    CHECK(image != NULL && is_meant(image));
    jbig2_release_page(context, image);
    CHECK(memory.requests > before);
    CHECK(jbig2_ctx_free(context) == &memory.base);
    CHECK(memory.held == 0 && heard.count[SEVERITY_FATAL] == 0);
}

/* Where the globals had an allocator of their own, nothing of it is held or called after they are freed. */
static void draws_after_the_allocator_of_its_globals_is_gone(void) {
    struct counted of_globals = counted_allocator(), memory = counted_allocator();
    struct heard heard = {0};
    struct context *contexts[3];
    struct globals *globals = made_globals(&of_globals.base, &heard);
    for (int i = 0; i < 3; i++)
        contexts[i] = embedded_context(&memory.base, globals, &heard);
    CHECK(jbig2_ctx_free(contexts[1]) == &memory.base);
    CHECK(jbig2_global_ctx_free(globals) == &of_globals.base);
    CHECK(of_globals.held == 0);
    of_globals.is_gone = true;
    for (int i = 0; i < 3; i += 2) {
        struct image *image = drawn(contexts[i]);
        CHECK(image != NULL && is_meant(image));
        jbig2_release_page(contexts[i], image);
        CHECK(jbig2_ctx_free(contexts[i]) == &memory.base);
    }
    CHECK(memory.held == 0);
}

static unsigned long requests_of_a_page(struct counted *memory, struct globals *globals, bool are_freed_first) {
    struct heard heard = {0};
    struct context *context = embedded_context(&memory->base, globals, &heard);
    if (are_freed_first)
        jbig2_global_ctx_free(globals);
    unsigned long before = memory->requests;
    struct image *image = drawn(context);
    CHECK(image != NULL && is_meant(image));
    unsigned long requests = memory->requests - before;
    jbig2_release_page(context, image);
    jbig2_ctx_free(context);
    return requests;
}

/* A page asks for less memory where it finds its globals decoded, and their own allocator is not asked again. */
static void decodes_globals_once(void) {
    struct counted of_globals = counted_allocator(), memory = counted_allocator();
    struct heard heard = {0};
    struct globals *globals = made_globals(&of_globals.base, &heard);
    unsigned long before = of_globals.requests;
    unsigned long first = requests_of_a_page(&memory, globals, false);
    unsigned long second = requests_of_a_page(&memory, globals, false);
    CHECK(of_globals.requests == before);
    unsigned long alone = requests_of_a_page(&memory, globals, true);
    CHECK(first == second && second < alone);
    struct globals *own = made_globals(&memory.base, &heard);
    CHECK(requests_of_a_page(&memory, own, true) <= second);
    CHECK(memory.held == 0 && of_globals.held == 0);
}

/* What a context took, its globals keep: more data, or a page of its own, would change what pages share. */
static void takes_no_data_after_it_became_globals(void) {
    struct counted of_globals = counted_allocator(), memory = counted_allocator();
    struct heard heard = {0};
    struct context *gathering = embedded_context(&of_globals.base, NULL, &heard);
    CHECK(jbig2_data_in(gathering, shared.at, shared.length) == 0);
    struct globals *globals = jbig2_make_global_ctx(gathering);
    CHECK(jbig2_data_in(gathering, stream.at, stream.length) == -1 && heard.count[SEVERITY_FATAL] == 1);
    CHECK(jbig2_complete_page(gathering) == -1 && heard.count[SEVERITY_FATAL] == 2);
    CHECK(strstr(heard.text, "became globals") != NULL && jbig2_page_out(gathering) == NULL);
    CHECK(jbig2_make_global_ctx(gathering) == globals);
    struct context *context = embedded_context(&memory.base, globals, &heard);
    /* So it draws by the copy of their bytes. */
    jbig2_global_ctx_free(globals);
    struct image *image = drawn(context);
    CHECK(image != NULL && is_meant(image));
    jbig2_release_page(context, image);
    jbig2_ctx_free(context);
    CHECK(memory.held == 0 && of_globals.held == 0 && heard.count[SEVERITY_FATAL] == 2);
}

/* Ghostscript goes on after a refused piece: what is drawn of the rest would be another page. */
static void refuses_a_stream_with_a_hole(bool is_in_globals) {
    struct counted memory = counted_allocator();
    struct heard heard = {0};
    struct file *holed = is_in_globals ? &shared : &stream;
    size_t half = holed->length / 2;
    struct context *context = embedded_context(&memory.base, NULL, &heard);
    CHECK(jbig2_data_in(context, holed->at, half) == 0);
    memory.largest = 1;
    uint8_t piece[8192] = {0};
    CHECK(jbig2_data_in(context, piece, sizeof piece) == -1);
    CHECK(heard.count[SEVERITY_FATAL] == 1 && strstr(heard.text, TEXT_OF_OUT_OF_MEMORY) != NULL);
    memory.largest = 0;
    CHECK(jbig2_data_in(context, holed->at + half, holed->length - half) == 0);
    struct globals *globals = NULL;
    if (is_in_globals) {
        globals = jbig2_make_global_ctx(context);
        context = embedded_context(&memory.base, globals, &heard);
        CHECK(jbig2_data_in(context, stream.at, stream.length) == 0);
    }
    CHECK(jbig2_complete_page(context) == -1 && jbig2_complete_page(context) == -1);
    CHECK(jbig2_page_out(context) == NULL);
    CHECK(heard.count[SEVERITY_FATAL] == 2 && strstr(heard.text, TEXT_OF_OUT_OF_MEMORY) != NULL);
    jbig2_ctx_free(context);
    jbig2_global_ctx_free(globals);
    CHECK(memory.held == 0);
}

/* Blocks at multiples of 8 serve; those that lie otherwise count as refused. */
static void takes_blocks_at_multiples_of_8(void) {
    for (size_t offset = 0; offset <= 8; offset++) {
        struct counted memory = counted_allocator();
        struct heard heard = {0};
        memory.offset = offset;
        struct globals *globals = made_globals(&memory.base, &heard);
        struct context *context = embedded_context(&memory.base, globals, &heard);
        CHECK((context != NULL) == (offset % 8 == 0));
        if (context != NULL) {
            struct image *image = drawn(context);
            CHECK(image != NULL && is_meant(image));
            jbig2_release_page(context, image);
        }
        jbig2_ctx_free(context);
        jbig2_global_ctx_free(globals);
        CHECK(memory.held == 0);
    }
}

/* Limits of the caller's memory hold for all that is taken. */
static void takes_all_memory_from_the_caller(void) {
    if (&mallocs == NULL)
        return;
    struct counted memory = counted_allocator();
    struct heard heard = {0};
    unsigned long before = mallocs;
    struct globals *globals = made_globals(&memory.base, &heard);
    struct context *context = embedded_context(&memory.base, globals, &heard);
    struct image *image = drawn(context);
    CHECK(mallocs - before == memory.requests);
    CHECK(image != NULL && is_meant(image));
    jbig2_release_page(context, image);
    jbig2_ctx_free(context);
    jbig2_global_ctx_free(globals);

    context = file_context(&memory.base, &heard);
    before = mallocs - memory.requests;
    CHECK(jbig2_data_in(context, book.at, book.length) == 0 && jbig2_complete_page(context) == 0);
    while ((image = jbig2_page_out(context)) != NULL)
        jbig2_release_page(context, image);
    CHECK(mallocs - before == memory.requests);
    jbig2_ctx_free(context);
}

/* Ghostscript asks for a page after each piece. That must cost nothing. */
static void hands_out_nothing_before_the_end(void) {
    struct counted memory = counted_allocator();
    struct heard heard = {0};
    struct globals *globals = made_globals(&memory.base, &heard);
    struct context *context = embedded_context(&memory.base, globals, &heard);
    CHECK(jbig2_page_out(context) == NULL);
    for (size_t i = 0; i < stream.length; i++) {
        CHECK(jbig2_data_in(context, stream.at + i, 1) == 0);
        unsigned long before = memory.requests;
        CHECK(jbig2_page_out(context) == NULL);
        CHECK(memory.requests == before);
    }
    CHECK(jbig2_complete_page(context) == 0);
    struct image *image = jbig2_page_out(context);
    CHECK(image != NULL && is_meant(image));
    CHECK(jbig2_page_out(context) == NULL);
    jbig2_release_page(context, image);
    jbig2_ctx_free(context);
    jbig2_global_ctx_free(globals);
    CHECK(memory.held == 0);
}

/* The program jbig2dec goes on with a context that it didn't get. */
static void takes_null_pointers(void) {
    CHECK(jbig2_ctx_free(NULL) == NULL && jbig2_global_ctx_free(NULL) == NULL);
    CHECK(jbig2_data_in(NULL, stream.at, 1) == -1 && jbig2_complete_page(NULL) == -1);
    CHECK(jbig2_page_out(NULL) == NULL);
    jbig2_release_page(NULL, NULL);
    CHECK(jbig2_image_reference(NULL, NULL) == NULL);
    jbig2_image_release(NULL, NULL);
    CHECK(jbig2_image_write_pbm(NULL, stdout) == -1);
    CHECK(jbig2_error(NULL, SEVERITY_WARNING, 1, "nobody hears this") == -1);

    struct context *context = jbig2_ctx_new_imp(NULL, 0, NULL, NULL, NULL, ABI_MAJOR, ABI_MINOR);
    CHECK(context != NULL);
    CHECK(jbig2_data_in(context, NULL, 0) == 0 && jbig2_data_in(context, NULL, 1) == -1);
    CHECK(jbig2_error(context, SEVERITY_WARNING, 1, "nor this") == -1);
    CHECK(jbig2_data_in(context, book.at, book.length) == 0 && jbig2_complete_page(context) == 0);
    jbig2_release_page(context, jbig2_page_out(context));
    jbig2_release_page(context, NULL);
    CHECK(jbig2_ctx_free(context) != NULL);
}

/* Of no context it makes globals, too: a page that is drawn without them is another page. */
static void refuses_pages_with_the_globals_of_no_context(void) {
    struct counted memory = counted_allocator();
    struct heard heard = {0};
    struct globals *globals = jbig2_make_global_ctx(NULL);
    struct context *context = embedded_context(&memory.base, globals, &heard);
    struct context *other = embedded_context(&memory.base, globals, &heard);
    CHECK(jbig2_global_ctx_free(globals) == NULL);
    CHECK(jbig2_data_in(context, stream.at, stream.length) == 0);
    CHECK(jbig2_complete_page(context) == -1 && jbig2_page_out(context) == NULL);
    CHECK(strstr(heard.text, TEXT_OF_OUT_OF_MEMORY) != NULL);
    jbig2_ctx_free(context);
    jbig2_ctx_free(other);
    CHECK(memory.held == 0);
}

/* The second time they are the same ones. */
static void makes_globals_of_a_context_once(void) {
    struct counted memory = counted_allocator();
    struct heard heard = {0};
    struct context *maker = embedded_context(&memory.base, NULL, &heard);
    CHECK(jbig2_data_in(maker, shared.at, shared.length) == 0);
    struct globals *globals = jbig2_make_global_ctx(maker);
    struct context *context = embedded_context(&memory.base, globals, &heard);
    CHECK(jbig2_make_global_ctx(maker) == globals);
    struct image *image = drawn(context);
    CHECK(image != NULL && is_meant(image));
    jbig2_release_page(context, image);
    jbig2_global_ctx_free(globals);
    jbig2_ctx_free(context);
    CHECK(memory.held == 0);
}

static void takes_one_version_alone(void) {
    const int versions[][2] = {{0, 18}, {0, 20}, {1, 19}, {0, 0}, {-1, 19}};
    struct counted memory = counted_allocator();
    for (int i = 0; i < 5; i++) {
        struct heard heard = {0};
        struct context *context =
            jbig2_ctx_new_imp(&memory.base, 0, NULL, hear, &heard, versions[i][0], versions[i][1]);
        CHECK(context == NULL && heard.count[SEVERITY_FATAL] == 1 && heard.segment == NO_SEGMENT);
    }
    CHECK(memory.requests == 0);
}

void meets_the_traps(void) {
    draws_after_its_globals_are_freed();
    draws_after_the_allocator_of_its_globals_is_gone();
    decodes_globals_once();
    takes_no_data_after_it_became_globals();
    refuses_a_stream_with_a_hole(false);
    refuses_a_stream_with_a_hole(true);
    takes_blocks_at_multiples_of_8();
    takes_all_memory_from_the_caller();
    hands_out_nothing_before_the_end();
    takes_null_pointers();
    refuses_pages_with_the_globals_of_no_context();
    makes_globals_of_a_context_once();
    takes_one_version_alone();
}
