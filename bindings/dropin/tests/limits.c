/* The limit of work: what passes it, which numbers the environment may name, and what the listener hears. */
#define _POSIX_C_SOURCE 200809L /* setenv */
#include "support.h"

#include <stdlib.h>
#include <string.h>

/* A page of 8 by 1, and an intermediate region of 32768 by 33000 without data: more than 2^30 units. */
static const uint8_t large[] =
    "\0\0\0\0\x30\0\1\0\0\0\x13\0\0\0\x08\0\0\0\1\0\0\0\0\0\0\0\0\0\0\0"
    "\0\0\0\2\x24\0\1\0\0\0\x1A\0\0\x80\0\0\0\x80\xE8\0\0\0\0\0\0\0\0\0\0\x03\xFF\xFD\xFF\x02"
    "\xFE\xFE\xFE";
static const char reached[] = "the page is refused: the limit of work is reached";

static void refuses_what_passes_the_limit(const char *named) {
    struct counted memory = counted_allocator();
    struct heard heard = {0};
    if (named != NULL)
        setenv("HAYRO_JBIG2_WORK_LIMIT", named, 1);
    struct context *context = embedded_context(&memory.base, NULL, &heard);
    CHECK(jbig2_data_in(context, large, sizeof large - 1) == 0);
    CHECK(jbig2_complete_page(context) == -1 && jbig2_page_out(context) == NULL);
    CHECK(heard.count[SEVERITY_FATAL] == 1 && heard.segment == NO_SEGMENT && strcmp(heard.text, reached) == 0);
    jbig2_ctx_free(context);
    unsetenv("HAYRO_JBIG2_WORK_LIMIT");
    CHECK(memory.held == 0);
}

/* A page that is drawn, or refused, with this limit in the environment; its globals where it has none of its own. */
static void draws_within(const char *named, bool is_drawn, const char *why) {
    struct counted memory = counted_allocator();
    struct heard heard = {0};
    setenv("HAYRO_JBIG2_WORK_LIMIT", named, 1);
    struct globals *globals = made_globals(&memory.base, &heard);
    struct context *context = embedded_context(&memory.base, globals, &heard);
    CHECK(jbig2_data_in(context, stream.at, stream.length) == 0);
    CHECK(jbig2_complete_page(context) == (is_drawn ? 0 : -1));
    struct image *image = jbig2_page_out(context);
    CHECK((image != NULL) == is_drawn && (image == NULL || is_meant(image)));
    CHECK(heard.count[SEVERITY_FATAL] == !is_drawn && strcmp(heard.text, why) == 0);
    jbig2_release_page(context, image);
    jbig2_ctx_free(context);
    jbig2_global_ctx_free(globals);
    unsetenv("HAYRO_JBIG2_WORK_LIMIT");
    CHECK(memory.held == 0);
}

/* A page that is refused for want of memory alone says so. */
static void tells_limits_from_memory(void) {
    struct counted memory = counted_allocator();
    struct heard heard = {0};
    memory.largest = 1 << 12;
    struct context *context = file_context(&memory.base, &heard);
    CHECK(jbig2_data_in(context, book.at, book.length) == 0);
    memory.largest = 64;
    CHECK(jbig2_complete_page(context) == -1);
    CHECK(strstr(heard.text, TEXT_OF_OUT_OF_MEMORY) != NULL);
    jbig2_ctx_free(context);
    CHECK(memory.held == 0);
}

void keeps_to_the_limit_of_work(void) {
    static const char *const no_numbers[] = {"-1", "+1", " 1", "", "1x", "18446744073709551616"};
    refuses_what_passes_the_limit(NULL);
    refuses_what_passes_the_limit("1000000000");
    for (size_t i = 0; i < sizeof no_numbers / sizeof *no_numbers; i++)
        refuses_what_passes_the_limit(no_numbers[i]);
    draws_within("0", true, "");
    draws_within("1000000", true, "");
    draws_within("18446744073709551615", true, "");
    draws_within("1", false, "the page's globals are refused: the limit of work is reached");
    tells_limits_from_memory();
}
