#include "context.h"

#include <stdarg.h>

enum { LONGEST = 1024 };

/* What a context without a listener says, on standard error: fatal errors alone. */
static void print(enum severity severity, uint32_t segment, const char *text) {
    if (severity != SEVERITY_FATAL)
        return;
    if (segment == NO_SEGMENT)
        fprintf(stderr, "hayro_jbig2: fatal error: %s\n", text);
    else
        fprintf(stderr, "hayro_jbig2: fatal error: %s (segment %u)\n", text, (unsigned)segment);
}

void tell(struct context *context, enum severity severity, uint32_t segment, const char *text) {
    if (context == NULL || context->listen == NULL)
        print(severity, segment, text);
    else
        context->listen(context->listener_data, text, severity, segment);
}

void tell_answer(struct context *context, enum severity severity, uint32_t segment, const char *what, uint32_t answer) {
    char text[LONGEST];
    snprintf(text, sizeof text, "%s: %s", what, hayro_jbig2_error_text(answer));
    tell(context, severity, segment, text);
}

int jbig2_error(struct context *context, enum severity severity, uint32_t segment, const char *format, ...) {
    char text[LONGEST];
    va_list words;
    va_start(words, format);
    if (vsnprintf(text, sizeof text, format, words) < 0)
        text[0] = 0;
    va_end(words);
    tell(context, severity, segment, text);
    return -1;
}
