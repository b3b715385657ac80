#define _GNU_SOURCE /* secure_getenv */
#include "context.h"

#include <ctype.h>
#include <errno.h>
#include <stdlib.h>

/* In units of work of the library for C. */
static const uint64_t usual = (uint64_t)1 << 30, for_a_pixel = 100;

/* The environment may name another number, in digits alone; 0 is no limit. What is no number of 64 bits counts for
 * nothing. */
uint64_t least_work(void) {
    const char *named = secure_getenv("HAYRO_JBIG2_WORK_LIMIT");
    if (named == NULL || !isdigit((unsigned char)named[0]))
        return usual;
    char *end;
    errno = 0;
    uint64_t work = strtoull(named, &end, 10);
    if (errno != 0 || *end != 0)
        return usual;
    return work == 0 ? HAYRO_JBIG2_NO_WORK_LIMIT : work;
}

uint32_t limit_room(hayro_jbig2_context *room, const hayro_jbig2_page_info *info) {
    uint64_t least = least_work(), work = for_a_pixel * info->width * info->height;
    return hayro_jbig2_context_set_work_limit(room, work < least ? least : work);
}
