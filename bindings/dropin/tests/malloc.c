/* Counts what the whole process takes from the C library's heap: a program's malloc comes before that of libc. The
 * program is linked without this file for Valgrind, which has a malloc of its own. */
#include <stddef.h>

void *__libc_malloc(size_t size);
void *malloc(size_t size);

unsigned long mallocs;

void *malloc(size_t size) {
    __atomic_fetch_add(&mallocs, 1, __ATOMIC_RELAXED);
    return __libc_malloc(size);
}
