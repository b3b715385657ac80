/* Linked in between the command and the library (-Wl,--wrap): counts how often globals are decoded and embedded pages
 * read, and says so at the end. It stops the program where a call gets a null pointer in place of bytes, which the
 * library doesn't take, or a limit of work above that of the largest page, and where a file is closed to others only after
 * they could open it. Where NO_WORDS is set, the program begins without any word, not even its name: older kernels let
 * a caller do so. Where PDF_BEGINS is set, a PDF file has as many bytes before its first page that aren't written. */
#define _POSIX_C_SOURCE 200809L

#include "../pdf_writer.h"
#include "hayro_jbig2.h"

#include <pthread.h>
#include <stdio.h>
#include <stdlib.h>
#include <sys/stat.h>

#define MOST_WORK (UINT64_C(100) * 65535 * 65535)

static pthread_mutex_t lock = PTHREAD_MUTEX_INITIALIZER;
static unsigned long globals_count, pages_count;

static void add_one(unsigned long *count) {
    pthread_mutex_lock(&lock);
    ++*count;
    pthread_mutex_unlock(&lock);
}

uint32_t __real_hayro_jbig2_globals_new_within(const hayro_jbig2_memory *memory, bool strict, uint64_t work,
                                               const uint8_t *bytes, size_t length, hayro_jbig2_globals **globals);
uint32_t __wrap_hayro_jbig2_globals_new_within(const hayro_jbig2_memory *memory, bool strict, uint64_t work,
                                               const uint8_t *bytes, size_t length, hayro_jbig2_globals **globals);
uint32_t __real_hayro_jbig2_page_new(const hayro_jbig2_memory *memory, bool strict, hayro_jbig2_globals *globals,
                                     const uint8_t *stream, size_t stream_length, hayro_jbig2_page **page);
uint32_t __wrap_hayro_jbig2_page_new(const hayro_jbig2_memory *memory, bool strict, hayro_jbig2_globals *globals,
                                     const uint8_t *stream, size_t stream_length, hayro_jbig2_page **page);

uint32_t __wrap_hayro_jbig2_globals_new_within(const hayro_jbig2_memory *memory, bool strict, uint64_t work,
                                               const uint8_t *bytes, size_t length, hayro_jbig2_globals **globals) {
    if (bytes == NULL || (work > MOST_WORK && work != HAYRO_JBIG2_NO_WORK_LIMIT))
        abort();
    add_one(&globals_count);
    return __real_hayro_jbig2_globals_new_within(memory, strict, work, bytes, length, globals);
}

uint32_t __wrap_hayro_jbig2_page_new(const hayro_jbig2_memory *memory, bool strict, hayro_jbig2_globals *globals,
                                     const uint8_t *stream, size_t stream_length, hayro_jbig2_page **page) {
    if (stream == NULL)
        abort();
    add_one(&pages_count);
    return __real_hayro_jbig2_page_new(memory, strict, globals, stream, stream_length, page);
}

int __real_fchmod(int descriptor, mode_t mode);
int __wrap_fchmod(int descriptor, mode_t mode);

int __wrap_fchmod(int descriptor, mode_t mode) {
    struct stat before;
    if (fstat(descriptor, &before) == 0 && before.st_mode & 077 & ~mode)
        abort();
    return __real_fchmod(descriptor, mode);
}

int __real_main(int count, char **all);
int __wrap_main(int count, char **all);

int __wrap_main(int count, char **all) {
    return getenv("NO_WORDS") != NULL ? __real_main(0, all + count) : __real_main(count, all);
}

static void tell(void) { fprintf(stderr, "decoded globals: %lu, read pages: %lu\n", globals_count, pages_count); }

__attribute__((constructor)) static void begin(void) { atexit(tell); }

bool __real_begin_pdf(struct pdf_writer *pdf);
bool __wrap_begin_pdf(struct pdf_writer *pdf);

bool __wrap_begin_pdf(struct pdf_writer *pdf) {
    const char *length = getenv("PDF_BEGINS");
    bool is_begun = __real_begin_pdf(pdf);
    pdf->length += length != NULL ? strtoull(length, NULL, 10) : 0;
    return is_begun;
}
