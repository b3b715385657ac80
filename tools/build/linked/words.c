/* What a program asks of its surroundings: the words that it was started with, and errno. */
#include <errno.h>
#include <stddef.h>
#include <stdint.h>
#include <string.h>

/* The text calls functions that only glibc has, some since 2.33. Another C library hands no words to what is below. */
#if __GLIBC__ * 1000 + __GLIBC_MINOR__ < 2033
#error "this program needs the GNU C library (glibc) 2.33 or later, and this is another C library or an older one"
#endif

#include "processor.h"

static int word_count;
static char **words;

/* glibc hands the words to each function of this list, before main. */
static void keep_words(int count, char **given) {
    word_count = count;
    words = given;
}

__attribute__((section(".init_array"), used)) static void (*const keeps_words)(int, char **) = keep_words;

intptr_t rattle_arg(size_t index, uint8_t *buffer, size_t size);
int32_t rattle_errno(void);
void rattle_set_errno(int32_t error);

/* Copies a word without its end, and returns its length: -1 where there is no such word, -2 where the buffer is too
 * small, which is then full. */
intptr_t rattle_arg(size_t index, uint8_t *buffer, size_t size) {
    if (index >= (size_t)word_count || words[index] == NULL)
        return -1;
    size_t length = strlen(words[index]);
    memcpy(buffer, words[index], length < size ? length : size);
    return length <= size ? (intptr_t)length : -2;
}

int32_t rattle_errno(void) { return errno; }

void rattle_set_errno(int32_t error) { errno = error; }
