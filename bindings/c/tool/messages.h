/* What the program says on standard error, and the status that it ends with. */
#ifndef HAYRO_TOOL_MESSAGES_H
#define HAYRO_TOOL_MESSAGES_H

#include <stdbool.h>
#include <stddef.h>

#define PROGRAM "hayro-jbig2"

#ifdef __GNUC__
#define LIKE_PRINTF(place, first) __attribute__((format(printf, place, first)))
#else
#define LIKE_PRINTF(place, first)
#endif

enum status { ALL_WHOLE = 0, NOT_DONE = 1, WRONG_WORDS = 2, INCOMPLETE = 3, OVER_LIMIT = 4 };

/* The status of two things together: what wasn't done comes first, then what a limit refused, then what is incomplete.
 */
enum status worse_of(enum status one, enum status other);

/* A text that grows. It begins as {NULL, 0, 0}. */
struct text {
    char *at;
    size_t length, room;
};

/* Of what is added, a line ends at the end of the format alone. */
void add_text(struct text *text, const char *format, ...) LIKE_PRINTF(2, 3);
/* The bytes as they are. */
void add_bytes(struct text *text, const char *bytes, size_t length);
void free_text(struct text *text);

/* Memory for the program itself. Where there is none, the program ends with a message and NOT_DONE. */
void *room_for(size_t size);
void *larger_room(void *block, size_t size);
void end_without_memory(void);

/* Whether a terminal may obey the byte at `at`, of a text from `start` on: a control character of ASCII, or the second
 * byte of one from U+0080 to U+009F. */
bool is_control(const char *start, const char *at);
/* A text of whole lines on standard error, after the progress line was taken away. */
void print_messages(const struct text *text);
/* A line of its own that the next call replaces. Only a terminal shows it. */
void print_progress(size_t done, size_t all);
/* Whether standard error is a terminal. */
bool has_progress(void);
/* A line on standard error, "hayro-jbig2: ..". */
void complain(const char *format, ...) LIKE_PRINTF(1, 2);

#endif
