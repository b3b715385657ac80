/* The words of the command line. */
#ifndef HAYRO_TOOL_WORDS_H
#define HAYRO_TOOL_WORDS_H

#include "document.h"
#include "picture.h"

struct range {
    size_t first, last; /* from 1 */
};

enum command { DRAW, INFO, WRITE };

struct words {
    enum command command;
    bool is_json;
    char **inputs;
    size_t input_count;
    const char *globals, *password;
    const char *output; /* NULL where there is none, "-" for standard output */
    bool has_format;
    enum format format;
    struct range *ranges;
    size_t range_count;
    bool is_forced, is_quiet;
    struct reading reading;
    hayro_jbig2_write_settings writing;
    uint32_t resolution; /* of what is written, in pixels for each metre; 0 where each picture's is taken */
    unsigned jobs;
    bool is_embedded; /* what is written */
    uint64_t given;   /* which options were given, by their places in the list */
};

/* What is to be done after the words were read. */
enum request { GO_ON, STOP_WELL, STOP_WRONG };

/* Reads them. Prints what --help and --version ask for, or what is wrong. */
enum request read_words(struct words *words, int count, char **all);
void free_words(struct words *words);

bool is_wanted(const struct words *words, size_t page);

#endif
