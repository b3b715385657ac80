/* Files that appear whole or not at all. */
#ifndef HAYRO_TOOL_OUTPUT_H
#define HAYRO_TOOL_OUTPUT_H

#include "input.h"
#include "picture.h"

struct output {
    const char *name; /* NULL: standard output */
    enum format format;
    bool is_forced; /* another file may be replaced */
    FILE *file;
    char *target;          /* the name that the file gets at the end */
    const char *temporary; /* the name that it has meanwhile, or NULL where it is written at once */
    struct tiff_file *tiff;
    FILE *tiff_bytes; /* TIFF is written here first where the output has no places */
};

/* Whether a file of this name is there and would be overwritten. What is no file, as a device or a folder, never is. */
bool is_overwritten(const char *name);

/* Each returns false with a reason, "page.png: No space left on device", and then the output is to be abandoned. */
bool open_output(struct output *output, const char *name, enum format format, bool is_forced, struct text *reason);
bool add_picture(struct output *output, const struct picture *picture, struct text *reason);
bool add_stream(struct output *output, const struct bytes *stream, struct text *reason);
/* Adds what errno says, and returns false. */
bool fail_by_system(const struct output *output, struct text *reason);
/* Gives the file its name. The output is closed in any case. */
bool finish_output(struct output *output, struct text *reason);
void abandon_output(struct output *output);

#endif
