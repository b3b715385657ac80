#include "platform.h"

#include "file_names.h"

#include <errno.h>
#include <search.h>
#include <stdlib.h>
#include <string.h>
#include <sys/stat.h>

static bool is_folder(const char *name) {
    struct stat found;
    size_t length = strlen(name);
    return (length > 0 && name[length - 1] == '/') || (stat(name, &found) == 0 && S_ISDIR(found.st_mode));
}

bool has_single_output(const struct words *words, const char **name) {
    bool is_standard = words->output != NULL && strcmp(words->output, "-") == 0;
    bool is_single = is_standard || (words->output != NULL && !is_folder(words->output));
    *name = is_single && !is_standard ? words->output : NULL;
    return is_single;
}

bool make_folder(const struct words *words, struct text *reason) {
    const char *name = words->output;
    if (name == NULL || name[strlen(name) - 1] != '/' || mkdir(name, 0777) == 0 || errno == EEXIST)
        return true;
    add_text(reason, "%s: the folder can't be made: %s\n", name, strerror(errno));
    return false;
}

static int digits_of(size_t number) {
    int digits = 1;
    while (number >= 10) {
        number /= 10;
        digits++;
    }
    return digits;
}

/* The last part of an input's name without its ending. */
static void add_stem(struct text *text, const char *input) {
    const char *name = is_standard_input(input) ? "stdin" : input;
    const char *slash = strrchr(name, '/'), *base = slash != NULL ? slash + 1 : name, *dot = strrchr(base, '.');
    add_bytes(text, base, dot != NULL && dot > base ? (size_t)(dot - base) : strlen(base));
}

/* The folder that -o names, and the input's stem. */
static struct text beginning_of_name(const struct words *words, const char *input) {
    const char *folder = words->output;
    struct text name = {NULL, 0, 0};
    if (folder != NULL)
        add_bytes(&name, folder, strlen(folder));
    if (folder != NULL && folder[strlen(folder) - 1] != '/')
        add_text(&name, "/");
    add_stem(&name, input);
    return name;
}

char *file_name_of_picture(const struct words *words, const char *input, size_t number, size_t all) {
    struct text name = beginning_of_name(words, input);
    if (all > 1)
        add_text(&name, "-%0*zu", digits_of(all), number);
    add_text(&name, ".%s", name_of_format(words->format));
    return name.at;
}

char *file_name_of_page(const struct words *words, const struct document *document, size_t index) {
    const struct image *image = &document->images[index];
    struct text name = beginning_of_name(words, document->word);
    if (document->count > 1)
        add_text(&name, "-%0*zu", digits_of(document->pages), image->page);
    if (image->all > 1)
        add_text(&name, "-%0*zu", digits_of(image->all), image->nth);
    add_text(&name, ".%s", name_of_format(words->format));
    return name.at;
}

static int compare(const void *one, const void *other) { return strcmp(one, other); }

bool add_name(struct names *names, char *name) {
    char **found = tsearch(name, &names->tree, compare);
    if (found == NULL)
        end_without_memory();
    if (*found == name)
        return true;
    free(name);
    return false;
}

void free_names(struct names *names) {
    while (names->tree != NULL) {
        char *name = *(char **)names->tree;
        tdelete(name, &names->tree, compare);
        free(name);
    }
}
