#include "platform.h"

#include "input.h"

#include "messages.h"
#include "segments.h"

#include <errno.h>
#include <stdio.h>
#include <stdlib.h>
#include <string.h>

bool is_standard_input(const char *word) { return strcmp(word, "-") == 0; }

const char *shown_name(const char *word) { return is_standard_input(word) ? "standard input" : word; }

bool read_input(const char *word, struct bytes *bytes) {
    bool is_standard = is_standard_input(word);
    FILE *file = is_standard ? stdin : fopen(word, "rb");
    *bytes = (struct bytes){NULL, 0};
    if (file == NULL)
        return false;
    size_t room = 1 << 16, count;
    bytes->at = room_for(room);
    while ((count = fread(bytes->at + bytes->length, 1, room - bytes->length, file)) > 0) {
        bytes->length += count;
        if (bytes->length == room)
            bytes->at = larger_room(bytes->at, room *= 2);
    }
    int error = ferror(file) ? errno : 0;
    if (!is_standard)
        fclose(file);
    errno = error;
    if (error != 0)
        free_bytes(bytes);
    return error == 0;
}

void free_bytes(struct bytes *bytes) {
    free(bytes->at);
    *bytes = (struct bytes){NULL, 0};
}

static bool begins_with(const struct bytes *bytes, const char *beginning, size_t length) {
    return bytes->length >= length && memcmp(bytes->at, beginning, length) == 0;
}

/* PDF readers take a header within the first 1024 bytes. */
static bool is_pdf(const struct bytes *bytes) {
    for (size_t i = 0; i + 5 <= bytes->length && i < 1024; i++)
        if (memcmp(bytes->at + i, "%PDF-", 5) == 0)
            return true;
    return false;
}

/* Whether a list of segments starts as one does. */
static bool is_started(const struct segment_list *list) { return list->count > 0 && is_known_type(list->at[0].type); }

/* Globals have dictionaries, tables and extensions alone. */
static enum kind kind_of_segments(const struct bytes *bytes) {
    struct segment_list list;
    list_segments(&list, bytes->at, bytes->length, 0, false);
    bool is_one = is_started(&list);
    bool has_page = list.known == KNOWS_HEADER && list.last.type == PAGE_INFORMATION;
    bool has_others = false;
    for (size_t i = 0; i < list.count; i++) {
        unsigned type = list.at[i].type;
        has_page = has_page || type == PAGE_INFORMATION;
        has_others = has_others || is_region(type) || type == END_OF_PAGE;
    }
    free_segments(&list);
    if (has_page)
        return KIND_EMBEDDED;
    return !is_one || has_others ? KIND_UNKNOWN : KIND_GLOBALS;
}

/* Whether there are no control characters, and most are those of ASCII. */
static bool is_text(const struct bytes *bytes) {
    size_t count = bytes->length < 512 ? bytes->length : 512, others = 0;
    for (size_t i = 0; i < count; i++) {
        if (bytes->at[i] < ' ' && memchr("\t\n\f\r\33", bytes->at[i], 5) == NULL)
            return false;
        others += bytes->at[i] >= 127;
    }
    return others <= count / 4;
}

/* A BMP picture, which may look like globals: numbers that are 0, and the size of the second header, which is small. */
static bool is_bmp(const struct bytes *bytes) {
    return begins_with(bytes, "BM", 2) && bytes->length >= 18 && memcmp(bytes->at + 6, "\0\0\0\0", 4) == 0 &&
           memcmp(bytes->at + 15, "\0\0\0", 3) == 0;
}

/* The name of another format by its first bytes, or NULL. */
static const char *name_of_other_format(const struct bytes *bytes) {
    static const struct {
        const char *beginning;
        size_t length;
        const char *name;
    } names[] = {
        {"\x97JB2", 4, "a JBIG2 file whose header is damaged, perhaps by a transfer as text"},
        {"\x89PNG", 4, "a PNG picture"},
        {"\xFF\xD8\xFF", 3, "a JPEG picture"},
        {"II*\0", 4, "a TIFF picture"},
        {"MM\0*", 4, "a TIFF picture"},
        {"II+\0", 4, "a BigTIFF picture"},
        {"MM\0+", 4, "a BigTIFF picture"},
        {"GIF8", 4, "a GIF picture"},
        {"AT&TFORM", 8, "a DjVu file"},
        {"PK\3\4", 4, "a ZIP archive"},
        {"\x1F\x8B", 2, "a file that gzip packed"},
        {"%!PS", 4, "a PostScript file"},
        {"P4", 2, "a PBM picture"},
        {"P5", 2, "a PGM picture"},
        {"P6", 2, "a PPM picture"},
        {"\0\0\0\x0CjP", 6, "a JPEG 2000 picture"},
    };
    if (bytes->length == 0)
        return "an empty file";
    if (is_bmp(bytes))
        return "a BMP picture";
    for (size_t i = 0; i < sizeof names / sizeof *names; i++)
        if (begins_with(bytes, names[i].beginning, names[i].length))
            return names[i].name;
    return NULL;
}

enum kind kind_of(const struct bytes *bytes) {
    if (has_file_header(bytes->at, bytes->length))
        return KIND_FILE;
    if (is_pdf(bytes))
        return KIND_PDF;
    return name_of_other_format(bytes) != NULL ? KIND_UNKNOWN : kind_of_segments(bytes);
}

const char *look_of(const struct bytes *bytes) {
    const char *name = name_of_other_format(bytes);
    struct segment_list list;
    if (name != NULL)
        return name;
    list_segments(&list, bytes->at, bytes->length, 0, false);
    bool has_segments = is_started(&list);
    free_segments(&list);
    if (has_segments)
        return "segments of JBIG2 without a page information";
    return is_text(bytes) ? "text" : NULL;
}

const char *name_of_kind(enum kind kind, const struct bytes *bytes) {
    const char *look;
    switch (kind) {
    case KIND_FILE:
        return "a JBIG2 file";
    case KIND_PDF:
        return "a PDF file";
    case KIND_EMBEDDED:
        return "an embedded page";
    case KIND_GLOBALS:
        return "globals";
    default:
        look = look_of(bytes);
        return look != NULL ? look : "no segment of JBIG2 at its start";
    }
}
