#include "platform.h"

#include "picture.h"

#ifdef HAVE_TIFF

#include <errno.h>
#include <pthread.h>
#include <stdlib.h>
#include <string.h>
#include <tiffio.h>
#include <unistd.h>

struct tiff_file {
    TIFF *tiff;
};

/* "LIBTIFF, Version 4.5.0" and lines of copyright. */
const char *tiff_library_version(void) {
    static char version[32];
    const char *text = strstr(TIFFGetVersion(), "Version ");
    text = text != NULL ? text + strlen("Version ") : "";
    size_t length = strcspn(text, " \n");
    snprintf(version, sizeof version, "%.*s", (int)length, text);
    return version;
}

/* Calls return errors, and errno says why. */
static void silence(void) {
    TIFFSetErrorHandler(NULL);
    TIFFSetWarningHandler(NULL);
}

static pthread_once_t once = PTHREAD_ONCE_INIT;

struct tiff_file *open_tiff(int descriptor) {
    pthread_once(&once, silence);
    int copy = dup(descriptor);
    TIFF *tiff = copy >= 0 ? TIFFFdOpen(copy, "page.tiff", "w") : NULL;
    if (tiff == NULL) {
        int error = errno;
        if (copy >= 0)
            close(copy);
        errno = error;
        return NULL;
    }
    struct tiff_file *file = room_for(sizeof *file);
    file->tiff = tiff;
    return file;
}

static void set_fields(TIFF *tiff, const struct picture *picture) {
    TIFFSetField(tiff, TIFFTAG_IMAGEWIDTH, picture->width);
    TIFFSetField(tiff, TIFFTAG_IMAGELENGTH, picture->height);
    TIFFSetField(tiff, TIFFTAG_BITSPERSAMPLE, 1);
    TIFFSetField(tiff, TIFFTAG_SAMPLESPERPIXEL, 1);
    TIFFSetField(tiff, TIFFTAG_ROWSPERSTRIP, picture->height);
    TIFFSetField(tiff, TIFFTAG_COMPRESSION, COMPRESSION_CCITTFAX4);
    TIFFSetField(tiff, TIFFTAG_PHOTOMETRIC, PHOTOMETRIC_MINISWHITE);
    TIFFSetField(tiff, TIFFTAG_FILLORDER, FILLORDER_MSB2LSB);
    TIFFSetField(tiff, TIFFTAG_PLANARCONFIG, PLANARCONFIG_CONTIG);
    if (picture->x_resolution == 0 || picture->y_resolution == 0)
        return;
    TIFFSetField(tiff, TIFFTAG_RESOLUTIONUNIT, RESUNIT_CENTIMETER);
    TIFFSetField(tiff, TIFFTAG_XRESOLUTION, picture->x_resolution / 100.0);
    TIFFSetField(tiff, TIFFTAG_YRESOLUTION, picture->y_resolution / 100.0);
}

static bool code_rows(TIFF *tiff, const struct picture *picture) {
    uint32_t at_once = rows_at_once(picture);
    uint8_t *rows = room_for(at_once * row_size(picture));
    bool is_written = true;
    for (uint32_t y = 0; y < picture->height && is_written; y += at_once) {
        uint32_t count = picture->height - y < at_once ? picture->height - y : at_once;
        is_written = read_rows(picture, y, count, rows);
        for (uint32_t i = 0; i < count && is_written; i++)
            is_written = TIFFWriteScanline(tiff, rows + i * row_size(picture), y + i, 0) == 1;
    }
    free(rows);
    return is_written;
}

/* A TIFF file in memory, of which the coded rows are taken. */
struct memory {
    uint8_t *at;
    size_t length, room, place;
};

static tmsize_t read_memory(thandle_t handle, void *bytes, tmsize_t size) {
    struct memory *memory = handle;
    size_t left = memory->place < memory->length ? memory->length - memory->place : 0;
    size_t count = (size_t)size < left ? (size_t)size : left;
    if (count > 0)
        memcpy(bytes, memory->at + memory->place, count);
    memory->place += count;
    return (tmsize_t)count;
}

static tmsize_t write_memory(thandle_t handle, void *bytes, tmsize_t size) {
    struct memory *memory = handle;
    size_t end = memory->place + (size_t)size;
    if (end > memory->room) {
        memory->room = 2 * end;
        memory->at = larger_room(memory->at, memory->room);
    }
    if (memory->place > memory->length)
        memset(memory->at + memory->length, 0, memory->place - memory->length);
    memcpy(memory->at + memory->place, bytes, (size_t)size);
    memory->place = end;
    memory->length = end > memory->length ? end : memory->length;
    return size;
}

static toff_t seek_memory(thandle_t handle, toff_t place, int from) {
    struct memory *memory = handle;
    size_t start = from == SEEK_CUR ? memory->place : from == SEEK_END ? memory->length : 0;
    return memory->place = start + (size_t)place;
}

static int close_memory(thandle_t handle) {
    (void)handle;
    return 0;
}

static toff_t size_of_memory(thandle_t handle) { return ((const struct memory *)handle)->length; }

bool code_for_tiff(struct picture *picture) {
    struct memory memory = {NULL, 0, 0, 0};
    uint64_t *places = NULL, *sizes = NULL;
    pthread_once(&once, silence);
    TIFF *tiff = TIFFClientOpen("page.tiff", "wm", &memory, read_memory, write_memory, seek_memory, close_memory,
                                size_of_memory, NULL, NULL);
    if (tiff == NULL) {
        free(memory.at);
        return false;
    }
    set_fields(tiff, picture);
    bool is_coded = code_rows(tiff, picture) && TIFFFlushData(tiff) == 1 &&
                    TIFFGetField(tiff, TIFFTAG_STRIPOFFSETS, &places) == 1 &&
                    TIFFGetField(tiff, TIFFTAG_STRIPBYTECOUNTS, &sizes) == 1 && places[0] <= memory.length &&
                    sizes[0] <= memory.length - places[0];
    if (is_coded) {
        picture->ready_size = sizes[0];
        picture->ready = room_for(picture->ready_size);
        memcpy(picture->ready, memory.at + places[0], picture->ready_size);
    }
    TIFFClose(tiff);
    free(memory.at);
    return is_coded;
}

bool add_tiff_page(struct tiff_file *file, const struct picture *picture, struct text *reason) {
    tmsize_t size = (tmsize_t)picture->ready_size;
    set_fields(file->tiff, picture);
    bool is_written = picture->ready != NULL ? TIFFWriteRawStrip(file->tiff, 0, picture->ready, size) == size
                                             : code_rows(file->tiff, picture);
    is_written = is_written && TIFFWriteDirectory(file->tiff) == 1;
    if (!is_written && errno == 0)
        add_text(reason, "libtiff refuses it, perhaps since a TIFF file holds 4 GiB at most");
    return is_written;
}

void close_tiff(struct tiff_file *file) {
    TIFFClose(file->tiff);
    free(file);
}

#else

const char *tiff_library_version(void) { return NULL; }

struct tiff_file *open_tiff(int descriptor) {
    (void)descriptor;
    return NULL;
}

bool code_for_tiff(struct picture *picture) {
    (void)picture;
    return false;
}

bool add_tiff_page(struct tiff_file *file, const struct picture *picture, struct text *reason) {
    (void)file, (void)picture;
    add_missing_package(reason, FORMAT_TIFF);
    return false;
}

void close_tiff(struct tiff_file *file) { (void)file; }

#endif
