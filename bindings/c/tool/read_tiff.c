#include "platform.h"

#include "bilevel.h"
#include "picture.h"

#ifdef HAVE_TIFF

#include <stdarg.h>
#include <stdlib.h>
#include <string.h>
#include <tiffio.h>

/* The bytes of a TIFF file, as libtiff reads them. */
struct place {
    const struct bytes *bytes;
    uint64_t at;
    bool has_fault; /* libtiff said something since this was false */
    bool has_guess; /* libtiff takes other bytes for rows than those that the page states */
};

/* Some decoders of libtiff go on after damage, with white pixels or others, and only say so, as an error or as a warning.
 * There is one warning that tells of no damage: LZW as programs wrote it long ago. */
static void note_fault(thandle_t handle, const char *module, const char *format, va_list arguments) {
    struct place *place = handle;
    (void)arguments;
    if (place == NULL)
        return;
    if (module == NULL || strcmp(module, "LZWPreDecode") != 0)
        place->has_fault = true;
    if (strstr(format, "ignoring and calculating from imagelength") != NULL)
        place->has_guess = true;
}

static tmsize_t give_bytes(thandle_t handle, void *room, tmsize_t count) {
    struct place *place = handle;
    size_t left = place->at < place->bytes->length ? place->bytes->length - (size_t)place->at : 0;
    size_t taken = (size_t)count < left ? (size_t)count : left;
    if (taken > 0)
        memcpy(room, place->bytes->at + place->at, taken);
    place->at += taken;
    return (tmsize_t)taken;
}

static tmsize_t take_none(thandle_t handle, void *bytes, tmsize_t count) {
    (void)handle, (void)bytes, (void)count;
    return -1;
}

static toff_t go_to(thandle_t handle, toff_t offset, int from) {
    struct place *place = handle;
    place->at = offset + (from == SEEK_CUR ? place->at : from == SEEK_END ? place->bytes->length : 0);
    return place->at;
}

static int close_nothing(thandle_t handle) {
    (void)handle;
    return 0;
}

static toff_t size_of(thandle_t handle) { return ((struct place *)handle)->bytes->length; }

static uint32_t resolution_of(TIFF *tiff, uint32_t tag) {
    float number = 0;
    uint16_t unit = RESUNIT_INCH;
    TIFFGetFieldDefaulted(tiff, TIFFTAG_RESOLUTIONUNIT, &unit);
    if (!TIFFGetField(tiff, tag, &number) || unit == RESUNIT_NONE)
        return 0;
    double each_metre = (double)number * (unit == RESUNIT_CENTIMETER ? 100 : 1 / 0.0254);
    return each_metre >= 0.5 && each_metre < 4e9 ? (uint32_t)(each_metre + 0.5) : 0;
}

static bool is_fax(uint16_t coding) {
    return coding == COMPRESSION_CCITTRLE || coding == COMPRESSION_CCITTRLEW || coding == COMPRESSION_CCITTFAX3 ||
           coding == COMPRESSION_CCITTFAX4;
}

/* A number of the file, in the order of bytes that the first byte says. 0 where it isn't in the file. */
static uint64_t number_at(const struct bytes *bytes, uint64_t at, unsigned size) {
    uint64_t number = 0;
    if (at > bytes->length || bytes->length - at < size)
        return 0;
    for (unsigned i = 0; i < size; i++)
        number = number << 8 | bytes->at[at + (bytes->at[0] == 'I' ? size - 1 - i : i)];
    return number;
}

/* Whether a page of one strip states as many bytes as its rows have, or more, or 0: old programs wrote it where they didn't
 * know the number. libtiff has put its own number in place of the stated one. */
static bool states_all_rows(TIFF *tiff) {
    const struct bytes *bytes = ((struct place *)TIFFClientdata(tiff))->bytes;
    uint32_t height = 0;
    TIFFGetField(tiff, TIFFTAG_IMAGELENGTH, &height);
    bool is_big = number_at(bytes, 2, 2) == 43;
    unsigned size = is_big ? 8 : 4, first = is_big ? 8 : 2;
    uint64_t at = TIFFCurrentDirOffset(tiff), left = number_at(bytes, at, first);
    for (at += first; left > 0 && at < bytes->length && number_at(bytes, at, 2) != TIFFTAG_STRIPBYTECOUNTS; left--)
        at += 4 + 2 * size;
    int width = TIFFDataWidth((TIFFDataType)number_at(bytes, at + 2, 2));
    if (left == 0 || number_at(bytes, at + 4, size) != 1 || width < 1 || width > (int)size)
        return false;
    uint64_t stated = number_at(bytes, at + 4 + size, (unsigned)width);
    return stated == 0 || stated >= TIFFScanlineSize64(tiff) * height;
}

/* False with a reason where `write` doesn't take a page. */
static bool is_taken(TIFF *tiff, uint16_t depth, uint16_t photometric, struct text *reason) {
    struct place *place = TIFFClientdata(tiff);
    uint16_t samples = 1, orientation = ORIENTATION_TOPLEFT, coding = COMPRESSION_NONE;
    TIFFGetFieldDefaulted(tiff, TIFFTAG_SAMPLESPERPIXEL, &samples);
    TIFFGetFieldDefaulted(tiff, TIFFTAG_ORIENTATION, &orientation);
    TIFFGetFieldDefaulted(tiff, TIFFTAG_COMPRESSION, &coding);
    bool is_gray = photometric == PHOTOMETRIC_MINISBLACK || photometric == PHOTOMETRIC_MINISWHITE;
    /* Programs agree on what 0 is of codes of fax alone, where it is white. */
    if (!TIFFGetField(tiff, TIFFTAG_PHOTOMETRIC, &photometric) && !is_fax(coding))
        add_text(reason, "the picture doesn't say whether 0 is black (PhotometricInterpretation)");
    else if (photometric == PHOTOMETRIC_PALETTE)
        add_text(reason, "the picture has a palette; write takes TIFF without one");
    else if (samples == 2 && is_gray)
        add_not_bilevel(reason, "the picture has transparent pixels");
    else if (samples != 1)
        add_not_bilevel(reason, "the picture has colours");
    else if (!is_gray)
        add_text(reason, "the picture has PhotometricInterpretation %u, which write doesn't take",
                 (unsigned)photometric);
    else if (depth != 1 && depth != 8)
        add_not_bilevel(reason, "its pixels have neither one bit nor eight");
    else if (TIFFIsTiled(tiff))
        add_text(reason, "the picture is in tiles; write takes TIFF in strips alone");
    else if (orientation != ORIENTATION_TOPLEFT)
        add_text(reason, "the picture is turned (Orientation); write takes it upright alone");
    else if (coding == COMPRESSION_JBIG)
        /* libtiff decodes all rows at once, also where it is asked for one. */
        add_text(reason, "the picture is coded by JBIG (Compression %u), which write doesn't take", (unsigned)coding);
    else if (!TIFFIsCODECConfigured(coding))
        add_text(reason, "libtiff doesn't know here how the picture is coded (Compression %u)", (unsigned)coding);
    else if (coding == COMPRESSION_NONE && place->has_guess && !states_all_rows(tiff))
        /* What comes after the rows in the file would be shown as rows. */
        add_text(reason, "the TIFF picture is damaged: it has other rows than it states (StripByteCounts)");
    place->has_guess = false;
    return reason->length == 0;
}

/* A row of bits or bytes, 0 for black unless the page is inverted. */
static bool take_row(struct bilevel *image, uint32_t y, uint8_t *row, uint16_t depth, bool is_inverted) {
    size_t size = bilevel_row_size(image);
    if (depth == 1) {
        for (size_t i = 0; i < size; i++)
            image->rows[y * size + i] = is_inverted ? row[i] : (uint8_t)~row[i];
        return true;
    }
    for (uint32_t x = 0; is_inverted && x < image->width; x++)
        row[x] = (uint8_t)~row[x];
    return pack_row(image, y, row, 1);
}

static bool read_rows_of(TIFF *tiff, struct bilevel *image, uint16_t depth, bool is_inverted, struct text *reason) {
    struct place *place = TIFFClientdata(tiff);
    uint8_t *row = room_for((size_t)TIFFScanlineSize(tiff));
    place->has_fault = false;
    for (uint32_t y = 0; y < image->height && reason->length == 0; y++)
        if (TIFFReadScanline(tiff, row, y, 0) != 1 || place->has_fault)
            add_text(reason, "the TIFF picture is damaged at row %lu", (unsigned long)y);
        else if (!take_row(image, y, row, depth, is_inverted))
            add_not_bilevel(reason, "the picture has shades of gray");
    free(row);
    return reason->length == 0;
}

static bool read_page(TIFF *tiff, struct bilevel *image, struct text *reason) {
    uint16_t depth = 1, photometric = PHOTOMETRIC_MINISWHITE;
    TIFFGetField(tiff, TIFFTAG_IMAGEWIDTH, &image->width);
    TIFFGetField(tiff, TIFFTAG_IMAGELENGTH, &image->height);
    TIFFGetFieldDefaulted(tiff, TIFFTAG_BITSPERSAMPLE, &depth);
    TIFFGetField(tiff, TIFFTAG_PHOTOMETRIC, &photometric);
    image->x_resolution = resolution_of(tiff, TIFFTAG_XRESOLUTION);
    image->y_resolution = resolution_of(tiff, TIFFTAG_YRESOLUTION);
    return is_taken(tiff, depth, photometric, reason) && make_rows(image, reason) &&
           read_rows_of(tiff, image, depth, photometric == PHOTOMETRIC_MINISWHITE, reason);
}

bool read_tiff(const struct bytes *bytes, const struct taker *taker, struct text *reason) {
    struct place place = {bytes, 0, false, false};
    TIFFSetErrorHandler(NULL);
    TIFFSetWarningHandler(NULL);
    TIFFSetErrorHandlerExt(note_fault);
    TIFFSetWarningHandlerExt(note_fault);
    TIFF *tiff =
        TIFFClientOpen("picture.tiff", "rm", &place, give_bytes, take_none, go_to, close_nothing, size_of, NULL, NULL);
    bool is_there = tiff != NULL, is_read = false;
    while (is_there) {
        struct bilevel image = {.width = 0};
        if (!read_page(tiff, &image, reason) || !hand_over(taker, &image, reason)) {
            free(image.rows);
            break;
        }
        is_read = TIFFLastDirectory(tiff) != 0;
        if (is_read)
            break;
        is_there = TIFFReadDirectory(tiff) == 1;
    }
    if (!is_there)
        add_text(reason, "the TIFF file is damaged");
    if (tiff != NULL)
        TIFFClose(tiff);
    return is_read;
}

#else

bool read_tiff(const struct bytes *bytes, const struct taker *taker, struct text *reason) {
    (void)bytes, (void)taker;
    add_missing_package(reason, FORMAT_TIFF);
    return false;
}

#endif
