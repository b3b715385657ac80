#include "platform.h"

#include "pdf_writer.h"

#include <errno.h>
#include <inttypes.h>
#include <stdarg.h>
#include <stdlib.h>
#include <string.h>

/* Objects 1 and 2 are the catalog and the tree of pages. Then each page has three. */
enum { CATALOG = 1, TREE, FIRST_PAGE, EACH_PAGE = 3 };

/* The table of objects has ten digits for each place. */
#define LAST_PLACE UINT64_C(9999999999)

LIKE_PRINTF(2, 3) static bool put(struct pdf_writer *pdf, const char *format, ...) {
    va_list arguments;
    va_start(arguments, format);
    int length = vfprintf(pdf->file, format, arguments);
    va_end(arguments);
    pdf->length += length > 0 ? (uint64_t)length : 0;
    return length >= 0;
}

static bool put_bytes(struct pdf_writer *pdf, const struct bytes *bytes) {
    pdf->length += bytes->length;
    return fwrite(bytes->at, 1, bytes->length, pdf->file) == bytes->length;
}

/* The next object, whose number is returned, begins here. */
static size_t begin_object(struct pdf_writer *pdf) {
    pdf->places = larger_room(pdf->places, (pdf->count + 1) * sizeof *pdf->places);
    pdf->places[pdf->count] = pdf->length;
    return FIRST_PAGE + pdf->count++;
}

/* A length in points, 1/72 inch, as a decimal fraction that is above 0: readers take no page without a size. */
struct points {
    char text[32];
};

static struct points points_of(uint32_t pixels, uint32_t resolution) {
    struct points points;
    uint64_t divisor = resolution > 0 ? (uint64_t)resolution * 254 : (uint64_t)USUAL_RESOLUTION * 10000;
    uint64_t parts = ((uint64_t)pixels * 7200000000 + divisor / 2) / divisor;
    parts = parts > 0 ? parts : 1;
    snprintf(points.text, sizeof points.text, "%" PRIu64 ".%04" PRIu64, parts / 10000, parts % 10000);
    return points;
}

bool begin_pdf(struct pdf_writer *pdf) { return put(pdf, "%%PDF-1.4\n%%\xE2\xE3\xCF\xD3\n"); }

bool add_pdf_page(struct pdf_writer *pdf, const struct bilevel *image, const struct bytes *stream) {
    /* One resolution alone says nothing of the picture's form. */
    bool is_stated = image->x_resolution > 0 && image->y_resolution > 0;
    struct points width = points_of(image->width, is_stated ? image->x_resolution : 0);
    struct points height = points_of(image->height, is_stated ? image->y_resolution : 0);
    char shown[128];
    int length = snprintf(shown, sizeof shown, "q %s 0 0 %s 0 0 cm /Image Do Q\n", width.text, height.text);
    size_t page = begin_object(pdf);
    bool is_put = put(pdf,
                      "%zu 0 obj\n<< /Type /Page /Parent %d 0 R /MediaBox [0 0 %s %s] /Contents %zu 0 R\n"
                      "/Resources << /XObject << /Image %zu 0 R >> >> >>\nendobj\n",
                      page, TREE, width.text, height.text, page + 1, page + 2);
    begin_object(pdf);
    is_put = is_put && put(pdf, "%zu 0 obj\n<< /Length %d >>\nstream\n%sendstream\nendobj\n", page + 1, length, shown);
    begin_object(pdf);
    is_put =
        is_put && put(pdf,
                      "%zu 0 obj\n<< /Type /XObject /Subtype /Image /Width %" PRIu32 " /Height %" PRIu32
                      "\n/ColorSpace /DeviceGray /BitsPerComponent 1 /Filter /JBIG2Decode /Length %zu >>\nstream\n",
                      page + 2, image->width, image->height, stream->length);
    return is_put && put_bytes(pdf, stream) && put(pdf, "\nendstream\nendobj\n");
}

static bool put_tree(struct pdf_writer *pdf) {
    size_t pages = pdf->count / EACH_PAGE;
    bool is_put = put(pdf, "%d 0 obj\n<< /Type /Pages /Count %zu /Kids [", TREE, pages);
    for (size_t i = 0; i < pages; i++)
        is_put = is_put && put(pdf, "%s%zu 0 R", i % 8 == 0 ? "\n" : " ", FIRST_PAGE + EACH_PAGE * i);
    return is_put && put(pdf, " ] >>\nendobj\n");
}

bool end_pdf(struct pdf_writer *pdf) {
    uint64_t catalog = pdf->length;
    bool is_put = put(pdf, "%d 0 obj\n<< /Type /Catalog /Pages %d 0 R >>\nendobj\n", CATALOG, TREE);
    uint64_t tree = pdf->length;
    if (is_put && tree > LAST_PLACE) {
        errno = EFBIG;
        return false;
    }
    is_put = is_put && put_tree(pdf);
    uint64_t table = pdf->length;
    is_put = is_put && put(pdf, "xref\n0 %zu\n0000000000 65535 f \n", FIRST_PAGE + pdf->count);
    is_put = is_put && put(pdf, "%010" PRIu64 " 00000 n \n%010" PRIu64 " 00000 n \n", catalog, tree);
    for (size_t i = 0; i < pdf->count; i++)
        is_put = is_put && put(pdf, "%010" PRIu64 " 00000 n \n", pdf->places[i]);
    return is_put && put(pdf, "trailer\n<< /Size %zu /Root %d 0 R >>\nstartxref\n%" PRIu64 "\n%%%%EOF\n",
                         FIRST_PAGE + pdf->count, CATALOG, table);
}

void free_pdf(struct pdf_writer *pdf) { free(pdf->places); }
