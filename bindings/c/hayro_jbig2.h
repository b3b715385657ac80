/*
 * A decoder of JBIG2 (ITU-T T.88), the bi-level format of scanned pages: the static library libhayro_jbig2.a.
 *
 * Each call is proved; in the portable C it is only tested. It returns HAYRO_JBIG2_OK and gives what the library's
 * definitions give for these bytes, or it returns the number of their first error, or HAYRO_JBIG2_OUT_OF_MEMORY. After
 * an error, all that the call could have written is as it was. Only a call that draws changes its context all the same
 * (hayro_jbig2_page_draw). No call reads or writes anything outside of what it is handed, and each call returns.
 *
 * Some are a few lines of C over proved calls, which are tested: hayro_jbig2_page_new, hayro_jbig2_page_new_salvaged,
 * hayro_jbig2_file_get_infos and those that free a handle. hayro_jbig2_version and hayro_jbig2_error_text are C alone.
 *
 * The calls on bytes take memory by malloc and give it back by free before they return. They store nothing, so several
 * threads may call at once. The calls on handles store what they make until it is freed; they come last here.
 *
 * What is proved holds for callers that keep to these rules. Nothing checks them:
 *
 * - Each pointer points to as many bytes, or to the one number, that the call says, and none is null but where it says
 *   so, or beside a length of 0: that is an empty input, as the data() of an empty std::vector. (The contracts ask for a
 *   pointer there too. So null beside 0 is tested, by tests/empty_calls.c, and not proved.)
 * - What a call writes overlaps nothing else that it is handed. While it runs, nobody else reads or writes that, and
 *   nobody writes what it reads.
 * - A bool is 0 or 1, as stdbool.h's are.
 * - No call from a signal handler, nor in the forked child of a process that had threads.
 *
 * A small file can ask for gigabytes and hours. Set a limit of work for files from strangers (below, and docs/USING.md,
 * "Files that take long"), or decode them in a process of its own with limits of time and memory.
 *
 * Common to all calls:
 *
 * - strict: false is lenient reading, which passes over what a decoder may pass over; true returns the first fault. A third
 *   way to read damaged files, salvage, has calls of its own, on handles (below).
 * - file: the bytes of a whole JBIG2 file. index: one of its pages, from 0. A file is read anew in each call.
 * - stream: a page as a PDF file keeps it, the bytes of a /JBIG2Decode stream. globals: those of its /JBIG2Globals, or
 *   length 0 where it has none.
 * - image: a byte for each pixel, width * height of them, rows from the top: 0 is black and 255 white.
 * - rows: a bit for each pixel, 1 is black, the leftmost the highest of its byte; (width + 7) / 8 bytes a row, whose
 *   last bits are 0 past the width; rows from the top, (width + 7) / 8 * height bytes. That is the form of PBM.
 * - No width and no height is above 65535, so with a size_t of 64 bits these products fit.
 */
#ifndef HAYRO_JBIG2_H
#define HAYRO_JBIG2_H

#include <stdbool.h>
#include <stddef.h>
#include <stdint.h>

#ifdef __cplusplus
extern "C" {
#endif

/* The version that this header declares. */
#define HAYRO_JBIG2_VERSION_MAJOR 0
#define HAYRO_JBIG2_VERSION_MINOR 4
#define HAYRO_JBIG2_VERSION_PATCH 0
#define HAYRO_JBIG2_VERSION "0.4.0"

/* The version of the library that is linked, as HAYRO_JBIG2_VERSION. Never null and never to be freed. */
const char *hayro_jbig2_version(void);

/* What a call returns. docs/FORMAT.md says which rule the bytes break for each error. */
enum hayro_jbig2_answer {
    HAYRO_JBIG2_OK = 0,

    HAYRO_JBIG2_PARSE_UNEXPECTED_EOF = 1,

    HAYRO_JBIG2_FORMAT_INVALID_HEADER = 2,
    HAYRO_JBIG2_FORMAT_RESERVED_BITS = 3,
    HAYRO_JBIG2_FORMAT_MISSING_PAGE_INFO = 4,
    HAYRO_JBIG2_FORMAT_UNKNOWN_PAGE_HEIGHT = 5,
    HAYRO_JBIG2_FORMAT_EMPTY_PAGE = 6,
    HAYRO_JBIG2_FORMAT_PAGE_COUNT_MISMATCH = 7,
    HAYRO_JBIG2_FORMAT_INVALID_END_OF_PAGE = 8,

    HAYRO_JBIG2_SEGMENT_UNKNOWN_TYPE = 9,
    HAYRO_JBIG2_SEGMENT_INVALID_REFERRED_COUNT = 10,
    HAYRO_JBIG2_SEGMENT_INVALID_REFERENCE = 11,
    HAYRO_JBIG2_SEGMENT_INVALID_UNKNOWN_LENGTH = 12,
    HAYRO_JBIG2_SEGMENT_MISSING_END_MARKER = 13,
    HAYRO_JBIG2_SEGMENT_MISSING_PATTERN_DICTIONARY = 14,
    HAYRO_JBIG2_SEGMENT_MISSING_PAGE_ASSOCIATION = 15,

    HAYRO_JBIG2_HUFFMAN_INVALID_CODE = 16,
    HAYRO_JBIG2_HUFFMAN_INVALID_SELECTION = 17,
    HAYRO_JBIG2_HUFFMAN_MISSING_TABLES = 18,
    HAYRO_JBIG2_HUFFMAN_UNEXPECTED_OOB = 19,
    HAYRO_JBIG2_HUFFMAN_CONFLICTING_CODES = 20, /* never returned */

    HAYRO_JBIG2_REGION_INVALID_COMBINATION_OPERATOR = 21,
    HAYRO_JBIG2_REGION_INVALID_DIMENSION = 22,
    HAYRO_JBIG2_REGION_INVALID_MMR_DATA = 23,
    HAYRO_JBIG2_REGION_GRAY_SCALE_OUT_OF_RANGE = 24,

    HAYRO_JBIG2_TEMPLATE_INVALID = 25, /* never returned */
    HAYRO_JBIG2_TEMPLATE_INVALID_AT_PIXEL = 26,

    HAYRO_JBIG2_SYMBOL_NO_SYMBOLS = 27,
    HAYRO_JBIG2_SYMBOL_TOO_MANY_SYMBOLS = 28,
    HAYRO_JBIG2_SYMBOL_OUT_OF_RANGE = 29,
    HAYRO_JBIG2_SYMBOL_UNEXPECTED_OOB = 30,
    HAYRO_JBIG2_SYMBOL_INVALID = 31,
    HAYRO_JBIG2_SYMBOL_INVALID_STRIP_DELTA = 32,
    HAYRO_JBIG2_SYMBOL_TOO_MANY_INSTANCES = 33,

    HAYRO_JBIG2_OVERFLOW_BITMAP_DIMENSION = 34,
    HAYRO_JBIG2_OVERFLOW_GRID_DIMENSION = 35,
    HAYRO_JBIG2_OVERFLOW_PLACEMENT_COORDINATE = 36,
    HAYRO_JBIG2_OVERFLOW_REFERENCE_OFFSET = 37,
    HAYRO_JBIG2_OVERFLOW_INDEX = 38, /* never returned */
    HAYRO_JBIG2_OVERFLOW_SYMBOL_COUNT = 39,

    HAYRO_JBIG2_UNSUPPORTED = 40,
    HAYRO_JBIG2_OUT_OF_MEMORY = 41,

    /* The buffer hasn't the page's size. Returned before anything of the page is decoded. */
    HAYRO_JBIG2_OTHER_SIZE = 100,
    /* The file has no page at this index. */
    HAYRO_JBIG2_NO_SUCH_PAGE = 101,
    /* A handle holds something of another kind than the call wants. */
    HAYRO_JBIG2_OTHER_HANDLE = 102,
    /* No unit of the limit of work is left, so what needs more was refused. */
    HAYRO_JBIG2_WORK_LIMIT = 103,
    /* A width or a height of 0 or above 65535, which no page that is written has. */
    HAYRO_JBIG2_INVALID_SIDES = 104,
    /* No template has this number. */
    HAYRO_JBIG2_NO_SUCH_TEMPLATE = 105
};

/* How many pages a file has. */
uint32_t hayro_jbig2_page_count(bool strict, const uint8_t *file, size_t file_length, size_t *count);

/* The size of a page of a file, in pixels. The page itself is not decoded. */
uint32_t hayro_jbig2_page_size(bool strict, const uint8_t *file, size_t file_length, size_t index, uint32_t *width,
                               uint32_t *height);

/* Writes a page of a file, a byte for each pixel. */
uint32_t hayro_jbig2_page_image(bool strict, const uint8_t *file, size_t file_length, size_t index, uint8_t *image,
                                size_t image_length);

/* Writes a page of a file as packed rows. */
uint32_t hayro_jbig2_page_packed(bool strict, const uint8_t *file, size_t file_length, size_t index, uint8_t *rows,
                                 size_t rows_length);

/* The size of an embedded page, in pixels; its globals don't change it. The page itself is not decoded. */
uint32_t hayro_jbig2_embedded_size(bool strict, const uint8_t *stream, size_t stream_length, uint32_t *width,
                                   uint32_t *height);

/* Writes an embedded page, a byte for each pixel. */
uint32_t hayro_jbig2_embedded_image(bool strict, const uint8_t *globals, size_t globals_length, const uint8_t *stream,
                                    size_t stream_length, uint8_t *image, size_t image_length);

/* Writes an embedded page as packed rows. */
uint32_t hayro_jbig2_embedded_packed(bool strict, const uint8_t *globals, size_t globals_length, const uint8_t *stream,
                                     size_t stream_length, uint8_t *rows, size_t rows_length);

/*
 * Handles: what is decoded or read once and used by several calls.
 *
 * A handle is made by a call whose name ends in _new, _new_within, _new_salvaged or _share. The call gets a pointer to a
 * variable that holds NULL, and leaves it so if it fails. The call that frees a handle takes NULL too.
 *
 * - globals: decoded once. All pages that are made with them share them, and so do all handles that hold them. They are
 *   freed with the last of these, so a page needs no handle of them.
 * - page: an embedded page with a copy of its stream, so the stream may be freed at once.
 * - file: a file that is read once. Its bytes must stay as they are until the handle is freed.
 * - context: the memory that drawing uses, for one page after the other. It holds the page that was drawn last. Draw
 *   all pages of a document in one context.
 *
 * What a caller must keep to, besides the rules at the head:
 *
 * - No handle is used after it is freed, and only handles that these calls made are used.
 * - One call at a time uses a handle. Calls on several handles may run at once, in several threads, also where they
 *   share globals: a thread that makes pages has a handle of its own, by hayro_jbig2_globals_share, or a lock.
 * - Memory that a caller lends outlives all that is made with it. Its functions may be called in each thread that uses
 *   what was made with it: globals are freed in the thread that frees the last of their handles and pages.
 * - These functions return: they throw no exception and make no longjmp, and they call the library with no handle that
 *   the call they are made from uses, nor free it. The library's code has no unwind information.
 */
typedef struct hayro_jbig2_globals hayro_jbig2_globals;
typedef struct hayro_jbig2_context hayro_jbig2_context;
typedef struct hayro_jbig2_page hayro_jbig2_page;
typedef struct hayro_jbig2_file hayro_jbig2_file;

/* The caller's memory, for a value and all that is made with it. A call that gets NULL uses malloc and free. */
typedef struct hayro_jbig2_memory {
    /* A block of `size` bytes, aligned to 8, or NULL; size is never 0. */
    void *(*take)(void *user, size_t size);
    /* Takes back a block of `size` bytes that `take` gave. */
    void (*give_back)(void *user, void *block, size_t size);
    void *user;
} hayro_jbig2_memory;

/* A page's number, and its size in pixels. */
typedef struct hayro_jbig2_page_info {
    uint32_t number, width, height;
} hayro_jbig2_page_info;

/* The number of a segment of which not even the number is there: the bytes end within it. */
#define HAYRO_JBIG2_NO_SEGMENT_NUMBER UINT32_MAX

/* What a page that was drawn lacks: how many segments count, with the number and the error of the first. All 0 where none
 * does: then the page is complete, as far as can be known. Counted are (docs/FORMAT.md, 12.2):
 *
 * - each whole segment that strict reading refuses, also where lenient reading draws, keeps or skips it: a region that
 *   fails, in salvage also a dictionary or a table that fails; rows of MMR data after a fault, a gray value without a
 *   pattern, an id without a symbol; what refers to a segment which isn't there; an extension that must be understood; a
 *   type that is not listed. Its error is the one that it is passed over for, or else the one of strict reading;
 * - as the last one the segment at which the list of segments ends early: the bytes end within it, or salvage stops
 *   there.
 *
 * Damage within arithmetic data can't be known: the format has no checksum. Besides it this alone is not counted: a
 * file's counts of pages and of ends of pages, an unknown length of another type than 38, a region of page 0, and segments
 * that are missing as a whole. Globals have a report of their own, hayro_jbig2_globals_get_left_out. */
typedef struct hayro_jbig2_passed_over {
    size_t count;
    uint32_t segment, error;
} hayro_jbig2_passed_over;

uint32_t hayro_jbig2_globals_new(const hayro_jbig2_memory *memory, bool strict, const uint8_t *bytes, size_t length,
                                 hayro_jbig2_globals **globals);
/* Makes another handle on the same globals. */
uint32_t hayro_jbig2_globals_share(const hayro_jbig2_memory *memory, hayro_jbig2_globals *globals,
                                   hayro_jbig2_globals **other);
void hayro_jbig2_globals_free(hayro_jbig2_globals *globals);

uint32_t hayro_jbig2_context_new(const hayro_jbig2_memory *memory, hayro_jbig2_context **context);
void hayro_jbig2_context_free(hayro_jbig2_context *context);

/* globals: NULL for a page without. */
uint32_t hayro_jbig2_page_new(const hayro_jbig2_memory *memory, bool strict, hayro_jbig2_globals *globals,
                              const uint8_t *stream, size_t stream_length, hayro_jbig2_page **page);
uint32_t hayro_jbig2_page_get_info(hayro_jbig2_page *page, hayro_jbig2_page_info *info);
/* Draws the page in the context. After an error the context holds no page, whatever it held before: it has no rows. */
uint32_t hayro_jbig2_page_draw(hayro_jbig2_page *page, hayro_jbig2_context *context);
void hayro_jbig2_page_free(hayro_jbig2_page *page);

uint32_t hayro_jbig2_file_new(const hayro_jbig2_memory *memory, bool strict, const uint8_t *bytes, size_t length,
                              hayro_jbig2_file **file);
size_t hayro_jbig2_file_page_count(hayro_jbig2_file *file);
uint32_t hayro_jbig2_file_get_info(hayro_jbig2_file *file, size_t index, hayro_jbig2_page_info *info);
/* Writes the number and the size of each page. HAYRO_JBIG2_OTHER_SIZE where the file has not `count` pages. */
uint32_t hayro_jbig2_file_get_infos(hayro_jbig2_file *file, hayro_jbig2_page_info *infos, size_t count);
/* As hayro_jbig2_page_draw, for a page of the file. */
uint32_t hayro_jbig2_file_draw(hayro_jbig2_file *file, size_t index, hayro_jbig2_context *context);
void hayro_jbig2_file_free(hayro_jbig2_file *file);

/* Writes `length` bytes of the packed rows of the page that was drawn last, from byte `place` of them all on: row y
 * begins at y * ((width + 7) / 8). HAYRO_JBIG2_OTHER_SIZE where they are not all there. */
uint32_t hayro_jbig2_context_rows(hayro_jbig2_context *context, size_t place, uint8_t *rows, size_t length);
uint32_t hayro_jbig2_context_get_passed_over(hayro_jbig2_context *context, hayro_jbig2_passed_over *passed_over);

/* A limit of work, for files from strangers. A unit is about a pixel that is decoded, cleared, cut out or combined; what
 * is read besides costs a number of units (docs/FORMAT.md, 12.6). Work that would pass the limit is refused before it
 * starts, with HAYRO_JBIG2_WORK_LIMIT. HAYRO_JBIG2_NO_WORK_LIMIT is no limit, as for the calls without one. */
#define HAYRO_JBIG2_NO_WORK_LIMIT UINT64_MAX
/* Sets what each page may take that is drawn in the context from now on. */
uint32_t hayro_jbig2_context_set_work_limit(hayro_jbig2_context *context, uint64_t work);
/* Writes what the page that was drawn last left of the limit, after an error too: 0 where the limit was reached. */
uint32_t hayro_jbig2_context_get_work_left(hayro_jbig2_context *context, uint64_t *left);
/* As hayro_jbig2_globals_new and hayro_jbig2_file_new, where decoding what pages share takes at most `work` units. */
uint32_t hayro_jbig2_globals_new_within(const hayro_jbig2_memory *memory, bool strict, uint64_t work,
                                        const uint8_t *bytes, size_t length, hayro_jbig2_globals **globals);
uint32_t hayro_jbig2_file_new_within(const hayro_jbig2_memory *memory, bool strict, uint64_t work, const uint8_t *bytes,
                                     size_t length, hayro_jbig2_file **file);

/* Salvage, for viewers of damaged files. It reads as lenient reading does, and leaves out what that refuses
 * (docs/FORMAT.md, 12.7): a list of segments ends at a bad header, a dictionary that fails is passed over, globals keep
 * what can be read of them, an open height is taken from the regions, and a page of a file that can't begin doesn't stop
 * the others. Of a region that is cut off what is whole is drawn: rows of pixels, rows of a halftone region's grid, or
 * instances of a text region. Below its whole rows a refinement shows what it refines. What else lenient reading reads,
 * this reads in the same way. Pages are drawn by the calls above.
 * HAYRO_JBIG2_NO_WORK_LIMIT is no limit for `work`. */
uint32_t hayro_jbig2_globals_new_salvaged(const hayro_jbig2_memory *memory, uint64_t work, const uint8_t *bytes,
                                          size_t length, hayro_jbig2_globals **globals);
/* globals: NULL for a page without. They may be read in another way than the page. */
uint32_t hayro_jbig2_page_new_salvaged(const hayro_jbig2_memory *memory, hayro_jbig2_globals *globals,
                                       const uint8_t *stream, size_t stream_length, hayro_jbig2_page **page);
uint32_t hayro_jbig2_file_new_salvaged(const hayro_jbig2_memory *memory, uint64_t work, const uint8_t *bytes,
                                       size_t length, hayro_jbig2_file **file);

/* What lenient reading or salvage left out of globals, a page or a file. What was passed over in a page that was drawn
 * comes from hayro_jbig2_context_get_passed_over. All 0 where nothing was left out, and after strict reading.
 *
 * - Of globals and of a file: the segments that count of those that pages share. Of a page 0: its own count when it is
 *   drawn.
 * - Of a file: the pages that can't begin.
 * - Of all three: the segment at which the list of segments ends early, which is not among `segments`. A page counts it
 *   when it is drawn, and so does each page of the file that may lack it. Its number is HAYRO_JBIG2_NO_SEGMENT_NUMBER
 *   where the bytes end within it. */
typedef struct hayro_jbig2_left_out {
    size_t segments;                   /* how many segments that pages share count */
    uint32_t segment, error;           /* the number and the error of the first */
    size_t pages;                      /* pages of a file that can't begin, which salvage leaves out */
    uint32_t page_error;               /* the error of the first */
    uint32_t list_segment, list_error; /* the number and the error of the segment at which the list ends early */
} hayro_jbig2_left_out;

uint32_t hayro_jbig2_globals_get_left_out(hayro_jbig2_globals *globals, hayro_jbig2_left_out *left_out);
uint32_t hayro_jbig2_page_get_left_out(hayro_jbig2_page *page, hayro_jbig2_left_out *left_out);
uint32_t hayro_jbig2_file_get_left_out(hayro_jbig2_file *file, hayro_jbig2_left_out *left_out);

/* The segments of a list, one at a time, for a program that shows what a file or a stream has. The bytes begin with the
 * header of a segment (T.88, 7.2). Strict reading refuses types that the standard doesn't list, and an unknown length but
 * for an immediate generic region. Only the headers are read, and the data of a segment of unknown length. */
typedef struct hayro_jbig2_segment_info {
    uint32_t number;
    uint32_t segment_type; /* its number in T.88, 7.3; 64 where the list there doesn't have it */
    uint32_t page;         /* the number of its page, 0 for none */
    size_t references;     /* how many segments it refers to */
    size_t header_length;  /* bytes */
    uint64_t data_length;  /* bytes, HAYRO_JBIG2_UNKNOWN_LENGTH where the header says that it is unknown */
} hayro_jbig2_segment_info;

#define HAYRO_JBIG2_UNKNOWN_LENGTH UINT64_MAX

uint32_t hayro_jbig2_segment_get_info(const hayro_jbig2_memory *memory, bool strict, const uint8_t *bytes,
                                      size_t length, hayro_jbig2_segment_info *info);
/* Writes the numbers of the segments that it refers to. `count` is `references` of the info, else the call returns
 * HAYRO_JBIG2_OTHER_SIZE. */
uint32_t hayro_jbig2_segment_get_references(const hayro_jbig2_memory *memory, bool strict, const uint8_t *bytes,
                                            size_t length, uint32_t *numbers, size_t count);
/* Writes how many bytes its header and the data after it take together, also where their length is unknown. Returns
 * HAYRO_JBIG2_PARSE_UNEXPECTED_EOF where the bytes end before it does, and HAYRO_JBIG2_SEGMENT_MISSING_END_MARKER where
 * nothing says where data of unknown length end. */
uint32_t hayro_jbig2_segment_get_length(const hayro_jbig2_memory *memory, bool strict, const uint8_t *bytes,
                                        size_t length, size_t *taken);

/* What the data of a region segment begins with (T.88, 7.4.1): its size in pixels, its place on the page, and the number of
 * the operator that combines it with the page: 0 or, 1 and, 2 xor, 3 xnor, 4 replace. */
typedef struct hayro_jbig2_region_info {
    uint32_t width, height, x, y, combination_operator;
} hayro_jbig2_region_info;

uint32_t hayro_jbig2_region_get_info(const uint8_t *bytes, size_t length, hayro_jbig2_region_info *info);

/* Writing: the other way, from packed rows to a page. The page is page information and one generic region, coded by the
 * arithmetic coder or as MMR data (T.6). By proof each reading, with any globals, decodes it to the rows that were given,
 * without a pixel lost; bits past the width are passed over. */
typedef struct hayro_jbig2_written hayro_jbig2_written;

typedef struct hayro_jbig2_write_settings {
    uint32_t template_number;            /* 0 to 3: which pixels predict a pixel (GBTEMPLATE) */
    uint32_t x_resolution, y_resolution; /* pixels for each metre; 0: not stated */
    bool typical;                        /* a row that is as the one above it takes one decision (TPGDON) */
    bool whole_file;                     /* a JBIG2 file of one page, or else an embedded page */
    bool mmr; /* MMR data (T.6) in place of the arithmetic coder: template_number and typical are then not looked at */
} hayro_jbig2_write_settings;

/* Writes packed rows as an embedded page, the bytes of a /JBIG2Decode stream that has no globals, or as a file. A handle
 * holds these bytes. Returns HAYRO_JBIG2_NO_SUCH_TEMPLATE, HAYRO_JBIG2_OTHER_SIZE where rows_length is not that of the
 * width and the height, or HAYRO_JBIG2_INVALID_SIDES, by the first of these that is so. */
uint32_t hayro_jbig2_written_new(const hayro_jbig2_memory *memory, const uint8_t *rows, size_t rows_length,
                                 uint32_t width, uint32_t height, const hayro_jbig2_write_settings *settings,
                                 hayro_jbig2_written **written);
size_t hayro_jbig2_written_length(hayro_jbig2_written *written);
/* Copies all bytes. HAYRO_JBIG2_OTHER_SIZE where there are not `length` of them. */
uint32_t hayro_jbig2_written_bytes(hayro_jbig2_written *written, uint8_t *bytes, size_t length);
void hayro_jbig2_written_free(hayro_jbig2_written *written);

/* A text for what a call returned, never null and never to be freed. */
const char *hayro_jbig2_error_text(uint32_t answer);

#ifdef __cplusplus
}
#endif

#endif
