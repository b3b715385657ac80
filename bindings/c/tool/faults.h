/* What is wrong with a page or a file, and where. */
#ifndef HAYRO_TOOL_FAULTS_H
#define HAYRO_TOOL_FAULTS_H

#include "document.h"

/* Answers besides those of hayro_jbig2.h. */
enum { OVER_WORK_LIMIT = 1000, OVER_MEMORY_LIMIT, CANT_BE_READ, DAMAGED_PDF };

/* An answer of a call that took memory from a budget: which of three ways memory ran out. */
uint32_t precise_answer(uint32_t answer, const struct budget *budget);
bool is_of_limits(uint32_t answer);
const char *text_of_answer(uint32_t answer);

struct fault {
    uint32_t error;
    bool has_segment, is_of_globals;
    uint32_t segment;
    bool has_type, has_place;
    uint8_t type;
    size_t place;   /* of the segment's header in its file or stream */
    size_t others;  /* further segments with faults */
    char note[120]; /* what else is to be said, or "" */
};

enum { MOST_FAULTS = 8 };

struct faults {
    struct fault at[MOST_FAULTS];
    size_t count;
};

void add_fault(struct faults *faults, struct fault fault);
/* A fault of a segment that is known by its number, with its type and place where the list has it. The number is
 * HAYRO_JBIG2_NO_SEGMENT_NUMBER where the bytes end within it. */
struct fault fault_of_number(const struct segment_list *list, uint32_t number, uint32_t error);
/* A fault that reading headers strictly found: it is at the first segment that breaks its rule, where one does. */
struct fault fault_of_list(const struct segment_list *list, uint32_t error);
/* The same for a page of a file, of which the page's segments are looked at alone. */
struct fault fault_of_page(const struct segment_list *list, uint32_t page, uint32_t error);
/* The fault of this error among what salvage left out: of the segment at which the list ends early, or of the first that
 * was passed over. If both have it, the other readings refuse the end first, since they read all headers first; but
 * lenient reading goes on after a cut. Where neither has it, it is a fault that reading headers strictly found. */
struct fault fault_left_out(const struct segment_list *list, const hayro_jbig2_left_out *left_out, uint32_t error);
/* Segments that were passed over, by the first of them, unless there are none. */
void add_segments(struct faults *faults, const struct segment_list *list, size_t count, uint32_t first, uint32_t error);
/* What was left out of a list of segments. */
void add_left_out(struct faults *faults, const struct segment_list *list, const hayro_jbig2_left_out *left_out);

/* "segment 7 (symbol dictionary): ", and the text of the error. */
void add_fault_text(struct text *text, const struct fault *fault);
/* A line for each fault, after a place such as "scan.jb2: page 2: ". The last has the hint. */
void add_fault_lines(struct text *text, const char *place, const struct faults *faults, const char *hint);

/* A fault of a PDF file or of an object in it. */
struct fault fault_of_pdf(uint32_t error, const struct text *reason);

/* What can be done about a page or a file that is refused, or "". */
const char *hint_after(uint32_t answer, enum way way);

/* The faults of a file as a whole. */
void find_faults_of_file(const struct document *document, struct faults *faults);

#endif
