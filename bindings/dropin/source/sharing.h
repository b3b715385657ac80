/*
 * Who holds, borrows and uses which globals: counts and pointers. The calls of sharing.c take a lock for a moment, and
 * call nobody meanwhile: a caller's allocator may come back into this library, and so may its listener.
 */
#ifndef SHARING_H
#define SHARING_H

#include "memory.h"

#include <pthread.h>

/*
 * Globals are decoded once, when they are made, and lent to the contexts that are made with them. A caller may free them
 * before it asks for the page:
 *
 * - contexts with the same allocator hold them, and the last holder frees them;
 * - contexts with another allocator borrow them, beside a copy of their bytes. When the globals are freed, the borrowers
 *   are left with the copy, since the globals' allocator may be gone after that.
 */
struct globals {
    struct context *made_of;      /* the context that gathered their bytes; it holds this structure */
    hayro_jbig2_globals *decoded; /* null after an error, and while lend_handle has given it to a call */
    uint32_t answer;              /* HAYRO_JBIG2_OK, or that error */
    unsigned holders;
    struct share *borrowers;
};

/* What a context has of the globals that it was made with. */
struct share {
    struct globals *globals; /* null where there are none, or no longer */
    struct bytes copy;       /* of a borrower */
    bool is_borrower;
    bool is_refused;               /* the page that was completed last, for its globals */
    struct share *previous, *next; /* of the borrowers of the same globals */
    struct globals *used;          /* by the page that is being drawn, in this thread */
    pthread_t user;
    struct share *next_in_use; /* of those whose page is being drawn */
};

void hold_globals(struct share *share, struct globals *globals);
void borrow_globals(struct share *share, struct globals *globals);

/* The holder that goes last frees the globals: leave_globals and end_use return them then, and else null;
 * give_globals_up says whether it is so. */
struct globals *leave_globals(struct share *share);
/* The borrowers are left with their copies. It waits until no other thread draws with what it borrowed. A thread that
 * came out of a drawing of its own never waits: then the last one that draws is the last holder. */
bool give_globals_up(struct globals *globals);

/* From here on, to end_use, the globals stay, whoever frees them. Null where there are none. */
struct globals *begin_use(struct share *share);
struct globals *end_use(struct share *share);

/* The handle of the globals, of which one call at a time may make use. Null where another one has it: one of another
 * thread, or one that called the allocator out of which this thread came back. */
hayro_jbig2_globals *lend_handle(struct globals *globals);
void return_handle(struct globals *globals, hayro_jbig2_globals *handle);

#endif
