#include "sharing.h"

static pthread_mutex_t lock = PTHREAD_MUTEX_INITIALIZER;
static pthread_cond_t use_ended = PTHREAD_COND_INITIALIZER;
static struct share *in_use;

void hold_globals(struct share *share, struct globals *globals) {
    pthread_mutex_lock(&lock);
    share->globals = globals;
    globals->holders++;
    pthread_mutex_unlock(&lock);
}

void borrow_globals(struct share *share, struct globals *globals) {
    pthread_mutex_lock(&lock);
    share->globals = globals;
    share->is_borrower = true;
    share->previous = NULL;
    share->next = globals->borrowers;
    if (share->next != NULL)
        share->next->previous = share;
    globals->borrowers = share;
    pthread_mutex_unlock(&lock);
}

static void leave_borrowers(struct share *share) {
    if (share->previous != NULL)
        share->previous->next = share->next;
    else
        share->globals->borrowers = share->next;
    if (share->next != NULL)
        share->next->previous = share->previous;
}

static bool is_last_hold(struct globals *globals) { return --globals->holders == 0; }

struct globals *leave_globals(struct share *share) {
    struct globals *unheld = NULL;
    pthread_mutex_lock(&lock);
    if (share->globals != NULL && share->is_borrower)
        leave_borrowers(share);
    else if (share->globals != NULL && is_last_hold(share->globals))
        unheld = share->globals;
    share->globals = NULL;
    pthread_mutex_unlock(&lock);
    return unheld;
}

static bool has_to_wait(const struct globals *globals) {
    bool is_borrowed = false;
    for (const struct share *share = in_use; share != NULL; share = share->next_in_use) {
        if (pthread_equal(share->user, pthread_self()))
            return false;
        is_borrowed = is_borrowed || (share->used == globals && share->is_borrower);
    }
    return is_borrowed;
}

bool give_globals_up(struct globals *globals) {
    /* A thread that is cancelled while it waits would keep the lock. */
    int cancelling;
    pthread_setcancelstate(PTHREAD_CANCEL_DISABLE, &cancelling);
    pthread_mutex_lock(&lock);
    for (struct share *share = globals->borrowers; share != NULL; share = share->next)
        share->globals = NULL;
    globals->borrowers = NULL;
    while (has_to_wait(globals))
        pthread_cond_wait(&use_ended, &lock);
    bool is_last = is_last_hold(globals);
    pthread_mutex_unlock(&lock);
    pthread_setcancelstate(cancelling, NULL);
    return is_last;
}

struct globals *begin_use(struct share *share) {
    pthread_mutex_lock(&lock);
    struct globals *globals = share->globals;
    if (globals != NULL) {
        globals->holders++;
        share->used = globals;
        share->user = pthread_self();
        share->next_in_use = in_use;
        in_use = share;
    }
    pthread_mutex_unlock(&lock);
    return globals;
}

struct globals *end_use(struct share *share) {
    pthread_mutex_lock(&lock);
    struct share **place = &in_use;
    while (*place != share)
        place = &(*place)->next_in_use;
    *place = share->next_in_use;
    struct globals *unheld = is_last_hold(share->used) ? share->used : NULL;
    share->used = NULL;
    pthread_cond_broadcast(&use_ended);
    pthread_mutex_unlock(&lock);
    return unheld;
}

hayro_jbig2_globals *lend_handle(struct globals *globals) {
    pthread_mutex_lock(&lock);
    hayro_jbig2_globals *handle = globals->decoded;
    globals->decoded = NULL;
    pthread_mutex_unlock(&lock);
    return handle;
}

void return_handle(struct globals *globals, hayro_jbig2_globals *handle) {
    pthread_mutex_lock(&lock);
    globals->decoded = handle;
    pthread_mutex_unlock(&lock);
}
