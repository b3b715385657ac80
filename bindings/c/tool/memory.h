/* The memory that is lent to the decoder, with a limit. */
#ifndef HAYRO_TOOL_MEMORY_H
#define HAYRO_TOOL_MEMORY_H

#include "hayro_jbig2.h"

#include <pthread.h>

struct budget {
    hayro_jbig2_memory memory; /* what the decoder is handed */
    pthread_mutex_t lock;      /* globals are freed in any thread */
    size_t limit, taken;
};

/* limit: SIZE_MAX for none. */
void open_budget(struct budget *budget, size_t limit);
void close_budget(struct budget *budget);

#endif
