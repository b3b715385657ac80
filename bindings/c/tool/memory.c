#include "platform.h"

#include "memory.h"

#include <stdlib.h>

static void *take(void *user, size_t size) {
    struct budget *budget = user;
    pthread_mutex_lock(&budget->lock);
    void *block = size <= budget->limit - budget->taken ? malloc(size) : NULL;
    if (block != NULL)
        budget->taken += size;
    pthread_mutex_unlock(&budget->lock);
    return block;
}

static void give_back(void *user, void *block, size_t size) {
    struct budget *budget = user;
    pthread_mutex_lock(&budget->lock);
    budget->taken -= size;
    pthread_mutex_unlock(&budget->lock);
    free(block);
}

void open_budget(struct budget *budget, size_t limit) {
    *budget = (struct budget){.memory = {take, give_back, budget}, .limit = limit};
    pthread_mutex_init(&budget->lock, NULL);
}

void close_budget(struct budget *budget) { pthread_mutex_destroy(&budget->lock); }
