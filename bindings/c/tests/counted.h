/* Memory that counts, refuses one request, and gives blocks that lie at 8 past a multiple of 16. */
struct counted {
    unsigned long requests, refused_request;
    long blocks, bytes;
};

enum { BEFORE = 24 };

static void *take(void *user, size_t size) {
    struct counted *counted = user;
    if (size == 0 || ++counted->requests == counted->refused_request)
        return NULL;
    uint8_t *block = malloc(BEFORE + size);
    if (block == NULL)
        return NULL;
    memcpy(block, &size, sizeof size);
    counted->blocks++;
    counted->bytes += (long)size;
    return block + BEFORE;
}

static void give_back(void *user, void *block, size_t size) {
    struct counted *counted = user;
    uint8_t *start = (uint8_t *)block - BEFORE;
    size_t taken;
    memcpy(&taken, start, sizeof taken);
    CHECK(taken == size);
    counted->blocks--;
    counted->bytes -= (long)size;
    free(start);
}
