/*
 * Random calls of the library, under the sanitizers: damaged input, memory that is refused, allocators and listeners
 * that come back into the library. usage: random_calls SEED SECONDS STREAM GLOBALS FILE.jb2 ..
 *
 * Nothing may be read that is freed, nothing leaks, each block goes back to its own allocator, and each call returns.
 * The seed of a run that fails is printed; SECONDS 0 makes that run alone.
 */
#define _POSIX_C_SOURCE 200809L /* setenv */
#include "abi.h"

#include <signal.h>
#include <stdbool.h>
#include <stdlib.h>
#include <string.h>
#include <time.h>
#include <unistd.h>

enum { MOST_FILES = 64, STEPS = 200, CONTEXTS = 6, GLOBALS = 4, IMAGES = 8, ALLOCATORS = 4, DEEPEST = 2 };
enum { LONGEST_RUN = 30 };

static uint64_t seed, state, calls, refused, returns;
static int depth;

/* Xorshift, with a multiplication at the end. */
static uint32_t random_below(uint32_t bound) {
    state ^= state >> 12;
    state ^= state << 25;
    state ^= state >> 27;
    return (uint32_t)((state * 2685821657736338717u >> 32) % bound);
}

static bool happens_in(uint32_t bound) { return bound > 0 && random_below(bound) == 0; }

static void print_seed(void) {
    char text[64];
    int length = snprintf(text, sizeof text, "random_calls: the seed is %llu\n", (unsigned long long)seed);
    if (write(STDERR_FILENO, text, (size_t)length) < 0)
        _exit(3);
}

static void fail(const char *what) {
    fprintf(stderr, "random_calls: %s\n", what);
    print_seed();
    abort();
}

static void stop_late(int signal) {
    (void)signal;
    print_seed();
    _exit(4);
}

/* Called before a sanitizer ends the process. */
void __sanitizer_set_death_callback(void (*callback)(void)) __attribute__((weak));

/* In one of n requests each is refused, or comes back; 0 never does. */
struct erratic {
    struct allocator base;
    uint32_t refuses, comes_back, offset;
    long held;
};

struct block {
    struct erratic *owner;
    void *start;
};

static struct erratic allocators[ALLOCATORS];

static void come_back(void);

static void *take(struct allocator *allocator, size_t size) {
    struct erratic *memory = (struct erratic *)allocator;
    if (happens_in(memory->comes_back))
        come_back();
    if (happens_in(memory->refuses)) {
        refused++;
        return NULL;
    }
    char *start = malloc(size + sizeof(struct block) + 16);
    if (start == NULL)
        return NULL;
    /* In some requests the block lies at no multiple of 8. */
    size_t place = sizeof(struct block) + (memory->offset != 0 && happens_in(500) ? 4 : memory->offset);
    struct block block = {memory, start};
    memcpy(start + place - sizeof block, &block, sizeof block);
    memory->held++;
    return start + place;
}

static void give_back(struct allocator *allocator, void *at) {
    struct erratic *memory = (struct erratic *)allocator;
    struct block block;
    if (happens_in(memory->comes_back))
        come_back();
    if (at == NULL)
        return;
    memcpy(&block, (char *)at - sizeof block, sizeof block);
    if (block.owner != memory)
        fail("a block goes to another allocator");
    memory->held--;
    free(block.start);
}

static void *resize(struct allocator *allocator, void *block, size_t size) {
    (void)allocator, (void)block, (void)size;
    fail("resize is called");
    return NULL;
}

struct input {
    uint8_t *at;
    size_t length;
};

static struct input inputs[MOST_FILES];
static size_t input_count;

/* What is open. Calls on one that is in a call already are wrong, and none is made. */
static struct open_context {
    struct context *context;
    struct input input;
    size_t place;
    unsigned uses;
} contexts[CONTEXTS];

static struct open_globals {
    struct globals *globals;
    unsigned uses;
} shared[GLOBALS];

/* Holds that were handed out; the owner is null once it is freed. */
static struct open_image {
    struct image *image;
    struct open_context *owner;
    unsigned holds;
} images[IMAGES];

static void listen(void *data, const char *text, enum severity severity, uint32_t segment) {
    (void)data, (void)segment;
    if (severity > SEVERITY_FATAL || strlen(text) == 0)
        fail("a message without a text");
    if (happens_in(8))
        come_back();
}

/* A copy of a file, mostly with some damage. */
static struct input random_input(bool is_globals) {
    struct input from = inputs[is_globals && happens_in(2) ? 1 : random_below((uint32_t)input_count)];
    struct input copy = {malloc(from.length + 1), from.length};
    memcpy(copy.at, from.at, from.length);
    for (uint32_t count = random_below(4); count > 0 && copy.length > 0; count--)
        copy.at[random_below((uint32_t)copy.length)] = (uint8_t)random_below(happens_in(2) ? 256 : 2);
    if (happens_in(4))
        copy.length = random_below((uint32_t)copy.length + 1);
    return copy;
}

static struct allocator *random_allocator(void) {
    uint32_t at = random_below(ALLOCATORS + 1);
    return at == ALLOCATORS ? NULL : &allocators[at].base;
}

static void open_a_context(void) {
    struct open_context *open = &contexts[random_below(CONTEXTS)];
    struct open_globals *with = &shared[random_below(GLOBALS)];
    int options = (int)random_below(2), minor = happens_in(50) ? 18 : 19;
    if (open->context != NULL || open->uses > 0)
        return;
    open->uses++;
    with->uses++;
    open->context =
        jbig2_ctx_new_imp(random_allocator(), options, with->globals, happens_in(5) ? NULL : listen, NULL, 0, minor);
    with->uses--;
    open->uses--;
    open->place = 0;
    if (open->context != NULL)
        open->input = random_input(with->globals == NULL && options == OPTION_EMBEDDED);
}

static void hand_in(struct open_context *open) {
    size_t left = open->input.length - open->place, size = happens_in(2) ? left : random_below((uint32_t)left + 1);
    jbig2_data_in(open->context, open->input.at + open->place, size);
    open->place = happens_in(10) ? 0 : open->place + size;
}

static void check_rows(const struct image *image) {
    unsigned sum = 0;
    for (size_t i = 0; i < (size_t)image->row_bytes * image->height; i += 1 + i / 64)
        sum += image->rows[i];
    if (image->holders < 1 || sum == UINT32_MAX)
        fail("a page without a holder");
}

static struct open_image *free_place(void) {
    for (struct open_image *place = images; place < images + IMAGES; place++)
        if (place->image == NULL)
            return place;
    return NULL;
}

static void take_page(struct open_context *open) {
    if (free_place() == NULL)
        return;
    struct image *image = jbig2_page_out(open->context);
    if (image == NULL)
        return;
    /* The allocator may have taken pages too, and the last place for one. */
    struct open_image *place = free_place();
    if (place == NULL)
        jbig2_release_page(open->context, image);
    else
        *place = (struct open_image){image, open, 1};
}

static void use_image(void) {
    struct open_image *open = &images[random_below(IMAGES)];
    if (open->image == NULL || (open->owner != NULL && open->owner->uses > 0))
        return;
    struct context *context = open->owner == NULL ? NULL : open->owner->context;
    check_rows(open->image);
    if (happens_in(3)) {
        jbig2_image_reference(context, open->image);
        open->holds++;
    } else if (open->holds > 0 || open->owner != NULL) {
        struct open_image before = *open;
        open->holds -= open->holds > 0;
        if (open->holds == 0 && open->owner == NULL)
            *open = (struct open_image){0};
        (happens_in(2) ? jbig2_release_page : jbig2_image_release)(context, before.image);
    }
}

/* The pages that are held stay. */
static void close_context(struct open_context *open) {
    struct context *context = open->context;
    for (struct open_image *image = images; image < images + IMAGES; image++)
        if (image->owner == open) {
            image->owner = NULL;
            if (image->holds == 0)
                image->image = NULL;
        }
    open->context = NULL;
    free(open->input.at);
    jbig2_ctx_free(context);
}

static void make_globals(struct open_context *open) {
    struct open_globals *place = &shared[random_below(GLOBALS)];
    if (place->globals != NULL || place->uses > 0)
        return;
    for (struct open_image *image = images; image < images + IMAGES; image++)
        if (image->owner == open)
            return;
    place->uses++;
    place->globals = jbig2_make_global_ctx(open->context);
    place->uses--;
    free(open->input.at);
    open->context = NULL;
}

static void free_some_globals(void) {
    struct open_globals *open = &shared[random_below(GLOBALS)];
    struct globals *globals = open->globals;
    if (open->uses > 0)
        return;
    open->globals = NULL;
    jbig2_global_ctx_free(globals);
}

static void call_a_context(void) {
    struct open_context *open = &contexts[random_below(CONTEXTS)];
    if (open->context == NULL || open->uses > 0)
        return;
    open->uses++;
    switch (random_below(12)) {
    case 0:
        jbig2_error(open->context, (enum severity)random_below(4), NO_SEGMENT, "%s", "a message");
        break;
    case 1:
        close_context(open);
        break;
    case 2:
        make_globals(open);
        break;
    case 3:
    case 4:
        jbig2_complete_page(open->context);
        break;
    case 5:
    case 6:
        take_page(open);
        break;
    default:
        hand_in(open);
    }
    open->uses--;
}

static void call(void) {
    calls++;
    switch (random_below(8)) {
    case 0:
    case 1:
        open_a_context();
        break;
    case 2:
        free_some_globals();
        break;
    case 3:
        use_image();
        break;
    default:
        call_a_context();
    }
}

static void come_back(void) {
    if (depth == DEEPEST)
        return;
    depth++;
    returns++;
    for (uint32_t count = 1 + random_below(4); count > 0; count--)
        call();
    depth--;
}

static void close_all(void) {
    for (int i = 0; i < CONTEXTS; i++)
        if (contexts[i].context != NULL)
            close_context(&contexts[i]);
    for (int i = 0; i < GLOBALS; i++) {
        struct globals *globals = shared[i].globals;
        shared[i].globals = NULL;
        jbig2_global_ctx_free(globals);
    }
    for (int i = 0; i < IMAGES; i++) {
        struct open_image open = images[i];
        images[i] = (struct open_image){0};
        for (; open.holds > 0; open.holds--)
            jbig2_image_release(NULL, open.image);
    }
}

static void run(uint64_t number) {
    static const uint32_t rare[] = {0, 3000, 300, 30};
    seed = number;
    state = number * 6364136223846793005u + 1442695040888963407u;
    alarm(LONGEST_RUN);
    for (int i = 0; i < ALLOCATORS; i++)
        allocators[i] = (struct erratic){
            {take, give_back, resize}, rare[random_below(4)], rare[random_below(4)], 8 * random_below(2), 0};
    setenv("HAYRO_JBIG2_READING", happens_in(4) ? "lenient" : "salvage", 1);
    setenv("HAYRO_JBIG2_WORK_LIMIT", happens_in(4) ? "20000" : "3000000", 1);
    for (int i = 0; i < STEPS; i++)
        call();
    for (int i = 0; i < ALLOCATORS; i++)
        allocators[i].comes_back = 0;
    close_all();
    for (int i = 0; i < ALLOCATORS; i++)
        if (allocators[i].held != 0)
            fail("a block is not given back");
}

static void read_input(const char *name) {
    enum { MOST = 1 << 16 };
    FILE *file = fopen(name, "rb");
    if (file == NULL) {
        perror(name);
        exit(2);
    }
    inputs[input_count].at = malloc(MOST);
    inputs[input_count].length = fread(inputs[input_count].at, 1, MOST, file);
    input_count++;
    fclose(file);
}

int main(int count, char **words) {
    if (count < 5)
        return 2;
    uint64_t first = strtoull(words[1], NULL, 10), runs = 0;
    time_t end = time(NULL) + atol(words[2]);
    for (int i = 3; i < count && input_count < MOST_FILES; i++)
        read_input(words[i]);
    signal(SIGALRM, stop_late);
    if (__sanitizer_set_death_callback != NULL)
        __sanitizer_set_death_callback(print_seed);
    do
        run(first + runs++);
    while (time(NULL) < end);
    for (size_t i = 0; i < input_count; i++)
        free(inputs[i].at);
    printf("seeds %llu to %llu: %llu random calls, ", (unsigned long long)first, (unsigned long long)(first + runs - 1),
           (unsigned long long)calls);
    printf("%llu requests refused, %llu times back out of an allocator or a listener\n", (unsigned long long)refused,
           (unsigned long long)returns);
    return 0;
}
