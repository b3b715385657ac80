/* Loaded before the C library, it counts a program's requests for memory with their bytes, its reads and its writes, has one of
   each fail, or has each read and write move one byte. Built and used by tools/try-refusals. */
#define _GNU_SOURCE
#include <dlfcn.h>
#include <errno.h>
#include <fcntl.h>
#include <stddef.h>
#include <stdint.h>
#include <stdlib.h>
#include <sys/mman.h>
#include <sys/uio.h>
#include <unistd.h>

/* What is shared with the script: first what it asks for, then what came. `bytes` adds up what requests for memory ask for,
   each anew where it grows. A number 0 asks for nothing. */
struct plan {
    uint64_t refused_request, failed_read, failed_write, error, moves_one_byte;
    uint64_t requests, reads, writes, bytes;
};

static struct plan unread;
static struct plan *plan = &unread;

__attribute__((constructor)) static void take_plan(void) {
    const char *name = getenv("FAULT_PLAN");
    int file = name ? open(name, O_RDWR | O_CLOEXEC) : -1;
    if (file < 0)
        return;
    void *shared = mmap(NULL, sizeof *plan, PROT_READ | PROT_WRITE, MAP_SHARED, file, 0);
    close(file);
    if (shared != MAP_FAILED)
        plan = shared;
}

/* The C library's own function of that name. */
#define OWN(name) \
    static __typeof__(name) *own; \
    if (!own) \
    own = (__typeof__(name) *)dlsym(RTLD_NEXT, #name)

static int is_refused(size_t size) {
    plan->requests++;
    plan->bytes += size;
    if (plan->requests != plan->refused_request)
        return 0;
    errno = ENOMEM;
    return 1;
}

static int is_failed(uint64_t *count, uint64_t failed) {
    ++*count;
    if (*count != failed)
        return 0;
    errno = (int)plan->error;
    return 1;
}

void *malloc(size_t size) {
    OWN(malloc);
    return is_refused(size) ? NULL : own(size);
}

void *realloc(void *place, size_t size) {
    OWN(realloc);
    return is_refused(size) ? NULL : own(place, size);
}

void *aligned_alloc(size_t align, size_t size) {
    OWN(aligned_alloc);
    return is_refused(size) ? NULL : own(align, size);
}

int posix_memalign(void **place, size_t align, size_t size) {
    OWN(posix_memalign);
    return is_refused(size) ? ENOMEM : own(place, align, size);
}

ssize_t read(int file, void *bytes, size_t count) {
    OWN(read);
    if (is_failed(&plan->reads, plan->failed_read))
        return -1;
    return own(file, bytes, plan->moves_one_byte && count ? 1 : count);
}

/* The runtime calls the C library by this name too. */
ssize_t __write(int file, const void *bytes, size_t count) { return write(file, bytes, count); }

ssize_t write(int file, const void *bytes, size_t count) {
    OWN(write);
    if (is_failed(&plan->writes, plan->failed_write))
        return -1;
    return own(file, bytes, plan->moves_one_byte && count ? 1 : count);
}

ssize_t writev(int file, const struct iovec *parts, int count) {
    OWN(writev);
    if (plan->moves_one_byte)
        for (int place = 0; place < count; place++)
            if (parts[place].iov_len)
                return write(file, parts[place].iov_base, 1);
    if (is_failed(&plan->writes, plan->failed_write))
        return -1;
    return own(file, parts, count);
}
