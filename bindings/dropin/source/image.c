#include "context.h"

struct page *new_page(struct allocator *allocator, uint32_t width, uint32_t height) {
    uint32_t row_bytes = width / 8 + (width % 8 != 0);
    struct page *page = take(allocator, sizeof *page + (size_t)row_bytes * height);
    if (page == NULL)
        return NULL;
    page->image = (struct image){width, height, row_bytes, page->rows, 1};
    page->allocator = allocator;
    page->is_kept = true;
    page->next = NULL;
    return page;
}

void let_page_go(struct page *page) {
    page->is_kept = false;
    jbig2_image_release(NULL, &page->image);
}

struct image *jbig2_image_reference(struct context *context, struct image *image) {
    (void)context;
    if (image != NULL)
        image->holders++;
    return image;
}

/* Each image is the first member of a page, which knows its own allocator: the context may be null, or gone. Nobody
 * gives up the hold that the context has. */
void jbig2_image_release(struct context *context, struct image *image) {
    (void)context;
    struct page *page = (struct page *)image;
    if (page == NULL || image->holders <= page->is_kept)
        return;
    if (--image->holders == 0)
        give_back(page->allocator, page);
}

void jbig2_release_page(struct context *context, struct image *image) { jbig2_image_release(context, image); }

int jbig2_image_write_pbm(const struct image *image, FILE *file) {
    if (image == NULL || file == NULL)
        return -1;
    size_t size = (size_t)image->row_bytes * image->height;
    if (fprintf(file, "P4\n%u %u\n", (unsigned)image->width, (unsigned)image->height) < 0)
        return -1;
    return fwrite(image->rows, 1, size, file) == size ? 0 : -1;
}
