#include "platform.h"

#include "output.h"

#include "temporary.h"

#include <errno.h>
#include <fcntl.h>
#include <stdlib.h>
#include <string.h>
#include <sys/stat.h>
#include <unistd.h>

/* Says why something of this name fails, if nothing was said. */
static bool fail_by_name(const char *name, struct text *reason, const char *why) {
    struct text said = *reason;
    *reason = (struct text){NULL, 0, 0};
    bool is_system = said.length == 0 || strcmp(said.at, "Write Error") == 0;
    add_text(reason, "%s: %s", name, !is_system ? said.at : why != NULL ? why : strerror(errno != 0 ? errno : EIO));
    free_text(&said);
    return false;
}

static bool fail(const struct output *output, struct text *reason, const char *why) {
    return fail_by_name(output->name != NULL ? output->name : "standard output", reason, why);
}

bool fail_by_system(const struct output *output, struct text *reason) { return fail(output, reason, NULL); }

/* TIFF for an output that has no places is written to another file first. */
static bool fail_to_write(const struct output *output, struct text *reason) {
    bool is_beside = output->format == FORMAT_TIFF && output->temporary == NULL;
    return is_beside ? fail_by_name("the temporary file of TIFF", reason, NULL) : fail(output, reason, NULL);
}

/* A device, a pipe or the like is no file that could be replaced. */
static bool is_special(const char *name) {
    struct stat found;
    return stat(name, &found) == 0 && !S_ISREG(found.st_mode) && !S_ISDIR(found.st_mode);
}

bool is_overwritten(const char *name) {
    struct stat found;
    return lstat(name, &found) == 0 && (stat(name, &found) != 0 || S_ISREG(found.st_mode));
}

/* The name that a file gets, or NULL with errno. The file that a link leads to is overwritten, not the link: that may
 * be /dev/stdout. */
static char *target_of(const char *name) {
    struct stat found;
    if (lstat(name, &found) == 0 && S_ISLNK(found.st_mode))
        return realpath(name, NULL);
    size_t size = strlen(name) + 1;
    return memcpy(room_for(size), name, size);
}

static FILE *open_file(struct output *output) {
    const char *name = output->name;
    struct stat found;
    if (name == NULL)
        return stdout;
    if (is_special(name))
        return fopen(name, "wb");
    if (stat(name, &found) == 0 && S_ISDIR(found.st_mode)) {
        errno = EISDIR;
        return NULL;
    }
    output->target = target_of(name);
    return output->target != NULL ? open_temporary(output->target, &output->temporary) : NULL;
}

bool open_output(struct output *output, const char *name, enum format format, bool is_forced, struct text *reason) {
    *output = (struct output){.name = name, .format = format, .is_forced = is_forced};
    if (name != NULL && !is_forced && is_overwritten(name))
        return fail(output, reason, "is there already; --force overwrites it");
    errno = 0;
    output->file = open_file(output);
    if (output->file == NULL)
        return fail(output, reason, NULL);
    if (format != FORMAT_TIFF)
        return true;
    if (output->temporary == NULL && (output->tiff_bytes = tmpfile()) == NULL)
        return fail_to_write(output, reason);
    output->tiff = open_tiff(fileno(output->tiff_bytes != NULL ? output->tiff_bytes : output->file));
    return output->tiff != NULL || fail_to_write(output, reason);
}

bool add_picture(struct output *output, const struct picture *picture, struct text *reason) {
    bool is_added = false;
    errno = 0;
    switch (output->format) {
    case FORMAT_PBM:
        is_added = write_pbm(output->file, picture, reason);
        break;
    case FORMAT_PNG:
        is_added = write_png(output->file, picture, reason);
        break;
    case FORMAT_TIFF:
        is_added = add_tiff_page(output->tiff, picture, reason);
        break;
    default:
        break;
    }
    return is_added || fail_to_write(output, reason);
}

bool add_stream(struct output *output, const struct bytes *stream, struct text *reason) {
    errno = 0;
    return fwrite(stream->at, 1, stream->length, output->file) == stream->length || fail_by_system(output, reason);
}

static bool copy_all(FILE *from, FILE *to) {
    char piece[1 << 14];
    size_t count;
    if (fseek(from, 0, SEEK_SET) != 0)
        return false;
    while ((count = fread(piece, 1, sizeof piece, from)) > 0)
        if (fwrite(piece, 1, count, to) < count)
            return false;
    return !ferror(from);
}

/* The name must be free: link refuses one that was taken meanwhile. Where there are no links, rename has to do. */
static bool give_name(const struct output *output) {
    if (!output->is_forced) {
        if (link(output->temporary, output->target) == 0)
            return unlink(output->temporary) == 0;
        if (errno == EEXIST)
            return false;
        if (is_overwritten(output->target)) {
            errno = EEXIST;
            return false;
        }
    }
    return rename(output->temporary, output->target) == 0;
}

static void close_parts(struct output *output) {
    if (output->tiff != NULL)
        close_tiff(output->tiff);
    output->tiff = NULL;
}

bool finish_output(struct output *output, struct text *reason) {
    close_parts(output);
    errno = 0;
    bool is_written = output->tiff_bytes == NULL || copy_all(output->tiff_bytes, output->file);
    is_written = fflush(output->file) == 0 && is_written;
    int error = errno;
    if (output->name != NULL) {
        is_written = fclose(output->file) == 0 && is_written;
        error = error != 0 ? error : errno;
        output->file = NULL;
    }
    if (is_written && output->temporary != NULL) {
        is_written = give_name(output);
        error = errno;
    }
    if (!is_written) {
        errno = error;
        fail(output, reason, NULL);
    } else if (output->temporary != NULL)
        forget_temporary(&output->temporary);
    abandon_output(output);
    return is_written;
}

void abandon_output(struct output *output) {
    close_parts(output);
    if (output->tiff_bytes != NULL)
        fclose(output->tiff_bytes);
    if (output->file != NULL && output->name != NULL)
        fclose(output->file);
    if (output->temporary != NULL)
        remove_temporary(&output->temporary);
    free(output->target);
    output->target = NULL;
    output->tiff_bytes = output->file = NULL;
}
