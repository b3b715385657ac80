/*
 * Says whether files are as they were, by their sizes and times: in a hundredth of the time that their sums take.
 *
 * usage: unchanged <NAMES      notes files whose names are listed, each with a null byte after it
 *        unchanged NOTE FACTS  prints PROGRAM where NOTE has the lines FACTS and PROGRAM, then files as they are now, and
 *                              then an empty line
 *
 * The name glibc stands for that library's version, since another computer may have the same folder. Status 1 where
 * they are not so, where a name has a line's end in it, or where the state of a file can't be known.
 */
#define _XOPEN_SOURCE 700
#define _DARWIN_C_SOURCE
#define _FILE_OFFSET_BITS 64
#include <errno.h>
#include <stdbool.h>
#include <stdio.h>
#include <string.h>
#include <sys/stat.h>
#include <unistd.h>

#ifdef __GLIBC__
#include <gnu/libc-version.h>
#else
#define gnu_get_libc_version() "none"
#endif

#ifdef __APPLE__
#define st_mtim st_mtimespec
#define st_ctim st_ctimespec
#endif

enum { ROOM = 128 };

struct line {
    char *text;
    size_t room;
};

/* Reads up to a byte, which is cut off. */
static bool has_line(FILE *file, int end, struct line *line) {
    ssize_t length = getdelim(&line->text, &line->room, end, file);
    if (length <= 0 || line->text[length - 1] != (char)end)
        return false;
    line->text[length - 1] = 0;
    return true;
}

/* The state of a file or folder, or the version of glibc. No archive sets its second time, that of the last change of any kind.
 * False where nothing is known of it but an error: it may change without another one. */
static bool describe(const char *name, char *text) {
    struct stat file;
    if (strcmp(name, "glibc") == 0) {
        snprintf(text, ROOM, "%s", gnu_get_libc_version());
        return true;
    }
    if (stat(name, &file) == 0) {
        snprintf(text, ROOM, "%lld %lld.%09ld %lld.%09ld", (long long)file.st_size, (long long)file.st_mtim.tv_sec,
                 (long)file.st_mtim.tv_nsec, (long long)file.st_ctim.tv_sec, (long)file.st_ctim.tv_nsec);
        return true;
    }
    strcpy(text, "not there");
    return errno == ENOENT || errno == ENOTDIR;
}

/* Writes two lines for each file: its name, and its state. */
static bool write_note(void) {
    struct line name = {NULL, 0};
    char state[ROOM];
    while (has_line(stdin, 0, &name)) {
        if (strchr(name.text, '\n') != NULL || !describe(name.text, state))
            return false;
        printf("%s\n%s\n", name.text, state);
    }
    return feof(stdin) && fflush(stdout) == 0 && !ferror(stdout);
}

static bool is_unchanged(const char *note, const char *facts) {
    struct line program = {NULL, 0}, name = {NULL, 0}, noted = {NULL, 0};
    char state[ROOM];
    FILE *file = fopen(note, "r");
    if (file == NULL || !has_line(file, '\n', &name) || strcmp(name.text, facts) != 0 ||
        !has_line(file, '\n', &program))
        return false;
    /* At the end of a file some libraries leave a line as it was, and others empty it. */
    bool is_there;
    while ((is_there = has_line(file, '\n', &name)) && name.text[0] != 0) {
        if (!describe(name.text, state) || !has_line(file, '\n', &noted) || strcmp(noted.text, state) != 0)
            return false;
    }
    return is_there && access(program.text, X_OK) == 0 && puts(program.text) >= 0 && fflush(stdout) == 0;
}

int main(int count, char **words) { return !(count == 3 ? is_unchanged(words[1], words[2]) : write_note()); }
