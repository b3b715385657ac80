#include "platform.h"

#include "info.h"
#include "jobs.h"
#include "temporary.h"
#include "write.h"

#include <errno.h>
#include <fcntl.h>
#include <stdio.h>
#include <string.h>

/* What was printed, as the help, has to be written too. */
static enum status end_with(enum status status) {
    if (fflush(stdout) == 0 && !ferror(stdout))
        return status;
    complain("standard output: %s", strerror(errno));
    return worse_of(status, NOT_DONE);
}

/* A file that is opened would have the place of a standard stream that is closed, and messages could go into a picture.
 * What has the place now fails as a closed one does. */
static void hold_standard_streams(void) {
    static const int modes[] = {O_WRONLY, O_RDONLY, O_RDONLY};
    for (int i = 0; i < 3; i++)
        if (fcntl(i, F_GETFD) == -1)
            open("/dev/null", modes[i]);
}

static enum status do_command(const struct words *words) {
    switch (words->command) {
    case INFO:
        return print_info(words);
    case WRITE:
        return write_all(words);
    default:
        return draw_all(words);
    }
}

int main(int count, char **all) {
    static char room[1 << 12];
    struct words words;
    hold_standard_streams();
    /* Messages are written whole: each is flushed. */
    setvbuf(stderr, room, _IOFBF, sizeof room);
    enum request request = read_words(&words, count, all);
    if (request == GO_ON) {
        watch_for_signals();
        enum status status = do_command(&words);
        free_words(&words);
        return words.command == INFO ? end_with(status) : status;
    }
    free_words(&words);
    return end_with(request == STOP_WELL ? ALL_WHOLE : WRONG_WORDS);
}
